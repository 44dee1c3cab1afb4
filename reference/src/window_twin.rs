//! The twin of a console: the direct call that a window call makes, and what the console reads of its answer.

use crate::machine::Answer;
use crate::window::{
    has, window_at, BEGIN, BUSY, COMMAND, DONE, MOVED, OPERATION, REFUSAL, RESPONSE, STEP, WINDOW_BYTES,
};

pub use crate::configuration::{Call, CallAnswer};

/// The call that the window call of a task makes, if it makes one. A begin before done is acknowledged makes none.
pub fn direct_call(windows: &[u8], tasks: usize, task: usize) -> Option<Call> {
    let window = window_at(windows, tasks, task).ok()?;
    let operation = usize::from(window[OPERATION]);
    match window[COMMAND] {
        BEGIN if !has(&window, DONE) => Some(Call::Begin { task, operation }),
        STEP => Some(Call::Step { task }),
        _ => None,
    }
}

/// The answer of a call without the step count, for which a window has no byte.
#[derive(Clone, Copy, Debug, PartialEq, Eq)]
pub enum Reading {
    Begun,
    Running,
    Ended {
        response: u16,
        moved: bool,
    },
    /// The number of the refusal.
    Refused(u8),
}

/// What a console reads in its window, from all windows before and after the window call that made a call of its task.
pub fn reading(call: Call, before: &[u8], after: &[u8]) -> Reading {
    let (Call::Begin { task, .. } | Call::Step { task }) = call;
    let [before, after] = [before, after].map(|windows| {
        let tasks = windows.len() / WINDOW_BYTES;
        window_at(windows, tasks, task).expect("a task that made a call has a window")
    });
    let refused = Reading::Refused(after[REFUSAL]);
    match (call, has(&before, BUSY), has(&after, BUSY)) {
        (Call::Begin { .. }, false, true) => Reading::Begun,
        (Call::Begin { .. }, ..) => refused,
        (Call::Step { .. }, false, _) => refused,
        (Call::Step { .. }, true, true) => Reading::Running,
        (Call::Step { .. }, true, false) => Reading::Ended {
            response: u16::from(after[RESPONSE]),
            moved: has(&after, MOVED),
        },
    }
}

/// A direct call's answer, its step count left out.
pub fn without_count(answer: CallAnswer) -> Reading {
    match answer {
        Err(refusal) => Reading::Refused(refusal.number()),
        Ok(None) => Reading::Begun,
        Ok(Some(Answer::Running)) => Reading::Running,
        Ok(Some(Answer::Ended { response, moved, .. })) => Reading::Ended { response, moved },
    }
}

#[cfg(test)]
mod tests {
    use super::*;
    use crate::file_calls;
    use crate::refusal::Refusal;
    use crate::window::REFUSED;
    use crate::window_runs::{runs, Event, Run, Store};
    use std::collections::BTreeMap;

    #[test]
    fn begins_without_done_and_steps_are_direct_calls() {
        let call = |command: u8, status: u8| {
            let windows = [[9; 8], [7, command, status, 0, 0, 0, 0, 0]].concat();
            direct_call(&windows, 2, 1)
        };
        let (task, operation) = (1, 7);
        for status in 0..=255 {
            let begun = (status & DONE == 0).then_some(Call::Begin { task, operation });
            assert_eq!(call(1, status), begun);
            assert_eq!(call(2, status), Some(Call::Step { task }));
            for command in (0..=255).filter(|command| ![1, 2].contains(command)) {
                assert_eq!(call(command, status), None);
            }
        }
    }

    #[test]
    fn without_a_window_no_call_is_made() {
        assert_eq!(direct_call(&[2; 16], 2, 2), None);
        assert_eq!(direct_call(&[2; 15], 2, 0), None);
        assert_eq!(direct_call(&[2; 16], 1, 0), None);
    }

    #[test]
    fn busy_before_and_after_says_what_came_of_a_call() {
        let begin = Call::Begin {
            task: 1,
            operation: 0,
        };
        let step = Call::Step { task: 1 };
        let windows = |status| [[0; 8], [0, 0, status, 200, 9, 0, 0, 0]].concat();
        let read = |call, before, after| reading(call, &windows(before), &windows(after));
        let refused = Reading::Refused(9);
        let ended = |moved| Reading::Ended { response: 200, moved };
        assert_eq!(read(begin, 0, BUSY), Reading::Begun);
        assert_eq!(
            [(0, 0), (BUSY, BUSY)].map(|(old, new)| read(begin, old, new)),
            [refused; 2]
        );
        assert_eq!(read(step, 0, 0), refused);
        assert_eq!(read(step, BUSY, BUSY), Reading::Running);
        assert_eq!(read(step, BUSY, DONE | MOVED), ended(true));
        assert_eq!(read(step, BUSY | MOVED, DONE), ended(false));
    }

    #[test]
    fn an_answer_keeps_all_but_its_count() {
        let ended = Answer::Ended {
            response: 3,
            moved: true,
            steps: 17,
        };
        let (response, moved) = (3, true);
        assert_eq!(without_count(Ok(Some(ended))), Reading::Ended { response, moved });
        assert_eq!(without_count(Ok(Some(Answer::Running))), Reading::Running);
        assert_eq!(without_count(Ok(None)), Reading::Begun);
        assert_eq!(without_count(Err(Refusal::Idle)), Reading::Refused(10));
    }

    impl Store {
        fn make_call(&mut self, call: Call) -> CallAnswer {
            match call {
                Call::Begin { task, operation } => {
                    file_calls::begin(&self.file, &mut self.row, task, operation).map(|()| None)
                }
                Call::Step { task } => {
                    file_calls::step(&self.file, &mut self.cells, &mut self.row, task).map(Some)
                }
            }
        }
    }

    /// What a console's window must show, by what has happened alone.
    #[derive(Clone, Copy, Default)]
    struct Shown {
        busy: bool,
        done: bool,
        refused: bool,
        moved: bool,
        response: u8,
        refusal: u8,
    }

    impl Shown {
        fn note(&mut self, command: u8, answer: Option<Reading>) {
            match (command, answer) {
                (0, _) | (_, Some(Reading::Running)) => {}
                (3, _) => (self.done, self.refused) = (false, false),
                (_, Some(Reading::Begun)) => self.busy = true,
                (_, Some(Reading::Ended { response, moved })) => {
                    (self.busy, self.done) = (false, true);
                    (self.moved, self.response) = (moved, response as u8);
                }
                (_, Some(Reading::Refused(number))) => self.note_refused(number),
                (1, None) => self.note_refused(17),
                (_, None) => self.note_refused(18),
            }
        }

        fn note_refused(&mut self, number: u8) {
            (self.refused, self.refusal) = (true, number);
        }

        /// Bytes 2 to 5 and 7.
        fn bytes(&self) -> [u8; 5] {
            let bit = |on: bool, bit: u8| if on { bit } else { 0 };
            let status = bit(self.busy, BUSY)
                | bit(self.done, DONE)
                | bit(self.refused, REFUSED)
                | bit(self.moved, MOVED);
            let interrupt = bit(self.done || self.refused, 1);
            [status, self.response, self.refusal, interrupt, 0]
        }
    }

    /// A run and its twin, which makes the direct calls alone.
    struct Pair<'a> {
        run: &'a Run,
        store: Store,
        twin: Store,
        shown: Vec<Shown>,
        /// How often consoles read each answer.
        counts: BTreeMap<String, usize>,
    }

    impl Pair<'_> {
        fn make(&mut self, event: Event) {
            let before = self.store.windows.clone();
            let call = event.direct_call(&before, self.run.tasks);
            self.store.make(event);
            let answer = call.map(|call| without_count(self.twin.make_call(call)));
            assert_eq!(self.store.cells, self.twin.cells);
            assert_eq!(self.store.row, self.twin.row);
            match event {
                Event::Window { task } if self.run.consoles.contains(&task) => {
                    let command = before[WINDOW_BYTES * task + COMMAND];
                    self.shown[task].note(command, answer);
                    self.compare_reading(call, answer, &before);
                    self.count(command, answer);
                }
                _ => {}
            }
            self.check_windows();
        }

        fn compare_reading(&self, call: Option<Call>, answer: Option<Reading>, before: &[u8]) {
            let read = call.map(|call| reading(call, before, &self.store.windows));
            assert_eq!(read, answer);
        }

        fn count(&mut self, command: u8, answer: Option<Reading>) {
            let name = match (command, answer) {
                (_, Some(Reading::Ended { moved: true, .. })) => "ended, moved".to_string(),
                (_, Some(Reading::Ended { moved: false, .. })) => "ended, not moved".to_string(),
                (_, Some(other)) => format!("{other:?}"),
                (0, None) => "nothing".to_string(),
                (1, None) => "17".to_string(),
                (3, None) => "acknowledged".to_string(),
                (_, None) => "18".to_string(),
            };
            *self.counts.entry(name).or_default() += 1;
        }

        fn check_windows(&self) {
            for &task in &self.run.consoles {
                let window = window_at(&self.store.windows, self.run.tasks, task).unwrap();
                let [_, _, status, response, refusal, interrupt, _, last] = window;
                let shown = self.shown[task];
                assert_eq!([status, response, refusal, interrupt, last], shown.bytes());
                assert_eq!(shown.busy, self.store.row[task].is_pending());
            }
        }
    }

    /// Makes all runs with their twins; how often consoles read each answer.
    fn counts() -> BTreeMap<String, usize> {
        let mut counts = BTreeMap::new();
        for run in runs() {
            let mut pair = Pair {
                store: Store::started(&run.file, &run.windows),
                twin: Store::started(&run.file, &run.windows),
                shown: vec![Shown::default(); run.tasks],
                run: &run,
                counts,
            };
            for &event in &run.events {
                pair.make(event);
            }
            counts = pair.counts;
        }
        counts
    }

    #[test]
    fn consoles_read_what_direct_calls_answer() {
        let counts = counts();
        let least = [
            ("Begun", 2_000),
            ("Running", 20_000),
            ("ended, moved", 500),
            ("ended, not moved", 1_000),
            ("Refused(8)", 100),
            ("Refused(9)", 100),
            ("Refused(10)", 100),
            ("17", 100),
            ("18", 100),
            ("nothing", 100),
            ("acknowledged", 2_000),
        ];
        for (name, least) in least {
            assert!(counts[name] >= least, "{counts:?}");
        }
        assert_eq!(counts.len(), least.len(), "{counts:?}");
    }
}
