//! What happens while a line of the bench is served, and the lines of text that say it.

use crate::cells::{count_marks, has_mark, Announcement, Head, Holder, MOST_TASKS};
use crate::machine::{Access, Action, Outcome, HEAD_CELL};
use crate::phase::Phase;
use crate::refusal::Refusal;
use crate::reply::moved_words;
use crate::trace_conclusion::conclusion_lines;

#[derive(Clone, Debug, PartialEq, Eq)]
pub enum Event {
    /// An accepted start; `state` is the start state.
    Started {
        tasks: usize,
        states: usize,
        operations: usize,
        state: usize,
    },
    Begun {
        task: usize,
        operation: usize,
        changing: bool,
    },
    Stepped(Step),
    Ended {
        task: usize,
        operation: u16,
        response: u16,
        moved: bool,
        steps: u32,
    },
    /// No changing operation is pending any more; `state` is the one in the head.
    AtRest {
        state: u16,
    },
    /// The cells are printed.
    Cells(Vec<u64>),
    Refused(Refusal),
}

/// An accepted step: its access and the touched cell's word before and after it.
#[derive(Clone, Copy, Debug, PartialEq, Eq)]
pub struct Step {
    pub task: usize,
    /// Own steps since begin, this one counted.
    pub number: u32,
    /// The phase before the step.
    pub phase: Phase,
    pub access: Access,
    pub outcome: Outcome,
    pub before: u64,
    pub after: u64,
}

impl Event {
    /// One line; or one for each cell, one for the marks, and what these words say of the run.
    pub fn lines(&self) -> Vec<String> {
        let line = match self {
            Event::Cells(cells) => return cell_lines(cells),
            Event::Started {
                tasks,
                states,
                operations,
                state,
            } => format!("started: tasks {tasks}, states {states}, operations {operations}, state {state}"),
            Event::Begun {
                task,
                operation,
                changing,
            } => {
                let kind = if *changing { "changing" } else { "reading" };
                format!("task {task} begins operation {operation}, {kind}")
            }
            Event::Stepped(step) => step.line(),
            Event::Ended {
                task,
                operation,
                response,
                moved,
                steps,
            } => {
                let reply = reply_words(*response, *moved);
                format!("task {task} ends operation {operation}: {reply}, own steps {steps}")
            }
            Event::AtRest { state } => format!("at rest in state {state}"),
            Event::Refused(refusal) => refused(*refusal),
        };
        vec![line]
    }
}

impl Step {
    fn line(&self) -> String {
        let cell = self.access.cell;
        format!(
            "task {}  step {:>3}  {:<16}  {:<5}  {:<14}  {:<38}  {}",
            self.task,
            self.number,
            phase_name(self.phase),
            self.access_name(),
            cell_name(cell),
            self.words(),
            meaning(cell, self.after)
        )
    }

    fn access_name(&self) -> &'static str {
        match self.access.action {
            Action::Read => "read",
            Action::Write(_) => "write",
            Action::Swap { .. } => "swap",
        }
    }

    /// The words of a failed swap are two places wider than the column.
    fn words(&self) -> String {
        let (before, after) = (self.before, self.after);
        match (self.access.action, self.outcome) {
            (Action::Read, _) => format!("{before:016x}"),
            (Action::Swap { old, .. }, Outcome::Swapped(false)) => format!("{before:016x}, not {old:016x}"),
            _ => format!("{before:016x} -> {after:016x}"),
        }
    }
}

/// The phase's name; behind it the task that the phase works for, if there is one.
fn phase_name(phase: Phase) -> String {
    let variant = format!("{phase:?}");
    let name = variant.split('(').next().unwrap_or_default();
    match phase.named_task() {
        None => name.to_string(),
        Some(task) => format!("{name} {task}"),
    }
}

fn cell_name(cell: usize) -> String {
    match cell {
        HEAD_CELL => "head".to_string(),
        _ => format!("announcement {}", cell - 1),
    }
}

fn cell_lines(cells: &[u64]) -> Vec<String> {
    let line = |(cell, &word): (usize, &u64)| {
        format!("{:<14}  {word:016x}  {}", cell_name(cell), meaning(cell, word))
    };
    let marks = format!("marks {}", count_marks(cells));
    let words = cells.iter().enumerate().map(line);
    words.chain([marks]).chain(conclusion_lines(cells)).collect()
}

/// What a cell's word says.
fn meaning(cell: usize, word: u64) -> String {
    let content = match cell {
        HEAD_CELL => head_content(word),
        _ => announcement_content(word),
    };
    let marked = (0..MOST_TASKS).filter(|&task| has_mark(word, task));
    let tasks: String = marked.map(|task| format!(" {task}")).collect();
    match tasks.is_empty() {
        true => content,
        false => format!("{content}, marked by{tasks}"),
    }
}

fn head_content(word: u64) -> String {
    let Head { state, holder } = Head::decode(word);
    match holder {
        None => format!("state {state}"),
        Some(Holder { task, reply }) => {
            format!(
                "state {state}, {}, for task {task}",
                reply_words(reply.response, reply.moved)
            )
        }
    }
}

fn announcement_content(word: u64) -> String {
    match Announcement::decode(word) {
        Announcement::Empty => "empty".to_string(),
        Announcement::Operation(number) => format!("operation {number}"),
        Announcement::Response(reply) => reply_words(reply.response, reply.moved),
    }
}

fn reply_words(response: u16, moved: bool) -> String {
    format!("response {response}, {}", moved_words(moved))
}

/// The refusal's number and its sentence.
pub fn refused(refusal: Refusal) -> String {
    format!("refused with {}: {}", refusal.number(), sentence(refusal))
}

fn sentence(refusal: Refusal) -> &'static str {
    match refusal {
        Refusal::File => "the file has under 16 or over 20,496 bytes, or does not end in DRIVE1",
        Refusal::Dimensions => {
            "the states are not 1 to 256, the operations are not 1 to 32, \
             or the start state is not below the states"
        }
        Refusal::Length => {
            "the text has over 4,096 bytes, or text, entries and trailer do not make up the file's length"
        }
        Refusal::NextState => "the next state of an entry is not below the number of states",
        Refusal::Row => "the number of tasks is not 1 to 8",
        Refusal::Cells => "the cells are not one more than the tasks",
        Refusal::Task => "the task number is not below the number of tasks",
        Refusal::Operation => "the operation number is not below the number of operations",
        Refusal::Pending => "the task has an operation pending",
        Refusal::Idle => "the task has no operation pending",
        Refusal::Record => "the task's record is out of form",
        Refusal::Cell => "the touched cell is out of form",
        Refusal::Line => "the line has no known form, or stands before an accepted n line",
        Refusal::Rings => {
            "the list is not of 1 to 255 whole rings, or a ring's length is not 1 to 20,000 or its kind not ordinary or key"
        }
        Refusal::Chainage => "no ring owns the chainage",
        Refusal::Room => "the room is shorter than what is to be written",
        Refusal::Unacknowledged => "the window's command is a begin, and done is not acknowledged",
        Refusal::Window => "the window's command is not 0 to 3, or the windows are not 8 bytes for each task",
        Refusal::Question => {
            "the moves are not 1 to 4, the state is not below the states, or the targets are not a byte, 0 or 1, for each state"
        }
    }
}

#[cfg(test)]
mod tests {
    use super::*;

    #[test]
    fn phases_have_the_names_of_the_phase_table() {
        let singles = "Idle ReadOnly Announce Poll LoadHead LinkHead LoadPriority LoadOwn LoadExit LinkExit \
                       ClearExit ReleaseExit Retract ClearHead ReloadClear";
        let ranges = "Apply ReloadApply LoadHelped LinkHelped Validate HandOver ReloadHandOver Release \
                      ReloadRelease";
        let with_tasks = |name: &'static str| (0..8).map(move |task| format!("{name} {task}"));
        let expected: Vec<String> = singles
            .split(' ')
            .map(str::to_string)
            .chain(ranges.split(' ').flat_map(with_tasks))
            .collect();
        let names: Vec<String> = (0..=u8::MAX)
            .filter_map(Phase::of_number)
            .map(phase_name)
            .collect();
        assert_eq!(names, expected);
    }

    #[test]
    fn words_mean_what_their_fields_hold() {
        assert_eq!(meaning(0, 0), "state 0");
        assert_eq!(meaning(0, 0xff81), "state 255, marked by 0 7");
        assert_eq!(
            meaning(0, 0x08ff_0100),
            "state 1, response 255, not moved, for task 7"
        );
        assert_eq!(
            meaning(0, 0x1100_0206),
            "state 2, response 0, moved, for task 0, marked by 1 2"
        );
        assert_eq!(meaning(1, 0), "empty");
        assert_eq!(meaning(1, 0x20), "empty, marked by 5");
        assert_eq!(meaning(8, 0x001f_0100), "operation 31");
        assert_eq!(meaning(8, 0x0007_0203), "response 7, not moved, marked by 0 1");
        assert_eq!(meaning(8, 0x0100_0200), "response 0, moved");
    }

    fn swap_of_head(number: u32, before: u64, swapped: bool) -> Step {
        Step {
            task: 7,
            number,
            phase: Phase::ClearExit,
            access: Access {
                cell: HEAD_CELL,
                action: Action::Swap { old: 1, new: 1 },
            },
            outcome: Outcome::Swapped(swapped),
            before,
            after: before,
        }
    }

    #[test]
    fn a_swap_that_leaves_the_same_word_is_still_made() {
        let expected = "task 7  step  10  ClearExit         swap   head            \
                        0000000000000001 -> 0000000000000001    state 0, marked by 0";
        assert_eq!(swap_of_head(10, 1, true).line(), expected);
    }

    #[test]
    fn numbers_and_words_that_are_wider_than_their_columns_are_not_cut() {
        let expected = "task 7  step 511999  ClearExit         swap   head            \
                        0000000000000100, not 0000000000000001  state 1";
        assert_eq!(swap_of_head(511_999, 0x100, false).line(), expected);
    }

    #[test]
    fn cells_are_printed_with_their_names_and_meanings() {
        let expected = [
            "head            0000000000000103  state 1, marked by 0 1",
            "announcement 0  0000000000010101  operation 1, marked by 0",
            "announcement 1  0000000000000000  empty",
            "marks 3",
            "it follows: the operations made so far lead to state 1",
            "it follows: task 0 has a changing operation pending: announced, its mark stands in the head and announcement 0",
            "it follows: task 1 has a changing operation pending: its mark stands in the head",
        ];
        assert_eq!(Event::Cells(vec![0x103, 0x1_0101, 0]).lines(), expected);
    }

    #[test]
    fn refusals_of_a_table_have_their_sentences() {
        assert_eq!(
            refused(Refusal::File),
            "refused with 1: the file has under 16 or over 20,496 bytes, or does not end in DRIVE1"
        );
        assert_eq!(
            refused(Refusal::Dimensions),
            "refused with 2: the states are not 1 to 256, the operations are not 1 to 32, \
             or the start state is not below the states"
        );
    }
}
