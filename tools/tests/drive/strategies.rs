//! A printed strategy is read back and played: the console makes the operations that it names, the link each that there is.

use crate::questions::Question;
use reference::force::{force, Force};
use std::collections::BTreeSet;
use std::slice::Iter;

/// What a line says: who makes which operations, where they lead, and how many moves are left; none at a target.
struct Line {
    operations: Vec<usize>,
    next: usize,
    left: Option<usize>,
}

/// What the lines of a strategy have shown.
#[derive(Default)]
pub struct Seen {
    /// The longest list of moves.
    pub longest: usize,
    pub any_operation: bool,
    pub joined: bool,
}

/// Plays a strategy against all that the link can do, and asks the second program for every operation of the console.
pub struct Play<'a> {
    question: &'a Question,
    lines: Iter<'a, &'a str>,
    seen: Seen,
}

/// A place in the game: the state, the moves that are left, and how many were made.
#[derive(Clone, Copy)]
struct Place {
    state: usize,
    left: usize,
    made: usize,
}

impl<'a> Play<'a> {
    /// All lines belong to the strategy.
    pub fn follow(question: &'a Question, lines: &'a [&'a str]) -> Seen {
        let mut play = Play {
            question,
            lines: lines.iter(),
            seen: Seen::default(),
        };
        play.console(Place {
            state: question.state,
            left: question.moves,
            made: 0,
        });
        assert_eq!(play.lines.next(), None);
        play.seen
    }

    /// One operation: the lowest that wins.
    fn console(&mut self, place: Place) {
        let line = self.line("console", place);
        let [operation] = line.operations[..] else {
            panic!("the console makes {:?}", line.operations);
        };
        let (file, targets) = (&self.question.file, &self.question.targets);
        let answer = force(file, place.state, targets, place.left);
        assert_eq!(answer, Ok(Force::Wins(operation as u16)));
        self.made(place, &line, Play::link);
    }

    /// Every operation stands in one line, and all that lead to one state in the same.
    fn link(&mut self, place: Place) {
        let mut open: BTreeSet<usize> = (0..self.question.operations()).collect();
        let mut states = BTreeSet::new();
        while let Some(lowest) = open.first().copied() {
            let line = self.line("link", place);
            assert_eq!(line.operations[0], lowest);
            assert!(line.operations.iter().all(|operation| open.remove(operation)));
            assert!(states.insert(line.next), "state {} stands twice", line.next);
            self.made(place, &line, Play::console);
        }
    }

    /// The operations lead where the line says: to a target, or to the other side's turn.
    fn made(&mut self, place: Place, line: &Line, follows: fn(&mut Self, Place)) {
        for operation in &line.operations {
            assert_eq!(self.question.next(place.state, *operation), line.next);
        }
        let (left, made) = (place.left - 1, place.made + 1);
        self.seen.longest = self.seen.longest.max(made);
        match line.left {
            None => assert_eq!(self.question.targets[line.next], 1),
            Some(said) => {
                assert_eq!((said, self.question.targets[line.next]), (left, 0));
                assert!(left > 0, "no move is left, and no target reached");
                let state = line.next;
                follows(self, Place { state, left, made });
            }
        }
    }

    /// The next line, which is about a move of this side.
    fn line(&mut self, side: &str, place: Place) -> Line {
        let line = *self.lines.next().expect("a line for every operation");
        let start = format!("{}{side} ", "  ".repeat(place.made + 1));
        let said = line.strip_prefix(&start).expect("the side, in its place");
        let (does, leads) = said.split_once(" -> state ").expect("a state");
        let (next, end) = leads.split_once(", ").expect("an end");
        self.seen.joined |= does.contains(", ");
        Line {
            operations: self.operations(does),
            next: labelled(next, &self.question.state_labels),
            left: left(end),
        }
    }

    /// The operations of a list.
    fn operations(&mut self, does: &str) -> Vec<usize> {
        if does == "any operation" {
            self.seen.any_operation = true;
            assert!(self.question.operations() > 1);
            return (0..self.question.operations()).collect();
        }
        let labels = &self.question.operation_labels;
        let parts = does.split(", ").map(|part| match part.split_once(" to ") {
            Some((first, last)) => labelled(first, labels)..=labelled(last, labels),
            None => labelled(part, labels)..=labelled(part, labels),
        });
        parts.flatten().collect()
    }
}

/// The number of a label.
fn labelled(label: &str, labels: &[String]) -> usize {
    let place = labels.iter().position(|one| one == label);
    place.unwrap_or_else(|| panic!("{label} is none of {labels:?}"))
}

/// How many moves are left by the end of a line.
fn left(end: &str) -> Option<usize> {
    match end {
        "a target" => None,
        "1 move left" => Some(1),
        _ => {
            let number = end
                .strip_suffix(" moves left")
                .and_then(|number| number.parse().ok());
            assert!(number.is_some_and(|number: usize| number > 1), "{end}");
            number
        }
    }
}
