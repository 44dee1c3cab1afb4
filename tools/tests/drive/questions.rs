//! Questions which console can force a target, and what `drive force` must say to them.

use crate::program::{drive_among, Ran};
use reference::force::Force;
use reference::random::Random;
use reference::refusal::Refusal;
use reference::table::Table;
use reference::trace_event;

/// A table of which check accepts the file, and a question.
pub struct Question {
    pub file: Vec<u8>,
    pub state: usize,
    pub moves: usize,
    pub targets: Vec<u8>,
    /// What the states and the operations are called: a number, and a name if there are names.
    pub state_labels: Vec<String>,
    pub operation_labels: Vec<String>,
}

impl Question {
    /// A question on a file without names.
    pub fn new(file: &[u8], state: usize, moves: usize, targets: &[u8]) -> Question {
        let table = Table::check(file).expect("a table");
        let numbers = |count: usize| (0..count).map(|number| number.to_string()).collect();
        Question {
            file: file.to_vec(),
            state,
            moves,
            targets: targets.to_vec(),
            state_labels: numbers(table.states),
            operation_labels: numbers(table.operations),
        }
    }

    /// The same with names for all states and operations.
    pub fn named(self) -> Question {
        let named = |kind: &str, count: usize| -> Vec<String> {
            (0..count).map(|number| format!("{kind}-{number}")).collect()
        };
        let (states, operations) = (
            named("s", self.state_labels.len()),
            named("to", self.operation_labels.len()),
        );
        let lists = [states.join(" "), operations.join(" ")];
        let text = format!("A text.\nstates: {}\noperations: {}\n", lists[0], lists[1]);
        let labels = |names: Vec<String>| (0..).zip(names).map(|(number, name)| format!("{number} {name}"));
        Question {
            file: with_text(&self.file, states.len() * operations.len(), text.as_bytes()),
            state_labels: labels(states).collect(),
            operation_labels: labels(operations).collect(),
            ..self
        }
    }

    pub fn operations(&self) -> usize {
        self.operation_labels.len()
    }

    pub fn next(&self, state: usize, operation: usize) -> usize {
        let table = Table::check(&self.file).expect("a table");
        usize::from(table.entry(state, operation).next)
    }

    /// The states that are targets.
    fn target_states(&self) -> Vec<usize> {
        let states = 0..self.targets.len();
        states.filter(|state| self.targets[*state] == 1).collect()
    }

    /// Asks `drive`, each state by its number or its name, the targets in any order and some twice.
    pub fn asked(&self, random: &mut Random) -> Ran {
        let mut words = vec!["force".to_string(), "table.bin".into()];
        words.push(self.word(self.state, random));
        words.push(self.moves.to_string());
        let mut targets = self.target_states();
        targets.push(*random.pick(&targets));
        let turned = random.below(targets.len());
        targets.rotate_left(turned);
        words.extend(targets.into_iter().map(|target| self.word(target, random)));
        let words: Vec<&str> = words.iter().map(String::as_str).collect();
        drive_among(&[("table.bin", &self.file)], &words, b"")
    }

    fn word(&self, state: usize, random: &mut Random) -> String {
        let label = self
            .state_labels
            .get(state)
            .and_then(|label| label.split_once(' '));
        match label {
            Some((_, name)) if random.chance(2, 3) => name.into(),
            _ => state.to_string(),
        }
    }

    /// The first line for an answer that the second program gives.
    pub fn answer_words(&self, answer: Force) -> String {
        let from = &self.state_labels[self.state];
        let within = match self.moves {
            1 => "1 move".to_string(),
            moves => format!("{moves} moves"),
        };
        match answer {
            Force::Reached => format!("yes: state {from} is a target already, and no move is needed"),
            Force::Wins(operation) => {
                let opening = &self.operation_labels[usize::from(operation)];
                let targets = self.target_words("one of");
                format!(
                    "yes: from state {from} the jack console forces {targets} within {within}, \
                     opening with operation {opening}"
                )
            }
            Force::Loses => {
                let why = match self.moves {
                    1 => "no operation leads there",
                    _ => "no operation that it may open with does",
                };
                let targets = self.target_words("any of");
                format!("no: from state {from} the jack console can't force {targets} within {within}: {why}")
            }
        }
    }

    fn target_words(&self, of_many: &str) -> String {
        let states = self.target_states();
        let list = listed(&states, &self.state_labels);
        match states.len() {
            1 => format!("state {list}"),
            _ => format!("{of_many} states {list}"),
        }
    }

    /// What is said to a question that is refused with 19: the state, the moves or both are out of range.
    pub fn refusal_words(&self) -> String {
        let reason = trace_event::refused(Refusal::Question);
        let has = match self.state_labels.len() {
            1 => "the table has state 0 alone".to_string(),
            count => format!("the table has states 0 to {}", count - 1),
        };
        let most = "moves are 1 to 4, of both sides together";
        let (state, moves) = (self.state, self.moves);
        let ending = if moves == 1 { "" } else { "s" };
        match (state >= self.state_labels.len(), moves == 0 || moves > 4) {
            (true, false) => format!("drive: state {state} is {reason}; {has}\n"),
            (false, true) => format!("drive: a game of {moves} move{ending} is {reason}; {most}\n"),
            (true, true) => format!(
                "drive: a game of {moves} move{ending} from state {state} is {reason}; {most}, and {has}\n"
            ),
            (false, false) => panic!("nothing is out of range"),
        }
    }
}

/// Numbers by their labels; of four or more in a row the first and the last.
fn listed(numbers: &[usize], labels: &[String]) -> String {
    let mut words = Vec::new();
    let mut rest = numbers;
    while let Some(first) = rest.first() {
        let row = (*first..)
            .zip(rest)
            .take_while(|(one, other)| one == *other)
            .count();
        let (now, later) = rest.split_at(if row > 3 { row } else { 1 });
        words.push(match now {
            [one] => labels[*one].clone(),
            many => format!("{} to {}", labels[many[0]], labels[many[row - 1]]),
        });
        rest = later;
    }
    words.join(", ")
}

/// A file with so many entries gets this text.
fn with_text(file: &[u8], entries: usize, text: &[u8]) -> Vec<u8> {
    let (before, trailer) = file.split_at(file.len() - 16);
    let entries = &before[before.len() - 2 * entries..];
    let offset = (text.len() as u32).to_le_bytes();
    [text, entries, &offset, &trailer[4..]].concat()
}
