//! The strategy of the jack console as a tree: its operations, for which the library is asked, and all replies of the link.

use drive_object::{force, Force, Refusal};

use crate::names::Names;
use crate::number::counted;
use crate::object::Object;
use crate::refused;

/// A table with its targets, on which the jack console and the link take turns.
pub struct Game<'a> {
    file: &'a [u8],
    object: Object<'a>,
    pub states: Names,
    pub operations: Names,
    /// A byte for each state, 1 for a target.
    pub targets: Vec<u8>,
}

/// A state in which one side is to move.
#[derive(Clone, Copy)]
struct Turn {
    state: usize,
    /// How many moves are left, one or more.
    moves: usize,
    /// The place of the move in the game, from 1.
    depth: usize,
}

/// The operations of the link that lead to one state.
struct Reply {
    operations: Vec<usize>,
    next: usize,
}

impl<'a> Game<'a> {
    /// The game on a file without a target, or the table's refusal in words.
    pub fn of(file: &'a [u8]) -> Result<Game<'a>, String> {
        let object = Object::of(file)?;
        Ok(Game {
            file,
            states: object.state_names(),
            operations: object.operation_names(),
            targets: vec![0; object.states()],
            object,
        })
    }

    /// The library's answer for a state and a number of moves.
    pub fn ask(&self, state: usize, moves: usize) -> Result<Force, Refusal> {
        force(self.file, state, &self.targets, moves)
    }

    /// A state by its number, and its name if it has one.
    pub fn state(&self, state: usize) -> String {
        format!("state {}", self.states.numbered(state, 0))
    }

    /// The console's operation in a state, and what follows until a target is reached, a line each.
    pub fn strategy(&self, state: usize, moves: usize, operation: usize) -> Result<Vec<String>, String> {
        if moves == 0 {
            return Err(format!("the library names operation {operation} for no moves"));
        }
        let turn = Turn {
            state,
            moves,
            depth: 1,
        };
        self.console(turn, operation)
    }

    fn console(&self, turn: Turn, operation: usize) -> Result<Vec<String>, String> {
        let operations = vec![operation];
        let next = self.next(turn.state, operation)?;
        self.moved(turn, "console", &Reply { operations, next }, Game::link)
    }

    /// The link's replies, those that lead to one state together.
    fn link(&self, turn: Turn) -> Result<Vec<String>, String> {
        let mut lines = Vec::new();
        for reply in self.replies(turn.state)? {
            lines.extend(self.moved(turn, "link", &reply, Game::answer)?);
        }
        Ok(lines)
    }

    /// What the library has the console do next.
    fn answer(&self, turn: Turn) -> Result<Vec<String>, String> {
        let said = match self.ask(turn.state, turn.moves) {
            Ok(Force::Wins(operation)) => return self.console(turn, usize::from(operation)),
            Ok(Force::Reached) => "it answers that no move is needed".into(),
            Ok(Force::Loses) => "it answers no".into(),
            Err(refusal) => format!("the question is {}", refused::in_words(refusal)),
        };
        let (state, left) = (self.state(turn.state), counted(turn.moves, "move"));
        Err(format!(
            "the library contradicts its yes: in {state} with {left} left, where the link can lead, {said}"
        ))
    }

    /// The line of a move, and below it what `follows` unless it leads to a target.
    fn moved(
        &self,
        turn: Turn,
        side: &str,
        reply: &Reply,
        follows: impl Fn(&Self, Turn) -> Result<Vec<String>, String>,
    ) -> Result<Vec<String>, String> {
        let state = reply.next;
        let (indent, moves) = ("  ".repeat(turn.depth), turn.moves - 1);
        let (does, leads_to) = (self.does(&reply.operations), self.state(state));
        let line = |end: &str| format!("{indent}{side} {does} -> {leads_to}, {end}");
        if self.targets.get(state) == Some(&1) {
            return Ok(vec![line("a target")]);
        }
        if moves == 0 {
            return Err(format!(
                "the library contradicts its yes: the moves can end in {leads_to}, which is no target"
            ));
        }
        let depth = turn.depth + 1;
        let below = follows(self, Turn { state, moves, depth })?;
        Ok([vec![line(&format!("{} left", counted(moves, "move")))], below].concat())
    }

    fn does(&self, operations: &[usize]) -> String {
        match operations.len() {
            2.. if operations.len() == self.object.operations() => "any operation".into(),
            _ => self.operations.list(operations),
        }
    }

    /// By the lowest operation of each.
    fn replies(&self, state: usize) -> Result<Vec<Reply>, String> {
        let mut replies: Vec<Reply> = Vec::new();
        for operation in 0..self.object.operations() {
            let next = self.next(state, operation)?;
            match replies.iter_mut().find(|reply| reply.next == next) {
                Some(reply) => reply.operations.push(operation),
                None => replies.push(Reply {
                    operations: vec![operation],
                    next,
                }),
            }
        }
        Ok(replies)
    }

    /// What an operation leads to in a state; the library could name one that the table doesn't have.
    fn next(&self, state: usize, operation: usize) -> Result<usize, String> {
        let (states, operations) = (self.object.states(), self.object.operations());
        match (state < states, operation < operations) {
            (true, true) => Ok(usize::from(self.object.entry(state, operation).next)),
            (true, false) => Err(format!(
                "the library names operation {operation} of a table with {}",
                counted(operations, "operation")
            )),
            _ => Err(format!(
                "the library answers for state {state} of a table with {}",
                counted(states, "state")
            )),
        }
    }
}
