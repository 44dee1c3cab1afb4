//! `drive force`: whether the jack console, moving first and in turn with the link, can force a target state, and how.

use std::borrow::Cow;

use drive_object::{Force, Refusal, MOST_MOVES};

use crate::number::{counted, of_digits};
use crate::refused;
use crate::strategy::Game;

/// The number of moves that a word stands for, in range or not.
pub fn moves_of(word: &str) -> Result<usize, String> {
    of_digits(word).ok_or_else(|| format!("'{word}' is no number of moves: {}", most()))
}

/// The library's answer in words, with the strategy if it is yes and a move is needed; and whether it is yes.
pub fn report(
    file: &[u8],
    state: &str,
    moves: usize,
    targets: &[Cow<str>],
) -> Result<(String, bool), String> {
    let mut game = Game::of(file)?;
    let state = game
        .states
        .number(state)
        .ok_or_else(|| no_state(&game, state, "state"))?;
    for target in targets {
        let place = game
            .states
            .number(target)
            .filter(|place| *place < game.targets.len());
        let place = place.ok_or_else(|| no_state(&game, target, "target"))?;
        game.targets[place] = 1;
    }
    match game.ask(state, moves) {
        Ok(Force::Reached) => Ok((reached(&game, state), true)),
        Ok(Force::Wins(operation)) => {
            wins(&game, state, moves, usize::from(operation)).map(|text| (text, true))
        }
        Ok(Force::Loses) => Ok((loses(&game, state, moves), false)),
        Err(refusal) => Err(not_served(&game, state, moves, refusal)),
    }
}

fn reached(game: &Game, state: usize) -> String {
    let state = game.state(state);
    format!("yes: {state} is a target already, and no move is needed\n")
}

fn wins(game: &Game, state: usize, moves: usize, operation: usize) -> Result<String, String> {
    let (from, targets) = (game.state(state), targets(game, "one of"));
    let (within, opening) = (counted(moves, "move"), game.operations.numbered(operation, 0));
    let answer = format!(
        "yes: from {from} the jack console forces {targets} within {within}, opening with operation {opening}"
    );
    let lines = game.strategy(state, moves, operation)?;
    Ok([vec![answer], lines, vec![String::new()]].concat().join("\n"))
}

/// With one move the link has none.
fn loses(game: &Game, state: usize, moves: usize) -> String {
    let (from, targets, within) = (game.state(state), targets(game, "any of"), counted(moves, "move"));
    let why = match moves {
        1 => "no operation leads there",
        _ => "no operation that it may open with does",
    };
    format!("no: from {from} the jack console can't force {targets} within {within}: {why}\n")
}

/// The target, or the list of them behind these words.
fn targets(game: &Game, of_many: &str) -> String {
    let places = (0..game.targets.len()).filter(|place| game.targets[*place] == 1);
    let places: Vec<usize> = places.collect();
    match places.as_slice() {
        [one] => game.state(*one),
        many => format!("{of_many} states {}", game.states.list(many)),
    }
}

/// What is said to a word that is no state of the table.
fn no_state(game: &Game, word: &str, kind: &str) -> String {
    let names = match (&game.states.misfit, game.states.any()) {
        (_, true) => ", with names".into(),
        (Some(misfit), false) => format!("; {misfit}"),
        (None, false) => ", without names".into(),
    };
    format!("'{word}' is no {kind}: {}{names}", states(game))
}

fn states(game: &Game) -> String {
    match game.targets.len() {
        1 => "the table has state 0 alone".into(),
        count => format!("the table has states 0 to {}", count - 1),
    }
}

/// The refusal of a question in words. The library is asked for each of its parts in a question of its own.
fn not_served(game: &Game, state: usize, moves: usize, refusal: Refusal) -> String {
    let reason = refused::in_words(refusal);
    if refusal != Refusal::Question {
        return format!("the table is {reason}");
    }
    let refused = |state, moves| game.ask(state, moves) == Err(Refusal::Question);
    let (asked, states, most) = (counted(moves, "move"), states(game), most());
    match (refused(state, 1), refused(0, moves)) {
        (true, false) => format!("state {state} is {reason}; {states}"),
        (false, true) => format!("a game of {asked} is {reason}; {most}"),
        (true, true) => format!("a game of {asked} from state {state} is {reason}; {most}, and {states}"),
        (false, false) => format!("the question is {reason}"),
    }
}

fn most() -> String {
    format!("moves are 1 to {MOST_MOVES}, of both sides together")
}
