//! Which console can force it: the jack console and the surface link take turns, one whole operation each, the jack console
//! first. A question is answered by levels: from which states a target is forced with no move left, then with one, and so on
//! up.

use crate::refusal::Refusal;
use crate::table::Table;

/// The most moves of a question, those of both sides together.
pub const MOST_MOVES: usize = 4;
/// The byte of a state that is a target.
pub const TARGET: u8 = 1;
/// The byte of a state that is no target.
pub const NO_TARGET: u8 = 0;

/// Whether the jack console can force a target.
#[derive(Clone, Copy, Debug, PartialEq, Eq)]
pub enum Force {
    /// Yes: the state is a target at the outset, and no move is needed.
    Reached,
    /// Yes, and this is the lowest operation that wins.
    Wins(u16),
    /// No.
    Loses,
}

/// Of each state, whether a target is forced from there with so many moves left: if the jack console makes the next one, and
/// if the link does.
struct Level {
    jack: Vec<bool>,
    link: Vec<bool>,
}

impl Level {
    /// No move is left.
    fn at_the_end(targets: &[u8]) -> Level {
        let forced: Vec<bool> = targets.iter().map(|&byte| byte == TARGET).collect();
        Level {
            jack: forced.clone(),
            link: forced,
        }
    }

    /// One move more is left: who makes it leaves the next one to the other side.
    fn one_move_more(&self, table: &Table, targets: &[u8]) -> Level {
        let jack = |q: usize| targets[q] == TARGET || table.next_states(q).any(|next| self.link[next]);
        let link = |q: usize| targets[q] == TARGET || table.next_states(q).all(|next| self.jack[next]);
        Level {
            jack: (0..table.states).map(jack).collect(),
            link: (0..table.states).map(link).collect(),
        }
    }
}

/// Whether the jack console, from a state and moving first, can force a target within so many moves of both sides together,
/// whatever the link chooses.
pub fn force(file: &[u8], state: usize, targets: &[u8], moves: usize) -> Result<Force, Refusal> {
    let table = Table::check(file)?;
    test_question(&table, state, targets, moves)?;
    if targets[state] == TARGET {
        return Ok(Force::Reached);
    }
    let after = level(&table, targets, moves - 1);
    let lowest = table.next_states(state).position(|next| after.link[next]);
    Ok(lowest.map_or(Force::Loses, |operation| Force::Wins(operation as u16)))
}

/// Tests 19.
fn test_question(table: &Table, state: usize, targets: &[u8], moves: usize) -> Result<(), Refusal> {
    let moves_fit = (1..=MOST_MOVES).contains(&moves);
    let state_fits = state < table.states;
    let length_fits = targets.len() == table.states;
    let bytes_fit = targets.iter().all(|byte| [NO_TARGET, TARGET].contains(byte));
    if moves_fit && state_fits && length_fits && bytes_fit {
        Ok(())
    } else {
        Err(Refusal::Question)
    }
}

/// The level with so many moves left.
fn level(table: &Table, targets: &[u8], moves: usize) -> Level {
    let mut level = Level::at_the_end(targets);
    for _ in 0..moves {
        level = level.one_move_more(table, targets);
    }
    level
}

#[cfg(test)]
mod tests {
    use super::*;
    use crate::canonical_cases::{damaged_table, fixed_tables};
    use crate::force_cases::random_case;
    use crate::force_tables::{chain, driven, longest_no, longest_yes, one_way_out};
    use crate::table_cases;
    use crate::table_file::TableFile;
    use Force::{Loses, Reached, Wins};

    /// The answers from a state for 1 to 4 moves, with one state the target.
    fn answers(table: &TableFile, state: usize, target: usize) -> [Force; MOST_MOVES] {
        let mut targets = vec![NO_TARGET; usize::from(table.states)];
        targets[target] = TARGET;
        [1, 2, 3, 4].map(|moves| force(&table.to_bytes(), state, &targets, moves).unwrap())
    }

    /// With three moves or four the jack console may read first.
    #[test]
    fn the_flag_is_set_at_once_or_read_first() {
        assert_eq!(
            answers(&TableFile::flag(), 0, 1),
            [Wins(1), Wins(1), Wins(0), Wins(0)]
        );
        assert_eq!(
            answers(&TableFile::flag(), 1, 0),
            [Wins(2), Wins(2), Wins(0), Wins(0)]
        );
    }

    #[test]
    fn a_target_at_the_outset_needs_no_move() {
        assert_eq!(answers(&TableFile::flag(), 1, 1), [Reached; MOST_MOVES]);
        assert_eq!(answers(&one_way_out(), 2, 2), [Reached; MOST_MOVES]);
    }

    #[test]
    fn without_a_target_nothing_is_forced() {
        for case in fixed_tables() {
            let states = Table::check(&case.file).unwrap().states;
            for (state, moves) in [(0, 1), (0, 4), (states - 1, 2), (states - 1, 3)] {
                let answer = force(&case.file, state, &vec![NO_TARGET; states], moves);
                assert_eq!(answer, Ok(Loses), "{}", case.name);
            }
        }
    }

    #[test]
    fn the_link_is_driven_into_the_target_by_its_own_move() {
        assert_eq!(answers(&driven(), 0, 2), [Loses, Wins(1), Wins(1), Wins(0)]);
    }

    #[test]
    fn one_way_out_is_enough_for_the_link() {
        assert_eq!(answers(&one_way_out(), 0, 2), [Loses; MOST_MOVES]);
        assert_eq!(answers(&one_way_out(), 1, 2), [Wins(0); MOST_MOVES]);
    }

    /// Each number of moves is the first that is enough for some target, and a target that was passed counts.
    #[test]
    fn in_a_chain_the_target_is_met_after_as_many_moves_as_it_is_away() {
        for target in 1..=5 {
            let met = |moves: usize| if target <= moves { Wins(0) } else { Loses };
            assert_eq!(answers(&chain(), 0, target), [1, 2, 3, 4].map(met));
        }
    }

    #[test]
    fn the_longest_questions_are_decided_by_the_last_operation_of_every_turn() {
        assert_eq!(answers(&longest_no(), 0, 1), [Loses; MOST_MOVES]);
        assert_eq!(answers(&longest_yes(), 0, 1), [Loses, Loses, Loses, Wins(31)]);
    }

    #[test]
    fn a_yes_stays_a_yes_with_one_move_more() {
        for seed in 0..2_000 {
            let case = random_case(seed);
            for asked in &case.asked {
                for &state in &asked.states {
                    let answer = |moves| force(&case.file, state, &asked.targets, moves).unwrap();
                    let yes = [1, 2, 3, 4].map(|moves| answer(moves) != Loses);
                    assert!(yes.is_sorted(), "{}", case.name);
                }
            }
        }
    }

    fn refused(state: usize, targets: &[u8], moves: usize) -> bool {
        let answer = force(&TableFile::flag().to_bytes(), state, targets, moves);
        assert!(matches!(answer, Ok(_) | Err(Refusal::Question)));
        answer.is_err()
    }

    #[test]
    fn moves_are_1_to_4() {
        assert!([1, 2, 3, 4].iter().all(|&moves| !refused(0, &[0, 1], moves)));
        for moves in [0, 5, 256, 257, 65_537, usize::MAX] {
            assert!(
                refused(0, &[0, 1], moves) && refused(0, &[1, 0], moves),
                "{moves}"
            );
        }
    }

    #[test]
    fn the_state_is_below_the_number_of_states() {
        assert!(!refused(0, &[0, 1], 1) && !refused(1, &[0, 1], 1));
        for state in [2, 256, 65_536, 65_537, usize::MAX] {
            assert!(refused(state, &[0, 1], 1), "{state}");
        }
    }

    /// Also where the state is a target already.
    #[test]
    fn targets_are_a_byte_for_each_state_which_is_0_or_1() {
        assert!([[0, 0], [0, 1], [1, 0], [1, 1]].map(|targets| refused(0, &targets, 1)) == [false; 4]);
        for wrong in [[2, 0], [0, 2], [1, 2], [255, 1], [1, 255]] {
            assert!(refused(0, &wrong, 1), "{wrong:?}");
        }
        for wrong in [&[][..], &[1], &[1, 0, 0], &[1, 0, 1]] {
            assert!(refused(0, wrong, 1), "{wrong:?}");
        }
    }

    /// Whatever the question is.
    #[test]
    fn causes_1_to_4_are_those_of_check() {
        let files = table_cases::fixed_cases().into_iter();
        let files = files.chain((0..500).map(table_cases::random_case));
        for case in files.chain((0..100).map(damaged_table)) {
            let checked = Table::check(&case.file).err();
            for (state, targets, moves) in [(0, vec![0; 300], 1), (0, vec![2], 0), (usize::MAX, vec![], 5)] {
                let refusal = force(&case.file, state, &targets, moves).err();
                assert_eq!(refusal, checked.or(Some(Refusal::Question)), "{}", case.name);
            }
        }
    }
}
