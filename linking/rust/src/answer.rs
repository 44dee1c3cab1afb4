//! What the calls answer, and how an answer's word is read: byte 0, the lowest, is the refusal's number or 0. Bits 2 to 7
//! of byte 1 are reserved, and no reader looks at them.

use core::fmt;

/// Declares the refusals from one list of numbers, names and sentences.
macro_rules! refusals {
    ($($number:literal $name:ident $sentence:literal)*) => {
        /// Why a call is not served: the numbers and causes of `docs/FORMATS.md`, "When a call is not served". It is
        /// displayed as the cause's sentence.
        #[derive(Clone, Copy, Debug, PartialEq, Eq)]
        pub enum Refusal {
            $(
                #[doc = concat!(stringify!($number), ": ", $sentence, ".")]
                $name,
            )*
            /// A number that no call answers: what is linked isn't this library.
            Unknown(u8),
        }

        impl Refusal {
            /// The number of the cause.
            pub fn number(self) -> u8 {
                match self {
                    $(Refusal::$name => $number,)*
                    Refusal::Unknown(number) => number,
                }
            }

            #[inline]
            fn of_number(number: u8) -> Refusal {
                match number {
                    $($number => Refusal::$name,)*
                    other => Refusal::Unknown(other),
                }
            }
        }

        impl fmt::Display for Refusal {
            fn fmt(&self, formatter: &mut fmt::Formatter<'_>) -> fmt::Result {
                match self {
                    $(Refusal::$name => formatter.write_str($sentence),)*
                    Refusal::Unknown(number) => write!(formatter, "a number that no call answers: {number}"),
                }
            }
        }
    };
}

refusals! {
    1 File "the file has under 16 or over 20,496 bytes, or does not end in DRIVE1"
    2 Dimensions "the states are not 1 to 256, the operations are not 1 to 32, or the start state is not below the states"
    3 Length "the text has over 4,096 bytes, or text, entries and trailer do not make up the file's length"
    4 NextState "the next state of an entry is not below the number of states"
    5 Row "the number of tasks is not 1 to 8"
    6 Cells "the cells are not one more than the tasks"
    7 Task "the task number is not below the number of tasks"
    8 Operation "the operation number is not below the number of operations"
    9 Pending "the task has an operation pending"
    10 Idle "the task has no operation pending"
    11 Record "the task's record is out of form"
    12 Cell "the touched cell is out of form"
    14 Rings "the list is not of 1 to 255 whole rings, or a ring's length is not 1 to 20,000 or its kind not ordinary or key"
    15 Chainage "no ring owns the chainage"
    16 Room "the room is shorter than what is to be written"
    17 Unacknowledged "the window's command is a begin, and done is not acknowledged"
    18 Window "the window's command is not 0 to 3, or the windows are not 8 bytes for each task"
    19 Question "the moves are not 1 to 4, the state is not below the states, or the targets are not a byte, 0 or 1, for each state"
}

impl core::error::Error for Refusal {}

/// What the trailer of a checked table says.
#[derive(Clone, Copy, Debug, PartialEq, Eq)]
pub struct Shape {
    /// 1 to 256.
    pub states: u16,
    /// 1 to 32.
    pub operations: u16,
    /// Below `states`.
    pub start: u16,
}

/// How an operation stands after an accepted step.
#[derive(Clone, Copy, Debug, PartialEq, Eq)]
pub enum Progress {
    /// It needs more steps.
    Running,
    /// It has its answer, and its task is idle.
    Ended {
        /// The table's response.
        response: u16,
        /// Whether the state moved, which says that the table's entry used has a next state other than its own.
        moved: bool,
        /// The own steps since begin, the ending one counted; at most the ceiling.
        steps: u32,
    },
}

/// Whether the jack console can force a target state.
#[derive(Clone, Copy, Debug, PartialEq, Eq)]
pub enum Force {
    /// Yes: the state is a target at the outset, and no move is needed.
    Reached,
    /// Yes, and this is the lowest operation that wins.
    Wins(u16),
    /// No: whatever the jack console chooses, the link can keep out of every target.
    Loses,
}

/// The word of an accepted call, or the refusal.
#[inline]
pub fn accepted(word: u64) -> Result<u64, Refusal> {
    match word as u8 {
        0 => Ok(word),
        number => Err(Refusal::of_number(number)),
    }
}

/// Bytes 2 and 3 are the states, 4 and 5 the operations, 6 and 7 the start state.
#[inline]
pub fn shape(word: u64) -> Result<Shape, Refusal> {
    accepted(word).map(|word| Shape {
        states: (word >> 16) as u16,
        operations: (word >> 32) as u16,
        start: (word >> 48) as u16,
    })
}

/// Bit 0 of byte 1 is 1 if the operation has ended; then bit 1 is 1 if the state moved, bytes 2 and 3 are the response,
/// and 4 to 7 the own steps.
#[inline]
pub fn progress(word: u64) -> Result<Progress, Refusal> {
    accepted(word).map(|word| match word >> 8 & 1 {
        0 => Progress::Running,
        _ => Progress::Ended {
            response: (word >> 16) as u16,
            moved: word >> 9 & 1 == 1,
            steps: (word >> 32) as u32,
        },
    })
}

/// Bit 0 of byte 1 is 1 for a yes; then bit 1 is 1 if no move is needed, else bytes 2 and 3 are the operation.
#[inline]
pub fn force(word: u64) -> Result<Force, Refusal> {
    accepted(word).map(|word| match (word >> 8 & 1, word >> 9 & 1) {
        (0, _) => Force::Loses,
        (_, 0) => Force::Wins((word >> 16) as u16),
        _ => Force::Reached,
    })
}

/// Bytes 2 and 3: the number of a ring.
#[inline]
pub fn low_number(word: u64) -> Result<u16, Refusal> {
    accepted(word).map(|word| (word >> 16) as u16)
}

/// Bit 0 of byte 2: whether the line of a window is up.
#[inline]
pub fn line(word: u64) -> Result<bool, Refusal> {
    accepted(word).map(|word| word >> 16 & 1 == 1)
}

/// Bytes 4 to 7: a ceiling, or the length of what was written.
#[inline]
pub fn high_number(word: u64) -> Result<u32, Refusal> {
    accepted(word).map(|word| (word >> 32) as u32)
}

#[cfg(test)]
mod tests {
    extern crate std;

    use std::string::ToString;

    use super::*;

    /// The word with each value of the reserved bits.
    fn with_reserved(word: u64) -> impl Iterator<Item = u64> {
        (0..1 << 6).map(move |bits: u64| word | bits << 10)
    }

    #[test]
    fn running_steps_are_read_without_the_reserved_bits() {
        for running in [0, 0x200, 0x1234_5678_abcd_0000, 0x1234_5678_abcd_0200] {
            for word in with_reserved(running) {
                assert_eq!(progress(word), Ok(Progress::Running));
            }
        }
    }

    #[test]
    fn ended_steps_are_read_without_the_reserved_bits() {
        for (byte, moved) in [(0x100, false), (0x300, true)] {
            let ended = |response, steps| Progress::Ended {
                response,
                moved,
                steps,
            };
            for word in with_reserved(0x1234_5678_abcd_0000 | byte) {
                assert_eq!(progress(word), Ok(ended(0xabcd, 0x1234_5678)));
            }
            for word in with_reserved(byte) {
                assert_eq!(progress(word), Ok(ended(0, 0)));
            }
        }
    }

    #[test]
    fn forces_are_read_without_the_reserved_bits() {
        let read = [Force::Loses, Force::Wins(0), Force::Loses, Force::Reached];
        for (bits, read) in (0..).zip(read) {
            for word in with_reserved(bits << 8) {
                assert_eq!(force(word), Ok(read));
            }
        }
        for word in with_reserved(0x1234_5678_abcd_0100) {
            assert_eq!(force(word), Ok(Force::Wins(0xabcd)));
        }
    }

    #[test]
    fn other_answers_are_read_without_the_reserved_bits() {
        let read = Shape {
            states: 0xabcd,
            operations: 0x5678,
            start: 0x1234,
        };
        for word in with_reserved(0x1234_5678_abcd_0000) {
            assert_eq!(accepted(word), Ok(word));
            assert_eq!(shape(word), Ok(read));
            assert_eq!(low_number(word), Ok(0xabcd));
            assert_eq!(line(word), Ok(true));
            assert_eq!(high_number(word), Ok(0x1234_5678));
        }
        for word in with_reserved(0x1234_5678_abcc_0000) {
            assert_eq!(line(word), Ok(false));
        }
    }

    #[test]
    fn refusals_are_read_without_the_reserved_bits() {
        for number in 1..=u8::MAX {
            let refusal = Refusal::of_number(number);
            assert_eq!(refusal.number(), number);
            let known = matches!(number, 1..=12 | 14..=19);
            assert_eq!(matches!(refusal, Refusal::Unknown(_)), !known);
            for word in with_reserved(u64::from(number)) {
                assert_eq!(accepted(word), Err(refusal));
                assert_eq!(shape(word), Err(refusal));
                assert_eq!(progress(word), Err(refusal));
                assert_eq!(force(word), Err(refusal));
                assert_eq!(low_number(word), Err(refusal));
                assert_eq!(line(word), Err(refusal));
                assert_eq!(high_number(word), Err(refusal));
            }
        }
    }

    #[test]
    fn refusals_are_displayed_as_their_sentences() {
        assert_eq!(Refusal::Cell.to_string(), "the touched cell is out of form");
        let unknown = Refusal::Unknown(200).to_string();
        assert_eq!(unknown, "a number that no call answers: 200");
    }
}
