//! Files that the library and the second program write into lent rooms, compared with all that stands around them.

use std::collections::BTreeSet;

use drive_object::Refusal;
use reference::refusal;

/// Bytes before and behind a lent room.
const MARGIN: usize = 8;

/// How much was compared, and the numbers of the answers, 0 for an accepted call.
#[derive(Default)]
pub struct Compared {
    pub answers: usize,
    pub files: usize,
    pub numbers: BTreeSet<u8>,
}

impl Compared {
    /// The room is filled twice, the second time with the opposite of every bit: a byte that is written differs once.
    pub fn write(
        &mut self,
        length: usize,
        name: &str,
        ours: impl Fn(&mut [u8]) -> Result<u32, Refusal>,
        theirs: impl Fn(&mut [u8]) -> Result<u32, refusal::Refusal>,
    ) {
        for opposite in [0, u8::MAX] {
            let filled: Vec<u8> = (0..length + 2 * MARGIN).map(|at| at as u8 ^ opposite).collect();
            let (mut our_room, mut their_room) = (filled.clone(), filled);
            let lent = MARGIN..MARGIN + length;
            let answer = ours(&mut our_room[lent.clone()]).map_err(Refusal::number);
            let expected = theirs(&mut their_room[lent]).map_err(refusal::Refusal::number);
            assert_eq!(answer, expected, "{name}, a room of {length} bytes");
            let differing = our_room
                .iter()
                .zip(&their_room)
                .position(|(our, their)| our != their);
            assert_eq!(
                differing, None,
                "{name}, a room of {length} bytes after {MARGIN} others"
            );
            self.answers += 1;
            self.files += usize::from(answer.is_ok());
            self.numbers.insert(answer.err().unwrap_or(0));
        }
    }
}
