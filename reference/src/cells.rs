//! The cells: layout of head and announcement, their forms, the image of a state and the count of marks.

use crate::reply::Reply;

pub const MOST_TASKS: usize = 8;

/// A run of bits of a cell.
struct Field {
    shift: u32,
    width: u32,
}

impl Field {
    const fn mask(&self) -> u64 {
        ((1 << self.width) - 1) << self.shift
    }

    const fn get(&self, word: u64) -> u64 {
        (word & self.mask()) >> self.shift
    }

    const fn put(&self, content: u64) -> u64 {
        assert!(content >> self.width == 0);
        content << self.shift
    }
}

const MARKS: Field = Field { shift: 0, width: 8 };
const HEAD_STATE: Field = Field { shift: 8, width: 8 };
const HEAD_RESPONSE: Field = Field { shift: 16, width: 8 };
const HEAD_HOLDER: Field = Field { shift: 24, width: 4 };
const HEAD_MOVED: Field = Field { shift: 28, width: 1 };
const KIND: Field = Field { shift: 8, width: 2 };
const PAYLOAD: Field = Field { shift: 16, width: 8 };
const MOVED: Field = Field { shift: 24, width: 1 };

const HEAD_BITS: u64 =
    MARKS.mask() | HEAD_STATE.mask() | HEAD_RESPONSE.mask() | HEAD_HOLDER.mask() | HEAD_MOVED.mask();
const ANNOUNCEMENT_BITS: u64 = MARKS.mask() | KIND.mask() | PAYLOAD.mask() | MOVED.mask();

/// The task whose operation the head holds, and what that operation answers.
#[derive(Clone, Copy, Debug, PartialEq, Eq)]
pub struct Holder {
    pub task: usize,
    pub reply: Reply,
}

/// A head without its marks.
#[derive(Clone, Copy, Debug, PartialEq, Eq)]
pub struct Head {
    pub state: u16,
    pub holder: Option<Holder>,
}

impl Head {
    pub fn encode(self) -> u64 {
        let held = match self.holder {
            None => 0,
            Some(Holder { task, reply }) => {
                HEAD_HOLDER.put(task as u64 + 1)
                    | HEAD_RESPONSE.put(u64::from(reply.response))
                    | HEAD_MOVED.put(u64::from(reply.moved))
            }
        };
        HEAD_STATE.put(u64::from(self.state)) | held
    }

    /// Looks at the named fields alone; whether the word is in form is tested apart.
    pub fn decode(word: u64) -> Head {
        let holder = match HEAD_HOLDER.get(word) {
            0 => None,
            number => Some(Holder {
                task: number as usize - 1,
                reply: Reply {
                    response: HEAD_RESPONSE.get(word) as u16,
                    moved: HEAD_MOVED.get(word) == 1,
                },
            }),
        };
        Head {
            state: HEAD_STATE.get(word) as u16,
            holder,
        }
    }

    pub fn is_held_by(self, task: usize) -> bool {
        self.holder.is_some_and(|holder| holder.task == task)
    }
}

/// An announcement without its marks.
#[derive(Clone, Copy, Debug, PartialEq, Eq)]
pub enum Announcement {
    Empty,
    Operation(u16),
    Response(Reply),
}

impl Announcement {
    pub fn encode(self) -> u64 {
        match self {
            Announcement::Empty => 0,
            Announcement::Operation(number) => KIND.put(1) | PAYLOAD.put(u64::from(number)),
            Announcement::Response(reply) => {
                KIND.put(2) | PAYLOAD.put(u64::from(reply.response)) | MOVED.put(u64::from(reply.moved))
            }
        }
    }

    /// Looks at the named fields alone. Kind 3, which no cell in form has, is read as empty.
    pub fn decode(word: u64) -> Announcement {
        let payload = PAYLOAD.get(word) as u16;
        match KIND.get(word) {
            1 => Announcement::Operation(payload),
            2 => Announcement::Response(Reply {
                response: payload,
                moved: MOVED.get(word) == 1,
            }),
            _ => Announcement::Empty,
        }
    }
}

/// The kind of an announcement: 0 empty, 1 operation, 2 response.
pub fn kind(word: u64) -> u64 {
    KIND.get(word)
}

/// The bit of a task among the marks.
pub fn mark_of(task: usize) -> u64 {
    assert!(task < MOST_TASKS);
    1 << task
}

pub fn has_mark(word: u64, task: usize) -> bool {
    word & mark_of(task) != 0
}

pub fn with_mark(word: u64, task: usize) -> u64 {
    word | mark_of(task)
}

pub fn without_mark(word: u64, task: usize) -> u64 {
    word & !mark_of(task)
}

/// A cell without its marks.
pub fn value(word: u64) -> u64 {
    word & !MARKS.mask()
}

fn marks_in_form(word: u64, tasks: usize) -> bool {
    MARKS.get(word) >> tasks == 0
}

/// The holder is none or one of the tasks.
fn holder_in_form(word: u64, tasks: usize) -> bool {
    HEAD_HOLDER.get(word) <= tasks.min(MOST_TASKS) as u64
}

pub fn head_in_form(word: u64, states: usize, tasks: usize) -> bool {
    word & !HEAD_BITS == 0
        && marks_in_form(word, tasks)
        && HEAD_STATE.get(word) < states as u64
        && holder_in_form(word, tasks)
        && (HEAD_HOLDER.get(word) != 0 || (HEAD_RESPONSE.get(word) == 0 && HEAD_MOVED.get(word) == 0))
}

pub fn announcement_in_form(word: u64, operations: usize, tasks: usize) -> bool {
    let payload = PAYLOAD.get(word);
    let moved = MOVED.get(word) == 1;
    let content_fits = match KIND.get(word) {
        0 => payload == 0 && !moved,
        1 => payload < operations as u64 && !moved,
        2 => true,
        _ => false,
    };
    word & !ANNOUNCEMENT_BITS == 0 && marks_in_form(word, tasks) && content_fits
}

/// The cells that show a state and nothing else.
pub fn image(state: u16, tasks: usize) -> Vec<u64> {
    let mut cells = vec![0; tasks + 1];
    cells[0] = Head { state, holder: None }.encode();
    cells
}

/// How many marks are set in all cells together.
pub fn count_marks(cells: &[u64]) -> u32 {
    cells.iter().map(|&cell| MARKS.get(cell).count_ones()).sum()
}

#[cfg(test)]
mod tests {
    use super::*;

    #[test]
    fn image_of_state_1_with_one_task() {
        assert_eq!(image(1, 1), [0x100, 0]);
        assert_eq!(image(255, 8)[0], 0xff00);
        assert_eq!(image(255, 8).len(), 9);
    }

    #[test]
    fn a_response_needs_a_holder() {
        assert!(!head_in_form(0x0001_0000, 2, 2));
        assert!(head_in_form(0x0101_0000, 2, 2));
        assert_eq!(Head::decode(0x0101_0000), held(0, 1, false));
    }

    /// The head in state 0 that holds a reply for a task.
    fn held(task: usize, response: u16, moved: bool) -> Head {
        let reply = Reply { response, moved };
        Head {
            state: 0,
            holder: Some(Holder { task, reply }),
        }
    }

    #[test]
    fn the_moved_bit_of_a_head_needs_a_holder() {
        for in_form in [0x1101_0000, 0x1100_0000, 0x18ff_0000, 0x1100_0101] {
            assert!(head_in_form(in_form, 2, 8), "{in_form:#x}");
        }
        for out_of_form in [0x1000_0000, 0x1001_0000, 0x1000_0101, 0x2100_0000, 0x1900_0000] {
            assert!(!head_in_form(out_of_form, 2, 8), "{out_of_form:#x}");
        }
        assert_eq!(Head::decode(0x1101_0000), held(0, 1, true));
        assert_eq!(held(7, 255, true).encode(), 0x18ff_0000);
        let unheld = Head {
            state: 1,
            holder: None,
        };
        assert_eq!(Head::decode(0x1001_0100), unheld);
    }

    #[test]
    fn the_moved_bit_of_an_announcement_needs_kind_2() {
        for in_form in [0x0100_0200, 0x01ff_0200, 0x00ff_0200, 0x0100_0201] {
            assert!(announcement_in_form(in_form, 3, 1), "{in_form:#x}");
        }
        for out_of_form in [
            0x0100_0000,
            0x0100_0001,
            0x0100_0100,
            0x0102_0100,
            0x0100_0300,
            0x0200_0200,
        ] {
            assert!(!announcement_in_form(out_of_form, 3, 1), "{out_of_form:#x}");
        }
        let reply = Reply {
            response: 255,
            moved: true,
        };
        assert_eq!(Announcement::Response(reply).encode(), 0x01ff_0200);
        assert_eq!(Announcement::decode(0x0102_0100), Announcement::Operation(2));
        assert_eq!(Announcement::decode(0x0102_0000), Announcement::Empty);
    }

    #[test]
    fn bits_without_a_name_are_0() {
        for bit in 29..64 {
            assert!(!head_in_form(0x0101_0000 | 1 << bit, 2, 1), "bit {bit}");
        }
        for bit in (10..16).chain(25..64) {
            assert!(!announcement_in_form(0x0001_0200 | 1 << bit, 3, 1), "bit {bit}");
        }
    }

    #[test]
    fn head_fields_keep_to_their_ranges() {
        assert!(head_in_form(0x1ff, 2, 8));
        assert!(!head_in_form(0x200, 2, 8));
    }

    #[test]
    fn a_holder_is_one_of_the_tasks() {
        for tasks in 1..=MOST_TASKS {
            for holder in 0..16 {
                let in_form = holder <= tasks as u64;
                let named = format!("holder {holder} of {tasks} tasks");
                assert_eq!(head_in_form(holder << 24, 1, tasks), in_form, "{named}");
                let with_reply = 0x10ff_0000 | holder << 24;
                assert_eq!(
                    head_in_form(with_reply, 1, tasks),
                    in_form && holder > 0,
                    "{named}"
                );
            }
        }
    }

    #[test]
    fn a_holder_is_at_most_8() {
        assert!(head_in_form(0x0800_0000, 1, 9));
        assert!(!head_in_form(0x0900_0000, 1, 9));
    }

    #[test]
    fn marks_are_those_of_the_tasks() {
        assert!(head_in_form(0x03, 1, 2));
        assert!(!head_in_form(0x04, 1, 2));
        assert!(announcement_in_form(0x80, 1, 8));
        assert!(!announcement_in_form(0x80, 1, 7));
    }

    #[test]
    fn announcement_fields_keep_to_their_ranges() {
        assert!(announcement_in_form(0, 3, 1));
        assert!(!announcement_in_form(0x0001_0000, 3, 1));
        assert!(announcement_in_form(0x0002_0100, 3, 1));
        assert!(!announcement_in_form(0x0003_0100, 3, 1));
        assert!(announcement_in_form(0x00ff_0200, 3, 1));
        assert!(!announcement_in_form(0x0000_0300, 3, 1));
    }

    #[test]
    fn heads_are_decoded_as_they_were_encoded() {
        for state in [0, 1, 255] {
            assert_head_survives(Head { state, holder: None });
            for task in 0..MOST_TASKS {
                for moved in [false, true] {
                    let head = held(task, 255 - state, moved);
                    assert_head_survives(Head { state, ..head });
                }
            }
        }
    }

    fn assert_head_survives(head: Head) {
        let word = head.encode();
        assert!(head_in_form(word, 256, MOST_TASKS));
        assert_eq!(Head::decode(word), head);
        assert_eq!(Head::decode(word | 0xff), head);
    }

    #[test]
    fn announcements_are_decoded_as_they_were_encoded() {
        let operations = (0..32).map(Announcement::Operation);
        let responses = (0..2 << 8).map(|number| {
            Announcement::Response(Reply {
                response: number & 0xff,
                moved: number >> 8 == 1,
            })
        });
        for announcement in operations.chain(responses).chain([Announcement::Empty]) {
            let word = announcement.encode();
            assert!(announcement_in_form(word, 32, 1));
            assert_eq!(Announcement::decode(word | 0xff), announcement);
        }
    }

    #[test]
    fn words_in_form_are_encoded_as_they_were_decoded() {
        for word in (0..1u64 << 29).step_by(509) {
            if head_in_form(word, 200, 8) {
                assert_eq!(Head::decode(word).encode(), value(word));
            }
            if announcement_in_form(word, 20, 8) {
                assert_eq!(Announcement::decode(word).encode(), value(word));
            }
        }
    }

    #[test]
    fn marks_are_added_taken_away_and_counted() {
        let word = with_mark(0x0101_0000, 3);
        assert!(has_mark(word, 3) && !has_mark(word, 2));
        assert_eq!(without_mark(word, 3), 0x0101_0000);
        assert_eq!(with_mark(word, 3), word);
        assert_eq!(count_marks(&[0xffff, 0x0101, 0x100]), 9);
    }
}
