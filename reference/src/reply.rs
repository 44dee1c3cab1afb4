//! What an operation that ends answers beside its count: a response, and whether the state moved.

/// Both come from the table's entry that was used: its response, and whether its next state is another than its own.
#[derive(Clone, Copy, Debug, PartialEq, Eq, PartialOrd, Ord, Default)]
pub struct Reply {
    pub response: u16,
    pub moved: bool,
}

/// Where the payload of a record has the moved bit; the response is below it.
const MOVED_SHIFT: u32 = u16::BITS;

impl Reply {
    /// The payload of a record from the finding of its reply to its end.
    pub fn to_payload(self) -> u32 {
        u32::from(self.response) | u32::from(self.moved) << MOVED_SHIFT
    }

    /// Bits above the moved bit are not looked at.
    pub fn of_payload(payload: u32) -> Reply {
        Reply {
            response: payload as u16,
            moved: payload >> MOVED_SHIFT & 1 == 1,
        }
    }
}

/// The yes or no in words.
pub fn moved_words(moved: bool) -> &'static str {
    match moved {
        true => "moved",
        false => "not moved",
    }
}

#[cfg(test)]
mod tests {
    use super::*;

    fn reply(response: u16, moved: bool) -> Reply {
        Reply { response, moved }
    }

    #[test]
    fn a_payload_has_the_response_in_its_low_16_bits_and_the_moved_bit_above_them() {
        assert_eq!(reply(0, false).to_payload(), 0);
        assert_eq!(reply(255, false).to_payload(), 255);
        assert_eq!(reply(0, true).to_payload(), 65_536);
        assert_eq!(reply(255, true).to_payload(), 65_536 + 255);
        assert_eq!(reply(u16::MAX, true).to_payload(), 0x1_ffff);
    }

    #[test]
    fn replies_are_read_as_they_were_written() {
        for response in [0, 1, 255, 256, u16::MAX] {
            for moved in [false, true] {
                let written = reply(response, moved);
                assert_eq!(Reply::of_payload(written.to_payload()), written);
            }
        }
    }

    #[test]
    fn the_upper_bits_of_a_payload_are_not_looked_at() {
        for bit in 17..u32::BITS {
            assert_eq!(Reply::of_payload(7 | 1 << bit), reply(7, false));
            assert_eq!(Reply::of_payload(0x1_0007 | 1 << bit), reply(7, true));
        }
    }
}
