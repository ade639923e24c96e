//! What a judge answers.

use std::fmt;

#[derive(Clone, Copy, PartialEq, Eq, Debug)]
pub enum Verdict {
    Proved { kept: u64, total: u64, rounds: u64 },
    Unproved { kept: u64, total: u64, rounds: u64 },
    Refuted { letters: u64, state: u64, constructor: u64 },
    Refused { number: u64, place: u64 },
}

use Verdict::{Proved, Refused, Refuted, Unproved};

impl Verdict {
    /// The verdict as the library's four numbers: which one it is, then its values, 0 where there are fewer.
    pub fn numbers(self) -> [u64; 4] {
        match self {
            Proved { kept, total, rounds } => [0, kept, total, rounds],
            Unproved { kept, total, rounds } => [1, kept, total, rounds],
            Refuted { letters, state, constructor } => [2, letters, state, constructor],
            Refused { number, place } => [3, number, place, 0],
        }
    }

    /// The rounds of a binding case.
    pub fn rounds(self) -> Option<u64> {
        match self {
            Proved { rounds, .. } | Unproved { rounds, .. } => Some(rounds),
            Refuted { .. } | Refused { .. } => None,
        }
    }

    /// The verdict that the four numbers stand for, if they stand for one.
    pub fn from_numbers(numbers: [u64; 4]) -> Option<Verdict> {
        match numbers {
            [0, kept, total, rounds] => Some(Proved { kept, total, rounds }),
            [1, kept, total, rounds] => Some(Unproved { kept, total, rounds }),
            [2, letters, state, constructor] => Some(Refuted { letters, state, constructor }),
            [3, number, place, 0] => Some(Refused { number, place }),
            _ => None,
        }
    }
}

/// The line that `judge` prints.
impl fmt::Display for Verdict {
    fn fmt(&self, out: &mut fmt::Formatter) -> fmt::Result {
        match self {
            Proved { kept, total, rounds } => write!(out, "proved {kept} of {total} rounds {rounds}"),
            Unproved { kept, total, rounds } => write!(out, "unproved {kept} of {total} rounds {rounds}"),
            Refuted { letters, state, constructor } => {
                write!(out, "refuted letters {letters} state {state} constructor {constructor}")
            }
            Refused { number, place } => write!(out, "refused {number} at {place}"),
        }
    }
}
