// Verdicts on the bytes of a pack, and how a verdict is found from "which pack could still come".

use std::fmt;

#[derive(Clone, Copy, PartialEq, Eq, Debug)]
pub enum Verdict {
    /// The bytes begin with a pack of this length.
    Complete(usize),
    /// The bytes begin a pack; at least this many are missing.
    Unfinished(usize),
    /// No pack begins this way; the place is that of the first byte that makes this certain.
    Refused { reason: u32, place: usize },
}

impl fmt::Display for Verdict {
    fn fmt(&self, f: &mut fmt::Formatter) -> fmt::Result {
        match self {
            Verdict::Complete(length) => write!(f, "complete {}", length),
            Verdict::Unfinished(missing) => write!(f, "unfinished {}", missing),
            Verdict::Refused { reason, place } => write!(f, "refused {} at {}", reason, place),
        }
    }
}

/// The verdict, from two questions on the kind of pack.
///
/// `shortest` answers the length of the shortest pack that agrees with the given bytes as far as
/// both go, or nothing if there is none. `reason` is asked about bytes that agree with no pack,
/// though they do without their last byte.
///
/// What agrees with no pack does not come to agree with one by further bytes, so the first byte
/// that spoils the matter is found by halving.
pub fn judge(
    bytes: &[u8],
    shortest: impl Fn(&[u8]) -> Option<usize>,
    reason: impl Fn(&[u8]) -> u32,
) -> Verdict {
    match shortest(bytes) {
        Some(length) if length <= bytes.len() => Verdict::Complete(length),
        Some(length) => Verdict::Unfinished(length - bytes.len()),
        None => {
            let mut good = 0;
            let mut bad = bytes.len();
            while bad - good > 1 {
                let middle = (good + bad) / 2;
                if shortest(&bytes[..middle]).is_some() {
                    good = middle;
                } else {
                    bad = middle;
                }
            }
            Verdict::Refused {
                reason: reason(&bytes[..bad]),
                place: bad - 1,
            }
        }
    }
}

/// The first reason of an ordered list that holds. One must.
pub fn first_that_holds(list: &[(bool, u32)]) -> u32 {
    for &(holds, reason) in list {
        if holds {
            return reason;
        }
    }
    panic!("bytes are refused, but no reason holds");
}
