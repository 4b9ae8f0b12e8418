//! What the read check takes and what it finds.

use crate::sys::unknown;
use std::fmt;

/// A key that was read, and the csn seen with it.
#[repr(C)]
#[derive(Clone, Copy, Debug, PartialEq, Eq, Hash)]
pub struct Read {
    /// The row's key.
    pub key: u32,
    /// The csn that the row's mark had.
    pub csn: u64,
}

/// Why the read check fails an entry.
#[derive(Clone, Copy, Debug, PartialEq, Eq, Hash)]
pub enum Reason {
    /// 1: the row is gone.
    Gone = 1,
    /// 2: the row has another csn than the one seen.
    OtherCsn = 2,
    /// 3: the row is too new for the latest snapshot.
    TooNew = 3,
}

impl Reason {
    /// Document 01's number, 1 to 3.
    pub fn number(self) -> u32 {
        self as u32
    }

    /// What a reason of the library says: 0 that no entry failed, else why.
    pub(crate) fn of(number: u32) -> Option<Reason> {
        Some(match number {
            0 => return None,
            1 => Reason::Gone,
            2 => Reason::OtherCsn,
            3 => Reason::TooNew,
            _ => unknown("reason", number),
        })
    }
}

impl fmt::Display for Reason {
    fn fmt(&self, f: &mut fmt::Formatter<'_>) -> fmt::Result {
        f.write_str(match self {
            Reason::Gone => "gone",
            Reason::OtherCsn => "another csn",
            Reason::TooNew => "too new",
        })
    }
}

/// What the read check finds: a pass, or the first failing entry.
#[derive(Clone, Copy, Debug, PartialEq, Eq, Hash)]
pub enum Checked {
    /// Every entry still stands.
    Pass,
    /// An entry fails.
    Fails {
        /// The first failing entry's place in the list, from 0.
        index: usize,
        /// Its key.
        key: u32,
        /// Why it fails.
        reason: Reason,
    },
}

#[cfg(test)]
mod tests {
    use super::*;

    #[test]
    fn every_reason_has_its_words() {
        assert_eq!(Reason::of(0), None);
        for (number, words) in (1..).zip(["gone", "another csn", "too new"]) {
            let reason = Reason::of(number).unwrap();
            assert_eq!((reason.number(), reason.to_string().as_str()), (number, words));
        }
    }

    #[test]
    #[should_panic(expected = "reason 4: library and wrapper do not belong together")]
    fn an_unknown_number_is_no_reason() {
        Reason::of(4);
    }
}
