//! What closing says of a set.

use crate::sys::unknown;
use crate::words::word;
use std::fmt;

/// A set's verdict. It is displayed as the report prints it: `commit 0`, `lost 10`, `unfit 30`.
#[derive(Clone, Copy, Debug, PartialEq, Eq, Hash)]
pub enum Verdict {
    /// The set is fit and wins all its keys: its records are applied, and its rows take its mark.
    Commit,
    /// The set is fit, and this is the smallest key that another won. It leaves no trace, not even on a row that it won.
    Lost(u32),
    /// The smallest key that the set names wrongly: a change or delete of an absent one, or an insert of a present one.
    Unfit(u32),
}

/// The length of a verdict: its code and its key.
pub(crate) const VERDICT: usize = 5;

impl Verdict {
    /// The verdict that five bytes of the library are.
    pub(crate) fn read(bytes: &[u8]) -> Verdict {
        let key = u32::from_le_bytes(word(bytes, 1));
        match bytes[0] {
            1 => Verdict::Commit,
            2 => Verdict::Lost(key),
            3 => Verdict::Unfit(key),
            code => unknown("verdict", code.into()),
        }
    }
}

impl fmt::Display for Verdict {
    fn fmt(&self, f: &mut fmt::Formatter<'_>) -> fmt::Result {
        match self {
            Verdict::Commit => write!(f, "commit 0"),
            Verdict::Lost(key) => write!(f, "lost {key}"),
            Verdict::Unfit(key) => write!(f, "unfit {key}"),
        }
    }
}

#[cfg(test)]
mod tests {
    use super::*;

    #[test]
    fn every_verdict_has_its_words() {
        for (bytes, words) in [([1, 0, 0, 0, 0], "commit 0"), ([2, 10, 0, 0, 0], "lost 10"), ([3, 30, 1, 0, 2], "unfit 33554718")] {
            assert_eq!(Verdict::read(&bytes).to_string(), words);
        }
    }

    #[test]
    #[should_panic(expected = "verdict 4: library and wrapper do not belong together")]
    fn an_unknown_code_is_no_verdict() {
        Verdict::read(&[4, 0, 0, 0, 0]);
    }
}
