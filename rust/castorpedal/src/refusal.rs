//! Why an operation is refused: document 01's table 'What is refused', and what document 02 adds to it.

use crate::sys::unknown;
use std::error::Error;
use std::fmt;

/// Why an operation was refused; the smallest number that applies is given, but of a tag 11 before 9. It is displayed in the documents' words.
#[derive(Clone, Copy, Debug, PartialEq, Eq, PartialOrd, Ord, Hash)]
pub enum Refusal {
    /// 1: the register is ill-formed.
    RegisterIllFormed = 1,
    /// 2: the sheet is ill-formed.
    SheetIllFormed = 2,
    /// 3: the offered set or notice is ill-formed; at the desk the open set, the kind or the value.
    OfferIllFormed = 3,
    /// 4: epoch 0, another epoch than the sheet's, or an epoch that does not follow the snapshot.
    WrongEpoch = 4,
    /// 5: roster 0, another roster, or a master that is not in it.
    WrongRoster = 5,
    /// 6: the sheet to be closed is spoiled.
    Spoiled = 6,
    /// 7: a roster master has no notice, or fewer sets than it says.
    Incomplete = 7,
    /// 8: the next register would have over 1,024 rows.
    TooManyRows = 8,
    /// 9: an output buffer is too short. Only the functions on slices give it.
    BufferShort = 9,
    /// 10: a read check's mode, keys, number of entries or lsn.
    CheckIllFormed = 10,
    /// 11: no right tag, or a key that no station has.
    BadTag = 11,
    /// 12: the open set has a record of that key.
    KeyEntered = 12,
    /// 13: the open set has eight records.
    NinthRecord = 13,
}

impl Refusal {
    /// The documents' number, 1 to 13.
    pub fn number(self) -> u32 {
        self as u32
    }

    /// What a code of the library says: 0 that the operation was done, else the refusal's number.
    pub(crate) fn of(code: u32) -> Result<(), Refusal> {
        Err(match code {
            0 => return Ok(()),
            1 => Refusal::RegisterIllFormed,
            2 => Refusal::SheetIllFormed,
            3 => Refusal::OfferIllFormed,
            4 => Refusal::WrongEpoch,
            5 => Refusal::WrongRoster,
            6 => Refusal::Spoiled,
            7 => Refusal::Incomplete,
            8 => Refusal::TooManyRows,
            9 => Refusal::BufferShort,
            10 => Refusal::CheckIllFormed,
            11 => Refusal::BadTag,
            12 => Refusal::KeyEntered,
            13 => Refusal::NinthRecord,
            _ => unknown("refusal", code),
        })
    }
}

impl fmt::Display for Refusal {
    fn fmt(&self, f: &mut fmt::Formatter<'_>) -> fmt::Result {
        f.write_str(match self {
            Refusal::RegisterIllFormed => "register ill-formed",
            Refusal::SheetIllFormed => "sheet ill-formed",
            Refusal::OfferIllFormed => "offered set or notice ill-formed; desk: open set, kind or value ill-formed",
            Refusal::WrongEpoch => "open: epoch 0; put, notice, join: epochs differ; close: epoch is not s + 1",
            Refusal::WrongRoster => "open: roster 0; put, notice: master not in roster; join: rosters differ",
            Refusal::Spoiled => "close: sheet spoiled",
            Refusal::Incomplete => "close: a roster master has no notice, or fewer sets than it says",
            Refusal::TooManyRows => "close: next register would have over 1,024 rows",
            Refusal::BufferShort => "an output buffer shorter than 9,240 (sheet), 28,680 (register), 320 (verdicts), 11 (tag)",
            Refusal::CheckIllFormed => {
                "read check: mode not 1 to 3, a key 0, over 32 entries, or (in every mode) lsn above the snapshot"
            }
            Refusal::BadTag => "bad tag or key out of range",
            Refusal::KeyEntered => "key already in the open set",
            Refusal::NinthRecord => "a ninth record",
        })
    }
}

impl Error for Refusal {}

#[cfg(test)]
mod tests {
    use super::*;

    /// The table 'What is refused', its second column, and document 02's words for the desk.
    const WORDS: [&str; 13] = [
        "register ill-formed",
        "sheet ill-formed",
        "offered set or notice ill-formed; desk: open set, kind or value ill-formed",
        "open: epoch 0; put, notice, join: epochs differ; close: epoch is not s + 1",
        "open: roster 0; put, notice: master not in roster; join: rosters differ",
        "close: sheet spoiled",
        "close: a roster master has no notice, or fewer sets than it says",
        "close: next register would have over 1,024 rows",
        "an output buffer shorter than 9,240 (sheet), 28,680 (register), 320 (verdicts), 11 (tag)",
        "read check: mode not 1 to 3, a key 0, over 32 entries, or (in every mode) lsn above the snapshot",
        "bad tag or key out of range",
        "key already in the open set",
        "a ninth record",
    ];

    #[test]
    fn every_number_has_its_words() {
        assert_eq!(Refusal::of(0), Ok(()));
        for (number, words) in (1..).zip(WORDS) {
            let refusal = Refusal::of(number).unwrap_err();
            assert_eq!((refusal.number(), refusal.to_string().as_str()), (number, words));
        }
    }

    #[test]
    #[should_panic(expected = "refusal 14: library and wrapper do not belong together")]
    fn an_unknown_code_is_no_refusal() {
        let _ = Refusal::of(14);
    }

    #[test]
    fn is_an_error_like_others() {
        fn spoiled() -> Result<(), Box<dyn Error>> {
            Refusal::of(6)?;
            Ok(())
        }
        assert_eq!(spoiled().unwrap_err().to_string(), "close: sheet spoiled");
    }
}
