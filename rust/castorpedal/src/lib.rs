//! The proved operations, for Rust: safe on every input.
//!
//! A [`Sheet`] gathers an epoch's write sets, and a [`Register`] closes the epoch with it. Both own their bytes and are always well-formed. At
//! the desk a clerk types a set into an [`OpenSet`], station by station, each by its [`tag`], and offers it to the sheet.
//! An operation that cannot be done answers a [`Refusal`] and changes nothing; `docs/FORMS.md` has the layouts and what to do about each.
//!
//! ```
//! use castorpedal::{record, Refusal, Register, Row, Sheet, Verdict};
//!
//! // The clerk's example A: two masters change station 10, and the smaller csn wins.
//! let register = Register::drawn_up(&[(10, 1), (20, 0)])?;
//! let mut sheet = Sheet::open(1, 40)?; // epoch 1; bits 3 and 5: masters 3 and 5
//! sheet.put(1, 1, 3, &record::change(10, 6))?; // epoch 1, sen 1, csn 3
//! sheet.put(1, 1, 5, &record::change(10, 2))?;
//! sheet.notice(1, 3, 1)?; // epoch 1: master 3 sent one set
//! sheet.notice(1, 5, 1)?;
//!
//! let (next, verdicts) = register.close(&sheet)?;
//! assert_eq!(verdicts, [Verdict::Commit, Verdict::Lost(10)]);
//! assert_eq!(next.snapshot(), 1);
//! assert_eq!(next.rows().next(), Some(Row { key: 10, value: 6, cen: 1, sen: 1, csn: 3 }));
//!
//! // The epoch is closed: the same sheet on the next register is refused.
//! assert_eq!(next.close(&sheet), Err(Refusal::WrongEpoch));
//! # Ok::<(), Refusal>(())
//! ```
//!
//! [`open`], [`put`], [`notice`], [`join`], [`close`], [`check`], [`check_reads`], [`desk_enter`], [`desk_offer`] and [`desk_tag`] are the same
//! operations on slices of any length, and on any [`RawOpenSet`], for callers with buffers of their own. Those that write to a buffer answer the
//! length that they wrote; the bytes after it stay, and a refusal leaves every lent byte as it was.
#![deny(missing_docs, unsafe_code)]

#[allow(unsafe_code)]
mod calls;
mod desk;
mod reads;
pub mod record;
mod refusal;
mod register;
mod sheet;
mod sys;
mod verdict;
mod words;

pub use calls::{check, check_reads, close, desk_enter, desk_offer, desk_tag, join, notice, open, put, Closed};
pub use calls::{REGISTER_ROOM, SHEET_ROOM, TAG_ROOM, VERDICT_ROOM};
pub use desk::{tag, OpenSet, RawOpenSet};
pub use reads::{Checked, Read, Reason};
pub use record::Record;
pub use refusal::Refusal;
pub use register::{Register, Row};
pub use sheet::Sheet;
pub use verdict::Verdict;
