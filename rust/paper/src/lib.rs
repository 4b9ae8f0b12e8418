//! Document 01 with document 02's changes L1 and L2 in plain Rust, written from the documents and not from the Rattle code.
//!
//! It is the other side of every comparison, so it is written to be read beside the documents: maps and vectors, nothing clever.
//! Each operation takes the same arguments as the exported one and answers what is written, or the number of a refusal.

mod check;
mod close;
mod desk;
mod gather;
mod register;
mod sheet;

pub use check::{check, Finding};
pub use close::{close, Closing};
pub use desk::{enter, offer, tag, tagged, OpenSet, DAMM};
pub use gather::{join, notice, open, put};
pub use register::{Mark, Register, Row};
pub use sheet::{Kind, Record, Set, Sheet};

/// The number of a refusal, 1 to 13.
pub type Refusal = u32;

/// The least lengths of the output buffers.
pub const SHEET_ROOM: usize = 9240;
pub const REGISTER_ROOM: usize = 28680;
pub const VERDICT_ROOM: usize = 320;
pub const TAG_ROOM: usize = 11;

/// The little-endian number in some bytes.
fn number(bytes: &[u8]) -> u64 {
    bytes.iter().rev().fold(0, |n, b| n << 8 | u64::from(*b))
}
