//! Put, notice, join and close in plain Rust: what a Rust programmer would write to do the same. Closing is the library's own algorithm; joining
//! is the best that we could write.
//!
//! Each answers the lengths that it wrote, or document 01's number of a refusal, and then leaves the lent bytes alone. Nothing is allocated.

mod close;
pub mod forms;
mod gather;

pub use close::{closable, close, started};
pub use forms::{is_register, is_sheet};
pub use gather::{join, notice, put};
