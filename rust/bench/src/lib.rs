//! The proved library is measured beside Rust: `twin` does the same work in plain Rust, `rival` closes by a faster algorithm, and `paper`
//! is the independent implementation, which keeps maps and vectors.

pub mod inputs;
pub mod lines;
pub mod rival;
pub mod twin;
