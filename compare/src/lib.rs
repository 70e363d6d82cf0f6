//! Another implementation of tune cards and tune books, written from the
//! paper alone and by other means than the proved library, to compare the
//! two. `fast` is a third, for the comparison of speed.

pub mod book;
pub mod cable;
pub mod call;
#[cfg(feature = "proved")]
pub mod capi;
pub mod code;
pub mod dead;
pub mod digits;
pub mod fast;
pub mod field;
pub mod lent;
pub mod library;
pub mod random;
pub mod rank;
pub mod refusal;
pub mod samples;
pub mod strike;
pub mod text;
pub mod vectors;
pub mod writer;
