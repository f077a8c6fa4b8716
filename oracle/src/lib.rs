//! A reference model of the two-level data memory of paper 01, "The C64x data
//! memory in two levels". It is written from the sentences of that paper
//! and the readings of its open points in docs/DECISIONS.md, not from the
//! proved code or its definitions, for obviousness. The sentence a function carries out is quoted
//! above it. What paper 02 asks for is written in the same way from its sentences.

pub mod access;
pub mod bench;
pub mod calls;
pub mod commands;
pub mod covered;
pub mod dropped;
pub mod fetches;
pub mod flat;
pub mod frames;
pub mod gen;
pub mod geometry;
pub mod load;
pub mod machine;
pub mod modes;
pub mod record;
pub mod short_runs;
pub mod trace;
pub mod transfers;
pub mod unaligned;
pub mod view;
pub mod wellformed;
pub mod writer;
pub mod written;

pub use calls::{Answer, Reply};
pub use fetches::{Fetched, Program};
pub use frames::Framed;
pub use machine::Report;
pub use record::{L1dSet, L1pSet, L2Set, Left, Line, Record};
pub use trace::{Command, RunResult};
pub use transfers::Direction;
pub use unaligned::Unaligned;
