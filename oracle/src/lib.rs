// The oracle's library: the original under turns (shim, context, threads, machine), lines and traces, and what makes
// and compares replays.

extern crate alloc;

pub mod cells;
pub mod compare;
mod context;
pub mod frames;
pub mod generate;
pub mod machine;
pub mod model;
mod original;
pub mod random;
pub mod replay;
pub mod shim;
mod threads;
pub mod trace;

// Document 01's base: the original's debug assertions make accesses of their own, which would be steps.
const _: () = assert!(!cfg!(debug_assertions), "the oracle is built with debug assertions off");
