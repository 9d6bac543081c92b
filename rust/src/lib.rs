//! Kevrespil: hazard pointers as a machine that takes one step at a time, each step one access to shared memory.
//!
//! A [`Domain`] owns the machine's tables. A thread is a number from 0 to 15; it has nothing to do with the threads of the
//! operating system. A thread starts an [`Operation`] and then takes steps until the operation ends; between two of its
//! steps the others may take theirs, in any order. Records are numbered 1 to 1,024, sources 1 to 64, nodes 1 to 4,096,
//! and 0 is none.
//!
//! Every start and every step is answered, whatever is asked: see [`Answer`], and [`Refusal`] for the reasons to refuse.
//! A refusal changes nothing, but for two that it names.
//!
//! ```
//! use kevrespil::{Answer, Domain, Operation};
//!
//! let mut domain = Domain::new();
//! // Node 7 is put into source 1, so it is live; then it is taken out again and retired.
//! domain.run(0, Operation::Swap { source: 1, node: 7 }, 0);
//! domain.run(0, Operation::Swap { source: 1, node: 0 }, 0);
//! let retired = domain.run(0, Operation::Retire { node: 7, address: 0x100 }, 0);
//! assert_eq!(retired.answer, Answer::Done(1));
//! assert_eq!(retired.reclaimed, [7]);
//! ```
//!
//! `examples/turns.rs` has two tasks that take turns. The machine itself is written and proved in Rattle; this crate hands
//! numbers to it and gives its answers names.
#![deny(unsafe_code, missing_docs)]

mod answer;
mod domain;
#[allow(unsafe_code)]
mod ffi;
mod operation;

pub use answer::{Answer, Refusal};
pub use domain::{Domain, Run, RUN_STEPS};
pub use operation::Operation;
