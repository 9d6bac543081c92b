//! A domain: the machine's tables, and the ways to move it.

use crate::ffi::{Reply, Tables, COUNT, RECORD_COUNT};
use crate::{Answer, Operation};

/// After so many steps [`Domain::run`] gives up. An operation that waits for nobody is over long before: it looks at
/// 1,024 records and at 4,096 nodes twice, and at little else.
pub const RUN_STEPS: u64 = 20_000;

/// A domain of hazard pointers, with its tables.
pub struct Domain {
    tables: Box<Tables>,
}

/// An operation that was run on one thread.
#[derive(Clone, Debug, PartialEq, Eq)]
pub struct Run {
    /// Its last answer. `Stepped` or `Reclaimed`: it is not over after [`RUN_STEPS`] steps, since it waits for a thread
    /// that stands inside an operation; `Domain::step` takes it on.
    pub answer: Answer,
    /// The nodes that it reclaimed, in order.
    pub reclaimed: Vec<u32>,
    /// How many steps it was given.
    pub steps: u64,
}

impl Default for Domain {
    fn default() -> Self {
        Domain::new()
    }
}

impl Domain {
    /// A fresh domain: no records, all nodes free, all sources empty.
    pub fn new() -> Domain {
        Domain {
            tables: Box::new(Tables {
                ids: [0; 4507],
                next: [0; 4096],
                state: [0; 4096],
                words: [0; 85],
                guards: [0; 1024],
            }),
        }
    }

    /// A thread starts an operation. Answers `Started`, or `Done` for a `TryProtect` of node 0, or refuses.
    pub fn start(&mut self, thread: u32, operation: Operation) -> Answer {
        let (kind, a, b, c) = operation.numbers();
        named(self.tables.start(thread, kind, a, b, c))
    }

    /// A thread takes a step. `spurious` makes a weak exchange fail, as it may; `clock` is the time in nanoseconds, which
    /// only a few steps look at.
    pub fn step(&mut self, thread: u32, spurious: bool, clock: u64) -> Answer {
        named(self.tables.step(thread, spurious, clock))
    }

    /// A thread starts an operation and takes its steps until it is over, all at one time, while the others stand still.
    pub fn run(&mut self, thread: u32, operation: Operation, clock: u64) -> Run {
        let mut run = Run { answer: self.start(thread, operation), reclaimed: Vec::new(), steps: 0 };
        if run.answer != Answer::Started {
            return run;
        }
        while run.steps < RUN_STEPS {
            run.answer = self.step(thread, false, clock);
            run.steps += 1;
            match run.answer {
                Answer::Stepped => {}
                Answer::Reclaimed(node) => run.reclaimed.push(node),
                _ => break,
            }
        }
        run
    }

    /// How many nodes are waiting, as the domain counts them. A thread in the middle of a retire has not added its node
    /// yet, and one that reclaims has taken the count with it until its pass is over; so it may be far from what waits,
    /// and far below 0 for a while: -1,001 in `days/stalled.replay`.
    pub fn count(&self) -> i64 {
        self.tables.words[COUNT] as i64
    }

    /// How many records there are, owned or not.
    pub fn records(&self) -> u64 {
        self.tables.words[RECORD_COUNT]
    }
}

fn named(reply: Reply) -> Answer {
    match Answer::from_numbers(reply.number, reply.value) {
        Some(answer) => answer,
        None => panic!("the machine answered {} with {}, which is no answer", reply.number, reply.value),
    }
}
