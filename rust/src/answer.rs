//! What comes back from a start or a step, and why one is refused.

use std::error::Error;
use std::fmt;

/// What a start or a step answers.
#[derive(Clone, Copy, Debug, PartialEq, Eq, Hash)]
pub enum Answer {
    /// The step was taken, and the operation goes on.
    Stepped,
    /// The operation has begun; no step was taken.
    Started,
    /// The operation is over: the record of an acquire, the node of a protect, a try or a swap, how many nodes a retire,
    /// an eager or a shutdown reclaimed, 0 for any other.
    Done(u64),
    /// A try is over: the source held another node, this one, or none if it is 0.
    Retry(u32),
    /// This node was reclaimed, and the operation goes on: whoever owns its memory may free it now.
    Reclaimed(u32),
    /// Refused.
    Refused(Refusal),
}

/// Why a start or a step is refused. Nothing has changed, but that `NotRetirable` and `NoRecords` at a step also end the
/// operation and count as a step.
#[derive(Clone, Copy, Debug, PartialEq, Eq, Hash)]
#[repr(u32)]
pub enum Refusal {
    /// A table has the wrong size. A [`Domain`](crate::Domain)'s never have.
    TableSize = 16,
    /// The thread is above 15.
    Thread = 17,
    /// A start during or after shutdown.
    ShutDown = 18,
    /// The domain has taken all of its 2^40 steps.
    StepLimit = 19,
    /// A start of a thread that is inside an operation.
    Inside = 20,
    /// A step of a thread that is not inside an operation.
    Idle = 21,
    /// The thread does not own the record.
    Record = 22,
    /// The source is not 1 to 64.
    Source = 23,
    /// The node is above 4,096, or 0 for a retire.
    Node = 24,
    /// A retire of a node that is not live or still in a source; a swap whose node is waiting to be reclaimed.
    NotRetirable = 25,
    /// All 1,024 records are taken.
    NoRecords = 26,
    /// A shutdown while another thread is inside an operation, or a record is owned.
    InUse = 27,
    /// The numbers are those of no operation. An [`Operation`](crate::Operation)'s always are.
    NoOperation = 28,
    /// A table holds a number that is out of its range. A [`Domain`](crate::Domain)'s never do.
    OutOfRange = 29,
}

impl Refusal {
    /// All of them, by their numbers.
    pub const ALL: [Refusal; 14] = [
        Refusal::TableSize,
        Refusal::Thread,
        Refusal::ShutDown,
        Refusal::StepLimit,
        Refusal::Inside,
        Refusal::Idle,
        Refusal::Record,
        Refusal::Source,
        Refusal::Node,
        Refusal::NotRetirable,
        Refusal::NoRecords,
        Refusal::InUse,
        Refusal::NoOperation,
        Refusal::OutOfRange,
    ];

    /// Its number, 16 to 29.
    pub fn number(self) -> u32 {
        self as u32
    }
}

impl fmt::Display for Refusal {
    fn fmt(&self, f: &mut fmt::Formatter<'_>) -> fmt::Result {
        f.write_str(match self {
            Refusal::TableSize => "a table has the wrong size",
            Refusal::Thread => "the thread is above 15",
            Refusal::ShutDown => "the domain is shut down, or being shut down",
            Refusal::StepLimit => "the domain has taken all of its steps",
            Refusal::Inside => "the thread is inside an operation",
            Refusal::Idle => "the thread is not inside an operation",
            Refusal::Record => "the thread does not own the record",
            Refusal::Source => "the source is not 1 to 64",
            Refusal::Node => "the node is above 4,096, or 0 for a retire",
            Refusal::NotRetirable => "the node is not live, still in a source, or waiting to be reclaimed",
            Refusal::NoRecords => "all 1,024 records are taken",
            Refusal::InUse => "another thread is inside an operation, or a record is owned",
            Refusal::NoOperation => "there is no such operation",
            Refusal::OutOfRange => "a table holds a number that is out of its range",
        })
    }
}

impl Error for Refusal {}

impl Answer {
    /// The answer of these numbers, if it is one.
    pub fn from_numbers(number: u32, value: u64) -> Option<Answer> {
        Some(match number {
            0 => Answer::Stepped,
            1 => Answer::Started,
            2 => Answer::Done(value),
            3 => Answer::Retry(u32::try_from(value).ok()?),
            4 => Answer::Reclaimed(u32::try_from(value).ok()?),
            _ => Answer::Refused(*Refusal::ALL.get(number.checked_sub(16)? as usize)?),
        })
    }

    /// Its number and its value.
    pub fn numbers(self) -> (u32, u64) {
        match self {
            Answer::Stepped => (0, 0),
            Answer::Started => (1, 0),
            Answer::Done(value) => (2, value),
            Answer::Retry(node) => (3, u64::from(node)),
            Answer::Reclaimed(node) => (4, u64::from(node)),
            Answer::Refused(refusal) => (refusal.number(), 0),
        }
    }
}
