//! What a thread can start.

/// An operation, with what it is asked for. Numbers that are out of range are refused by the machine.
#[derive(Clone, Copy, Debug, PartialEq, Eq, Hash)]
pub enum Operation {
    /// Takes a record, which the thread owns from the answer on.
    Acquire,
    /// Gives a record back.
    Release {
        /// A record that the thread owns.
        record: u32,
    },
    /// Claims what the source holds until the record is stored to again.
    Protect {
        /// A record that the thread owns.
        record: u32,
        /// The source.
        source: u32,
    },
    /// Claims this node if the source holds it; else answers `Retry`, and the record claims nothing.
    Try {
        /// A record that the thread owns.
        record: u32,
        /// The source.
        source: u32,
        /// The node that the source is expected to hold.
        node: u32,
    },
    /// As `Try`, but done at once for node 0, the record's claim untouched.
    TryProtect {
        /// A record that the thread owns.
        record: u32,
        /// The source.
        source: u32,
        /// The node that the source is expected to hold.
        node: u32,
    },
    /// Ends the record's claim.
    Reset {
        /// A record that the thread owns.
        record: u32,
    },
    /// Stores a node in the record, whether a source holds it or not.
    Raw {
        /// A record that the thread owns.
        record: u32,
        /// The node, or 0.
        node: u32,
    },
    /// Puts a node into a source and answers what was there. A free node becomes live.
    Swap {
        /// The source.
        source: u32,
        /// The node, or 0 for none.
        node: u32,
    },
    /// Hands over a live node that no source holds, to be reclaimed when nobody claims it.
    Retire {
        /// The node.
        node: u32,
        /// The address by which it is sorted into one of the eight lists.
        address: u64,
    },
    /// Reclaims what nobody claims, now.
    Eager,
    /// As `Eager`, then waits until no thread is reclaiming.
    Cleanup,
    /// Reclaims all that is waiting. No operation can start from then on.
    Shutdown,
}

impl Operation {
    /// Its number in a line of a replay, and the three fields behind it.
    pub fn numbers(self) -> (u32, u32, u32, u64) {
        match self {
            Operation::Acquire => (1, 0, 0, 0),
            Operation::Release { record } => (2, record, 0, 0),
            Operation::Protect { record, source } => (3, record, source, 0),
            Operation::Try { record, source, node } => (4, record, source, u64::from(node)),
            Operation::TryProtect { record, source, node } => (5, record, source, u64::from(node)),
            Operation::Reset { record } => (6, record, 0, 0),
            Operation::Raw { record, node } => (7, record, 0, u64::from(node)),
            Operation::Swap { source, node } => (8, 0, source, u64::from(node)),
            Operation::Retire { node, address } => (9, node, 0, address),
            Operation::Eager => (10, 0, 0, 0),
            Operation::Cleanup => (11, 0, 0, 0),
            Operation::Shutdown => (12, 0, 0, 0),
        }
    }
}
