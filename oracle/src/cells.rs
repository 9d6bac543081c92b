// The shared cells by name. A name is a number, in the order in which a trace writes the cells.

pub const RECORDS: u32 = 1024;
pub const SOURCES: u32 = 64;
pub const NODES: u32 = 4096;
pub const SHARDS: u32 = 8;

/// A cell that no trace shows.
pub const UNNAMED: u32 = 0;
pub const RECORD_HEAD: u32 = 1;
pub const HEAD_AVAILABLE: u32 = 2;
/// Of shard 0; the others follow.
pub const SHARD: u32 = 3;
pub const RECORD_COUNT: u32 = 11;
pub const COUNT: u32 = 12;
pub const DUE_TIME: u32 = 13;
pub const NBULK_RECLAIMS: u32 = 14;
/// Record r has three cells from here + 3 r on: hazard, available_next, next.
pub const RECORD: u32 = 16;
pub const SOURCE: u32 = 4096;
/// Node n has two cells from here + 2 n on: next, state.
pub const NODE: u32 = 8192;
/// Above every name.
pub const NAMES: usize = (NODE + 2 * (NODES + 1)) as usize;

pub const fn hazard(record: u32) -> u32 {
    RECORD + 3 * record
}
pub const fn available_next(record: u32) -> u32 {
    hazard(record) + 1
}
pub const fn record_next(record: u32) -> u32 {
    hazard(record) + 2
}
/// The record whose cell this is.
pub const fn record_of(name: u32) -> u32 {
    (name - RECORD) / 3
}
pub const fn source(source: u32) -> u32 {
    SOURCE + source
}
pub const fn node_next(node: u32) -> u32 {
    NODE + 2 * node
}
pub const fn node_state(node: u32) -> u32 {
    node_next(node) + 1
}

/// What kind of cell a name is of, and its number.
#[derive(Clone, Copy, PartialEq, Eq, Debug)]
pub enum Cell {
    Unnamed,
    RecordHead,
    HeadAvailable,
    Shard(u32),
    RecordCount,
    Count,
    DueTime,
    NbulkReclaims,
    Hazard(u32),
    AvailableNext(u32),
    RecordNext(u32),
    Source(u32),
    NodeNext(u32),
    NodeState(u32),
}

pub fn cell(name: u32) -> Cell {
    const LAST_SHARD: u32 = SHARD + SHARDS - 1;
    const FIRST_OF_RECORDS: u32 = hazard(1);
    const LAST_OF_RECORDS: u32 = record_next(RECORDS);
    const FIRST_SOURCE: u32 = source(1);
    const LAST_SOURCE: u32 = source(SOURCES);
    const FIRST_OF_NODES: u32 = node_next(1);
    const LAST_OF_NODES: u32 = node_state(NODES);
    match name {
        RECORD_HEAD => Cell::RecordHead,
        HEAD_AVAILABLE => Cell::HeadAvailable,
        SHARD..=LAST_SHARD => Cell::Shard(name - SHARD),
        RECORD_COUNT => Cell::RecordCount,
        COUNT => Cell::Count,
        DUE_TIME => Cell::DueTime,
        NBULK_RECLAIMS => Cell::NbulkReclaims,
        FIRST_OF_RECORDS..=LAST_OF_RECORDS => match (name - RECORD) % 3 {
            0 => Cell::Hazard(record_of(name)),
            1 => Cell::AvailableNext(record_of(name)),
            _ => Cell::RecordNext(record_of(name)),
        },
        FIRST_SOURCE..=LAST_SOURCE => Cell::Source(name - SOURCE),
        FIRST_OF_NODES..=LAST_OF_NODES => match (name - NODE) % 2 {
            0 => Cell::NodeNext((name - NODE) / 2),
            _ => Cell::NodeState((name - NODE) / 2),
        },
        _ => Cell::Unnamed,
    }
}
