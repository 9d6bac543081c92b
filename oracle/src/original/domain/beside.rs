// Beside the original's domain.rs: nodes with room for their `Retired`, and the driver's look at a domain's cells.
#![warn(warnings)]

use super::{Domain, Retired, LOCK_BIT};
use crate::cells;
use crate::original::record::HazPtrRecord;
use crate::shim;
use std::cell::{Cell, UnsafeCell};
use std::mem::MaybeUninit;

/// A node: the object that the original protects, retires and reclaims. Its address is its identity.
///
/// A node is retired at most once at a time, so one place for its `Retired` is enough. Two heads are then equal exactly
/// when they are of one node, as document 01 compares them; boxes from the heap may come again at an old address.
#[repr(C)]
pub struct Node {
    // The first field: a pointer to the `Retired` is a pointer to the node.
    retired: UnsafeCell<MaybeUninit<Retired>>,
    full: Cell<bool>,
    number: u32,
}

// SAFETY: all logical threads run in one OS thread; the original asks for both only because its threads may be others.
unsafe impl Send for Node {}
unsafe impl Sync for Node {}

impl Node {
    pub fn new(number: u32) -> Self {
        Node { retired: UnsafeCell::new(MaybeUninit::uninit()), full: Cell::new(false), number }
    }

    pub fn number(&self) -> u32 {
        self.number
    }

    /// The node that the `next` of this one's `Retired` is of, or 0; 0 too if it has none.
    pub fn next(&self) -> u32 {
        if !self.full.get() {
            return 0;
        }
        // SAFETY: full, so written by `put`; no reference to it is mutable.
        number_of(unsafe { (*self.retired.get()).assume_init_ref() }.next.peek())
    }
}

// The node of a `Retired`, even of one that has gone: nodes outlive the domain.
fn number_of(retired: *const Retired) -> u32 {
    // SAFETY: every `Retired` that the original points to stands in a node, by `put`.
    unsafe { retired.cast::<Node>().as_ref() }.map_or(0, Node::number)
}

/// In place of `Box::into_raw`: the `Retired` goes into its node.
pub(super) fn put(retired: Box<Retired>) -> *mut Retired {
    let node = retired.ptr.cast::<Node>();
    // SAFETY: the oracle retires nodes only, and they outlive the domain.
    let node = unsafe { &*node };
    assert!(!node.full.replace(true), "node {} is retired twice", node.number);
    retired.next.name(cells::node_next(node.number));
    // SAFETY: not full, so nothing points to it.
    unsafe { (*node.retired.get()).write(*retired) as *mut Retired }
}

/// In place of `Box::from_raw`.
///
/// # Safety
/// `retired` is from `put`, and was not taken since.
pub(super) unsafe fn take(retired: *mut Retired) -> Box<Retired> {
    // SAFETY: `put` made it a node's.
    let node = unsafe { &*retired.cast::<Node>() };
    assert!(node.full.replace(false), "node {} is reclaimed twice", node.number);
    shim::freed(node.number);
    // SAFETY: it was full, and nobody reads it again before the next `put`.
    Box::new(unsafe { retired.read() })
}

/// In place of `Box::into_raw`: the record gets its number.
pub(super) fn numbered(record: Box<HazPtrRecord>) -> *mut HazPtrRecord {
    shim::number(&record);
    Box::into_raw(record)
}

/// The replay says where the box stands.
pub(super) fn given_address(_: *mut Retired) -> usize {
    shim::address() as usize
}

/// The number of a record, 0 for null.
fn record_number(record: *const HazPtrRecord) -> u32 {
    // SAFETY: records live as long as their domain, and this is asked of a living one only.
    unsafe { record.as_ref() }.map_or(0, |r| cells::record_of(r.ptr.known_as()))
}

/// The contents of a record's three cells.
pub(crate) fn look_at_record(record: &HazPtrRecord) -> [u32; 3] {
    // SAFETY: hazards are pointers to nodes, which outlive the domain.
    let hazard = unsafe { record.ptr.peek().cast::<Node>().as_ref() }.map_or(0, Node::number);
    [hazard, record_number(record.available_next.peek()), record_number(record.next.peek())]
}

impl<F> Domain<F> {
    pub fn name_cells(&self) {
        self.hazptrs.head.name(cells::RECORD_HEAD);
        self.hazptrs.head_available.name(cells::HEAD_AVAILABLE);
        for (shard, name) in self.untagged.iter().zip(cells::SHARD..) {
            shard.head.name(name);
        }
        self.hazptrs.count.name(cells::RECORD_COUNT);
        self.count.name(cells::COUNT);
        self.due_time.name(cells::DUE_TIME);
        self.nbulk_reclaims.name(cells::NBULK_RECLAIMS);
    }

    pub fn record_head(&self) -> u32 {
        record_number(self.hazptrs.head.peek())
    }
    pub fn head_available(&self) -> u32 {
        let head = self.hazptrs.head_available.peek();
        2 * record_number(head.map_addr(|a| a & !LOCK_BIT)) + (head.addr() & LOCK_BIT) as u32
    }
    pub fn shard(&self, shard: u32) -> u32 {
        number_of(self.untagged[shard as usize].head.peek())
    }
    pub fn record_count(&self) -> isize {
        self.hazptrs.count.peek()
    }
    pub fn count(&self) -> isize {
        self.count.peek()
    }
    pub fn due_time(&self) -> u64 {
        self.due_time.peek()
    }
    pub fn nbulk_reclaims(&self) -> usize {
        self.nbulk_reclaims.peek()
    }
}
