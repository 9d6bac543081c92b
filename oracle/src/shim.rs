// The shim: atomics that wait for their turn before each access, and the driver's side of the turns.
//
// A logical thread runs the original's code on a stack of its own until it comes to a shared access. There it waits;
// the driver's next step of that thread lets it make the access and run on to the one after. So a step is one access
// and the thread's own work after it. What the original writes just before an access, but document 01 puts into the
// access's step, is preceded by `open`: that waits for the turn, and the access that follows uses it. Everything runs
// in one OS thread and one access is finished before the next begins, which is sequential consistency; the orders that
// the original asks for are ignored.

use crate::cells;
use crate::context::Context;
use crate::original::record::HazPtrRecord;
use std::cell::{Cell, RefCell};
use std::sync::atomic::{AtomicU32, Ordering};

/// What a thread waits to do.
#[derive(Clone, Copy, PartialEq, Eq, Debug)]
pub enum Kind {
    Load,
    Store,
    Swap,
    Add,
    /// An exchange that fails only if the content is another.
    Strong,
    /// An exchange that also fails when the step's flag asks.
    Weak,
    /// Takes a new record, then loads the list head.
    NewRecord,
    /// Writes a record's `next`, then exchanges the list head.
    LinkRecord,
    /// Writes a node's `next`, then exchanges a shard's head.
    LinkNode,
    /// Reads the clock, then loads or stores the due time.
    Clock,
    /// Examines one stolen node.
    Examine,
    /// Reclaims one node.
    Reclaim,
    /// Frees all records.
    FreeRecords,
}

/// Where a thread waits: what it will do, and to which cell if that is known already.
#[derive(Clone, Copy, PartialEq, Eq, Debug)]
pub struct Wait {
    pub kind: Kind,
    pub name: u32,
}

thread_local! {
    // The turn that runs a logical thread now; null while the driver itself runs, whose accesses are made at once.
    static CURRENT: Cell<*const Turn> = const { Cell::new(std::ptr::null()) };
}

/// One machine's turns: what a step gives the thread that takes it, and what the thread reports.
pub(crate) struct Turn {
    context: Cell<*const Context>,
    // Whether the running thread may still make this step's access.
    granted: Cell<bool>,
    clock: Cell<u64>,
    flag: Cell<bool>,
    address: Cell<u64>,
    waits: Cell<Wait>,
    reclaimed: Cell<u32>,
    /// Whether cells written are noted in `touched`.
    pub tracing: Cell<bool>,
    /// The names of the cells written, in no order and perhaps more than once.
    pub touched: RefCell<Vec<u32>>,
    records: RefCell<Vec<*const HazPtrRecord>>,
}

impl Turn {
    pub fn new() -> Self {
        Turn {
            context: Cell::new(std::ptr::null()),
            granted: Cell::new(false),
            clock: Cell::new(0),
            flag: Cell::new(false),
            address: Cell::new(0),
            waits: Cell::new(Wait { kind: Kind::Load, name: cells::UNNAMED }),
            reclaimed: Cell::new(0),
            tracing: Cell::new(false),
            touched: RefCell::new(Vec::new()),
            records: RefCell::new(Vec::new()),
        }
    }

    // Runs the thread until it waits again or is idle.
    fn run(&self, context: &Context) {
        self.context.set(context);
        self.reclaimed.set(0);
        let before = CURRENT.replace(self);
        // SAFETY: the driver is the only caller (a thread's own code never reaches this), so no context runs.
        unsafe { context.resume() };
        CURRENT.set(before);
    }

    /// Runs a start: the thread's own work up to its first access. `address` is that of a retired box.
    pub fn start(&self, context: &Context, address: u64) {
        self.granted.set(false);
        self.address.set(address);
        self.run(context);
    }

    /// Runs one step, with its clock and flag.
    pub fn step(&self, context: &Context, clock: u64, flag: bool) {
        self.granted.set(true);
        self.clock.set(clock);
        self.flag.set(flag);
        self.run(context);
        assert!(!self.granted.get(), "a step without an access");
    }

    /// Where the thread that ran last waits, if it does.
    pub fn waits(&self) -> Wait {
        self.waits.get()
    }

    /// The node that the last run reclaimed, or 0.
    pub fn reclaimed(&self) -> u32 {
        self.reclaimed.get()
    }

    /// How many records there are.
    pub fn record_count(&self) -> u32 {
        self.records.borrow().len() as u32
    }

    /// The record of this number; the pointer dangles after shutdown.
    pub(crate) fn record(&self, number: u32) -> Option<*const HazPtrRecord> {
        self.records.borrow().get((number as usize).wrapping_sub(1)).copied()
    }

    pub fn touch(&self, name: u32) {
        if self.tracing.get() {
            self.touched.borrow_mut().push(name);
        }
    }
}

fn current() -> Option<&'static Turn> {
    // SAFETY: set for the duration of `run` only, which borrows the turn; and what runs meanwhile keeps no such
    // reference beyond the run, since it is stopped when `run` returns.
    unsafe { CURRENT.get().as_ref() }
}

// Waits for the turn unless the thread has it.
#[inline]
fn wait(wait: Wait) -> Option<&'static Turn> {
    let turn = current()?;
    if !turn.granted.get() {
        turn.waits.set(wait);
        // SAFETY: set by `run` to the context that runs now, which is the one this code is on.
        unsafe { (*turn.context.get()).suspend() };
    }
    Some(turn)
}

// Waits for the turn and uses it up. Answers the step's flag.
#[inline]
fn take(kind: Kind, name: u32) -> bool {
    match wait(Wait { kind, name }) {
        Some(turn) => {
            turn.granted.set(false);
            turn.flag.get()
        }
        None => false,
    }
}

fn touch(name: u32) {
    if let Some(turn) = current() {
        turn.touch(name);
    }
}

/// What follows belongs to the step of the access after it.
pub fn open(kind: Kind) {
    wait(Wait { kind, name: cells::UNNAMED });
}

/// What follows is a step without an atomic access.
pub fn step(kind: Kind) {
    take(kind, cells::UNNAMED);
}

/// The step's clock. It is read in the step of the access after it.
pub fn now() -> u64 {
    wait(Wait { kind: Kind::Clock, name: cells::DUE_TIME }).map_or(0, |turn| turn.clock.get())
}

/// The address that the retire's start was given for its box.
pub fn address() -> u64 {
    current().map_or(0, |turn| turn.address.get())
}

/// Reports a node that the deleter was called with.
pub fn reclaimed(node: u32) {
    if let Some(turn) = current() {
        assert_eq!(turn.reclaimed.replace(node), 0, "two nodes reclaimed in one step");
    }
}

/// A node's `Retired` has gone.
pub fn freed(node: u32) {
    touch(cells::node_next(node));
}

/// Numbers a new record in the order of creation, and names its cells.
pub(crate) fn number(record: &HazPtrRecord) {
    let turn = current().expect("records are made by logical threads only");
    let mut records = turn.records.borrow_mut();
    records.push(record);
    let number = records.len() as u32;
    record.ptr.name(cells::hazard(number));
    record.available_next.name(cells::available_next(number));
    record.next.name(cells::record_next(number));
}

/// Barriers take no step.
pub fn fence(_: Ordering) {}

/// A thread that yields has nothing else to do here.
pub fn yield_now() {}

// A cell's name. An atomic, so that the original's static domain may be shared; never written by two threads at once.
struct Name(AtomicU32);

impl Name {
    const fn none() -> Self {
        Name(AtomicU32::new(cells::UNNAMED))
    }
    fn get(&self) -> u32 {
        self.0.load(Ordering::Relaxed)
    }
}

// An atomic of the shim. The content is in an atomic of the standard library, so that nothing here is unsafe; as only
// one OS thread comes to it, loads and stores suffice. `of` is the type of content.
macro_rules! shim {
    ([$($generic:ident)?] $shim:ty, $inner:ty, $of:ty) => {
        impl<$($generic)?> $shim {
            pub const fn new(content: $of) -> Self {
                Self { content: <$inner>::new(content), name: Name::none() }
            }
            /// Names the cell.
            pub fn name(&self, name: u32) {
                self.name.0.store(name, Ordering::Relaxed);
            }
            /// The driver's look at the content; no access.
            pub fn peek(&self) -> $of {
                self.content.load(Ordering::Relaxed)
            }
            fn put(&self, content: $of) {
                touch(self.name.get());
                self.content.store(content, Ordering::Relaxed);
            }
            pub fn load(&self, _: Ordering) -> $of {
                take(Kind::Load, self.name.get());
                self.peek()
            }
            pub fn store(&self, content: $of, _: Ordering) {
                take(Kind::Store, self.name.get());
                self.put(content);
            }
            pub fn swap(&self, content: $of, _: Ordering) -> $of {
                take(Kind::Swap, self.name.get());
                let before = self.peek();
                self.put(content);
                before
            }
            pub fn compare_exchange(&self, old: $of, new: $of, _: Ordering, _: Ordering) -> Result<$of, $of> {
                take(Kind::Strong, self.name.get());
                self.exchange(old, new, false)
            }
            pub fn compare_exchange_weak(&self, old: $of, new: $of, _: Ordering, _: Ordering) -> Result<$of, $of> {
                let fails = take(Kind::Weak, self.name.get());
                self.exchange(old, new, fails)
            }
            fn exchange(&self, old: $of, new: $of, fails: bool) -> Result<$of, $of> {
                let before = self.peek();
                if before != old || fails {
                    return Err(before);
                }
                self.put(new);
                Ok(before)
            }
        }
    };
}

macro_rules! counter {
    ($shim:ident, $of:ty) => {
        pub struct $shim {
            content: std::sync::atomic::$shim,
            name: Name,
        }
        shim!([] $shim, std::sync::atomic::$shim, $of);
        impl $shim {
            pub fn fetch_add(&self, more: $of, _: Ordering) -> $of {
                take(Kind::Add, self.name.get());
                let before = self.peek();
                self.put(before.wrapping_add(more));
                before
            }
            pub fn fetch_sub(&self, less: $of, order: Ordering) -> $of {
                self.fetch_add((0 as $of).wrapping_sub(less), order)
            }
        }
    };
}

counter!(AtomicIsize, isize);
counter!(AtomicUsize, usize);
counter!(AtomicU64, u64);

pub struct AtomicPtr<T> {
    content: std::sync::atomic::AtomicPtr<T>,
    name: Name,
}

shim!([T] AtomicPtr<T>, std::sync::atomic::AtomicPtr<T>, *mut T);

impl<T> AtomicPtr<T> {
    /// The name of the cell, by which the driver knows what a pointer to it means.
    pub fn known_as(&self) -> u32 {
        self.name.get()
    }
    /// Nobody else can come to the cell, so this is no access.
    pub fn with_mut<R>(&mut self, f: impl FnOnce(&mut *mut T) -> R) -> R {
        touch(self.name.get());
        f(self.content.get_mut())
    }
    pub fn get_mut(&mut self) -> &mut *mut T {
        self.content.get_mut()
    }
    pub fn into_inner(self) -> *mut T {
        self.content.into_inner()
    }
}

impl<T> std::fmt::Debug for AtomicPtr<T> {
    fn fmt(&self, f: &mut std::fmt::Formatter<'_>) -> std::fmt::Result {
        self.content.fmt(f)
    }
}

/// The `next` of a record or node: an AtomicPtr whose accesses take no step.
pub struct Link<T> {
    content: std::sync::atomic::AtomicPtr<T>,
    name: Name,
}

impl<T> Link<T> {
    pub const fn new(content: *mut T) -> Self {
        Link { content: std::sync::atomic::AtomicPtr::new(content), name: Name::none() }
    }
    pub fn name(&self, name: u32) {
        self.name.0.store(name, Ordering::Relaxed);
    }
    pub fn peek(&self) -> *mut T {
        self.content.load(Ordering::Relaxed)
    }
    pub fn load(&self, _: Ordering) -> *mut T {
        self.peek()
    }
    pub fn store(&self, content: *mut T, _: Ordering) {
        touch(self.name.get());
        self.content.store(content, Ordering::Relaxed);
    }
    pub fn with_mut<R>(&mut self, f: impl FnOnce(&mut *mut T) -> R) -> R {
        touch(self.name.get());
        f(self.content.get_mut())
    }
}
