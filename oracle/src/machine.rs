// The driver: the original with 16 logical threads, and the bookkeeping that document 01 adds to it. It answers a line
// by letting the original run, or refuses it without touching the original.

use crate::cells::{self, cell, Cell, NODES, RECORDS, SOURCES};
use crate::frames::{self, Answer, Frame};
use crate::original::domain::beside::{look_at_record, Node};
use crate::original::Domain;
use crate::shim::{Kind, Turn, Wait};
use crate::threads::{Family, Hazard, Operation, Outcome, Source, Thread};
use std::mem::ManuallyDrop;

pub const THREADS: usize = 16;
const STEPS: u64 = 1 << 40;

pub const FREE: u8 = 0;
pub const LIVE: u8 = 1;
pub const WAITING: u8 = 2;

// What the driver knows of a thread.
#[derive(Clone, Copy)]
struct Inside {
    // The kind of the operation that it is in; STEP stands for none.
    kind: u8,
    // Where it waits, if it is inside.
    waits: Wait,
    // Of a swap: the node put in.
    node: u32,
    // How many nodes the operation has reclaimed.
    reclaimed: u64,
}

/// Lines by what answered them.
#[derive(Clone, Default)]
pub struct Tally {
    pub lines: u64,
    /// Starts that the original ran, up to its first access.
    pub starts: u64,
    /// Steps that the original made.
    pub steps: u64,
    /// Refusals, by number, that the bookkeeping gave.
    pub refusals: [u64; 30],
}

impl Tally {
    pub fn refused(&self) -> u64 {
        self.refusals.iter().sum()
    }
    pub fn add(&mut self, other: &Tally) {
        self.lines += other.lines;
        self.starts += other.starts;
        self.steps += other.steps;
        for (mine, theirs) in self.refusals.iter_mut().zip(other.refusals) {
            *mine += theirs;
        }
    }
}

pub struct Oracle {
    // Leaked, so that hazard pointers may refer to it; freed by `drop`.
    domain: *mut ManuallyDrop<Domain<Family>>,
    nodes: *mut [Node],
    sources: *mut [Source],
    turn: Box<Turn>,
    threads: [Box<Thread>; THREADS],
    inside: [Inside; THREADS],
    // By record: the owning thread's hazard pointer, if it is not lent to an operation, and the thread + 1.
    hazards: Vec<Option<Hazard>>,
    owners: Vec<u8>,
    owned: u32,
    states: Vec<u8>,
    // 0 no, 1 under way, 2 over.
    shutdown: u8,
    steps: u64,
    pub tally: Tally,
}

impl Default for Oracle {
    fn default() -> Self {
        Self::new()
    }
}

impl Oracle {
    pub fn new() -> Self {
        let domain = Box::new(ManuallyDrop::new(Domain::new(&Family)));
        domain.name_cells();
        let domain = Box::into_raw(domain);
        // SAFETY: null is a valid content.
        let sources: Box<[Source]> = (0..=SOURCES).map(|_| unsafe { Source::new(std::ptr::null_mut()) }).collect();
        for (source, b) in sources.iter().zip(0..) {
            // SAFETY: only the name is written.
            unsafe { source.as_std() }.name(cells::source(b));
        }
        let nowhere = Wait { kind: Kind::Load, name: cells::UNNAMED };
        Oracle {
            domain,
            nodes: Box::into_raw((0..=NODES).map(Node::new).collect()),
            sources: Box::into_raw(sources),
            turn: Box::new(Turn::new()),
            threads: std::array::from_fn(|_| Thread::new(domain)),
            inside: [Inside { kind: frames::STEP, waits: nowhere, node: 0, reclaimed: 0 }; THREADS],
            hazards: (0..=RECORDS).map(|_| None).collect(),
            owners: vec![0; RECORDS as usize + 1],
            owned: 0,
            states: vec![FREE; NODES as usize + 1],
            shutdown: 0,
            steps: 0,
            tally: Tally::default(),
        }
    }

    // ---- lines

    /// Answers one line, given without its newline. `whole` says that it had one.
    pub fn line(&mut self, line: &[u8], whole: bool) -> Answer {
        self.tally.lines += 1;
        match Frame::read(line).filter(|_| whole) {
            Some(frame) => self.frame(frame),
            None => {
                self.tally.refusals[28] += 1;
                Answer { number: 28, thread: 0, value: self.tally.lines }
            }
        }
    }

    fn frame(&mut self, frame: Frame) -> Answer {
        let (number, value) =
            if frame.kind == frames::STEP { self.step(frame.thread, frame.a == 1, frame.c) } else { self.start(frame) };
        if number >= 16 {
            self.tally.refusals[number as usize] += 1;
        }
        Answer { number, thread: frame.thread, value }
    }

    // ---- starts

    fn start(&mut self, frame: Frame) -> (u8, u64) {
        let refusal = self.refusal(&frame);
        if refusal != 0 {
            return (refusal, 0);
        }
        self.tally.starts += 1;
        let thread = frame.thread as usize;
        let record = frame.a as usize;
        let operation = match frame.kind {
            frames::ACQUIRE => Operation::Acquire,
            frames::RELEASE => {
                self.owners[record] = 0;
                self.owned -= 1;
                Operation::Release(self.lend(record))
            }
            frames::PROTECT => Operation::Protect(self.lend(record), self.source(frame.b)),
            frames::TRY => Operation::Try(self.lend(record), self.source(frame.b), self.node(frame.c)),
            frames::TRY_PROTECT => Operation::TryProtect(self.lend(record), self.source(frame.b), self.node(frame.c)),
            frames::RESET => Operation::Reset(self.lend(record)),
            frames::RAW => Operation::Raw(self.lend(record), self.node(frame.c)),
            frames::SWAP => {
                self.inside[thread].node = frame.c as u32;
                Operation::Swap(self.source(frame.b), self.node(frame.c))
            }
            frames::RETIRE => {
                self.mark(frame.a.into(), WAITING);
                Operation::Retire(self.node(frame.a.into()))
            }
            frames::EAGER => Operation::Eager,
            frames::CLEANUP => Operation::Cleanup,
            frames::SHUTDOWN => {
                self.shutdown = 1;
                Operation::Shutdown
            }
            kind => unreachable!("kind {kind} is a bad frame"),
        };
        self.inside[thread].kind = frame.kind;
        self.inside[thread].reclaimed = 0;
        // Only a retire has an address; for the others it is never asked.
        match self.threads[thread].start(&self.turn, operation, frame.c) {
            None => {
                self.inside[thread].waits = self.turn.waits();
                (1, 0)
            }
            Some(outcome) => self.end(thread, outcome),
        }
    }

    // Document 01's refusals of a start, in its order; 0 for none.
    fn refusal(&self, frame: &Frame) -> u8 {
        let thread = frame.thread as usize;
        if thread >= THREADS {
            return 17;
        }
        if self.shutdown != 0 {
            return 18;
        }
        if self.is_inside(thread) {
            return 20;
        }
        let owned = || self.owner(frame.a.into()) == Some(thread);
        let is_source = || (1..=SOURCES as u16).contains(&frame.b);
        let is_node = || frame.c <= NODES.into();
        match frame.kind {
            frames::RELEASE | frames::RESET if !owned() => 22,
            frames::PROTECT | frames::TRY | frames::TRY_PROTECT | frames::RAW if !owned() => 22,
            frames::PROTECT | frames::TRY | frames::TRY_PROTECT | frames::SWAP if !is_source() => 23,
            frames::TRY | frames::TRY_PROTECT | frames::RAW | frames::SWAP if !is_node() => 24,
            frames::RETIRE if frame.a == 0 || u32::from(frame.a) > NODES => 24,
            frames::RETIRE if self.states[frame.a as usize] != LIVE || self.is_in_a_source(frame.a.into()) => 25,
            frames::SHUTDOWN if self.owned != 0 || (0..THREADS).any(|t| self.is_inside(t)) => 27,
            _ => 0,
        }
    }

    // ---- steps

    fn step(&mut self, thread: u8, flag: bool, clock: u64) -> (u8, u64) {
        let thread = thread as usize;
        if thread >= THREADS {
            return (17, 0);
        }
        if self.steps >= STEPS {
            return (19, 0);
        }
        if !self.is_inside(thread) {
            return (21, 0);
        }
        self.steps += 1;
        let inside = self.inside[thread];
        if inside.kind == frames::SWAP && self.states[inside.node as usize] == WAITING {
            return self.give_up(thread, 25);
        }
        if inside.waits.kind == Kind::NewRecord && self.records() == RECORDS {
            return self.give_up(thread, 26);
        }
        self.tally.steps += 1;
        let outcome = self.threads[thread].step(&self.turn, clock, flag);
        if inside.kind == frames::SWAP && self.states[inside.node as usize] == FREE && inside.node != 0 {
            self.mark(inside.node, LIVE);
        }
        let reclaimed = self.turn.reclaimed();
        if reclaimed != 0 {
            self.inside[thread].reclaimed += 1;
            self.mark(reclaimed, FREE);
        }
        match outcome {
            Some(outcome) => {
                assert_eq!(reclaimed, 0, "an operation ends with no deleter call");
                self.end(thread, outcome)
            }
            None => {
                self.inside[thread].waits = self.turn.waits();
                if reclaimed == 0 {
                    (0, 0)
                } else {
                    (4, reclaimed.into())
                }
            }
        }
    }

    // The thread becomes idle without the original's knowledge. Neither a swap nor an acquire has anything on its
    // stack.
    fn give_up(&mut self, thread: usize, number: u8) -> (u8, u64) {
        self.threads[thread].forget();
        self.inside[thread].kind = frames::STEP;
        (number, 0)
    }

    // The answer of an operation that has ended.
    fn end(&mut self, thread: usize, outcome: Outcome) -> (u8, u64) {
        let Inside { kind, reclaimed, .. } = self.inside[thread];
        self.inside[thread].kind = frames::STEP;
        match outcome {
            Outcome::Acquired(hazard) => {
                let record = hazard.record();
                self.owners[record as usize] = thread as u8 + 1;
                self.owned += 1;
                self.hazards[record as usize] = Some(hazard);
                (2, record.into())
            }
            Outcome::Held(hazard, node) => {
                self.give_back(hazard);
                (2, node.into())
            }
            Outcome::Retry(hazard, node) => {
                self.give_back(hazard);
                (3, node.into())
            }
            Outcome::Done(_) if kind == frames::SHUTDOWN => {
                self.shutdown = 2;
                self.touch_records();
                (2, reclaimed)
            }
            Outcome::Done(value) => {
                let totals = matches!(kind, frames::RETIRE | frames::EAGER);
                assert!(!totals || value == reclaimed, "the original's total is not what it reclaimed");
                (2, value)
            }
            Outcome::Panicked(message) => {
                panic!("the original panicked in thread {thread}, line {}: {message}", self.tally.lines)
            }
        }
    }

    fn lend(&mut self, record: usize) -> Hazard {
        self.hazards[record].take().expect("the owner is idle, so it has not lent the record")
    }

    fn give_back(&mut self, hazard: Hazard) {
        let record = hazard.record() as usize;
        self.hazards[record] = Some(hazard);
    }

    fn mark(&mut self, node: u32, state: u8) {
        self.states[node as usize] = state;
        self.turn.touch(cells::node_state(node));
    }

    fn node(&self, node: u64) -> *mut Node {
        if node == 0 {
            return std::ptr::null_mut();
        }
        assert!(node <= NODES.into());
        // SAFETY: inside the allocation.
        unsafe { self.nodes.cast::<Node>().add(node as usize) }
    }

    fn source(&self, source: u16) -> &'static Source {
        // SAFETY: sources are freed after the threads, which alone keep such references.
        unsafe { &(*self.sources)[source as usize] }
    }

    fn domain(&self) -> &Domain<Family> {
        // SAFETY: freed by `drop` only, and looked at while no thread runs. A shutdown that is under way has it as
        // `&mut`; what is looked at are atomics, and oracle_switch is opaque to the compiler. After a shutdown its
        // memory is still there; its counters are plain numbers, its shards' heads are null, and its other pointers are
        // not looked at.
        unsafe { &*self.domain }
    }

    // ---- looks

    pub fn is_inside(&self, thread: usize) -> bool {
        self.inside[thread].kind != frames::STEP
    }

    /// The kind of the operation that the thread is in, and where it waits.
    pub fn at(&self, thread: usize) -> Option<(u8, Wait)> {
        self.is_inside(thread).then(|| (self.inside[thread].kind, self.inside[thread].waits))
    }

    /// How many records there are, those not yet on the list included.
    pub fn records(&self) -> u32 {
        self.turn.record_count()
    }

    pub fn owner(&self, record: u32) -> Option<usize> {
        self.owners.get(record as usize)?.checked_sub(1).map(usize::from)
    }

    pub fn owned(&self) -> u32 {
        self.owned
    }

    pub fn state(&self, node: u32) -> u8 {
        self.states[node as usize]
    }

    pub fn shutdown(&self) -> u8 {
        self.shutdown
    }

    /// The node in a source, or 0.
    pub fn in_source(&self, source: u32) -> u32 {
        // SAFETY: sources hold nodes, which are freed with the machine.
        unsafe { self.source(source as u16).as_std().peek().as_ref() }.map_or(0, Node::number)
    }

    pub fn is_in_a_source(&self, node: u32) -> bool {
        (1..=SOURCES).any(|b| self.in_source(b) == node)
    }

    /// The content of a cell, read out of the original's memory; node states are the driver's. `count` is the signed
    /// number's 64 bits. What the original has freed is 0.
    pub fn content(&self, name: u32) -> u64 {
        let domain = self.domain();
        let record = |record: u32, k: usize| match self.turn.record(record) {
            // SAFETY: not shut down, so that records live.
            Some(record) if self.shutdown != 2 => look_at_record(unsafe { &*record })[k].into(),
            _ => 0,
        };
        match cell(name) {
            Cell::Unnamed => 0,
            Cell::RecordHead | Cell::HeadAvailable if self.shutdown == 2 => 0,
            Cell::RecordHead => domain.record_head().into(),
            Cell::HeadAvailable => domain.head_available().into(),
            Cell::Shard(k) => domain.shard(k).into(),
            Cell::RecordCount => domain.record_count() as u64,
            Cell::Count => domain.count() as u64,
            Cell::DueTime => domain.due_time(),
            Cell::NbulkReclaims => domain.nbulk_reclaims() as u64,
            Cell::Hazard(r) => record(r, 0),
            Cell::AvailableNext(r) => record(r, 1),
            Cell::RecordNext(r) => record(r, 2),
            Cell::Source(b) => self.in_source(b).into(),
            // SAFETY: inside the allocation; looked at while no thread runs.
            Cell::NodeNext(n) => unsafe { &(*self.nodes)[n as usize] }.next().into(),
            Cell::NodeState(n) => self.states[n as usize].into(),
        }
    }

    // ---- tracing

    /// From now on cells written are noted.
    pub fn trace(&mut self) {
        self.turn.tracing.set(true);
    }

    /// The cells noted since the last call, in a trace's order, each once; some may have got the content they had.
    pub fn touched(&self, names: &mut Vec<u32>) {
        names.clear();
        names.append(&mut self.turn.touched.borrow_mut());
        names.sort_unstable();
        names.dedup();
    }

    // Freeing writes nothing, but the freed read as 0.
    fn touch_records(&self) {
        self.turn.touch(cells::RECORD_HEAD);
        self.turn.touch(cells::HEAD_AVAILABLE);
        for record in 1..=self.records() {
            for name in [cells::hazard(record), cells::available_next(record), cells::record_next(record)] {
                self.turn.touch(name);
            }
        }
    }

    // ---- the end

    // Lets the threads inside finish, in turns, so that nothing stays on their stacks. Should that take too long, it
    // stays.
    fn finish(&mut self) {
        self.turn.tracing.set(false);
        for _ in 0..100_000 {
            let mut all_idle = true;
            for thread in 0..THREADS {
                if self.is_inside(thread) {
                    all_idle = false;
                    self.step(thread as u8, false, 0);
                }
            }
            if all_idle {
                return;
            }
        }
    }
}

impl Drop for Oracle {
    fn drop(&mut self) {
        if std::thread::panicking() {
            // A thread may be anywhere: everything stays as it is.
            return;
        }
        self.finish();
        assert!(self.threads.iter().all(|t| t.is_whole()), "a stack was too small");
        // Their drop would be a release; the domain goes as a whole.
        self.hazards.drain(..).flatten().for_each(std::mem::forget);
        // SAFETY: all three are from `Box::into_raw`, and nothing that runs again refers to them. A domain that was
        // shut down has been dropped; the driver's own accesses wait for no turn.
        unsafe {
            let mut domain = Box::from_raw(self.domain);
            if self.shutdown == 0 {
                ManuallyDrop::drop(&mut domain);
            }
            drop(Box::from_raw(self.nodes));
            drop(Box::from_raw(self.sources));
        }
    }
}

#[cfg(test)]
mod tests {
    use super::*;

    #[test]
    fn after_2_40_steps_a_step_is_19_and_a_start_is_not() {
        let mut oracle = Oracle::new();
        oracle.steps = STEPS - 1;
        assert_eq!(oracle.start(Frame { kind: frames::ACQUIRE, thread: 0, a: 0, b: 0, c: 0 }), (1, 0));
        assert_eq!(oracle.step(0, false, 0), (0, 0));
        assert_eq!(oracle.step(0, false, 0), (19, 0));
        assert_eq!(oracle.step(1, false, 0), (19, 0), "before 21");
        assert_eq!(oracle.step(16, false, 0), (17, 0), "after 17");
        assert_eq!(oracle.start(Frame { kind: frames::EAGER, thread: 1, a: 0, b: 0, c: 0 }), (1, 0));
        // So that what is inside can end.
        oracle.steps = 0;
    }

    #[test]
    fn a_panic_in_the_originals_code_comes_back_as_an_outcome() {
        let oracle = Oracle::new();
        let node = oracle.node(1);
        assert!(oracle.threads[0].start(&oracle.turn, Operation::Retire(node), 0).is_none());
        // The driver would have refused this one.
        let outcome = oracle.threads[1].start(&oracle.turn, Operation::Retire(node), 0);
        assert!(matches!(outcome, Some(Outcome::Panicked(message)) if message == "node 1 is retired twice"));
        assert!(oracle.threads[1].is_whole());
        // The driver does not know of these operations, so that it would not end them.
        std::mem::forget(oracle);
    }
}
