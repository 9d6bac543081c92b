// A small model of document 01's rules over plain tables, written from the document and not from the Rust. It checks
// the oracle (does a step end where the document says?), and it stands in for the port where `compare` itself is
// tested; for that it can be made to commit a mistake.

use crate::cells::*;
use crate::frames::{self, Answer, Frame};
use crate::replay::Engine;
use crate::trace;
use std::collections::BTreeMap;

/// What a model may get wrong. The first five are document 01's "mistakes that pass a quick test".
#[derive(Clone, Copy, PartialEq, Eq, Debug)]
pub enum Mistake {
    None,
    /// Testing done after the kept list is pushed.
    DoneAfterPush,
    /// Kept nodes returned to their own shards.
    KeptToOwnShards,
    /// Scanning hazards before the shards are stolen.
    ScanFirst,
    /// Treating a negative swapped `count` as nothing to do.
    NegativeIsNothing,
    /// `try_protect` of null clearing the record.
    TryOfNullClears,
    /// Writing `next` only where the exchange is won; no answer shows it.
    LinkIfWon,
    /// K4 taking the clock of K3's step.
    EarlyClock,
    /// A strong exchange that heeds the flag.
    WeakE2,
    /// N1 without a row going back to the available list.
    NoRowTriesAgain,
}

impl Mistake {
    pub const ALL: [Mistake; 10] = [
        Mistake::None,
        Mistake::DoneAfterPush,
        Mistake::KeptToOwnShards,
        Mistake::ScanFirst,
        Mistake::NegativeIsNothing,
        Mistake::TryOfNullClears,
        Mistake::LinkIfWon,
        Mistake::EarlyClock,
        Mistake::WeakE2,
        Mistake::NoRowTriesAgain,
    ];
}

/// The program places, by document 01's names.
#[derive(Clone, Copy, PartialEq, Eq, PartialOrd, Ord, Debug)]
#[rustfmt::skip]
pub enum Place {
    Idle, A1, A2, A3, A4, A5, A6, N1, N2, N3, D1, D2, P1, P2, P3, V0, V1, V2, V3, Reset, Raw, Swap,
    T1, T2, T3, K1, K2, K3, K4, E1, E2, E3, B1, Steal, H1, H2, Examine, Reclaim, Empty, Push1, Push2, C1, C3, Wait,
    S1, S2, S3,
}

use Place::*;

#[derive(Clone, Copy)]
struct Row {
    place: Place,
    operation: u8,
    record: u32,
    source: u32,
    node: u32,
    // What a load or a lost exchange saw, for the exchange that follows.
    seen: u64,
    shard: u32,
    reclaimable: u32,
    // The kept lists, from their first to their last node; the base uses the one of shard 0.
    kept: [u32; 8],
    last: [u32; 8],
    stolen: [u32; 8],
    // Whether a pass has been made, and whether it was done.
    passed: bool,
    done: bool,
    count: i64,
    rcount: i64,
    total: u64,
    due: u64,
    clock: u64,
}

#[rustfmt::skip]
const IDLE: Row = Row {
    place: Idle, operation: 0, record: 0, source: 0, node: 0, seen: 0, shard: 0, reclaimable: 0,
    kept: [0; 8], last: [0; 8], stolen: [0; 8], passed: false, done: false,
    count: 0, rcount: 0, total: 0, due: 0, clock: 0,
};

const UNUSED: u8 = 0;
const UNOWNED: u8 = 1;

pub struct Model {
    mistake: Mistake,
    lines: u64,
    steps: u64,
    shutdown: u8,
    rows: [Row; 16],
    guarded: Vec<[bool; NODES as usize + 1]>,
    // By record: unused, used by no owner, or thread + 2.
    holders: Vec<u8>,
    // By the cells' names.
    cells: Vec<u64>,
    // What the cells written by this line held before it.
    before: BTreeMap<u32, u64>,
    /// How often a step went from one place to another; whether its flag asked an exchange to fail.
    pub went: BTreeMap<(Place, Place, bool), u64>,
}

impl Model {
    pub fn new(mistake: Mistake) -> Self {
        Model {
            mistake,
            lines: 0,
            steps: 0,
            shutdown: 0,
            rows: [IDLE; 16],
            guarded: vec![[false; NODES as usize + 1]; 16],
            holders: vec![UNUSED; RECORDS as usize + 1],
            cells: vec![0; NAMES],
            before: BTreeMap::new(),
            went: BTreeMap::new(),
        }
    }

    fn get(&self, name: u32) -> u64 {
        self.cells[name as usize]
    }

    fn id(&self, name: u32) -> u32 {
        self.get(name) as u32
    }

    fn set(&mut self, name: u32, content: u64) {
        let before = std::mem::replace(&mut self.cells[name as usize], content);
        self.before.entry(name).or_insert(before);
    }

    fn add(&mut self, name: u32, more: i64) {
        self.set(name, self.get(name).wrapping_add(more as u64));
    }

    // ---- starts

    fn refusal(&self, f: &Frame) -> u8 {
        let t = f.thread;
        if t > 15 {
            return 17;
        }
        if self.shutdown != 0 {
            return 18;
        }
        if self.rows[t as usize].place != Idle {
            return 20;
        }
        let uses_record = [2, 3, 4, 5, 6, 7].contains(&f.kind);
        if uses_record && (f.a == 0 || f.a > RECORDS as u16 || self.holders[f.a as usize] != t + 2) {
            return 22;
        }
        if [3, 4, 5, 8].contains(&f.kind) && (f.b == 0 || f.b > SOURCES as u16) {
            return 23;
        }
        if [4, 5, 7, 8].contains(&f.kind) && f.c > NODES as u64 {
            return 24;
        }
        if f.kind == frames::RETIRE {
            if f.a == 0 || f.a > NODES as u16 {
                return 24;
            }
            let linked = (1..=SOURCES).any(|b| self.id(source(b)) == f.a as u32);
            if self.get(node_state(f.a as u32)) != 1 || linked {
                return 25;
            }
        }
        if f.kind == frames::SHUTDOWN {
            let inside = self.rows.iter().any(|r| r.place != Idle);
            if inside || self.holders.iter().any(|&h| h > UNOWNED) {
                return 27;
            }
        }
        0
    }

    fn start(&mut self, f: Frame) -> (u8, u64) {
        let refusal = self.refusal(&f);
        if refusal != 0 {
            return (refusal, 0);
        }
        if f.kind == frames::TRY_PROTECT && f.c == 0 {
            if self.mistake == Mistake::TryOfNullClears {
                self.set(hazard(f.a as u32), 0);
            }
            return (2, 0);
        }
        let mut row = Row { operation: f.kind, record: f.a as u32, source: f.b as u32, node: f.c as u32, ..IDLE };
        row.place = match f.kind {
            frames::ACQUIRE => A1,
            frames::RELEASE => {
                self.holders[f.a as usize] = UNOWNED;
                D1
            }
            frames::PROTECT => V0,
            frames::TRY | frames::TRY_PROTECT => V1,
            frames::RESET => Reset,
            frames::RAW => Raw,
            frames::SWAP => Swap,
            frames::RETIRE => {
                row.node = f.a as u32;
                row.shard = (f.c >> 8) as u32 & 7;
                self.set(node_state(row.node), 2);
                T1
            }
            frames::EAGER | frames::CLEANUP => B1,
            _ => {
                self.shutdown = 1;
                S1
            }
        };
        self.rows[f.thread as usize] = row;
        (1, 0)
    }

    // ---- steps

    fn step(&mut self, thread: u8, flag: bool, clock: u64) -> (u8, u64) {
        if thread > 15 {
            return (17, 0);
        }
        if self.steps >= 1 << 40 {
            return (19, 0);
        }
        if self.rows[thread as usize].place == Idle {
            return (21, 0);
        }
        self.steps += 1;
        let mut row = self.rows[thread as usize];
        let from = row.place;
        let answer = self.access(thread as usize, &mut row, flag, clock);
        self.rows[thread as usize] = if matches!(answer.0, 0 | 4) { row } else { IDLE };
        *self.went.entry((from, self.rows[thread as usize].place, flag)).or_default() += 1;
        answer
    }

    // An exchange of `name` from `old` to `new`; whether it was won, and else what was seen.
    fn exchange(&mut self, name: u32, old: u64, new: u64, fails: bool) -> Result<(), u64> {
        let seen = self.get(name);
        if seen != old || fails {
            return Err(seen);
        }
        self.set(name, new);
        Ok(())
    }

    fn access(&mut self, thread: usize, r: &mut Row, flag: bool, clock: u64) -> (u8, u64) {
        let on = (0, 0);
        match r.place {
            Idle => unreachable!("21 comes first"),
            // ---- acquire
            A1 => {
                let seen = self.get(HEAD_AVAILABLE);
                if seen == 0 {
                    r.place = N1;
                } else if seen & 1 == 0 {
                    r.record = (seen / 2) as u32;
                    r.place = A2;
                }
                on
            }
            A2 => {
                let old = 2 * r.record as u64;
                r.place = if self.exchange(HEAD_AVAILABLE, old, old + 1, flag).is_ok() { A3 } else { A1 };
                on
            }
            A3 => {
                r.seen = self.get(available_next(r.record));
                r.place = A4;
                on
            }
            A4 => {
                self.set(HEAD_AVAILABLE, 2 * r.seen);
                r.place = A5;
                on
            }
            A5 => {
                self.set(available_next(r.record), 0);
                r.place = A6;
                on
            }
            A6 => {
                self.holders[r.record as usize] = thread as u8 + 2;
                (2, r.record.into())
            }
            N1 => {
                let Some(free) = (1..=RECORDS).find(|&n| self.holders[n as usize] == UNUSED) else {
                    if self.mistake == Mistake::NoRowTriesAgain {
                        r.place = A1;
                        return on;
                    }
                    return (26, 0);
                };
                self.holders[free as usize] = UNOWNED;
                r.record = free;
                r.seen = self.get(RECORD_HEAD);
                r.place = N2;
                on
            }
            N2 => {
                self.link(record_next(r.record), r.seen, RECORD_HEAD, flag);
                match self.exchange(RECORD_HEAD, r.seen, r.record.into(), flag) {
                    Ok(()) => r.place = N3,
                    Err(seen) => r.seen = seen,
                }
                on
            }
            N3 => {
                self.add(RECORD_COUNT, 1);
                self.holders[r.record as usize] = thread as u8 + 2;
                (2, r.record.into())
            }
            // ---- release
            D1 => {
                self.set(hazard(r.record), 0);
                r.place = D2;
                on
            }
            D2 => {
                assert_eq!(self.get(available_next(r.record)), 0);
                r.place = P1;
                on
            }
            P1 => {
                let seen = self.get(HEAD_AVAILABLE);
                if seen & 1 == 0 {
                    r.seen = seen;
                    r.place = P2;
                }
                on
            }
            P2 => {
                self.set(available_next(r.record), r.seen / 2);
                r.place = P3;
                on
            }
            P3 => {
                if self.exchange(HEAD_AVAILABLE, r.seen, 2 * r.record as u64, flag).is_err() {
                    r.place = P1;
                    return on;
                }
                (2, 0)
            }
            // ---- protect and the tries
            V0 => {
                r.node = self.id(source(r.source));
                r.place = V1;
                on
            }
            V1 => {
                self.set(hazard(r.record), r.node.into());
                r.place = V2;
                on
            }
            V2 => {
                r.seen = self.get(source(r.source));
                if r.seen == r.node.into() {
                    return (2, r.seen);
                }
                r.place = V3;
                on
            }
            V3 => {
                self.set(hazard(r.record), 0);
                if r.operation != frames::PROTECT {
                    return (3, r.seen);
                }
                r.node = r.seen as u32;
                r.place = V1;
                on
            }
            Reset => {
                self.set(hazard(r.record), 0);
                (2, 0)
            }
            Raw => {
                self.set(hazard(r.record), r.node.into());
                (2, 0)
            }
            Swap => {
                if r.node != 0 {
                    match self.get(node_state(r.node)) {
                        2 => return (25, 0),
                        0 => self.set(node_state(r.node), 1),
                        _ => {}
                    }
                }
                let old = self.get(source(r.source));
                self.set(source(r.source), r.node.into());
                (2, old)
            }
            // ---- retire
            T1 => {
                r.seen = self.get(SHARD + r.shard);
                r.place = T2;
                on
            }
            T2 => {
                self.link(node_next(r.node), r.seen, SHARD + r.shard, flag);
                match self.exchange(SHARD + r.shard, r.seen, r.node.into(), flag) {
                    Ok(()) => r.place = T3,
                    Err(seen) => r.seen = seen,
                }
                on
            }
            T3 => {
                self.add(COUNT, 1);
                r.place = K1;
                on
            }
            // ---- check
            K1 => {
                r.count = self.get(COUNT) as i64;
                r.place = K2;
                on
            }
            K2 => {
                let doubled = (self.get(RECORD_COUNT) as i64).wrapping_mul(2);
                if r.count > doubled.max(1000) {
                    r.place = K3;
                } else {
                    self.checked(r, 0);
                }
                on
            }
            K3 => {
                match self.exchange(COUNT, r.count as u64, 0, flag) {
                    Ok(()) => r.place = K4,
                    Err(seen) => {
                        r.count = seen as i64;
                        r.place = K2;
                    }
                }
                r.clock = clock;
                on
            }
            K4 => {
                let clock = if self.mistake == Mistake::EarlyClock { r.clock } else { clock };
                self.set(DUE_TIME, clock.wrapping_add(2_000_000_000));
                self.checked(r, r.count);
                on
            }
            E1 => {
                r.due = self.get(DUE_TIME);
                r.clock = clock;
                if clock < r.due {
                    return (2, 0);
                }
                r.place = E2;
                on
            }
            E2 => {
                let fails = flag && self.mistake == Mistake::WeakE2;
                if self.exchange(DUE_TIME, r.due, r.clock.wrapping_add(2_000_000_000), fails).is_err() {
                    return (2, 0);
                }
                r.place = E3;
                on
            }
            E3 => {
                r.rcount = self.get(COUNT) as i64;
                self.set(COUNT, 0);
                if r.rcount == 0 || r.rcount < 0 && self.mistake == Mistake::NegativeIsNothing {
                    return (2, 0);
                }
                r.place = B1;
                on
            }
            // ---- reclaim
            B1 => {
                self.add(NBULK_RECLAIMS, 1);
                self.new_pass(r);
                on
            }
            Steal => {
                r.stolen[r.shard as usize] = self.id(SHARD + r.shard);
                self.set(SHARD + r.shard, 0);
                r.shard += 1;
                if r.shard == SHARDS {
                    if r.stolen == [0; 8] {
                        r.done = true;
                        self.pushed(r);
                    } else if self.mistake == Mistake::ScanFirst {
                        self.scanned(r, 0);
                    } else {
                        r.place = H1;
                    }
                }
                on
            }
            H1 => {
                self.guarded[thread].fill(false);
                r.record = self.id(RECORD_HEAD);
                if r.record == 0 {
                    self.scanned_all(r);
                } else {
                    r.place = H2;
                }
                on
            }
            H2 => {
                let claimed = self.id(hazard(r.record));
                self.guarded[thread][claimed as usize] = true;
                r.record = self.id(record_next(r.record));
                if r.record == 0 {
                    self.scanned_all(r);
                }
                on
            }
            Examine => {
                let node = r.stolen[r.shard as usize];
                let rest = self.id(node_next(node));
                if self.guarded[thread][node as usize] {
                    let list = if self.mistake == Mistake::KeptToOwnShards { r.shard as usize } else { 0 };
                    self.set(node_next(node), r.kept[list].into());
                    if r.kept[list] == 0 {
                        r.last[list] = node;
                    }
                    r.kept[list] = node;
                } else {
                    self.set(node_next(node), r.reclaimable.into());
                    r.reclaimable = node;
                }
                r.stolen[r.shard as usize] = rest;
                if rest == 0 {
                    if r.reclaimable != 0 {
                        r.place = Reclaim;
                    } else {
                        self.scanned(r, r.shard + 1);
                    }
                }
                on
            }
            Reclaim => {
                let node = r.reclaimable;
                r.reclaimable = self.id(node_next(node));
                self.free(node);
                r.total = r.total.wrapping_add(1);
                r.rcount = r.rcount.wrapping_sub(1);
                if r.reclaimable == 0 {
                    self.scanned(r, r.shard + 1);
                }
                (4, node.into())
            }
            Empty => {
                let head = self.id(SHARD + r.shard);
                r.shard += 1;
                if head != 0 || r.shard == SHARDS {
                    r.done = head == 0;
                    if self.mistake == Mistake::DoneAfterPush {
                        self.pushed(r);
                    } else {
                        self.push_next(r, 0);
                    }
                }
                on
            }
            Push1 => {
                r.seen = self.get(SHARD + r.shard);
                r.place = Push2;
                on
            }
            Push2 => {
                let list = r.shard as usize;
                self.link(node_next(r.last[list]), r.seen, SHARD + r.shard, flag);
                match self.exchange(SHARD + r.shard, r.seen, r.kept[list].into(), flag) {
                    Ok(()) => {
                        r.kept[list] = 0;
                        self.push_next(r, r.shard + 1);
                    }
                    Err(seen) => r.seen = seen,
                }
                on
            }
            C1 => {
                self.add(COUNT, r.rcount);
                r.place = K1;
                on
            }
            C3 => {
                self.add(NBULK_RECLAIMS, -1);
                if r.operation == frames::CLEANUP {
                    r.place = Wait;
                    return on;
                }
                (2, r.total)
            }
            Wait => {
                if self.get(NBULK_RECLAIMS) == 0 {
                    return (2, 0);
                }
                on
            }
            // ---- shutdown
            S1 => {
                r.reclaimable = self.id(SHARD + r.shard);
                self.set(SHARD + r.shard, 0);
                r.shard += 1;
                r.place = if r.reclaimable != 0 { S2 } else { Self::shut_next(r) };
                on
            }
            S2 => {
                let node = r.reclaimable;
                r.reclaimable = self.id(node_next(node));
                self.free(node);
                r.total += 1;
                if r.reclaimable == 0 {
                    r.place = Self::shut_next(r);
                }
                (4, node.into())
            }
            S3 => {
                for name in [RECORD_HEAD, HEAD_AVAILABLE].into_iter().chain(hazard(1)..=record_next(RECORDS)) {
                    self.set(name, 0);
                }
                self.holders.fill(UNUSED);
                self.shutdown = 2;
                (2, r.total)
            }
        }
    }

    fn shut_next(r: &Row) -> Place {
        if r.shard == SHARDS {
            S3
        } else {
            S1
        }
    }

    fn free(&mut self, node: u32) {
        self.set(node_next(node), 0);
        self.set(node_state(node), 0);
    }

    // `next` is written in its exchange's step, won or lost.
    fn link(&mut self, next: u32, seen: u64, head: u32, flag: bool) {
        let won = self.get(head) == seen && !flag;
        if won || self.mistake != Mistake::LinkIfWon {
            self.set(next, seen);
        }
    }

    // ---- where a pass goes on

    fn checked(&mut self, r: &mut Row, value: i64) {
        r.rcount = value;
        if !r.passed {
            r.place = if value == 0 { E1 } else { B1 };
        } else if value == 0 && r.done {
            r.place = C3;
        } else {
            self.new_pass(r);
        }
    }

    fn new_pass(&mut self, r: &mut Row) {
        r.passed = true;
        r.shard = 0;
        r.place = if self.mistake == Mistake::ScanFirst { H1 } else { Steal };
    }

    fn scanned_all(&mut self, r: &mut Row) {
        if self.mistake == Mistake::ScanFirst {
            r.place = Steal;
        } else {
            self.scanned(r, 0);
        }
    }

    // The next stolen list, from this shard on.
    fn scanned(&mut self, r: &mut Row, from: u32) {
        match (from..SHARDS).find(|&k| r.stolen[k as usize] != 0) {
            Some(shard) => {
                r.shard = shard;
                r.place = Examine;
            }
            None if self.mistake == Mistake::DoneAfterPush => self.push_next(r, 0),
            None => {
                r.shard = 0;
                r.place = Empty;
            }
        }
    }

    // The next kept list, from this shard on.
    fn push_next(&mut self, r: &mut Row, from: u32) {
        match (from..SHARDS).find(|&k| r.kept[k as usize] != 0) {
            Some(shard) => {
                r.shard = shard;
                r.place = Push1;
            }
            None if self.mistake == Mistake::DoneAfterPush => {
                r.shard = 0;
                r.place = Empty;
            }
            None => self.pushed(r),
        }
    }

    fn pushed(&mut self, r: &mut Row) {
        r.place = if r.rcount == 0 { K1 } else { C1 };
    }
}

impl Engine for Model {
    fn answer(&mut self, line: &[u8], whole: bool) -> Answer {
        self.lines += 1;
        self.before.clear();
        match Frame::read(line).filter(|_| whole) {
            None => Answer { number: 28, thread: 0, value: self.lines },
            Some(f) => {
                let (number, value) =
                    if f.kind == frames::STEP { self.step(f.thread, f.a == 1, f.c) } else { self.start(f) };
                Answer { number, thread: f.thread, value }
            }
        }
    }

    fn changes(&mut self, out: &mut Vec<u8>) {
        for (&name, &before) in &self.before {
            if self.get(name) != before {
                trace::change(name, self.get(name), out);
            }
        }
    }
}
