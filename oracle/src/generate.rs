// Makes replays. The generator drives an oracle of its own, so that it knows what would make sense, and what would not.

use crate::cells::{self, NODES, RECORDS, SOURCES};
use crate::frames::{self, Answer, Frame};
use crate::machine::{Oracle, FREE, LIVE, THREADS, WAITING};
use crate::random::Random;
use crate::shim::{Kind, Wait};

/// A way to make a replay.
pub struct Profile {
    pub name: &'static str,
    /// The lines that it needs to get where it is going.
    pub lines: usize,
    play: fn(&mut Generator),
}

pub const PROFILES: [Profile; 12] = [
    Profile { name: "mixed", lines: 0, play: mixed },
    Profile { name: "tight", lines: 0, play: tight },
    Profile { name: "stall", lines: 0, play: stall },
    Profile { name: "clock", lines: 0, play: clock },
    Profile { name: "spurious", lines: 0, play: spurious },
    Profile { name: "protect", lines: 0, play: protect },
    Profile { name: "refuse", lines: 0, play: refuse },
    Profile { name: "shutdown", lines: 0, play: shutdown },
    Profile { name: "storm", lines: 16_000, play: storm },
    Profile { name: "rounds", lines: 14_000, play: rounds },
    Profile { name: "records", lines: 24_000, play: records },
    Profile { name: "exhaust", lines: 9_000, play: exhaust },
];

pub fn profile(name: &str) -> Option<&'static Profile> {
    PROFILES.iter().find(|p| p.name == name)
}

/// The replay of a seed: exactly this many lines.
pub fn generate(profile: &Profile, seed: u64, lines: usize) -> Vec<u8> {
    let mut generator = Generator::new(seed, lines);
    while !generator.is_full() {
        (profile.play)(&mut generator);
    }
    generator.out
}

// How often an idle thread starts what, relative to the others.
#[derive(Clone)]
struct Weights {
    acquire: usize,
    release: usize,
    protect: usize,
    try_: usize,
    try_protect: usize,
    reset: usize,
    raw: usize,
    swap: usize,
    retire: usize,
    eager: usize,
    cleanup: usize,
}

const BALANCED: Weights = Weights {
    acquire: 6,
    release: 4,
    protect: 8,
    try_: 4,
    try_protect: 4,
    reset: 3,
    raw: 3,
    swap: 12,
    retire: 12,
    eager: 3,
    cleanup: 1,
};

// Where the clock of a step comes from.
#[derive(Clone, Copy)]
enum Clock {
    /// Stays.
    Still,
    /// Goes on a little, so that it becomes due now and then.
    Creeps,
    /// Is at the due time or beside it.
    Around,
    /// Is anything.
    Wild,
}

struct Generator {
    oracle: Oracle,
    random: Random,
    out: Vec<u8>,
    left: usize,
    weights: Weights,
    // The nodes, sources and threads that take part.
    nodes: Vec<u32>,
    sources: Vec<u32>,
    threads: Vec<u8>,
    clock: u64,
    clocks: Clock,
    // The shards that boxes fall into; none for any address.
    shards: Vec<u64>,
    // Of 1000 steps, how many ask a weak exchange to fail.
    spurious: usize,
    // Of 1000 lines, how many are meant to be refused.
    refused: usize,
    // How many lines a thread goes on, about.
    burst: usize,
    // Of 1000 arrivals at the chosen place, how many stop there; and until which line each thread stands still.
    stalls: usize,
    place: Option<Wait>,
    still: [usize; THREADS],
    // How many records a thread would like to own.
    wanted: usize,
}

impl Generator {
    fn new(seed: u64, lines: usize) -> Self {
        let mut generator = Generator {
            oracle: Oracle::new(),
            random: Random::new(seed),
            out: Vec::with_capacity(lines * (frames::FRAME + 1)),
            left: lines,
            weights: BALANCED,
            nodes: Vec::new(),
            sources: Vec::new(),
            threads: Vec::new(),
            clock: 0,
            clocks: Clock::Creeps,
            shards: Vec::new(),
            spurious: 50,
            refused: 10,
            burst: 3,
            stalls: 0,
            place: None,
            still: [0; THREADS],
            wanted: 3,
        };
        generator.take_part(THREADS, 64, 8);
        generator.clock = generator.random.pick(&[0, 0, 1, 1_999_999_999, u64::MAX - 2_000_000_000, u64::MAX]);
        generator
    }

    // Chooses who and what takes part. The ends of the tables and of the guarded set's words come first.
    fn take_part(&mut self, threads: usize, nodes: usize, sources: usize) {
        let ends = [1, NODES, 64, 65, 4033, 4032, 128, 129, 2];
        self.nodes = Self::chosen(&mut self.random, &ends, NODES, nodes);
        self.sources = Self::chosen(&mut self.random, &[1, SOURCES], SOURCES, sources);
        self.threads = Self::chosen(&mut self.random, &[1, 16], 16, threads).iter().map(|&t| t as u8 - 1).collect();
    }

    fn chosen(random: &mut Random, first: &[u32], most: u32, count: usize) -> Vec<u32> {
        let mut chosen: Vec<u32> = Vec::with_capacity(count);
        let mut taken = vec![false; most as usize + 1];
        let mut ends = first.iter().copied().filter(|_| count > 1);
        while chosen.len() < count.min(most as usize) {
            let end = ends.next().filter(|_| random.mille(500));
            let next = end.unwrap_or_else(|| random.within(1, most as usize) as u32);
            if !std::mem::replace(&mut taken[next as usize], true) {
                chosen.push(next);
            }
        }
        chosen
    }

    // Weights around the given ones, some of them 0.
    fn weigh(&mut self, weights: &Weights) {
        let random = &mut self.random;
        let mut near = |w: usize| if random.mille(80) { 0 } else { w * random.within(1, 6) };
        self.weights = Weights {
            acquire: near(weights.acquire).max(1),
            release: near(weights.release),
            protect: near(weights.protect),
            try_: near(weights.try_),
            try_protect: near(weights.try_protect),
            reset: near(weights.reset),
            raw: near(weights.raw),
            swap: near(weights.swap).max(1),
            retire: near(weights.retire).max(1),
            eager: near(weights.eager),
            cleanup: near(weights.cleanup),
        };
    }

    // ---- lines

    fn is_full(&self) -> bool {
        self.left == 0
    }

    fn written(&self) -> usize {
        self.oracle.tally.lines as usize
    }

    // Writes a line; a full replay takes none, and answers as to a line that is none. Sometimes the last lacks its
    // newline.
    fn emit(&mut self, line: &[u8]) -> Answer {
        if self.is_full() {
            return Answer { number: 28, thread: 0, value: 0 };
        }
        self.left -= 1;
        self.out.extend_from_slice(line);
        let whole = !self.is_full() || line.is_empty() || !self.random.mille(100);
        if whole {
            self.out.push(b'\n');
        }
        self.oracle.line(line, whole)
    }

    fn frame(&mut self, frame: Frame) -> Answer {
        let mut line = Vec::with_capacity(frames::FRAME);
        frame.write(&mut line);
        self.emit(&line)
    }

    fn start(&mut self, kind: u8, thread: u8, a: u32, b: u32, c: u64) -> Answer {
        self.frame(Frame { kind, thread, a: a as u16, b: b as u16, c })
    }

    // One step, with a clock and flag of the replay's manner. The thread may stop at the place it comes to.
    fn step(&mut self, thread: u8) -> Answer {
        let flag = self.random.mille(self.spurious);
        let clock = self.tick();
        let answer = self.frame(Frame { kind: frames::STEP, thread, a: flag.into(), b: 0, c: clock });
        if let (Some(place), Some((_, waits))) = (self.place, self.oracle.at(thread as usize)) {
            if alike(place, waits) && self.random.mille(self.stalls) {
                self.still[thread as usize] = self.written() + self.random.within(20, 1500);
            }
        }
        answer
    }

    fn tick(&mut self) -> u64 {
        let due = self.oracle.content(cells::DUE_TIME);
        let random = &mut self.random;
        match self.clocks {
            Clock::Still => {}
            Clock::Creeps => self.clock = self.clock.wrapping_add(random.draw() % 200_000_000),
            Clock::Around => self.clock = due.wrapping_add(random.pick(&[0, 1, u64::MAX, u64::MAX - 1, 2])),
            Clock::Wild => {
                self.clock = match random.below(8) {
                    0 => 0,
                    1 => u64::MAX,
                    2 => due,
                    3 => due.wrapping_sub(1),
                    4 => due.wrapping_add(1),
                    5 => (u64::MAX - 2_000_000_000).wrapping_add(random.below(3) as u64),
                    6 => random.draw(),
                    _ => self.clock,
                }
            }
        }
        self.clock
    }

    // Whether the thread's next step would only find that it has to wait for another.
    fn spins(&self, thread: u8) -> bool {
        match self.oracle.at(thread as usize) {
            Some((_, Wait { kind: Kind::Load, name: cells::HEAD_AVAILABLE })) => {
                self.oracle.content(cells::HEAD_AVAILABLE) & 1 == 1
            }
            Some((_, Wait { kind: Kind::Load, name: cells::NBULK_RECLAIMS })) => {
                self.oracle.content(cells::NBULK_RECLAIMS) != 0
            }
            _ => false,
        }
    }

    // Steps until the thread is idle. While it waits for another, it is mostly the others that go on.
    fn finish(&mut self, thread: u8) {
        while self.oracle.is_inside(thread as usize) && !self.is_full() {
            if self.spins(thread) && !self.random.mille(100) {
                let other = self.random.below(THREADS) as u8;
                if self.oracle.is_inside(other as usize) && !self.spins(other) {
                    self.step(other);
                }
            } else {
                self.step(thread);
            }
        }
    }

    fn finish_all(&mut self) {
        for thread in 0..THREADS as u8 {
            self.finish(thread);
        }
    }

    // ---- one sensible line

    // A thread that is not standing still; all of them doing so, any.
    fn someone(&mut self) -> u8 {
        let now = self.written();
        for _ in 0..8 {
            let thread = self.random.pick(&self.threads);
            if self.still[thread as usize] <= now && (!self.spins(thread) || self.random.mille(50)) {
                return thread;
            }
        }
        let thread = self.random.pick(&self.threads);
        self.still[thread as usize] = 0;
        thread
    }

    // Lets one thread go on for a while.
    fn turn(&mut self) {
        let thread = self.someone();
        let lines = self.random.within(1, 2 * self.burst - 1);
        for _ in 0..lines {
            if self.is_full() || self.still[thread as usize] > self.written() {
                return;
            }
            if self.spins(thread) && self.random.mille(500) {
                return;
            }
            if self.random.mille(self.refused) {
                self.wrong();
            } else if self.oracle.is_inside(thread as usize) {
                self.step(thread);
            } else {
                self.begin(thread);
            }
        }
    }

    fn churn(&mut self, lines: usize) {
        let end = self.written() + lines;
        while self.written() < end && !self.is_full() {
            self.turn();
        }
    }

    // Starts something that makes sense for an idle thread, and need not be possible.
    fn begin(&mut self, thread: u8) {
        let w = self.weights.clone();
        let owned = self.owned(thread);
        let acquires = if owned.len() < self.wanted { w.acquire } else { 0 };
        let has = |w: usize| if owned.is_empty() { 0 } else { w };
        let choices = [
            acquires,
            has(w.release),
            has(w.protect),
            has(w.try_),
            has(w.try_protect),
            has(w.reset),
            has(w.raw),
            w.swap,
            w.retire,
            w.eager,
            w.cleanup,
        ];
        let mut at = self.random.below(choices.iter().sum());
        let choice = choices
            .iter()
            .position(|&w| {
                if at < w {
                    true
                } else {
                    at -= w;
                    false
                }
            })
            .expect("below the sum");
        let record = if owned.is_empty() { 0 } else { self.random.pick(&owned) };
        let source = self.random.pick(&self.sources);
        let (node, address) = (self.node_near(source), self.address());
        match choice {
            0 => self.start(frames::ACQUIRE, thread, 0, 0, 0),
            1 => self.start(frames::RELEASE, thread, record, 0, 0),
            2 => self.start(frames::PROTECT, thread, record, source, 0),
            3 => self.start(frames::TRY, thread, record, source, node.into()),
            4 => self.start(frames::TRY_PROTECT, thread, record, source, node.into()),
            5 => self.start(frames::RESET, thread, record, 0, 0),
            6 => self.start(frames::RAW, thread, record, 0, node.into()),
            7 => {
                let node = if self.random.mille(150) { 0 } else { self.node_to_put() };
                self.start(frames::SWAP, thread, 0, source, node.into())
            }
            8 => match self.node_in(LIVE, true) {
                Some(node) => self.start(frames::RETIRE, thread, node, 0, address),
                // Nothing to retire: take something out of a source.
                None => {
                    let node = self.node_to_put();
                    self.start(frames::SWAP, thread, 0, source, node.into())
                }
            },
            9 => self.start(frames::EAGER, thread, 0, 0, 0),
            _ => self.start(frames::CLEANUP, thread, 0, 0, 0),
        };
    }

    fn owned(&self, thread: u8) -> Vec<u32> {
        (1..=self.oracle.records()).filter(|&r| self.oracle.owner(r) == Some(thread as usize)).collect()
    }

    // A node of the given state; `loose` ones are in no source.
    fn node_in(&mut self, state: u8, loose: bool) -> Option<u32> {
        let from = self.random.below(self.nodes.len());
        let fits = |&&n: &&u32| self.oracle.state(n) == state && !(loose && self.oracle.is_in_a_source(n));
        self.nodes[from..].iter().chain(&self.nodes[..from]).find(fits).copied()
    }

    // A node to put into a source: mostly a free one, sometimes any, a waiting one too.
    fn node_to_put(&mut self) -> u32 {
        let any = self.random.pick(&self.nodes);
        if self.random.mille(80) {
            return any;
        }
        self.node_in(FREE, false).or_else(|| self.node_in(LIVE, false)).unwrap_or(any)
    }

    // A node to try or protect: what the source holds, or something stale.
    fn node_near(&mut self, source: u32) -> u32 {
        match self.random.below(8) {
            0 => 0,
            1 | 2 => self.random.pick(&self.nodes),
            3 => self.random.within(1, NODES as usize) as u32,
            4 => self.node_in(WAITING, false).unwrap_or(0),
            _ => self.oracle.in_source(source),
        }
    }

    fn address(&mut self) -> u64 {
        if !self.shards.is_empty() {
            return self.random.pick(&self.shards) << 8 | self.random.draw() & 0xff | self.random.draw() << 11;
        }
        match self.random.below(4) {
            0 => self.random.pick(&[0, 0xff, 0x100, 0x7ff, 0x800, u64::MAX]),
            _ => self.random.draw(),
        }
    }

    // ---- lines that are refused

    // A line that is meant to be refused, for a reason of every kind.
    fn wrong(&mut self) {
        let reason = self.random.within(17, 29);
        self.refuse(reason);
    }

    fn refuse(&mut self, reason: usize) {
        let thread = self.random.pick(&self.threads);
        let owned = self.owned(thread);
        let record = if owned.is_empty() { 1 } else { self.random.pick(&owned) };
        let source = self.random.pick(&self.sources);
        let source_wrong = self.random.pick(&[0, 65, 66, 256, 65535]);
        let node_wrong = self.random.pick(&[4097, 8192, 65536, 65537, (1 << 32) + 1, 1 << 63, u64::MAX]);
        match reason {
            17 => {
                let thread = self.random.within(16, 255) as u8;
                let kind = self.random.pick(&[0, 1, 2, 6, 9, 10, 11, 12]);
                self.start(kind, thread, 0, 0, 0);
            }
            20 => {
                let thread = self.who_is(true).unwrap_or(thread);
                self.starts_anything(thread);
            }
            21 => {
                let thread = self.who_is(false).unwrap_or(thread);
                self.step(thread);
            }
            22 => {
                let other = self.random.within(1, RECORDS as usize) as u32;
                let next = self.oracle.records() + 1;
                let record = self.random.pick(&[0, 1, next, other, 1025, 65535]);
                let kind = self.random.pick(&[2, 3, 4, 5, 6, 7]);
                self.with_record(kind, thread, record, source, 1);
            }
            23 => {
                let kind = self.random.pick(&[3, 4, 5, 8]);
                let node = self.random.pick(&[0, 1, node_wrong]);
                self.with_record(kind, thread, record, source_wrong, node);
            }
            24 => {
                let kind = self.random.pick(&[4, 5, 7, 8]);
                if self.random.mille(300) {
                    let node = self.random.pick(&[0, 4097, 65535]);
                    self.start(frames::RETIRE, thread, node, 0, node_wrong);
                } else {
                    self.with_record(kind, thread, record, source, node_wrong);
                }
            }
            25 => {
                let state = self.random.pick(&[FREE, LIVE, WAITING]);
                let node = self.node_in(state, false).unwrap_or(1);
                if self.random.mille(600) {
                    let address = self.address();
                    self.start(frames::RETIRE, thread, node, 0, address);
                } else {
                    let node = self.node_in(WAITING, false).unwrap_or(node);
                    self.start(frames::SWAP, thread, 0, source, node.into());
                }
            }
            27 if self.is_busy() => {
                self.start(frames::SHUTDOWN, thread, 0, 0, 0);
            }
            28 => self.bad_frame(),
            // 18, 19 and 26 are not to be had at will.
            _ => self.starts_anything(thread),
        }
    }

    // Fields that a kind does not use stay 0.
    fn with_record(&mut self, kind: u8, thread: u8, record: u32, source: u32, node: u64) {
        let (a, b, c) = match kind {
            frames::RELEASE | frames::RESET => (record, 0, 0),
            frames::PROTECT => (record, source, 0),
            frames::RAW => (record, 0, node),
            frames::SWAP => (0, source, node),
            _ => (record, source, node),
        };
        self.start(kind, thread, a, b, c);
    }

    // A start whose fields are anything, right or wrong; but no shutdown that would be carried out.
    fn starts_anything(&mut self, thread: u8) {
        let kind = self.random.within(1, 12) as u8;
        let a = self.random.pick(&[0, 1, 2, 3, 1024, 1025, 4096, 4097, 65535]);
        let b = self.random.pick(&[0, 1, 2, 64, 65, 65535]);
        let c = self.random.pick(&[0, 1, 2, 64, 4096, 4097, 1 << 32, (1 << 32) + 1, u64::MAX]);
        match kind {
            frames::SHUTDOWN if !self.is_busy() => {
                self.step(thread);
            }
            frames::ACQUIRE | frames::EAGER | frames::CLEANUP | frames::SHUTDOWN => {
                self.start(kind, thread, 0, 0, 0);
            }
            frames::RETIRE => {
                self.start(kind, thread, a, 0, c);
            }
            _ => self.with_record(kind, thread, a, b, c),
        }
    }

    fn bad_frame(&mut self) {
        let mut line = Vec::new();
        let kind = self.random.below(13) as u8;
        let thread = self.random.pick(&self.threads);
        Frame { kind, thread, a: 0, b: 0, c: 0 }.write(&mut line);
        let at = self.random.below(line.len());
        match self.random.below(12) {
            0 => line.clear(),
            1 => line.push(b'\r'),
            2 => line[at] = b' ',
            3 => line[at] = b'A',
            4 => line[at] = 0,
            5 => line.truncate(at),
            6 => line.push(b'0'),
            7 => line.extend_from_slice(&[b'0'; 300]),
            8 => line[..2].copy_from_slice(b"0d"),
            9 => line[at] = b'g',
            // A step's flag above 1.
            10 => line.copy_from_slice(b"0000000200000000000000000000"),
            // An acquire with a field that is not its own.
            _ => {
                line[..2].copy_from_slice(b"01");
                line[4 + at % 24] = b'1';
            }
        }
        self.emit(&line);
    }

    fn is_busy(&self) -> bool {
        self.oracle.owned() != 0 || (0..THREADS).any(|t| self.oracle.is_inside(t))
    }

    fn who_is(&mut self, inside: bool) -> Option<u8> {
        let from = self.random.below(self.threads.len());
        let fits = |&&t: &&u8| self.oracle.is_inside(t as usize) == inside;
        self.threads[from..].iter().chain(&self.threads[..from]).find(fits).copied()
    }

    // ---- longer ways

    // Acquires until there are this many records.
    fn grow(&mut self, records: u32) {
        while self.oracle.records() < records && !self.is_full() {
            let thread = self.random.pick(&self.threads);
            if self.random.mille(20) {
                self.churn(10);
            } else {
                self.finish(thread);
                self.start(frames::ACQUIRE, thread, 0, 0, 0);
                self.finish(thread);
            }
        }
    }

    // Swaps and retires until `count` is this large. Nothing may become due meanwhile: the clock stands still.
    fn fill(&mut self, count: i64) {
        let clocks = std::mem::replace(&mut self.clocks, Clock::Still);
        let refused = std::mem::replace(&mut self.refused, 0);
        let spurious = std::mem::replace(&mut self.spurious, 5);
        self.clock = self.oracle.content(cells::DUE_TIME).saturating_sub(1_000_000_000);
        let worker = self.random.pick(&self.threads);
        self.finish(worker);
        while (self.oracle.content(cells::COUNT) as i64) < count && !self.is_full() {
            let Some(node) = self.node_in(FREE, false) else { break };
            let source = self.random.pick(&self.sources);
            let old = self.oracle.in_source(source);
            self.start(frames::SWAP, worker, 0, source, node.into());
            self.finish(worker);
            if old != 0 && !self.oracle.is_in_a_source(old) {
                let address = self.address();
                self.start(frames::RETIRE, worker, old, 0, address);
                self.finish(worker);
            }
            if self.random.mille(10) {
                let lines = self.random.within(1, 20);
                self.churn(lines);
                self.finish(worker);
            }
        }
        self.clocks = clocks;
        self.refused = refused;
        self.spurious = spurious;
    }

    fn threshold(&self) -> i64 {
        (2 * self.oracle.content(cells::RECORD_COUNT) as i64).max(1000)
    }

    // Live nodes that are in no source, at least this many if there are free ones.
    fn loosen(&mut self, count: usize) {
        let worker = self.random.pick(&self.threads);
        self.finish(worker);
        for _ in 0..2 * count {
            let loose = |g: &Self, n: u32| g.oracle.state(n) == LIVE && !g.oracle.is_in_a_source(n);
            if self.nodes.iter().filter(|&&n| loose(self, n)).count() >= count {
                return;
            }
            let source = self.random.pick(&self.sources);
            let Some(node) = self.node_in(FREE, false) else { return };
            self.start(frames::SWAP, worker, 0, source, node.into());
            self.finish(worker);
        }
    }

    // Every thread retires a node at the same time.
    fn crowd(&mut self) {
        self.finish_all();
        self.loosen(self.threads.len());
        for thread in self.threads.clone() {
            if let Some(node) = self.node_in(LIVE, true) {
                let address = self.address();
                self.start(frames::RETIRE, thread, node, 0, address);
            }
        }
        // All have pushed their nodes when the first one looks at the count.
        for _ in 0..3 {
            for thread in self.threads.clone() {
                if self.oracle.is_inside(thread as usize) {
                    self.step(thread);
                }
            }
        }
        let burst = std::mem::replace(&mut self.burst, 1);
        let lines = self.random.within(50, 400);
        self.churn(lines);
        self.burst = burst;
    }

    // Ends everything and shuts down.
    fn close(&mut self) {
        self.finish_all();
        while self.is_busy() && !self.is_full() {
            for thread in 0..THREADS as u8 {
                if self.random.mille(30) {
                    self.refuse(27);
                }
                self.finish(thread);
                for record in self.owned(thread) {
                    self.start(frames::RELEASE, thread, record, 0, 0);
                    self.finish(thread);
                }
            }
        }
        let thread = self.random.pick(&self.threads);
        self.start(frames::SHUTDOWN, thread, 0, 0, 0);
        while self.oracle.is_inside(thread as usize) && !self.is_full() {
            if self.random.mille(100) {
                self.wrong();
            }
            self.step(thread);
        }
    }

    // Goes on in the manner chosen. Towards the replay's end there is a shutdown in some replays.
    fn go_on(&mut self, lines: usize) {
        const LAST: usize = 700;
        if self.left > LAST {
            return self.churn(lines.min(self.left - LAST));
        }
        if self.random.mille(250) {
            self.close();
            while !self.is_full() {
                self.wrong();
            }
        }
        self.churn(self.left);
    }
}

// Whether a thread that waits here is at the place: the same access, to the same kind of cell.
fn alike(place: Wait, waits: Wait) -> bool {
    let class = |w: Wait| std::mem::discriminant(&cells::cell(w.name));
    place.kind == waits.kind && (place.name == cells::UNNAMED || class(place) == class(waits))
}

// The places to stop at that matter: before each access that others could get ahead of.
fn places() -> Vec<Wait> {
    let named = |kind: Kind, cell: u32| Wait { kind, name: cell };
    let mut places: Vec<Wait> =
        [Kind::NewRecord, Kind::LinkRecord, Kind::LinkNode, Kind::Clock, Kind::Examine, Kind::Reclaim]
            .map(|kind| named(kind, cells::UNNAMED))
            .to_vec();
    places.extend([
        // A1 or P1; A2 or P3; A3, A6 or D2; A4, which holds the lock; A5 or P2.
        named(Kind::Load, cells::HEAD_AVAILABLE),
        named(Kind::Weak, cells::HEAD_AVAILABLE),
        named(Kind::Load, cells::available_next(1)),
        named(Kind::Store, cells::HEAD_AVAILABLE),
        named(Kind::Store, cells::available_next(1)),
        // N3.
        named(Kind::Add, cells::RECORD_COUNT),
        // V0 or V2; V1, V3 or D1; a swap.
        named(Kind::Load, cells::source(1)),
        named(Kind::Store, cells::hazard(1)),
        named(Kind::Swap, cells::source(1)),
        // T1, the test for done or the push; T3 or C1; K1; K2; K3; E2; E3.
        named(Kind::Load, cells::SHARD),
        named(Kind::Add, cells::COUNT),
        named(Kind::Load, cells::COUNT),
        named(Kind::Load, cells::RECORD_COUNT),
        named(Kind::Weak, cells::COUNT),
        named(Kind::Strong, cells::DUE_TIME),
        named(Kind::Swap, cells::COUNT),
        // B1 or C3; a steal; H1; H2; cleanup's wait.
        named(Kind::Add, cells::NBULK_RECLAIMS),
        named(Kind::Swap, cells::SHARD),
        named(Kind::Load, cells::RECORD_HEAD),
        named(Kind::Load, cells::hazard(1)),
        named(Kind::Load, cells::NBULK_RECLAIMS),
    ]);
    places
}

// ---- the profiles: each is played again and again until the replay is full

// Everything, by many threads.
fn mixed(g: &mut Generator) {
    g.weigh(&BALANCED);
    let threads = g.random.within(2, THREADS);
    let nodes = g.random.within(4, 200);
    let sources = g.random.within(1, 64);
    g.take_part(threads, nodes, sources);
    g.burst = g.random.pick(&[1, 2, 3, 8, 30]);
    g.clocks = g.random.pick(&[Clock::Still, Clock::Creeps, Clock::Creeps, Clock::Around, Clock::Wild]);
    g.go_on(6000);
}

// Few nodes and sources, so that threads meet and nodes come again.
fn tight(g: &mut Generator) {
    g.weigh(&BALANCED);
    let threads = g.random.within(2, 4);
    let nodes = g.random.within(1, 6);
    let sources = g.random.within(1, 2);
    g.take_part(threads, nodes, sources);
    g.shards = g.random.pick(&[&[0u64][..], &[7], &[0, 7], &[3]]).to_vec();
    g.burst = g.random.pick(&[1, 1, 2, 4]);
    g.wanted = g.random.within(1, 3);
    g.clocks = g.random.pick(&[Clock::Creeps, Clock::Around, Clock::Wild]);
    g.go_on(1500);
}

// Threads that stop at a chosen place while the others go on.
fn stall(g: &mut Generator) {
    g.weigh(&BALANCED);
    let threads = g.random.within(2, 8);
    let nodes = g.random.within(2, 60);
    g.take_part(threads, nodes, 2);
    g.place = Some(g.random.pick(&places()));
    g.stalls = g.random.pick(&[50, 300, 1000]);
    g.clocks = g.random.pick(&[Clock::Creeps, Clock::Around, Clock::Wild]);
    g.go_on(1500);
    g.place = None;
    g.still = [0; THREADS];
}

// A clock that jumps: 0, 2^64 - 1, the due time and its neighbours.
fn clock(g: &mut Generator) {
    g.weigh(&Weights { retire: 40, swap: 40, ..BALANCED });
    let threads = g.random.within(1, 6);
    g.take_part(threads, 40, 4);
    g.clocks = g.random.pick(&[Clock::Wild, Clock::Around]);
    g.go_on(1000);
}

// Weak exchanges that fail again and again.
fn spurious(g: &mut Generator) {
    g.weigh(&BALANCED);
    let threads = g.random.within(2, 8);
    g.take_part(threads, 30, 3);
    g.spurious = g.random.pick(&[300, 500, 800]);
    g.clocks = g.random.pick(&[Clock::Creeps, Clock::Around]);
    g.go_on(2000);
}

// Many protections, raw and stale ones among them, under passes that keep what is guarded.
fn protect(g: &mut Generator) {
    g.weigh(&Weights {
        acquire: 20,
        release: 2,
        protect: 16,
        try_: 10,
        try_protect: 10,
        raw: 12,
        eager: 10,
        ..BALANCED
    });
    let threads = g.random.within(3, 10);
    let nodes = g.random.within(3, 40);
    g.take_part(threads, nodes, 3);
    g.wanted = g.random.within(2, 12);
    g.clocks = g.random.pick(&[Clock::Creeps, Clock::Around, Clock::Wild]);
    g.go_on(2000);
}

// Many lines that are refused.
fn refuse(g: &mut Generator) {
    g.weigh(&BALANCED);
    let threads = g.random.within(2, THREADS);
    let nodes = g.random.within(2, 30);
    g.take_part(threads, nodes, 4);
    g.refused = g.random.pick(&[200, 500, 800]);
    g.go_on(2000);
}

// A shutdown with nodes waiting, and what is refused before, during and after.
fn shutdown(g: &mut Generator) {
    if g.oracle.shutdown() != 0 {
        return g.wrong();
    }
    g.weigh(&Weights { eager: 0, cleanup: 0, raw: 8, ..BALANCED });
    g.take_part(6, 400, 4);
    g.shards = g.random.pick(&[&[][..], &[0, 7], &[7]]).to_vec();
    // The first retire makes a due time; then the clock stands still, so that nodes gather.
    g.churn(g.left / 8);
    g.clocks = Clock::Still;
    g.clock = g.oracle.content(cells::DUE_TIME).saturating_sub(1);
    let waiting = g.random.within(0, (g.left / 20).min(300)) as i64;
    g.fill(waiting);
    // Closing takes about so many lines.
    let last = 500 + waiting as usize + 8 * g.oracle.owned() as usize;
    g.churn(g.left.saturating_sub(last));
    g.close();
}

// More retired nodes than the threshold allows.
fn storm(g: &mut Generator) {
    let threads = g.random.within(2, 6);
    let sources = g.random.within(1, 4);
    g.weigh(&Weights { eager: 0, cleanup: 0, raw: 6, ..BALANCED });
    g.take_part(threads, 1400, sources);
    g.churn(100);
    let short = g.random.within(0, 3) as i64;
    g.fill(g.threshold() - short);
    // At the threshold everybody retires, and the clock may interfere.
    g.weigh(&Weights { retire: 60, swap: 40, ..BALANCED });
    g.clocks = g.random.pick(&[Clock::Still, Clock::Creeps, Clock::Around]);
    g.spurious = g.random.pick(&[0, 50, 300]);
    g.crowd();
    g.burst = g.random.pick(&[1, 3, 20]);
    g.place = Some(g.random.pick(&places()));
    g.stalls = g.random.pick(&[0, 5, 200]);
    g.go_on(3000);
    g.place = None;
}

// A retire that has taken a large count while an eager, stopped, holds the nodes: it makes empty passes, round after
// round.
fn rounds(g: &mut Generator) {
    g.weigh(&Weights { eager: 0, cleanup: 0, ..BALANCED });
    g.take_part(5, 1300, 2);
    g.churn(60);
    g.finish_all();
    g.fill(g.threshold());
    g.finish_all();
    g.loosen(1);
    let (retires, steals) = (g.threads[0], g.threads[1]);
    g.clocks = g.random.pick(&[Clock::Still, Clock::Creeps]);
    if let Some(node) = g.node_in(LIVE, true) {
        let address = g.address();
        g.start(frames::RETIRE, retires, node, 0, address);
        let steps = g.random.within(2, 5);
        for _ in 0..steps {
            g.step(retires);
        }
        g.start(frames::EAGER, steals, 0, 0, 0);
        let steps = g.random.within(9, 40);
        for _ in 0..steps {
            g.step(steals);
        }
        let rounds = g.random.within(1, 120);
        for _ in 0..rounds {
            g.step(retires);
        }
        g.still[steals as usize] = g.written() + g.random.within(1, 400);
    }
    g.go_on(3000);
}

// More than 500 records: twice their number is the threshold.
fn records(g: &mut Generator) {
    g.weigh(&Weights { eager: 0, cleanup: 0, release: 1, ..BALANCED });
    let threads = g.random.within(2, 6);
    g.take_part(threads, 1700, 2);
    g.wanted = 100;
    let records = g.random.within(499, 560) as u32;
    g.grow(records);
    g.fill(g.threshold() - 2);
    g.weigh(&Weights { retire: 60, swap: 40, acquire: 3, ..BALANCED });
    g.clocks = g.random.pick(&[Clock::Still, Clock::Creeps]);
    g.crowd();
    g.go_on(6000);
}

// All records taken.
fn exhaust(g: &mut Generator) {
    g.weigh(&Weights { eager: 0, cleanup: 0, ..BALANCED });
    let threads = g.random.within(2, THREADS);
    g.take_part(threads, 20, 2);
    let short = g.random.within(0, 6) as u32;
    g.grow(RECORDS - short);
    g.weigh(&Weights { acquire: 60, release: 15, eager: 0, cleanup: 0, ..BALANCED });
    g.wanted = 2000;
    // A pass looks at every record: none shall become due.
    g.clocks = Clock::Still;
    g.clock = g.oracle.content(cells::DUE_TIME).saturating_sub(1);
    g.go_on(3000);
}
