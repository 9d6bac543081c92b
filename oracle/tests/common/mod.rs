// A bench for tests: the oracle, driven frame by frame, with its cells at hand.
#![allow(dead_code)]

use oracle::cells;
use oracle::frames::{self, Answer, Frame};
use oracle::replay::{Engine, Traced};

pub struct Bench {
    pub engine: Traced,
    /// What the last line changed, as a trace writes it.
    pub changed: String,
}

impl Bench {
    pub fn new() -> Self {
        Bench { engine: Traced::new(true), changed: String::new() }
    }

    pub fn line(&mut self, line: &str) -> Answer {
        let answer = self.engine.answer(line.as_bytes(), true);
        let mut changed = Vec::new();
        self.engine.changes(&mut changed);
        self.changed = String::from_utf8(changed).unwrap();
        answer
    }

    pub fn frame(&mut self, kind: u8, thread: u8, a: u16, b: u16, c: u64) -> Answer {
        let mut line = Vec::new();
        Frame { kind, thread, a, b, c }.write(&mut line);
        self.line(std::str::from_utf8(&line).unwrap())
    }

    /// The number that a line is answered with.
    pub fn number(&mut self, kind: u8, thread: u8, a: u16, b: u16, c: u64) -> u8 {
        let answer = self.frame(kind, thread, a, b, c);
        assert_eq!(answer.thread, thread);
        answer.number
    }

    /// A start that must succeed.
    pub fn start(&mut self, kind: u8, thread: u8, a: u16, b: u16, c: u64) {
        assert_eq!(self.number(kind, thread, a, b, c), 1);
    }

    /// One step: number and value.
    pub fn step(&mut self, thread: u8, clock: u64) -> (u8, u64) {
        let answer = self.frame(frames::STEP, thread, 0, 0, clock);
        (answer.number, answer.value)
    }

    /// One step whose weak exchange fails.
    pub fn failing(&mut self, thread: u8, clock: u64) -> (u8, u64) {
        let answer = self.frame(frames::STEP, thread, 1, 0, clock);
        (answer.number, answer.value)
    }

    /// So many steps, none of which ends the operation; the nodes reclaimed.
    pub fn steps(&mut self, thread: u8, count: usize, clock: u64) -> Vec<u64> {
        let mut reclaimed = Vec::new();
        for _ in 0..count {
            match self.step(thread, clock) {
                (0, 0) => {}
                (4, node) => reclaimed.push(node),
                other => panic!("the operation ended with {other:?}"),
            }
        }
        reclaimed
    }

    /// Steps to the operation's end.
    pub fn finish(&mut self, thread: u8, clock: u64) -> Ended {
        let mut ended = Ended { steps: 0, reclaimed: Vec::new(), number: 0, value: 0 };
        loop {
            ended.steps += 1;
            match self.step(thread, clock) {
                (0, 0) => {}
                (4, node) => ended.reclaimed.push((ended.steps, node)),
                (number, value) => return Ended { number, value, ..ended },
            }
            assert!(ended.steps < 100_000, "it does not end");
        }
    }

    pub fn whole(&mut self, kind: u8, thread: u8, a: u16, b: u16, c: u64, clock: u64) -> Ended {
        self.start(kind, thread, a, b, c);
        self.finish(thread, clock)
    }

    pub fn acquire(&mut self, thread: u8) -> u16 {
        self.whole(frames::ACQUIRE, thread, 0, 0, 0, 0).value as u16
    }

    pub fn swap(&mut self, thread: u8, source: u16, node: u16) -> u64 {
        self.whole(frames::SWAP, thread, 0, source, node.into(), 0).value
    }

    /// Makes a node live, in no source. Uses source 64.
    pub fn live(&mut self, thread: u8, node: u16) {
        self.swap(thread, 64, node);
        self.swap(thread, 64, 0);
    }

    pub fn retire(&mut self, thread: u8, node: u16, address: u64, clock: u64) -> Ended {
        self.live(thread, node);
        self.whole(frames::RETIRE, thread, node, 0, address, clock)
    }

    /// Retires node 4096 alone at clock 0, so that nothing is due before 2,000,000,000.
    pub fn set_due_time(&mut self) {
        assert_eq!(self.retire(0, 4096, 0, 0).value, 1);
        assert_eq!(self.cell(cells::DUE_TIME), 2_000_000_000);
    }

    pub fn raw(&mut self, thread: u8, record: u16, node: u16) {
        assert_eq!(self.whole(frames::RAW, thread, record, 0, node.into(), 0).value, 0);
    }

    pub fn eager(&mut self, thread: u8) -> Ended {
        self.whole(frames::EAGER, thread, 0, 0, 0, 0)
    }

    /// A cell's content, as a signed number.
    pub fn cell(&self, name: u32) -> i64 {
        self.engine.oracle.content(name) as i64
    }

    pub fn shards(&self) -> [i64; 8] {
        std::array::from_fn(|k| self.cell(cells::SHARD + k as u32))
    }
}

#[derive(Debug, PartialEq)]
pub struct Ended {
    pub steps: usize,
    /// Each with its step.
    pub reclaimed: Vec<(usize, u64)>,
    pub number: u8,
    pub value: u64,
}

impl Ended {
    pub fn nodes(&self) -> Vec<u64> {
        self.reclaimed.iter().map(|r| r.1).collect()
    }
}
