// Running a replay: lines in, answers and perhaps changed cells out.

use crate::frames::Answer;
use crate::machine::Oracle;
use crate::trace::Trace;
use std::io::{self, BufRead, Write};

/// What answers lines one by one: the oracle, or the model beside it.
pub trait Engine {
    /// Answers one line, given without its newline; `whole` says that it had one.
    fn answer(&mut self, line: &[u8], whole: bool) -> Answer;
    /// Writes the cells that the last line changed.
    fn changes(&mut self, out: &mut Vec<u8>);
}

/// The oracle, with the eye that writes its trace.
pub struct Traced {
    pub oracle: Oracle,
    pub trace: Trace,
}

impl Traced {
    pub fn new(traces: bool) -> Self {
        let mut oracle = Oracle::new();
        if traces {
            oracle.trace();
        }
        Traced { oracle, trace: Trace::new() }
    }
}

impl Engine for Traced {
    fn answer(&mut self, line: &[u8], whole: bool) -> Answer {
        self.oracle.line(line, whole)
    }
    fn changes(&mut self, out: &mut Vec<u8>) {
        self.trace.write(&self.oracle, out);
    }
}

/// A replay's lines without their newlines, and whether each had one.
pub fn lines(replay: &[u8]) -> impl Iterator<Item = (&[u8], bool)> {
    replay.split_inclusive(|&byte| byte == b'\n').map(|line| match line.split_last() {
        Some((b'\n', rest)) => (rest, true),
        _ => (line, false),
    })
}

/// Answers a whole replay; with the changed cells if it `traces`.
pub fn run(engine: &mut impl Engine, replay: &[u8], traces: bool) -> Vec<u8> {
    let mut out = Vec::new();
    for (line, whole) in lines(replay) {
        engine.answer(line, whole).write(&mut out);
        if traces {
            engine.changes(&mut out);
        }
    }
    out
}

/// The same from a reader to a writer, however long it is.
pub fn stream(
    engine: &mut impl Engine,
    traces: bool,
    input: &mut impl BufRead,
    output: &mut impl Write,
) -> io::Result<()> {
    let mut line = Vec::new();
    let mut out = Vec::with_capacity(1 << 17);
    while input.read_until(b'\n', &mut line)? > 0 {
        let whole = line.last() == Some(&b'\n');
        engine.answer(&line[..line.len() - usize::from(whole)], whole).write(&mut out);
        if traces {
            engine.changes(&mut out);
        }
        line.clear();
        if out.len() > 1 << 16 {
            output.write_all(&out)?;
            out.clear();
        }
    }
    output.write_all(&out)?;
    output.flush()
}
