// A trace: after each answer the cells that its line changed, one per line, in the order of their names.

use crate::cells::{cell, Cell, NAMES};
use crate::machine::Oracle;
use std::io::Write;

/// What every cell held when last looked at.
pub struct Trace {
    contents: Vec<u64>,
    touched: Vec<u32>,
    /// How many changes were written.
    pub cells: u64,
}

impl Default for Trace {
    fn default() -> Self {
        Self::new()
    }
}

impl Trace {
    /// Of a fresh machine: all cells are 0.
    pub fn new() -> Self {
        Trace { contents: vec![0; NAMES], touched: Vec::new(), cells: 0 }
    }

    /// Writes the cells that the machine changed since the last call.
    pub fn write(&mut self, oracle: &Oracle, out: &mut Vec<u8>) {
        let mut touched = std::mem::take(&mut self.touched);
        oracle.touched(&mut touched);
        for &name in &touched {
            self.look(oracle, name, out);
        }
        self.touched = touched;
    }

    /// The same by looking at every cell, touched or not.
    pub fn write_all(&mut self, oracle: &Oracle, out: &mut Vec<u8>) {
        for name in 0..NAMES as u32 {
            self.look(oracle, name, out);
        }
    }

    fn look(&mut self, oracle: &Oracle, name: u32, out: &mut Vec<u8>) {
        let content = oracle.content(name);
        if std::mem::replace(&mut self.contents[name as usize], content) != content {
            self.cells += 1;
            change(name, content, out);
        }
    }
}

/// The line of a cell that changed.
pub fn change(name: u32, content: u64, out: &mut Vec<u8>) {
    match cell(name) {
        Cell::Unnamed => Ok(()),
        Cell::RecordHead => writeln!(out, " record_head {content}"),
        Cell::HeadAvailable => writeln!(out, " head_available {content}"),
        Cell::Shard(k) => writeln!(out, " shard {k} {content}"),
        Cell::RecordCount => writeln!(out, " record_count {content}"),
        Cell::Count => writeln!(out, " count {}", content as i64),
        Cell::DueTime => writeln!(out, " due_time {content}"),
        Cell::NbulkReclaims => writeln!(out, " nbulk_reclaims {content}"),
        Cell::Hazard(r) => writeln!(out, " record {r} hazard {content}"),
        Cell::AvailableNext(r) => writeln!(out, " record {r} available_next {content}"),
        Cell::RecordNext(r) => writeln!(out, " record {r} next {content}"),
        Cell::Source(b) => writeln!(out, " source {b} {content}"),
        Cell::NodeNext(n) => writeln!(out, " node {n} next {content}"),
        Cell::NodeState(n) => writeln!(out, " node {n} state {content}"),
    }
    .expect("a vector takes all");
}
