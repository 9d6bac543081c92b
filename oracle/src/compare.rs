// Compares a port with the oracle: makes replays, runs both, looks at every answer and, if asked, at every cell that
// changed; cuts a disagreement down to a short replay.

use crate::cells::{self, cell};
use crate::frames::{self, Frame};
use crate::generate::{generate, Profile, PROFILES};
use crate::machine::{Oracle, Tally};
use crate::replay::{self, lines, Traced};
use std::fmt::Write as _;
use std::io::{Read, Write as _};
use std::path::PathBuf;
use std::process::{Command, Stdio};
use std::sync::atomic::{AtomicU64, Ordering};
use std::sync::{mpsc, Mutex};
use std::time::{Duration, Instant};

pub struct Options {
    pub runs: u64,
    pub seed: u64,
    pub lines: usize,
    /// A program and its arguments, that answers a replay on its standard input.
    pub port: Option<String>,
    /// The same, with changed cells after each answer.
    pub trace_port: Option<String>,
    /// All runs of this profile; without it each in turn.
    pub profile: Option<&'static Profile>,
    /// How many runs at a time.
    pub jobs: usize,
    /// How long a port may take for a run, and how long cutting down may take.
    pub patience: Duration,
    pub shrink: Duration,
    /// After so many disagreements no more runs are begun.
    pub failures: u64,
    /// Where the short replays of disagreements are written to.
    pub keep: Option<PathBuf>,
}

#[derive(Default)]
pub struct Report {
    pub runs: u64,
    pub failed: u64,
    pub tally: Tally,
    /// Steps whose answer was compared, of those the original made.
    pub steps: u64,
    pub cells: u64,
}

impl Report {
    pub fn line(&self) -> String {
        let Report { runs, failed, tally, .. } = self;
        let mut refusals = String::new();
        for (number, count) in tally.refusals.iter().enumerate().filter(|(_, &count)| count > 0) {
            let _ = write!(refusals, "{}{number}: {count}", if refusals.is_empty() { "" } else { ", " });
        }
        format!(
            "runs {runs}, lines {}, steps compared {}, lines answered by the Rust {} (starts {}, steps {}), \
             refusals {} ({}), cells compared {}; {} passed, {failed} failed",
            tally.lines,
            self.steps,
            tally.starts + tally.steps,
            tally.starts,
            tally.steps,
            tally.refused(),
            if refusals.is_empty() { "none" } else { &refusals },
            self.cells,
            runs - failed,
        )
    }
}

/// Runs the comparison; prints each disagreement as it is found.
pub fn compare(options: &Options) -> Report {
    let report = Mutex::new(Report::default());
    let next = AtomicU64::new(0);
    // The oracle's machines stay in the OS thread that made them.
    std::thread::scope(|scope| {
        for _ in 0..options.jobs {
            scope.spawn(|| loop {
                let run = next.fetch_add(1, Ordering::Relaxed);
                if run >= options.runs || report.lock().unwrap().failed >= options.failures {
                    return;
                }
                one(options, run, &report);
            });
        }
    });
    report.into_inner().unwrap()
}

fn one(options: &Options, run: u64, report: &Mutex<Report>) {
    let profile = options.profile.unwrap_or(&PROFILES[run as usize % PROFILES.len()]);
    let seed = options.seed.wrapping_add(run);
    let count = options.lines.max(profile.lines);
    let made = generate(profile, seed, count);
    let outcome = judge(options, &made);
    let mut report = report.lock().unwrap();
    report.runs += 1;
    report.tally.add(&outcome.tally);
    report.steps += outcome.steps;
    report.cells += outcome.cells;
    if let Some(first) = outcome.disagreement {
        report.failed += 1;
        // The lock is kept, so that what is printed stays together.
        println!(
            "disagreement: oracle gen --seed {seed} --lines {count} --profile {}, line {}",
            profile.name,
            first.line + 1
        );
        let (short, last) = shrink(options, made, first);
        print!("{}", account(&short, &last));
        if let Some(directory) = &options.keep {
            let file = directory.join(format!("{}-{seed}.replay", profile.name));
            match std::fs::write(&file, &short) {
                Ok(()) => println!("  written to {}", file.display()),
                Err(e) => println!("  not written to {}: {e}", file.display()),
            }
        }
    }
}

/// Where the two sides part: the replay's line, counted from 0, and what each side says of it.
#[derive(Clone, Debug)]
pub struct Disagreement {
    pub line: usize,
    pub oracle: String,
    pub port: String,
    pub of: &'static str,
}

struct Outcome {
    tally: Tally,
    steps: u64,
    cells: u64,
    disagreement: Option<Disagreement>,
}

// Runs the oracle and the ports on a replay.
fn judge(options: &Options, replay: &[u8]) -> Outcome {
    let traces = options.trace_port.is_some();
    let mut engine = Traced::new(traces);
    let mut answers = Vec::new();
    let mut traced = Vec::new();
    for (line, whole) in lines(replay) {
        use replay::Engine;
        let answer = engine.answer(line, whole);
        answer.write(&mut answers);
        if traces {
            answer.write(&mut traced);
            engine.changes(&mut traced);
        }
    }
    let mut disagreement: Option<Disagreement> = None;
    let mut agreed = usize::MAX;
    for (port, expected, of) in [(&options.port, &answers, "answers"), (&options.trace_port, &traced, "cells")] {
        let Some(port) = port else { continue };
        let found = match ask(port, replay, options.patience) {
            Ok(said) => part(expected, &said, of),
            Err(why) => Some(Disagreement { line: 0, oracle: String::new(), port: why, of }),
        };
        if let Some(found) = found {
            agreed = agreed.min(found.line);
            if disagreement.as_ref().is_none_or(|d| found.line < d.line) {
                disagreement = Some(found);
            }
        }
    }
    let tally = engine.oracle.tally.clone();
    // Up to a disagreement only the lines before it were compared with any meaning.
    let (steps, cells) = match agreed {
        usize::MAX => (tally.steps, engine.trace.cells),
        n => (lines(replay).take(n).filter(|(l, _)| l.starts_with(b"00")).count() as u64, 0),
    };
    Outcome { tally, steps, cells, disagreement }
}

// What stands after each replay line: the answer, and the cells under it.
fn groups(text: &[u8]) -> Vec<&[u8]> {
    let mut starts: Vec<usize> = Vec::new();
    let mut at = 0;
    for line in text.split_inclusive(|&b| b == b'\n') {
        if !line.starts_with(b" ") || at == 0 {
            starts.push(at);
        }
        at += line.len();
    }
    starts.push(text.len());
    starts.windows(2).map(|w| &text[w[0]..w[1]]).collect()
}

// The first group in which two texts differ.
fn part(expected: &[u8], said: &[u8], of: &'static str) -> Option<Disagreement> {
    if expected == said {
        return None;
    }
    let (ours, theirs) = (groups(expected), groups(said));
    let line = (0..).find(|&i| ours.get(i) != theirs.get(i))?;
    let text = |group: Option<&&[u8]>| match group {
        Some(group) => String::from_utf8_lossy(group).trim_end().to_string(),
        None => "nothing".to_string(),
    };
    Some(Disagreement { line, oracle: text(ours.get(line)), port: text(theirs.get(line)), of })
}

// What the port answers to the replay.
fn ask(port: &str, replay: &[u8], patience: Duration) -> Result<Vec<u8>, String> {
    let mut words = port.split_whitespace();
    let program = words.next().ok_or("no program")?;
    let mut child = Command::new(program)
        .args(words)
        .stdin(Stdio::piped())
        .stdout(Stdio::piped())
        .spawn()
        .map_err(|e| format!("{program} does not start: {e}"))?;
    let mut stdin = child.stdin.take().expect("piped");
    let mut stdout = child.stdout.take().expect("piped");
    let text = replay.to_vec();
    // A port that stops reading is found out by its answers.
    let feeder = std::thread::spawn(move || drop(stdin.write_all(&text)));
    let (sender, receiver) = mpsc::channel();
    let reader = std::thread::spawn(move || {
        let mut said = Vec::new();
        let read = stdout.read_to_end(&mut said);
        let _ = sender.send(read.map(|_| said));
    });
    let said = receiver.recv_timeout(patience);
    if said.is_err() {
        let _ = child.kill();
    }
    let status = child.wait().map_err(|e| e.to_string())?;
    let _ = (feeder.join(), reader.join());
    match said {
        Err(_) => Err(format!("{program} did not end within {} seconds", patience.as_secs())),
        Ok(Err(e)) => Err(format!("{program} cannot be read: {e}")),
        Ok(Ok(_)) if !status.success() => Err(format!("{program} failed: {status}")),
        Ok(Ok(said)) => Ok(said),
    }
}

// Drops lines while the two sides still disagree; then makes the steps left plain where that changes nothing.
fn shrink(options: &Options, replay: Vec<u8>, first: Disagreement) -> (Vec<u8>, Disagreement) {
    let kept = replay.split_inclusive(|&b| b == b'\n').map(<[u8]>::to_vec).collect();
    let mut short = Short { options, end: Instant::now() + options.shrink, kept, last: first };
    short.cut();
    short.reduce(|_| None);
    short.reduce(plain);
    short.reduce(|_| None);
    (short.kept.concat(), short.last)
}

struct Short<'a> {
    options: &'a Options,
    end: Instant,
    kept: Vec<Vec<u8>>,
    last: Disagreement,
}

impl Short<'_> {
    // What comes after the disagreement goes. A port that failed as a whole parts from nothing in particular.
    fn cut(&mut self) {
        if !self.last.oracle.is_empty() {
            self.kept.truncate(self.last.line + 1);
        }
    }

    // Makes something else of lines, or nothing, in ever smaller pieces, where the two sides disagree all the same.
    fn reduce(&mut self, to: impl Fn(&[u8]) -> Option<Vec<u8>>) {
        let mut piece = self.kept.len().div_ceil(2);
        while piece > 0 {
            let mut at = 0;
            while at < self.kept.len() && Instant::now() < self.end {
                let upto = (at + piece).min(self.kept.len());
                let new: Vec<Vec<u8>> = self.kept[at..upto].iter().filter_map(|line| to(line)).collect();
                let next = at + new.len();
                if new == self.kept[at..upto] {
                    at = upto;
                    continue;
                }
                let all: Vec<Vec<u8>> = [&self.kept[..at], &new, &self.kept[upto..]].concat();
                match judge(self.options, &all.concat()).disagreement {
                    Some(found) => {
                        self.kept = all;
                        self.last = found;
                        self.cut();
                        at = next;
                    }
                    None => at = upto,
                }
            }
            piece = if piece == 1 { 0 } else { piece.div_ceil(2) };
        }
    }
}

// A step at clock 0 whose exchange does not fail; other lines as they are.
fn plain(line: &[u8]) -> Option<Vec<u8>> {
    let step = line.strip_suffix(b"\n").and_then(Frame::read).filter(|f| f.kind == frames::STEP);
    let Some(step) = step else { return Some(line.to_vec()) };
    let mut text = Vec::new();
    Frame { a: 0, c: 0, ..step }.write(&mut text);
    text.push(b'\n');
    Some(text)
}

const SHOWN: usize = 120;

// A replay in words, with the oracle's answers, and both sides where they part.
fn account(replay: &[u8], d: &Disagreement) -> String {
    let mut text = String::new();
    let mut oracle = Oracle::new();
    let all = lines(replay).count();
    for (i, (line, whole)) in lines(replay).enumerate() {
        let asked = in_words(&oracle, line);
        let mut answer = Vec::new();
        oracle.line(line, whole).write(&mut answer);
        if i + SHOWN < all {
            if i == 0 {
                let _ = writeln!(text, "  .. {} lines before", all - SHOWN);
            }
            continue;
        }
        let line = String::from_utf8_lossy(line);
        let answer = String::from_utf8_lossy(&answer);
        let _ = writeln!(text, "  {:>5} {line} -> {}  {asked}", i + 1, answer.trim_end());
    }
    let _ = writeln!(text, "  parted at line {} in {}", d.line + 1, d.of);
    let indented = |said: &str| said.replace('\n', "\n         ");
    let _ = writeln!(text, "  oracle {}\n  port   {}", indented(&d.oracle), indented(&d.port));
    text
}

fn in_words(oracle: &Oracle, line: &[u8]) -> String {
    let Some(Frame { kind, thread, a, b, c }) = Frame::read(line) else { return "bad frame".to_string() };
    let done = match kind {
        frames::STEP => {
            let flag = if a == 1 { ", fails" } else { "" };
            let place = match (thread < 16).then(|| oracle.at(thread as usize)).flatten() {
                Some((_, waits)) if waits.name == cells::UNNAMED => format!("{:?}", waits.kind),
                Some((_, waits)) => format!("{:?} {:?}", waits.kind, cell(waits.name)),
                None => "idle".to_string(),
            };
            format!("step: {place}, clock {c}{flag}")
        }
        frames::ACQUIRE => "acquire".to_string(),
        frames::RELEASE => format!("release record {a}"),
        frames::PROTECT => format!("protect record {a}, source {b}"),
        frames::TRY => format!("try record {a}, source {b}, node {c}"),
        frames::TRY_PROTECT => format!("try_protect record {a}, source {b}, node {c}"),
        frames::RESET => format!("reset record {a}"),
        frames::RAW => format!("raw record {a}, node {c}"),
        frames::SWAP => format!("swap source {b}, node {c}"),
        frames::RETIRE => format!("retire node {a}, address {c:#x}"),
        frames::EAGER => "eager".to_string(),
        frames::CLEANUP => "cleanup".to_string(),
        _ => "shutdown".to_string(),
    };
    format!("thread {thread} {done}")
}
