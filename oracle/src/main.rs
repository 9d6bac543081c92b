// The command `oracle`: runs replays through the original, makes them, and compares a port with it.

use oracle::compare::{compare, Options};
use oracle::generate::{generate, profile, Profile, PROFILES};
use oracle::model::{Mistake, Model};
use oracle::replay::{self, Traced};
use std::collections::BTreeMap;
use std::io::{self, Write};
use std::path::PathBuf;
use std::process::ExitCode;
use std::str::FromStr;
use std::time::{Duration, Instant};

const USAGE: &str = "\
oracle run [--report] < replay        answers of the original
oracle trace [--report] < replay      the same, and after each the cells that it changed
oracle gen [--seed S] [--lines N] [--profile NAME]
oracle compare [--runs N] [--seed S] [--lines L] [--profile NAME] [--jobs J]
               [--patience SECONDS] [--shrink SECONDS] [--failures N] [--keep DIRECTORY]
               [--port 'PROGRAM ARGUMENT..'] [--trace-port 'PROGRAM ARGUMENT..']
oracle model [--trace yes] [--mistake NUMBER] < replay      the model of document 01's rules, in a port's place
oracle profiles
";

fn main() -> ExitCode {
    let mut words = std::env::args().skip(1);
    let command = words.next().unwrap_or_default();
    let result = match command.as_str() {
        "run" => run(words.collect(), false),
        "trace" => run(words.collect(), true),
        "gen" => options(words, &["seed", "lines", "profile"]).and_then(|o| gen(&o)),
        "compare" => {
            let known = [
                "runs",
                "seed",
                "lines",
                "profile",
                "jobs",
                "patience",
                "shrink",
                "failures",
                "keep",
                "port",
                "trace-port",
            ];
            options(words, &known).and_then(|o| compares(&o))
        }
        "model" => options(words, &["trace", "mistake"]).and_then(|o| model(&o)),
        "profiles" => {
            PROFILES.iter().for_each(|p| println!("{}", p.name));
            Ok(true)
        }
        _ => Err(USAGE.to_string()),
    };
    match result {
        Ok(true) => ExitCode::SUCCESS,
        Ok(false) => ExitCode::FAILURE,
        Err(sentence) => {
            eprintln!("{sentence}");
            ExitCode::from(2)
        }
    }
}

type Given = BTreeMap<String, String>;

// Words of the form `--name value`.
fn options(mut words: impl Iterator<Item = String>, known: &[&str]) -> Result<Given, String> {
    let mut given = Given::new();
    while let Some(word) = words.next() {
        let name = word.strip_prefix("--").filter(|n| known.contains(n));
        let name = name.ok_or_else(|| format!("oracle: '{word}' is not known here.\n{USAGE}"))?;
        let value = words.next().ok_or_else(|| format!("oracle: --{name} wants a value."))?;
        given.insert(name.to_string(), value);
    }
    Ok(given)
}

fn number<T: FromStr>(given: &Given, name: &str, default: T) -> Result<T, String> {
    match given.get(name) {
        None => Ok(default),
        Some(value) => value.parse().map_err(|_| format!("oracle: --{name} {value} is no number that fits.")),
    }
}

fn the_profile(given: &Given) -> Result<Option<&'static Profile>, String> {
    let Some(name) = given.get("profile") else { return Ok(None) };
    profile(name).map(Some).ok_or_else(|| format!("oracle: there is no profile '{name}'; see oracle profiles."))
}

fn run(words: Vec<String>, traces: bool) -> Result<bool, String> {
    let report = words == ["--report"];
    if !report && !words.is_empty() {
        return Err(USAGE.to_string());
    }
    let begun = Instant::now();
    let mut engine = Traced::new(traces);
    ended(replay::stream(&mut engine, traces, &mut io::stdin().lock(), &mut io::stdout().lock()))?;
    if report {
        let t = &engine.oracle.tally;
        let refusals: Vec<String> =
            (0..).zip(t.refusals).filter(|r| r.1 > 0).map(|(n, c): (u8, u64)| format!("{n}: {c}")).collect();
        let per_second = t.lines as f64 / begun.elapsed().as_secs_f64();
        eprintln!(
            "lines {}, answered by the Rust {} (starts {}, steps {}), by the bookkeeping {} ({}); \
             {per_second:.0} lines a second",
            t.lines,
            t.starts + t.steps,
            t.starts,
            t.steps,
            t.refused(),
            refusals.join(", "),
        );
    }
    Ok(true)
}

fn gen(given: &Given) -> Result<bool, String> {
    let seed: u64 = number(given, "seed", 1)?;
    let lines = number(given, "lines", 5000)?;
    let profile = the_profile(given)?.unwrap_or(&PROFILES[seed as usize % PROFILES.len()]);
    ended(io::stdout().write_all(&generate(profile, seed, lines)))
}

fn compares(given: &Given) -> Result<bool, String> {
    let options = Options {
        runs: number(given, "runs", 100)?,
        seed: number(given, "seed", 1)?,
        lines: number(given, "lines", 5000)?,
        port: given.get("port").cloned(),
        trace_port: given.get("trace-port").cloned(),
        profile: the_profile(given)?,
        jobs: number(given, "jobs", 2)?,
        patience: Duration::from_secs(number(given, "patience", 60)?),
        shrink: Duration::from_secs(number(given, "shrink", 60)?),
        failures: number(given, "failures", 3)?,
        keep: given.get("keep").map(PathBuf::from),
    };
    if options.port.is_none() && options.trace_port.is_none() {
        return Err(format!("oracle: compare wants --port or --trace-port.\n{USAGE}"));
    }
    let report = compare(&options);
    println!("{}", report.line());
    Ok(report.failed == 0)
}

fn model(given: &Given) -> Result<bool, String> {
    let traces = given.contains_key("trace");
    let mistake: usize = number(given, "mistake", 0)?;
    let mistake = *Mistake::ALL.get(mistake).ok_or("oracle: there is no such mistake.")?;
    ended(replay::stream(&mut Model::new(mistake), traces, &mut io::stdin().lock(), &mut io::stdout().lock()))
}

// A reader that has seen enough is no failure.
fn ended(result: io::Result<()>) -> Result<bool, String> {
    match result {
        Err(e) if e.kind() != io::ErrorKind::BrokenPipe => Err(format!("oracle: {e}.")),
        _ => Ok(true),
    }
}
