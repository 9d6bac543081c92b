// The command line, with the model in the port's place.

use oracle::model::Mistake;
use std::io::Write;
use std::process::{Command, Output, Stdio};

const ORACLE: &str = env!("CARGO_BIN_EXE_oracle");

fn oracle(arguments: &[&str], input: &[u8]) -> Output {
    let mut child = Command::new(ORACLE)
        .args(arguments)
        .stdin(Stdio::piped())
        .stdout(Stdio::piped())
        .stderr(Stdio::piped())
        .spawn()
        .unwrap();
    let mut stdin = child.stdin.take().unwrap();
    let input = input.to_vec();
    let feeder = std::thread::spawn(move || drop(stdin.write_all(&input)));
    let output = child.wait_with_output().unwrap();
    feeder.join().unwrap();
    output
}

fn said(output: &Output) -> String {
    String::from_utf8_lossy(&output.stdout).into_owned()
}

#[test]
fn run_and_trace() {
    let replay = b"0100000000000000000000000000\n0000000000000000000000000000\n0000000000000000000000000000\n\
                   0000000000000000000000000000\n0000000000000000000000000000\n";
    let run = oracle(&["run"], replay);
    assert!(run.status.success());
    let answers = ["01000000000000000000", "00000000000000000000", "00000000000000000000", "00000000000000000000"];
    assert_eq!(said(&run), format!("{}\n02000000000000000001\n", answers.join("\n")));
    let trace = oracle(&["trace", "--report"], replay);
    let expected = format!("{}\n record_head 1\n02000000000000000001\n record_count 1\n", answers.join("\n"));
    assert_eq!(said(&trace), expected);
    let report = String::from_utf8_lossy(&trace.stderr).into_owned();
    assert!(
        report.starts_with("lines 5, answered by the Rust 5 (starts 1, steps 4), by the bookkeeping 0"),
        "{report}"
    );
}

#[test]
fn gen_writes_the_lines_asked_for() {
    let made = oracle(&["gen", "--seed", "7", "--lines", "600", "--profile", "tight"], b"");
    assert_eq!(said(&made).lines().count(), 600);
    assert_eq!(oracle(&["gen", "--profile", "none"], b"").status.code(), Some(2));
    assert_eq!(oracle(&["gen", "--lines", "many"], b"").status.code(), Some(2));
    assert_eq!(oracle(&["nothing"], b"").status.code(), Some(2));
}

fn compare(mistake: Mistake, more: &[&str]) -> Output {
    let number = Mistake::ALL.iter().position(|&m| m == mistake).unwrap();
    let port = format!("{ORACLE} model --mistake {number}");
    let trace_port = format!("{port} --trace yes");
    let fixed = ["compare", "--seed", "11", "--lines", "3000", "--port", &port, "--trace-port", &trace_port];
    oracle(&[&fixed[..], more].concat(), b"")
}

#[test]
fn compare_passes_a_port_that_follows_the_rules() {
    let output = compare(Mistake::None, &["--runs", "36"]);
    let text = said(&output);
    assert!(output.status.success(), "{text}");
    assert!(text.ends_with("36 passed, 0 failed\n"), "{text}");
    assert!(text.starts_with("runs 36, lines "), "{text}");
}

#[test]
fn compare_finds_each_mistake_and_cuts_it_down() {
    for mistake in Mistake::ALL.into_iter().filter(|&m| m != Mistake::None) {
        let output = compare(mistake, &["--runs", "240", "--failures", "1", "--shrink", "5", "--jobs", "1"]);
        let text = said(&output);
        assert_eq!(output.status.code(), Some(1), "{mistake:?}: {text}");
        assert!(text.ends_with("1 failed\n"), "{mistake:?}: {text}");
        let parted = text.lines().find(|l| l.starts_with("  parted at line")).expect("both sides are shown");
        println!("{mistake:?}:{parted}");
    }
}

#[test]
fn compare_cuts_a_short_mistake_down_to_a_few_lines() {
    let more = ["--runs", "240", "--failures", "1", "--jobs", "1", "--profile", "protect"];
    let text = said(&compare(Mistake::TryOfNullClears, &more));
    // An acquire of five lines or a few, as the record's number stays; a claim of two or more; the try.
    let lines: Vec<&str> = text.lines().filter(|l| l.contains(" -> ")).collect();
    assert!((8..=40).contains(&lines.len()), "{text}");
    assert!(lines.last().unwrap().contains("try_protect"), "{text}");
}

#[test]
fn compare_reports_a_port_that_does_not_start_or_says_too_little() {
    let missing = oracle(&["compare", "--runs", "1", "--shrink", "0", "--port", "no-such-port"], b"");
    assert_eq!(missing.status.code(), Some(1));
    assert!(said(&missing).contains("does not start"), "{}", said(&missing));
    let silent = oracle(&["compare", "--runs", "1", "--shrink", "0", "--port", "true"], b"");
    assert!(said(&silent).contains("nothing"), "{}", said(&silent));
}
