//! The cases that the gate runs on the `cases` program, crates/cases/stdin, run through the library. A line `# NAME`
//! begins one; a line is a line of a replay, a blank and its answer; a dot is the line before again. A line of a replay that
//! is no frame cannot be asked of the library and is passed over.

use kevrespil::{Answer, Domain, Operation};

const CASES: &[u8] = include_bytes!("../../../crates/cases/stdin");

fn number(digits: &[u8]) -> Option<u64> {
    if digits.iter().any(|d| !matches!(d, b'0'..=b'9' | b'a'..=b'f')) {
        return None;
    }
    u64::from_str_radix(std::str::from_utf8(digits).ok()?, 16).ok()
}

/// The answer to a frame, if it is one that `Domain` can be asked for.
fn ask(domain: &mut Domain, frame: &[u8]) -> Option<Answer> {
    if frame.len() != 28 {
        return None;
    }
    let field = |from: usize, to: usize| number(&frame[from..to]);
    let (kind, thread) = (field(0, 2)?, field(2, 4)? as u32);
    let (a, b, c) = (field(4, 8)? as u32, field(8, 12)? as u32, field(12, 28)?);
    if kind == 0 {
        return if a < 2 && b == 0 { Some(domain.step(thread, a == 1, c)) } else { None };
    }
    // A node above 2^32 has no number here; any that is too large gets the same answer.
    let (record, source, node) = (a, b, u32::try_from(c).unwrap_or(u32::MAX));
    let operation = match kind {
        1 => Operation::Acquire,
        2 => Operation::Release { record },
        3 => Operation::Protect { record, source },
        4 => Operation::Try { record, source, node },
        5 => Operation::TryProtect { record, source, node },
        6 => Operation::Reset { record },
        7 => Operation::Raw { record, node },
        8 => Operation::Swap { source, node },
        9 => Operation::Retire { node: a, address: c },
        10 => Operation::Eager,
        11 => Operation::Cleanup,
        12 => Operation::Shutdown,
        _ => return None,
    };
    let (kind_again, a_again, b_again, c_again) = operation.numbers();
    let same =
        u64::from(kind_again) == kind && a_again == a && b_again == b && (c_again == c || c > u64::from(u32::MAX));
    if same {
        Some(domain.start(thread, operation))
    } else {
        None
    }
}

pub fn the_cases_of_the_gate() {
    let mut domain = Domain::new();
    let mut name = String::new();
    let (mut cases, mut asked, mut at, mut last): (u32, u32, u32, &[u8]) = (0, 0, 0, b"");
    for line in CASES.split(|&byte| byte == b'\n') {
        if let Some(title) = line.strip_prefix(b"# ") {
            domain = Domain::new();
            name = String::from_utf8_lossy(title).into_owned();
            cases += 1;
            at = 0;
            continue;
        }
        at += 1;
        if line != b"." {
            last = line;
        }
        assert!(last.len() >= 21, "{name}: line {at} has no answer");
        let (frame, expected) = (&last[..last.len() - 21], &last[last.len() - 20..]);
        // 28 is the replay program's.
        if expected.starts_with(b"1c") {
            continue;
        }
        let answer = ask(&mut domain, frame).unwrap_or_else(|| panic!("{name}: line {at} is no frame"));
        let numbers = (number(&expected[..2]).unwrap() as u32, number(&expected[4..]).unwrap());
        assert_eq!(answer.numbers(), numbers, "{name}: line {at}");
        asked += 1;
    }
    assert!(cases >= 50 && asked > 30_000, "{cases} cases, {asked} lines");
}
