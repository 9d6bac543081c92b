// What the driver answers itself: every refusal, and the order in which they are looked for.

mod common;

use common::Bench;
use oracle::cells;
use oracle::frames::*;
use oracle::replay::{run, Traced};

const BAD_NODE: u64 = 4097;

#[test]
fn thread_above_15_is_17_and_answered_with_that_thread() {
    let mut b = Bench::new();
    for thread in [16, 255] {
        assert_eq!(b.number(ACQUIRE, thread, 0, 0, 0), 17);
        assert_eq!(b.number(STEP, thread, 0, 0, 0), 17);
        assert_eq!(b.number(RELEASE, thread, 9, 0, 0), 17);
    }
}

#[test]
fn starts_during_and_after_shutdown_are_18_even_by_the_thread_inside() {
    let mut b = Bench::new();
    b.start(SHUTDOWN, 3, 0, 0, 0);
    assert_eq!(b.number(ACQUIRE, 3, 0, 0, 0), 18);
    assert_eq!(b.number(SHUTDOWN, 4, 0, 0, 0), 18);
    assert_eq!(b.number(RESET, 4, 1, 0, 0), 18);
    assert_eq!(b.finish(3, 0).value, 0);
    assert_eq!(b.number(ACQUIRE, 3, 0, 0, 0), 18);
    assert_eq!(b.number(STEP, 3, 0, 0, 0), 21);
}

#[test]
fn a_start_inside_is_20_and_a_step_of_an_idle_thread_21() {
    let mut b = Bench::new();
    assert_eq!(b.number(STEP, 0, 0, 0, 0), 21);
    b.start(ACQUIRE, 0, 0, 0, 0);
    assert_eq!(b.number(ACQUIRE, 0, 0, 0, 0), 20);
    assert_eq!(b.number(RELEASE, 0, 1, 0, 0), 20);
    assert_eq!(b.number(SHUTDOWN, 0, 0, 0, 0), 20);
    b.finish(0, 0);
    assert_eq!(b.number(STEP, 0, 0, 0, 0), 21);
}

#[test]
fn a_record_is_owned_from_acquires_answer_to_releases_start() {
    let mut b = Bench::new();
    b.start(ACQUIRE, 0, 0, 0, 0);
    b.steps(0, 3, 0);
    for kind in [RELEASE, RESET] {
        assert_eq!(b.number(kind, 1, 1, 0, 0), 22);
    }
    assert_eq!(b.step(0, 0), (2, 1));
    for (kind, b_, c) in
        [(RELEASE, 0, 0), (PROTECT, 1, 0), (TRY, 1, 0), (TRY_PROTECT, 1, 0), (RESET, 0, 0), (RAW, 0, 0)]
    {
        for record in [0, 2, 1025, 65535] {
            assert_eq!(b.number(kind, 0, record, b_, c), 22);
        }
        assert_eq!(b.number(kind, 1, 1, b_, c), 22, "another's record");
    }
    b.start(RELEASE, 0, 1, 0, 0);
    assert_eq!(b.number(RESET, 1, 1, 0, 0), 22);
    assert_eq!(b.finish(0, 0).steps, 5);
    assert_eq!(b.number(RELEASE, 0, 1, 0, 0), 22, "released already");
}

#[test]
fn source_then_node_are_looked_at_after_the_record() {
    let mut b = Bench::new();
    b.acquire(0);
    for source in [0, 65, 65535] {
        assert_eq!(b.number(PROTECT, 0, 1, source, 0), 23);
        assert_eq!(b.number(TRY, 0, 1, source, BAD_NODE), 23);
        assert_eq!(b.number(TRY_PROTECT, 0, 1, source, 0), 23, "of null too");
        assert_eq!(b.number(SWAP, 0, 0, source, BAD_NODE), 23);
        assert_eq!(b.number(TRY, 0, 2, source, BAD_NODE), 22);
    }
    for node in [BAD_NODE, 65536, (1 << 32) + 1, u64::MAX] {
        assert_eq!(b.number(TRY, 0, 1, 64, node), 24);
        assert_eq!(b.number(TRY_PROTECT, 0, 1, 64, node), 24);
        assert_eq!(b.number(RAW, 0, 1, 0, node), 24);
        assert_eq!(b.number(SWAP, 0, 0, 64, node), 24);
    }
    for node in [0, 4097, 65535] {
        assert_eq!(b.number(RETIRE, 0, node, 0, 0), 24);
    }
}

#[test]
fn only_a_live_node_in_no_source_is_retired() {
    let mut b = Bench::new();
    assert_eq!(b.number(RETIRE, 0, 1, 0, 0), 25, "free");
    b.swap(0, 1, 1);
    b.swap(0, 2, 1);
    assert_eq!(b.number(RETIRE, 0, 1, 0, 0), 25, "in two sources");
    assert_eq!(b.swap(0, 1, 0), 1);
    assert_eq!(b.number(RETIRE, 0, 1, 0, 0), 25, "in one");
    assert_eq!(b.swap(0, 2, 2), 1);
    b.start(RETIRE, 0, 1, 0, 0);
    assert_eq!(b.number(RETIRE, 1, 1, 0, 0), 25, "waiting");
    assert_eq!(b.finish(0, 0).value, 1);
    assert_eq!(b.number(RETIRE, 0, 1, 0, 0), 25, "free again");
}

#[test]
fn a_swap_looks_at_the_nodes_state_at_its_step_alone() {
    let mut b = Bench::new();
    b.live(0, 1);
    // Live at the start, waiting at the step.
    b.start(SWAP, 1, 0, 5, 1);
    b.start(RETIRE, 0, 1, 0, 0);
    assert_eq!(b.step(1, 0), (25, 0));
    assert_eq!((b.changed.as_str(), b.cell(cells::source(5))), ("", 0));
    assert_eq!(b.number(STEP, 1, 0, 0, 0), 21, "the thread is idle");
    // Waiting at the start, free at the step.
    b.start(SWAP, 1, 0, 5, 1);
    b.finish(0, 0);
    assert_eq!(b.step(1, 0), (2, 0));
    assert_eq!(b.changed, " source 5 1\n node 1 state 1\n");
    // The forgotten thread goes on as any other.
    assert_eq!(b.swap(1, 5, 0), 1);
}

#[test]
fn the_1025th_record_is_26_at_n1_and_a_released_one_is_taken_again() {
    let mut b = Bench::new();
    for record in 1..=1024 {
        assert_eq!(b.acquire(record as u8 % 16), record);
    }
    b.start(ACQUIRE, 5, 0, 0, 0);
    b.steps(5, 1, 0);
    // A release between A1 and N1 does not help: the available list is not looked at again.
    b.whole(RELEASE, 3, 3, 0, 0, 0);
    assert_eq!(b.step(5, 0), (26, 0));
    assert_eq!((b.changed.as_str(), b.cell(cells::RECORD_COUNT)), ("", 1024));
    assert_eq!(b.number(STEP, 5, 0, 0, 0), 21);
    let again = b.whole(ACQUIRE, 5, 0, 0, 0, 0);
    assert_eq!((again.steps, again.value), (6, 3));
    b.start(ACQUIRE, 5, 0, 0, 0);
    b.steps(5, 1, 0);
    assert_eq!(b.step(5, 0), (26, 0));
}

#[test]
fn shutdown_is_27_while_someone_is_inside_or_a_record_is_owned() {
    let mut b = Bench::new();
    b.swap(0, 1, 9);
    b.start(EAGER, 1, 0, 0, 0);
    assert_eq!(b.number(SHUTDOWN, 0, 0, 0, 0), 27);
    b.finish(1, 0);
    b.acquire(0);
    assert_eq!(b.number(SHUTDOWN, 0, 0, 0, 0), 27, "one's own record");
    assert_eq!(b.number(SHUTDOWN, 1, 0, 0, 0), 27);
    b.whole(RELEASE, 0, 1, 0, 0, 0);
    // A live node in a source does not matter.
    b.start(SHUTDOWN, 0, 0, 0, 0);
}

#[test]
fn bad_frames_are_28_with_thread_0_and_their_line_number() {
    let good = "0100000000000000000000000000";
    let bad = [
        "",
        " ",
        "010000000000000000000000000",
        "01000000000000000000000000000",
        "0100000000000000000000000000\r",
        " 100000000000000000000000000",
        "0A00000000000000000000000000",
        "0100000000000000000000000g00",
        "010000000000000000000000\x00000",
        "0x00000000000000000000000000",
        "0d00000000000000000000000000",
        "ff00000000000000000000000000",
        // A flag of 2; fields that the kind does not use.
        "0000000200000000000000000000",
        "0000000000010000000000000000",
        "0100000100000000000000000000",
        "0100000000010000000000000000",
        "0100000000000000000000000001",
        "0200000100010000000000000000",
        "0200000100000000000000000001",
        "0300000100010000000000000001",
        "0600000100010000000000000000",
        "0600000100000000000000000001",
        "0700000100010000000000000001",
        "0800000100010000000000000001",
        "0900000100010000000000000001",
        "0a00000100000000000000000000",
        "0b00000000010000000000000000",
        "0c00000000000000000000000001",
        // The frame is looked at before the thread.
        "0110000100000000000000000000",
    ];
    let mut b = Bench::new();
    for (i, line) in bad.iter().enumerate() {
        let answer = b.line(line);
        assert_eq!((answer.number, answer.thread, answer.value), (28, 0, i as u64 + 1), "{line:?}");
    }
    assert_eq!(b.line(good).number, 1);
}

#[test]
fn a_last_line_without_newline_is_28_and_not_carried_out() {
    let answers = run(&mut Traced::new(false), b"0100000000000000000000000000\n0000000000000000000000000000", false);
    assert_eq!(answers, b"01000000000000000000\n1c000000000000000002\n");
    let answers = run(&mut Traced::new(false), b"\n\n", false);
    assert_eq!(answers, b"1c000000000000000001\n1c000000000000000002\n");
}

#[test]
fn refusals_are_counted_apart_from_what_the_rust_answered() {
    let mut b = Bench::new();
    b.number(STEP, 0, 0, 0, 0);
    b.line("nonsense");
    b.acquire(0);
    b.number(RESET, 0, 2, 0, 0);
    let tally = &b.engine.oracle.tally;
    assert_eq!((tally.lines, tally.starts, tally.steps, tally.refused()), (8, 1, 4, 3));
    assert_eq!((tally.refusals[21], tally.refusals[22], tally.refusals[28]), (1, 1, 1));
}
