// Document 01's bench cases that are run and compared, and its mistakes that pass a quick test, on the oracle alone.

mod common;

use common::Bench;
use oracle::cells;
use oracle::frames::*;
use oracle::replay::{run, Traced};

// ---- the literal example

#[test]
fn an_acquire_and_four_steps_at_clock_0_write_exactly_these_lines() {
    let replay = b"0100000000000000000000000000\n\
                   0000000000000000000000000000\n\
                   0000000000000000000000000000\n\
                   0000000000000000000000000000\n\
                   0000000000000000000000000000\n";
    let answers = b"01000000000000000000\n\
                    00000000000000000000\n\
                    00000000000000000000\n\
                    00000000000000000000\n\
                    02000000000000000001\n";
    assert_eq!(run(&mut Traced::new(false), replay, false), answers);
}

#[test]
fn an_empty_input_writes_nothing() {
    assert!(run(&mut Traced::new(false), b"", false).is_empty());
}

// ---- bench cases

#[test]
fn the_first_retire_takes_31_steps_reclaims_at_step_20_and_answers_1() {
    let mut b = Bench::new();
    let first = b.retire(0, 1, 0, 0);
    assert_eq!((first.steps, first.number, first.value), (31, 2, 1));
    assert_eq!(first.reclaimed, [(20, 1)]);
}

#[test]
fn the_next_1000_at_clock_0_answer_0_and_one_more_answers_1001() {
    let mut b = Bench::new();
    b.retire(0, 1, 0, 0);
    for node in 2..=1001 {
        let retired = b.retire(0, node, node as u64 * 0x100, 0);
        assert_eq!((retired.number, retired.value), (2, 0), "node {node}");
    }
    let last = b.retire(0, 1002, 0, 0);
    assert_eq!((last.number, last.value, last.reclaimed.len()), (2, 1001, 1001));
    assert_eq!(b.cell(cells::COUNT), 0);
}

#[test]
fn a_retire_stopped_after_t2_and_anothers_eager_make_count_minus_1_then_0_after_t3() {
    let mut b = Bench::new();
    b.live(0, 1);
    b.start(RETIRE, 0, 1, 0, 0);
    b.steps(0, 2, 0);
    assert_eq!(b.eager(1).nodes(), [1]);
    assert_eq!(b.cell(cells::COUNT), -1);
    b.step(0, 0);
    assert_eq!(b.cell(cells::COUNT), 0);
}

// Retires 1, 2, 3 (a, b, c) into shard 0 with nothing due.
fn three_in_shard_0() -> Bench {
    let mut b = Bench::new();
    b.set_due_time();
    for node in 1..=3 {
        assert_eq!(b.retire(0, node, 0, 0).value, 0);
    }
    b
}

#[test]
fn a_b_c_unguarded_are_reclaimed_a_b_c() {
    let mut b = three_in_shard_0();
    let eager = b.eager(1);
    assert_eq!(eager.nodes(), [1, 2, 3]);
    assert_eq!(eager.value, 3);
}

#[test]
fn a_b_c_all_kept_once_then_freed_are_reclaimed_c_b_a() {
    let mut b = three_in_shard_0();
    for node in 1..=3 {
        let record = b.acquire(2);
        b.raw(2, record, node);
    }
    assert_eq!(b.eager(1).value, 0);
    for record in 1..=3 {
        b.whole(RESET, 2, record, 0, 0, 0);
    }
    assert_eq!(b.eager(1).nodes(), [3, 2, 1]);
}

#[test]
fn a_b_c_at_a_shutdown_with_no_scan_before_are_reclaimed_c_b_a() {
    let mut b = three_in_shard_0();
    let shutdown = b.whole(SHUTDOWN, 0, 0, 0, 0, 0);
    assert_eq!(shutdown.nodes(), [3, 2, 1]);
    // Eight swaps, three nodes, the last step.
    assert_eq!((shutdown.steps, shutdown.number, shutdown.value), (12, 2, 3));
}

#[test]
fn empty_passes_repeat_in_rounds_of_13_steps_until_the_stopped_eagers_own_c1() {
    let mut b = Bench::new();
    b.set_due_time();
    for node in 1..=1000 {
        assert_eq!(b.retire(0, node, 0, 0).value, 0);
    }
    b.live(0, 1001);
    b.start(RETIRE, 0, 1001, 0, 0);
    b.steps(0, 3, 0);
    assert_eq!(b.cell(cells::COUNT), 1001);
    // The eager has stolen everything and stands still.
    b.start(EAGER, 1, 0, 0, 0);
    b.steps(1, 9, 0);
    assert_eq!(b.shards(), [0; 8]);
    // The retire's Check takes 1001: K1, K2, K3, K4, then B1.
    b.steps(0, 5, 0);
    assert_eq!(b.cell(cells::COUNT), 0);
    let round = |b: &mut Bench| {
        // Eight swaps find nothing, C1 gives the count back, Check takes it again.
        b.steps(0, 8, 0);
        assert_eq!(b.changed, "");
        b.steps(0, 1, 0);
        assert_eq!(b.changed, " count 1001\n");
        b.steps(0, 2, 0);
        b.steps(0, 1, 0);
        assert_eq!(b.changed, " count 0\n");
        b.steps(0, 1, 0);
    };
    for _ in 0..50 {
        round(&mut b);
    }
    // The eager reclaims everything: H1, 1001 examined, 1001 reclaimed, eight heads. The rounds go on.
    assert_eq!(b.steps(1, 1 + 1001 + 1001 + 8, 0).len(), 1001);
    round(&mut b);
    // Its own C1 ends them.
    b.steps(1, 1, 0);
    assert_eq!(b.cell(cells::COUNT), -1001);
    let retired = b.finish(0, 0);
    // Eight swaps, C1, K1, K2, C3.
    assert_eq!((retired.steps, retired.number, retired.value), (12, 2, 0));
    assert_eq!(b.cell(cells::COUNT), 0);
    let eager = b.finish(1, 0);
    assert_eq!((eager.number, eager.value), (2, 1001));
}

// ---- the starred cases, run too

#[test]
fn the_shard_is_the_addresss() {
    for (address, shard) in [(0xff, 0), (0x100, 1), (0x7ff, 7), (0x800, 0), (u64::MAX, 7)] {
        let mut b = Bench::new();
        b.live(0, 1);
        b.start(RETIRE, 0, 1, 0, address);
        b.steps(0, 2, 0);
        let mut heads = [0; 8];
        heads[shard] = 1;
        assert_eq!(b.shards(), heads, "{address:#x}");
    }
}

#[test]
fn the_trigger_is_above_1000_or_twice_the_records() {
    // Records, and the count up to which nothing is triggered.
    for (records, quiet) in [(500, 1000), (501, 1002)] {
        let mut b = Bench::new();
        b.set_due_time();
        for _ in 0..records {
            b.acquire(3);
        }
        for node in 1..=quiet {
            assert_eq!(b.retire(0, node, 0, 0).value, 0, "{records} records, node {node}");
        }
        assert_eq!(b.retire(0, quiet + 1, 0, 0).value, quiet as u64 + 1, "{records} records");
    }
}

#[test]
fn a_clock_equal_to_due_is_due_and_one_less_is_not() {
    let mut b = Bench::new();
    b.set_due_time();
    assert_eq!(b.retire(0, 1, 0, 1_999_999_999).value, 0);
    assert_eq!(b.retire(0, 2, 0, 2_000_000_000).value, 2);
    assert_eq!(b.cell(cells::DUE_TIME), 4_000_000_000);
}

#[test]
fn the_clock_2_64_less_1_gives_due_1999999999() {
    let mut b = Bench::new();
    assert_eq!(b.retire(0, 1, 0, u64::MAX).value, 1);
    assert_eq!(b.cell(cells::DUE_TIME), 1_999_999_999);
}

// ---- mistakes that pass a quick test

#[test]
fn done_is_tested_before_the_kept_list_is_pushed_so_a_pass_ends_while_something_is_guarded() {
    let mut b = three_in_shard_0();
    let record = b.acquire(2);
    b.raw(2, record, 2);
    // B1, eight swaps, H1, H2, three examined, two reclaimed, eight heads, two for the kept list, C1, K1, K2, C3.
    let eager = b.eager(1);
    assert_eq!((eager.steps, eager.nodes(), eager.value), (30, vec![1, 3], 2));
    assert_eq!(b.shards(), [2, 0, 0, 0, 0, 0, 0, 0]);
}

#[test]
fn kept_nodes_go_to_shard_0() {
    let mut b = Bench::new();
    b.set_due_time();
    for (node, address) in [(1, 0x300), (2, 0x700), (3, 0x700)] {
        b.retire(0, node, address, 0);
        let record = b.acquire(2);
        b.raw(2, record, node);
    }
    assert_eq!(b.shards(), [0, 0, 0, 1, 0, 0, 0, 3]);
    assert_eq!(b.eager(1).value, 0);
    // Shard 3's node was examined first, then 3 and 2 of shard 7, each put in front.
    assert_eq!(b.shards(), [2, 0, 0, 0, 0, 0, 0, 0]);
    assert_eq!([2, 3, 1].map(|n| b.cell(cells::node_next(n))), [3, 1, 0]);
}

#[test]
fn hazards_are_scanned_after_the_shards_are_stolen() {
    let mut b = Bench::new();
    b.set_due_time();
    b.retire(0, 1, 0, 0);
    let record = b.acquire(2);
    b.start(EAGER, 1, 0, 0, 0);
    // After B1 and the eight swaps a protection still counts.
    b.steps(1, 9, 0);
    b.raw(2, record, 1);
    let eager = b.finish(1, 0);
    assert_eq!((eager.nodes(), eager.value), (vec![], 0));
}

#[test]
fn a_negative_swapped_count_causes_a_pass() {
    let mut b = Bench::new();
    // Two retires stop after T2, and an eager reclaims their nodes.
    for (thread, node) in [(0, 1), (1, 2)] {
        b.live(thread, node);
        b.start(RETIRE, thread, node, 0, 0);
        b.steps(thread, 2, 0);
    }
    assert_eq!(b.eager(2).value, 2);
    assert_eq!(b.cell(cells::COUNT), -2);
    // A third makes it -1 and takes that at E3.
    b.live(3, 3);
    b.start(RETIRE, 3, 3, 0, 0);
    b.steps(3, 8, 0);
    assert_eq!(b.changed, " count 0\n");
    let retired = b.finish(3, 0);
    assert_eq!((retired.nodes(), retired.value), (vec![3], 1));
    assert_eq!(b.cell(cells::COUNT), -2);
}

#[test]
fn try_protect_of_null_is_done_at_its_start_and_touches_no_hazard() {
    let mut b = Bench::new();
    let record = b.acquire(0);
    b.raw(0, record, 7);
    let answer = b.frame(TRY_PROTECT, 0, record, 1, 0);
    assert_eq!((answer.number, answer.value), (2, 0));
    assert_eq!((b.changed.as_str(), b.cell(cells::hazard(1))), ("", 7));
    assert_eq!(b.number(STEP, 0, 0, 0, 0), 21);
    // A try of null runs on, as of any node.
    b.start(TRY, 0, record, 1, 0);
    b.steps(0, 1, 0);
    assert_eq!(b.cell(cells::hazard(1)), 0);
    assert_eq!(b.step(0, 0), (2, 0));
}
