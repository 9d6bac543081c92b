// Where each step begins and ends: the cells that it changes, and no others, and what it gives back.

mod common;

use common::Bench;
use oracle::cells;
use oracle::frames::*;

// Steps once and says what changed.
fn change(b: &mut Bench, thread: u8) -> String {
    let answer = b.step(thread, 0);
    assert_eq!(answer, (0, 0));
    b.changed.clone()
}

#[test]
fn acquire_of_a_new_record() {
    let mut b = Bench::new();
    b.acquire(0);
    b.start(ACQUIRE, 1, 0, 0, 0);
    assert_eq!(change(&mut b, 1), "");
    assert_eq!(change(&mut b, 1), "");
    // N2, lost: `next` is written all the same.
    assert_eq!(b.failing(1, 0), (0, 0));
    assert_eq!(b.changed, " record 2 next 1\n");
    assert_eq!(change(&mut b, 1), " record_head 2\n");
    assert_eq!(b.step(1, 0), (2, 2));
    assert_eq!(b.changed, " record_count 2\n");
}

#[test]
fn records_are_numbered_at_n1() {
    let mut b = Bench::new();
    for thread in [0, 1] {
        b.start(ACQUIRE, thread, 0, 0, 0);
        b.steps(thread, 1, 0);
    }
    // Thread 1 takes the lowest row, though thread 0 saw the empty list first.
    b.steps(1, 1, 0);
    b.steps(0, 2, 0);
    // Thread 1's exchange is lost to thread 0's, and tried again with the value seen.
    b.steps(1, 1, 0);
    assert_eq!(b.changed, "");
    b.steps(1, 1, 0);
    assert_eq!(b.changed, " record_head 1\n record 1 next 2\n");
    assert_eq!((b.step(0, 0), b.step(1, 0)), ((2, 2), (2, 1)));
}

#[test]
fn release_and_acquire_of_a_released_record() {
    let mut b = Bench::new();
    for _ in 0..2 {
        b.acquire(0);
    }
    b.raw(0, 1, 5);
    b.whole(RELEASE, 0, 2, 0, 0, 0);
    b.start(RELEASE, 0, 1, 0, 0);
    assert_eq!(b.changed, "");
    assert_eq!(change(&mut b, 0), " record 1 hazard 0\n");
    assert_eq!(change(&mut b, 0), "");
    assert_eq!(change(&mut b, 0), "");
    assert_eq!(change(&mut b, 0), " record 1 available_next 2\n");
    // P3 lost: P1, P2 and P3 again.
    assert_eq!(b.failing(0, 0), (0, 0));
    assert_eq!(change(&mut b, 0), "");
    assert_eq!(change(&mut b, 0), "");
    assert_eq!(b.step(0, 0), (2, 0));
    assert_eq!(b.changed, " head_available 2\n");

    b.start(ACQUIRE, 3, 0, 0, 0);
    assert_eq!(change(&mut b, 3), "");
    assert_eq!(b.failing(3, 0), (0, 0));
    assert_eq!(change(&mut b, 3), "");
    assert_eq!(change(&mut b, 3), " head_available 3\n");
    assert_eq!(change(&mut b, 3), "");
    // Locked: another's acquire stays at A1.
    b.start(ACQUIRE, 4, 0, 0, 0);
    b.steps(4, 10, 0);
    assert_eq!(change(&mut b, 3), " head_available 4\n");
    assert_eq!(change(&mut b, 3), " record 1 available_next 0\n");
    assert_eq!(b.step(3, 0), (2, 1));
    assert_eq!(b.finish(4, 0).value, 2);
}

#[test]
fn protect_goes_round_until_the_source_stands_still() {
    let mut b = Bench::new();
    b.acquire(0);
    // An empty source: V0, V1, V2.
    let empty = b.whole(PROTECT, 0, 1, 1, 0, 0);
    assert_eq!((empty.steps, empty.number, empty.value), (3, 2, 0));
    b.swap(1, 1, 7);
    b.start(PROTECT, 0, 1, 1, 0);
    assert_eq!(change(&mut b, 0), "");
    b.swap(1, 1, 8);
    assert_eq!(change(&mut b, 0), " record 1 hazard 7\n");
    assert_eq!(change(&mut b, 0), "");
    assert_eq!(change(&mut b, 0), " record 1 hazard 0\n");
    assert_eq!(change(&mut b, 0), " record 1 hazard 8\n");
    assert_eq!(b.step(0, 0), (2, 8));
}

#[test]
fn a_try_of_a_stale_node_answers_retry_with_the_node_seen() {
    let mut b = Bench::new();
    b.acquire(0);
    b.swap(0, 1, 8);
    for kind in [TRY, TRY_PROTECT] {
        b.start(kind, 0, 1, 1, 7);
        assert_eq!(change(&mut b, 0), " record 1 hazard 7\n");
        assert_eq!(change(&mut b, 0), "");
        assert_eq!(b.step(0, 0), (3, 8));
        assert_eq!(b.changed, " record 1 hazard 0\n");
        assert_eq!(b.whole(kind, 0, 1, 1, 8, 0).value, 8);
        // The source being empty, the value is 0.
        assert_eq!(b.swap(0, 1, 0), 8);
        let seen = b.whole(kind, 0, 1, 1, 8, 0);
        assert_eq!((seen.number, seen.value), (3, 0));
        b.swap(0, 1, 8);
    }
}

#[test]
fn retire_writes_next_in_its_exchanges_step() {
    let mut b = Bench::new();
    b.set_due_time();
    b.retire(0, 1, 0x500, 0);
    b.live(0, 2);
    b.start(RETIRE, 0, 2, 0, 0x500);
    assert_eq!(b.changed, " node 2 state 2\n");
    assert_eq!(change(&mut b, 0), "");
    assert_eq!(b.failing(0, 0), (0, 0));
    assert_eq!(b.changed, " node 2 next 1\n");
    assert_eq!(change(&mut b, 0), " shard 5 2\n");
    assert_eq!(change(&mut b, 0), " count 2\n");
    assert_eq!(change(&mut b, 0), "");
    assert_eq!(change(&mut b, 0), "");
    assert_eq!(b.step(0, 0), (2, 0));
}

#[test]
fn heads_are_compared_by_node() {
    let mut b = Bench::new();
    b.set_due_time();
    b.retire(0, 1, 0, 0);
    b.live(0, 2);
    // T1 has seen node 1, which is then reclaimed, used and retired again: the head is node 1 again, and T2 is won.
    b.start(RETIRE, 0, 2, 0, 0);
    b.steps(0, 1, 0);
    assert_eq!(b.eager(1).nodes(), [1]);
    b.retire(1, 1, 0, 0);
    b.steps(0, 1, 0);
    assert_eq!(b.changed, " shard 0 2\n node 2 next 1\n");
}

#[test]
fn what_a_lost_exchange_wrote_stays_though_the_node_there_has_gone() {
    let mut b = Bench::new();
    b.set_due_time();
    b.retire(0, 1, 0, 0);
    b.live(0, 2);
    b.start(RETIRE, 0, 2, 0, 0);
    b.steps(0, 1, 0);
    b.failing(0, 0);
    assert_eq!(b.eager(1).nodes(), [1]);
    assert_eq!(b.cell(cells::node_next(2)), 1);
    // Lost to the eager; then won with the empty list it saw.
    b.steps(0, 1, 0);
    assert_eq!(b.changed, "");
    b.steps(0, 1, 0);
    assert_eq!(b.changed, " shard 0 2\n node 2 next 0\n");
}

#[test]
fn e1_takes_clock_and_due_time_in_one_step_and_e2_uses_e1s_clock() {
    let mut b = Bench::new();
    b.live(0, 1);
    b.start(RETIRE, 0, 1, 0, 0);
    b.steps(0, 5, 99);
    // E1 at clock 7; what follows is at another.
    b.steps(0, 1, 7);
    b.steps(0, 1, 99);
    assert_eq!(b.changed, " due_time 2000000007\n");
}

#[test]
fn e2_is_strong_and_lost_only_to_another() {
    let mut b = Bench::new();
    for (thread, node) in [(0, 1), (1, 2)] {
        b.live(thread, node);
        b.start(RETIRE, thread, node, 0, 0);
        b.steps(thread, 6, 5);
    }
    assert_eq!(b.failing(0, 0), (0, 0));
    assert_eq!(b.step(1, 0), (2, 0));
}

#[test]
fn k4_uses_its_own_clock_and_k3_lost_looks_at_the_records_again() {
    let mut b = Bench::new();
    b.set_due_time();
    for node in 1..=1000 {
        b.retire(0, node, 0, 0);
    }
    b.live(0, 1001);
    b.start(RETIRE, 0, 1001, 0, 0);
    b.steps(0, 5, 1);
    assert_eq!(b.failing(0, 2), (0, 0));
    assert_eq!(b.changed, "");
    b.steps(0, 1, 3);
    b.steps(0, 1, 4);
    assert_eq!(b.changed, " count 0\n");
    b.steps(0, 1, u64::MAX);
    assert_eq!(b.changed, " due_time 1999999999\n");
    assert_eq!(b.finish(0, 0).value, 1001);
}

#[test]
fn a_pass_step_by_step() {
    let mut b = Bench::new();
    b.set_due_time();
    for (node, address) in [(1, 0), (2, 0), (3, 0x200)] {
        b.retire(0, node, address, 0);
    }
    for node in [2, 0] {
        let record = b.acquire(2);
        b.raw(2, record, node);
    }
    b.start(EAGER, 1, 0, 0, 0);
    let mut told = Vec::new();
    loop {
        let answer = b.step(1, 0);
        told.push((answer, b.changed.clone()));
        if answer.0 == 2 {
            break;
        }
    }
    let nothing = ((0, 0), "");
    let expected: &[((u8, u64), &str)] = &[
        ((0, 0), " nbulk_reclaims 1\n"),
        ((0, 0), " shard 0 0\n"),
        nothing,
        ((0, 0), " shard 2 0\n"),
        nothing,
        nothing,
        nothing,
        nothing,
        nothing,
        // H1, and H2 of records 2 and 1.
        nothing,
        nothing,
        nothing,
        // Shard 0 held 2, then 1: 2 is kept, 1 is reclaimed.
        ((0, 0), " node 2 next 0\n"),
        nothing,
        ((4, 1), " node 1 state 0\n"),
        // Shard 2.
        nothing,
        ((4, 3), " node 3 state 0\n"),
        // Eight heads, then the kept list.
        nothing,
        nothing,
        nothing,
        nothing,
        nothing,
        nothing,
        nothing,
        nothing,
        nothing,
        ((0, 0), " shard 0 2\n"),
        // C1, K1, K2, C3.
        ((0, 0), " count 1\n"),
        nothing,
        nothing,
        ((2, 2), " nbulk_reclaims 0\n"),
    ];
    let told: Vec<_> = told.iter().map(|(answer, changed)| (*answer, changed.as_str())).collect();
    assert_eq!(told, expected);
}

#[test]
fn the_heads_are_loaded_up_to_the_first_that_is_not_empty_and_a_pass_not_done_is_followed_by_another() {
    let mut b = Bench::new();
    b.set_due_time();
    b.retire(0, 1, 0, 0);
    b.start(EAGER, 1, 0, 0, 0);
    // B1, eight swaps, H1, one examined, one reclaimed; then a node comes into shard 2.
    b.steps(1, 12, 0);
    b.retire(0, 2, 0x200, 0);
    // Three heads, C1, K1, K2; a second pass with 0: eight swaps, H1, one examined, one reclaimed, eight heads, C1, K1,
    // K2, C3.
    let eager = b.finish(1, 0);
    assert_eq!((eager.steps, eager.nodes(), eager.value), (6 + 8 + 1 + 2 + 8 + 4, vec![2], 2));
}

#[test]
fn cleanup_answers_0_and_waits_for_the_others() {
    let mut b = Bench::new();
    b.set_due_time();
    b.retire(0, 1, 0, 0);
    b.start(EAGER, 1, 0, 0, 0);
    b.steps(1, 1, 0);
    b.start(CLEANUP, 2, 0, 0, 0);
    // B1, eight swaps, H1, two for the node, eight heads, C1, K1, K2 and C3, which does not end it.
    assert_eq!(b.steps(2, 24, 0), [1]);
    assert_eq!(b.changed, " nbulk_reclaims 1\n");
    b.steps(2, 20, 0);
    b.finish(1, 0);
    assert_eq!(b.step(2, 0), (2, 0));
    // With nobody else there is still one load.
    assert_eq!(b.whole(CLEANUP, 2, 0, 0, 0, 0).steps, 13);
}

#[test]
fn shutdowns_last_step_clears_the_records_and_both_heads_and_leaves_the_rest() {
    let mut b = Bench::new();
    b.set_due_time();
    b.retire(0, 1, 0x700, 0);
    for _ in 0..2 {
        b.acquire(0);
    }
    b.whole(RELEASE, 0, 1, 0, 0, 0);
    b.whole(RELEASE, 0, 2, 0, 0, 0);
    b.swap(0, 9, 8);
    b.start(SHUTDOWN, 6, 0, 0, 0);
    b.steps(6, 7, 0);
    assert_eq!(change(&mut b, 6), " shard 7 0\n");
    assert_eq!(b.step(6, 0), (4, 1));
    assert_eq!(b.changed, " node 1 state 0\n");
    assert_eq!(b.step(6, 0), (2, 1));
    assert_eq!(b.changed, " record_head 0\n head_available 0\n record 2 available_next 0\n record 2 next 0\n");
    let kept = [cells::RECORD_COUNT, cells::COUNT, cells::DUE_TIME, cells::source(9), cells::node_state(8)];
    assert_eq!(kept.map(|name| b.cell(name)), [2, 1, 2_000_000_000, 8, 1]);
}
