//! Document 01's bench cases, starred ones too.

use kevrespil::{Answer, Domain, Operation, Refusal, Run, RUN_STEPS};

pub const DUE: u64 = 2_000_000_000;

/// A node becomes live: it is put into source 1 and taken out.
pub fn live(domain: &mut Domain, thread: u32, node: u32) {
    assert_eq!(domain.run(thread, Operation::Swap { source: 1, node }, 0).answer, Answer::Done(0));
    assert_eq!(domain.run(thread, Operation::Swap { source: 1, node: 0 }, 0).answer, Answer::Done(node.into()));
}

fn retire(domain: &mut Domain, node: u32, address: u64, clock: u64) -> Run {
    live(domain, 0, node);
    domain.run(0, Operation::Retire { node, address }, clock)
}

/// The first retire of a fresh domain is due; no later one is before `DUE`.
fn after_first(node: u32) -> Domain {
    let mut domain = Domain::new();
    assert_eq!(retire(&mut domain, node, 0, 0).answer, Answer::Done(1));
    domain
}

fn steps(domain: &mut Domain, thread: u32, count: usize) {
    for _ in 0..count {
        assert_eq!(domain.step(thread, false, 0), Answer::Stepped);
    }
}

fn acquire(domain: &mut Domain, thread: u32, record: u64) {
    assert_eq!(domain.run(thread, Operation::Acquire, 0).answer, Answer::Done(record));
}

pub fn an_acquire_and_four_steps() {
    let mut domain = Domain::new();
    assert_eq!(domain.start(0, Operation::Acquire), Answer::Started);
    steps(&mut domain, 0, 3);
    assert_eq!(domain.step(0, false, 0), Answer::Done(1));
    assert_eq!(domain.step(0, false, 0), Answer::Refused(Refusal::Idle));
}

/// Seen by the order in which the lists are reclaimed.
pub fn shards() {
    let mut domain = after_first(9);
    for (node, address) in [(1, 0x7ff), (2, 0x100), (3, 0xff), (4, u64::MAX), (5, 0x800)] {
        assert_eq!(retire(&mut domain, node, address, 0).answer, Answer::Done(0));
    }
    assert_eq!(domain.run(1, Operation::Eager, 0).reclaimed, [3, 5, 2, 1, 4]);
}

pub fn trigger() {
    for (records, most) in [(500, 1000), (501, 1002)] {
        let mut domain = after_first(4000);
        for record in 1..=records {
            acquire(&mut domain, 1, record);
        }
        assert_eq!(domain.records(), records);
        for node in 1..=most {
            assert_eq!(retire(&mut domain, node, 0, 0).answer, Answer::Done(0), "{records} records, node {node}");
        }
        assert_eq!(domain.count(), i64::from(most));
        let last = retire(&mut domain, most + 1, 0, 0);
        assert_eq!(last.answer, Answer::Done(u64::from(most) + 1));
        assert_eq!((last.reclaimed.len(), domain.count()), (most as usize + 1, 0));
    }
}

/// A clock equal to the due time is due; one less is not.
pub fn due_time() {
    let mut domain = after_first(9);
    assert_eq!(retire(&mut domain, 1, 0, DUE - 1).answer, Answer::Done(0));
    let due = retire(&mut domain, 2, 0, DUE);
    assert_eq!((due.answer, due.reclaimed), (Answer::Done(2), vec![1, 2]));
}

/// Clock 2^64 - 1 gives due 1,999,999,999.
pub fn clock_at_its_end() {
    let mut domain = Domain::new();
    assert_eq!(retire(&mut domain, 9, 0, u64::MAX).answer, Answer::Done(1));
    assert_eq!(retire(&mut domain, 1, 0, 1_999_999_998).answer, Answer::Done(0));
    assert_eq!(retire(&mut domain, 2, 0, 1_999_999_999).answer, Answer::Done(2));
}

pub fn first_retire() {
    let mut domain = Domain::new();
    live(&mut domain, 0, 1);
    assert_eq!(domain.start(0, Operation::Retire { node: 1, address: 0 }), Answer::Started);
    for step in 1..=31 {
        let answer = domain.step(0, false, 0);
        let expected = match step {
            20 => Answer::Reclaimed(1),
            31 => Answer::Done(1),
            _ => Answer::Stepped,
        };
        assert_eq!(answer, expected, "step {step}");
    }
}

pub fn next_1000_and_one_more() {
    let mut domain = after_first(1);
    for node in 2..=1001 {
        assert_eq!(retire(&mut domain, node, u64::from(node) * 0x100, 0).answer, Answer::Done(0), "node {node}");
    }
    let last = retire(&mut domain, 1002, 0, 0);
    assert_eq!((last.answer, last.reclaimed.len()), (Answer::Done(1001), 1001));
}

/// A retire stopped after T2, another thread's eager: `count` is -1, then 0 after T3.
pub fn count_at_minus_1() {
    let mut domain = Domain::new();
    live(&mut domain, 0, 1);
    domain.start(0, Operation::Retire { node: 1, address: 0 });
    steps(&mut domain, 0, 2);
    assert_eq!(domain.run(1, Operation::Eager, 0).reclaimed, [1]);
    assert_eq!(domain.count(), -1);
    steps(&mut domain, 0, 1);
    assert_eq!(domain.count(), 0);
}

/// a, b and c, retired in this order in shard 0.
fn retired_a_b_c() -> Domain {
    let mut domain = after_first(9);
    for node in [1, 2, 3] {
        assert_eq!(retire(&mut domain, node, 0, 0).answer, Answer::Done(0));
    }
    domain
}

pub fn in_order_unguarded() {
    let mut domain = retired_a_b_c();
    assert_eq!(domain.run(1, Operation::Eager, 0).reclaimed, [1, 2, 3]);
}

pub fn in_order_kept_once() {
    let mut domain = retired_a_b_c();
    for record in [1, 2, 3] {
        acquire(&mut domain, 2, record.into());
        assert_eq!(domain.run(2, Operation::Raw { record, node: record }, 0).answer, Answer::Done(0));
    }
    assert_eq!(domain.run(1, Operation::Eager, 0).reclaimed, []);
    for record in [1, 2, 3] {
        assert_eq!(domain.run(2, Operation::Reset { record }, 0).answer, Answer::Done(0));
    }
    assert_eq!(domain.run(1, Operation::Eager, 0).reclaimed, [3, 2, 1]);
}

pub fn in_order_at_shutdown() {
    let mut domain = retired_a_b_c();
    let shut = domain.run(0, Operation::Shutdown, 0);
    assert_eq!((shut.answer, shut.reclaimed), (Answer::Done(3), vec![3, 2, 1]));
    assert_eq!(domain.start(0, Operation::Acquire), Answer::Refused(Refusal::ShutDown));
}

/// A retire whose Check took a large `count` while a stopped eager holds the nodes repeats empty passes until that eager
/// moves.
pub fn empty_passes() {
    let mut domain = after_first(1);
    for node in 2..=1001 {
        retire(&mut domain, node, 0, 0);
    }
    live(&mut domain, 0, 1002);
    domain.start(0, Operation::Retire { node: 1002, address: 0 });
    steps(&mut domain, 0, 3);
    assert_eq!(domain.start(1, Operation::Eager), Answer::Started);
    steps(&mut domain, 1, 9);
    for _ in 0..RUN_STEPS {
        assert_eq!(domain.step(0, false, 0), Answer::Stepped);
    }
    let mut reclaimed = 0;
    let total = loop {
        match domain.step(1, false, 0) {
            Answer::Reclaimed(_) => reclaimed += 1,
            Answer::Done(total) => break total,
            answer => assert_eq!(answer, Answer::Stepped),
        }
    };
    assert_eq!((reclaimed, total), (1001, 1001));
    // The retire has the count with it, so that what the eager reclaimed goes below 0.
    assert_eq!(domain.count(), -1001);
    let mut more = 0;
    while domain.step(0, false, 0) == Answer::Stepped {
        more += 1;
        assert!(more < 40, "the empty passes go on");
    }
    assert_eq!(domain.count(), 0);
}

/// All records and nodes at once: `run` gives it steps enough. An acquire behind a lock gets none.
pub fn longest_run() {
    let mut domain = after_first(4096);
    for record in 1..=1024 {
        acquire(&mut domain, 1, record);
    }
    for node in 1..=2048 {
        assert_eq!(retire(&mut domain, node, 0, 0).answer, Answer::Done(0), "node {node}");
    }
    let all = domain.run(2, Operation::Cleanup, 0);
    assert_eq!((all.answer, all.reclaimed.len()), (Answer::Done(0), 2048));
    assert!(all.steps < RUN_STEPS / 2);
    domain.run(1, Operation::Release { record: 1 }, 0);
    domain.start(3, Operation::Acquire);
    steps(&mut domain, 3, 2);
    let waits = domain.run(4, Operation::Acquire, 0);
    assert_eq!((waits.answer, waits.steps), (Answer::Stepped, RUN_STEPS));
}
