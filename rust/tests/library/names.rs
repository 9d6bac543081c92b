//! The names of answers and refusals, by document 01's numbers.

use crate::bench::live;
use kevrespil::{Answer, Domain, Operation, Refusal};
use std::collections::BTreeSet;

pub fn every_number() {
    for number in 0..=40 {
        let answer = Answer::from_numbers(number, 0);
        assert_eq!(answer.is_some(), matches!(number, 0..=4 | 16..=29), "{number}");
        if let Some(answer) = answer {
            assert_eq!(answer.numbers(), (number, 0));
        }
    }
    assert_eq!(Answer::from_numbers(2, u64::MAX), Some(Answer::Done(u64::MAX)));
    let words: BTreeSet<String> = Refusal::ALL.iter().map(Refusal::to_string).collect();
    assert_eq!(words.len(), Refusal::ALL.len());
}

/// 16, 28 and 29 need tables or numbers that a `Domain` does not have, and 19 needs 2^40 steps.
pub fn every_refusal_that_a_domain_can_give() {
    let mut given = BTreeSet::new();
    let mut refused = |answer: Answer, refusal: Refusal| {
        assert_eq!(answer, Answer::Refused(refusal));
        given.insert(refusal.number());
    };
    let mut domain = Domain::new();
    refused(domain.start(16, Operation::Acquire), Refusal::Thread);
    refused(domain.step(u32::MAX, false, 0), Refusal::Thread);
    refused(domain.step(0, false, 0), Refusal::Idle);
    refused(domain.start(0, Operation::Release { record: 1 }), Refusal::Record);
    refused(domain.start(0, Operation::Swap { source: 65, node: 1 }), Refusal::Source);
    refused(domain.start(0, Operation::Swap { source: 1, node: 4097 }), Refusal::Node);
    refused(domain.start(0, Operation::Retire { node: 0, address: 0 }), Refusal::Node);
    refused(domain.start(0, Operation::Retire { node: 1, address: 0 }), Refusal::NotRetirable);
    refused(domain.run(0, Operation::Retire { node: u32::MAX, address: 0 }, 0).answer, Refusal::Node);
    domain.start(0, Operation::Acquire);
    refused(domain.start(0, Operation::Eager), Refusal::Inside);
    refused(domain.start(1, Operation::Shutdown), Refusal::InUse);
    while domain.step(0, false, 0) == Answer::Stepped {}
    live(&mut domain, 0, 1);
    for record in 2..=1024 {
        assert_eq!(domain.run(0, Operation::Acquire, 0).answer, Answer::Done(record));
    }
    let none_left = domain.run(0, Operation::Acquire, 0);
    refused(none_left.answer, Refusal::NoRecords);
    assert_eq!(none_left.steps, 2);
    let mut domain = Domain::new();
    assert_eq!(domain.run(0, Operation::Shutdown, 0).answer, Answer::Done(0));
    refused(domain.run(0, Operation::Eager, 0).answer, Refusal::ShutDown);
    let others: Vec<u32> = Refusal::ALL.iter().map(|r| r.number()).filter(|n| !given.contains(n)).collect();
    assert_eq!(others, [16, 19, 28, 29]);
}
