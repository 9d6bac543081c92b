// Do the generator's replays go everywhere? The model counts from where to where steps go.

use oracle::generate::{generate, PROFILES};
use oracle::model::Place::{self, *};
use oracle::model::{Mistake, Model};
use oracle::replay::run;
use std::collections::BTreeMap;

// Every way that the rules leave from a place; Idle stands for an end.
#[rustfmt::skip]
const WAYS: &[(Place, &[Place])] = &[
    (A1, &[A1, A2, N1]), (A2, &[A3, A1]), (A3, &[A4]), (A4, &[A5]), (A5, &[A6]), (A6, &[Idle]),
    (N1, &[N2, Idle]), (N2, &[N3, N2]), (N3, &[Idle]),
    (D1, &[D2]), (D2, &[P1]), (P1, &[P1, P2]), (P2, &[P3]), (P3, &[P1, Idle]),
    (V0, &[V1]), (V1, &[V2]), (V2, &[V3, Idle]), (V3, &[V1, Idle]), (Reset, &[Idle]), (Raw, &[Idle]), (Swap, &[Idle]),
    (T1, &[T2]), (T2, &[T2, T3]), (T3, &[K1]),
    (K1, &[K2]), (K2, &[K3, E1, C3, Steal]), (K3, &[K4, K2]), (K4, &[B1, Steal]),
    (E1, &[E2, Idle]), (E2, &[E3, Idle]), (E3, &[B1, Idle]),
    (B1, &[Steal]), (Steal, &[Steal, H1, C1, K1]), (H1, &[H2, Examine]), (H2, &[H2, Examine]),
    (Examine, &[Examine, Reclaim, Empty]), (Reclaim, &[Reclaim, Examine, Empty]),
    (Empty, &[Empty, Push1, C1, K1]), (Push1, &[Push2]), (Push2, &[Push2, C1, K1]),
    (C1, &[K1]), (C3, &[Wait, Idle]), (Wait, &[Wait, Idle]),
    (S1, &[S1, S2, S3]), (S2, &[S2, S1, S3]), (S3, &[Idle]),
];

// Exchanges that are lost because another thread was there, not because the flag asked.
const LOST: &[(Place, Place)] = &[(A2, A1), (N2, N2), (P3, P1), (T2, T2), (K3, K2), (E2, Idle), (Push2, Push2)];

#[test]
fn generated_replays_go_every_way() {
    let mut went: BTreeMap<(Place, Place, bool), u64> = BTreeMap::new();
    for run_number in 0..120 {
        let profile = &PROFILES[run_number % PROFILES.len()];
        let replay = generate(profile, run_number as u64, profile.lines.max(5000));
        let mut model = Model::new(Mistake::None);
        run(&mut model, &replay, false);
        for (way, count) in model.went {
            *went.entry(way).or_default() += count;
        }
    }
    let count = |from, to, flag| went.get(&(from, to, flag)).copied().unwrap_or(0);
    let mut missing = Vec::new();
    for &(from, ways) in WAYS {
        for &to in ways {
            let times = count(from, to, false) + count(from, to, true);
            println!("{from:?} -> {to:?}: {times}");
            if times == 0 {
                missing.push(format!("{from:?} -> {to:?}"));
            }
        }
    }
    for &(from, to) in LOST {
        println!("{from:?} lost to another: {}", count(from, to, false));
        if count(from, to, false) == 0 {
            missing.push(format!("{from:?} lost"));
        }
    }
    let known = |from: Place, to: Place| WAYS.iter().any(|(f, ways)| *f == from && ways.contains(&to));
    let unknown: Vec<_> = went.keys().filter(|(from, to, _)| !known(*from, *to)).collect();
    assert!(unknown.is_empty(), "ways that the rules do not have: {unknown:?}");
    assert!(missing.is_empty(), "ways that no replay took: {missing:?}");
}
