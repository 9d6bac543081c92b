// The oracle against the model of document 01's rules, and its trace against a look at every cell.

use oracle::generate::{generate, PROFILES};
use oracle::model::{Mistake, Model};
use oracle::replay::{lines, run, Engine, Traced};
use oracle::trace::Trace;

#[test]
fn oracle_and_model_agree_on_answers_and_cells() {
    for number in 0..240 {
        let profile = &PROFILES[number % PROFILES.len()];
        let replay = generate(profile, 1000 + number as u64, profile.lines.max(5000));
        let ours = run(&mut Traced::new(true), &replay, true);
        let theirs = run(&mut Model::new(Mistake::None), &replay, true);
        assert!(ours == theirs, "profile {}, seed {}", profile.name, 1000 + number);
    }
}

#[test]
fn a_run_without_trace_gives_the_same_answers() {
    for (seed, profile) in PROFILES.iter().enumerate() {
        let replay = generate(profile, seed as u64, 3000);
        let traced = run(&mut Traced::new(true), &replay, true);
        let answers: Vec<u8> =
            traced.split_inclusive(|&b| b == b'\n').filter(|l| l[0] != b' ').flatten().copied().collect();
        assert!(answers == run(&mut Traced::new(false), &replay, false), "profile {}", profile.name);
    }
}

// The shim notes the cells that are written; a trace looks at those only. Nothing may change unnoticed.
#[test]
fn a_trace_misses_no_cell() {
    for (seed, profile) in PROFILES.iter().enumerate() {
        let replay = generate(profile, 7 + seed as u64, 2000);
        let mut engine = Traced::new(true);
        let mut all = Trace::new();
        for (i, (line, whole)) in lines(&replay).enumerate() {
            engine.answer(line, whole);
            let (mut noted, mut looked) = (Vec::new(), Vec::new());
            engine.changes(&mut noted);
            all.write_all(&engine.oracle, &mut looked);
            assert!(noted == looked, "profile {}, line {}", profile.name, i + 1);
        }
    }
}

#[test]
fn a_seed_gives_one_replay_of_the_length_asked_for() {
    for profile in &PROFILES {
        let replay = generate(profile, 5, 1234);
        assert_eq!(lines(&replay).count(), 1234, "profile {}", profile.name);
        assert!(replay == generate(profile, 5, 1234), "profile {}", profile.name);
        assert!(replay != generate(profile, 6, 1234), "profile {}", profile.name);
    }
}

// Some replays are refused in every way that a replay can be.
#[test]
fn generated_replays_have_every_refusal_from_17_to_28() {
    let mut refusals = [0; 30];
    for number in 0..60 {
        let profile = &PROFILES[number % PROFILES.len()];
        let mut engine = Traced::new(false);
        run(&mut engine, &generate(profile, number as u64, profile.lines.max(5000)), false);
        for (all, some) in refusals.iter_mut().zip(engine.oracle.tally.refusals) {
            *all += some;
        }
    }
    for number in (17..=28).filter(|&n| n != 19) {
        assert!(refusals[number] > 0, "{number} never");
    }
    // 2^40 steps are out of a replay's reach, and tables of the program's own are neither small nor damaged.
    assert_eq!((refusals[16], refusals[19], refusals[29]), (0, 0, 0));
}
