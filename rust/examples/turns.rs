//! The display and the radio of a scanner take turns on one core, a step each.
//!
//! Source 1 holds the plan that is shown. The display claims it, draws it, and then claims what is shown by then. The radio
//! receives a new plan, puts it into the source and retires the old one, while the display is still drawing that. The old
//! plan's memory is freed when the machine answers that its node is reclaimed, and not before.
//!
//!     cargo run --example turns
use kevrespil::{Answer, Domain, Operation};
use std::collections::BTreeMap;

const DISPLAY: u32 = 0;
const RADIO: u32 = 1;
const SHOWN: u32 = 1; // the source of the plan that is shown
const OLD: u32 = 7;
const NEW: u32 = 8;

/// What a task does next: an operation of the machine, or work of its own for some turns.
enum Act {
    Does(&'static str, Operation),
    Works(&'static str, u32),
}

struct Task {
    name: &'static str,
    thread: u32,
    acts: Vec<Act>,
    inside: bool,
    works: u32,
}

impl Task {
    fn new(name: &'static str, thread: u32, mut acts: Vec<Act>) -> Task {
        acts.reverse();
        Task { name, thread, acts, inside: false, works: 0 }
    }

    /// One turn. False if nothing is left to do.
    fn turn(&mut self, domain: &mut Domain, plans: &mut BTreeMap<u32, &str>) -> bool {
        if self.works > 0 {
            self.works -= 1;
        } else if self.inside {
            match domain.step(self.thread, false, 0) {
                Answer::Stepped => {}
                Answer::Reclaimed(node) => {
                    let plan = plans.remove(&node).expect("a node is reclaimed once");
                    println!("{}: node {node} is reclaimed, so {plan} is freed", self.name);
                }
                Answer::Done(value) => {
                    println!("{}: done, {value}", self.name);
                    self.inside = false;
                }
                answer => panic!("{}: {answer:?}", self.name),
            }
        } else {
            match self.acts.pop() {
                None => return false,
                Some(Act::Works(words, turns)) => {
                    println!("{}: {words}", self.name);
                    self.works = turns;
                }
                Some(Act::Does(words, operation)) => {
                    println!("{}: {words}", self.name);
                    // A refusal changes nothing, and its name says why.
                    assert_eq!(domain.start(self.thread, operation), Answer::Started);
                    self.inside = true;
                }
            }
        }
        true
    }
}

fn main() {
    let mut domain = Domain::new();
    let mut plans = BTreeMap::from([(OLD, "the old plan"), (NEW, "the new plan")]);

    // The scanner boots: a plan is shown, and the display takes a record, which it keeps.
    assert_eq!(domain.run(RADIO, Operation::Swap { source: SHOWN, node: OLD }, 0).answer, Answer::Done(0));
    let Answer::Done(record) = domain.run(DISPLAY, Operation::Acquire, 0).answer else { panic!("there is a record") };
    let claim = Operation::Protect { record: record as u32, source: SHOWN };
    let retire = Operation::Retire { node: OLD, address: 0x700 };

    let mut display = Task::new(
        "display",
        DISPLAY,
        vec![
            Act::Does("claims the plan that is shown", claim),
            Act::Works("draws it", 60),
            Act::Does("claims what is shown now, so the old claim ends", claim),
        ],
    );
    let mut radio = Task::new(
        "radio",
        RADIO,
        vec![
            Act::Works("receives a new plan", 10),
            Act::Does("shows it", Operation::Swap { source: SHOWN, node: NEW }),
            Act::Does("retires the old one and looks what may be freed: nothing yet", retire),
            Act::Works("receives nothing for a while", 30),
            Act::Does("looks again what may be freed", Operation::Eager),
        ],
    );
    while display.turn(&mut domain, &mut plans) | radio.turn(&mut domain, &mut plans) {
        let drawing = display.works > 0;
        assert!(!drawing || plans.contains_key(&OLD), "the old plan was freed while it was drawn");
    }
    assert_eq!(plans.into_keys().collect::<Vec<_>>(), [NEW]);
}
