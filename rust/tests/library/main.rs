//! The tests of the library, as one program. The last line is 'N passed, M failed', and the status is 0 if M is.

mod bench;
mod cases;
mod names;

use std::panic::catch_unwind;
use std::process::ExitCode;

macro_rules! tests {
    ($($module:ident: $($name:ident)*;)*) => {
        const TESTS: &[(&str, fn())] = &[$($((concat!(stringify!($module), "::", stringify!($name)), $module::$name),)*)*];
    };
}

tests! {
    bench: an_acquire_and_four_steps
        shards
        trigger
        due_time
        clock_at_its_end
        first_retire
        next_1000_and_one_more
        count_at_minus_1
        in_order_unguarded
        in_order_kept_once
        in_order_at_shutdown
        empty_passes
        longest_run;
    cases: the_cases_of_the_gate;
    names: every_number
        every_refusal_that_a_domain_can_give;
}

fn main() -> ExitCode {
    let mut failed = 0;
    for (name, test) in TESTS {
        if catch_unwind(test).is_err() {
            println!("{name} failed");
            failed += 1;
        }
    }
    println!("{} passed, {failed} failed", TESTS.len() - failed);
    ExitCode::from(u8::from(failed != 0))
}
