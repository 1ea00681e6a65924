//! Tells a scenario as lines of text, or lists the scenarios:
//!
//!     scenarios [NAME]
//!
//! `tools/try-rust` builds this program with two backends, and compares what they tell.

mod cases;
mod table;
mod told;
mod world;

use std::panic::{catch_unwind, AssertUnwindSafe};
use std::process::ExitCode;

use told::Told;

/// A scenario: its name, and what it does.
type Case = (&'static str, fn(&Told));

fn main() -> ExitCode {
    let cases = cases::all();
    let Some(name) = std::env::args().nth(1) else {
        for (name, _) in cases {
            println!("{name}");
        }
        return ExitCode::SUCCESS;
    };
    let Some((_, run)) = cases.iter().find(|(known, _)| *known == name) else {
        eprintln!("there is no scenario {name:?}");
        return ExitCode::FAILURE;
    };
    // A panic is told as a line. Its text is not compared.
    std::panic::set_hook(Box::new(|_| {}));
    let told = Told::default();
    if catch_unwind(AssertUnwindSafe(|| run(&told))).is_err() {
        told.say("the scenario panicked");
    }
    for line in told.take() {
        println!("{line}");
    }
    ExitCode::SUCCESS
}
