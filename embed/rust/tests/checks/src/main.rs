//! Checks of a backend, with a line for each. The last line is 'N passed, M failed'.
//!
//!     checks [TOPIC ..]

mod counted;
mod pair;
#[allow(dead_code)]
#[path = "../../scenarios/src/table.rs"]
mod table;
mod topics;

use std::panic::{catch_unwind, AssertUnwindSafe};
use std::process::ExitCode;

pub use counted::Checks;

/// Whether it panics.
pub fn panics(call: impl FnOnce()) -> bool {
    catch_unwind(AssertUnwindSafe(call)).is_err()
}

fn main() -> ExitCode {
    let asked: Vec<String> = std::env::args().skip(1).collect();
    // Most panics here are meant.
    std::panic::set_hook(Box::new(|_| {}));
    let mut checks = Checks::default();
    for (topic, run) in topics::ALL {
        if !asked.is_empty() && !asked.iter().any(|it| it == topic) {
            continue;
        }
        if let Err(panic) = catch_unwind(AssertUnwindSafe(|| run(&mut checks))) {
            let text = panic.downcast_ref::<String>().map(String::as_str);
            let text = text
                .or(panic.downcast_ref::<&str>().copied())
                .unwrap_or("no text");
            checks.check(&format!("{topic} panics: {text}"), false);
        }
    }
    checks.end()
}
