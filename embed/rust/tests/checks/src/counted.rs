//! Checks, with a line for each.

use std::process::ExitCode;

/// Counts what held and what did not.
#[derive(Default)]
pub struct Checks {
    passed: u32,
    failed: u32,
}

impl Checks {
    pub fn check(&mut self, what: &str, holds: bool) {
        println!("{} {what}", if holds { "ok    " } else { "FAILED" });
        if holds {
            self.passed += 1;
        } else {
            self.failed += 1;
        }
    }

    /// Checks that two values are equal, and shows them if not.
    pub fn equal<T: PartialEq + std::fmt::Debug>(&mut self, what: &str, found: T, wanted: T) {
        let holds = found == wanted;
        self.check(what, holds);
        if !holds {
            println!("       found {found:?}, wanted {wanted:?}");
        }
    }

    /// The last line, and how the program ends.
    pub fn end(self) -> ExitCode {
        println!("{} passed, {} failed", self.passed, self.failed);
        ExitCode::from(u8::from(self.failed > 0))
    }
}
