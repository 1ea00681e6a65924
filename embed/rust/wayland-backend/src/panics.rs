//! Panics of the program's code, kept until all of it was called.

use std::any::Any;
use std::panic::{catch_unwind, resume_unwind, AssertUnwindSafe};

/// The first panic of callbacks that are called one after the other.
///
/// What was received with the message whose callback panicked is not announced again by `poll`. So the rest is handed
/// out before the panic goes on, and nothing is lost. The panics behind the first one were printed when they came.
#[derive(Default)]
pub(crate) struct Panics {
    first: Option<Box<dyn Any + Send>>,
    /// How often the program's code was called.
    calls: usize,
}

impl Panics {
    /// Calls the program's code. The answer is `None` if it panics.
    #[inline]
    pub(crate) fn catch<R>(&mut self, call: impl FnOnce() -> R) -> Option<R> {
        self.count_call();
        self.attempt(call)
    }

    /// The same for what may find that there is nothing to call. If the program's code was called, that is to be counted.
    #[inline]
    pub(crate) fn attempt<R>(&mut self, call: impl FnOnce() -> R) -> Option<R> {
        match catch_unwind(AssertUnwindSafe(call)) {
            Ok(answer) => Some(answer),
            Err(panic) => {
                self.first.get_or_insert(panic);
                None
            }
        }
    }

    /// The program's code was called.
    #[inline]
    pub(crate) fn count_call(&mut self) {
        self.calls = self.calls.wrapping_add(1);
    }

    /// How often the program's code was called.
    pub(crate) fn calls(&self) -> usize {
        self.calls
    }

    /// Lets the first panic go on, if there was one.
    #[inline]
    pub(crate) fn go_on(self) {
        if let Some(panic) = self.first {
            resume_unwind(panic);
        }
    }
}
