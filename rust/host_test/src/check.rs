//! Conditions, and waiting for them with a time limit.

use crate::sys;
use std::fmt::Display;
use std::thread::sleep;
use std::time::{Duration, Instant};

/// A test's end: why it failed.
pub type Outcome = Result<(), String>;

/// How long anything is waited for that should come at once.
pub const SOON: Duration = Duration::from_secs(5);

/// Fails the test unless the condition holds.
#[macro_export]
macro_rules! ensure {
    ($condition:expr, $($why:tt)+) => {
        if !$condition {
            return Err(format!($($why)+));
        }
    };
}

/// Says what was being done when an error came.
pub trait While<T> {
    fn during(self, what: impl Display) -> Result<T, String>;
}

impl<T, E: Display> While<T> for Result<T, E> {
    fn during(self, what: impl Display) -> Result<T, String> {
        self.map_err(|error| format!("{what}: {error}"))
    }
}

/// Asks again and again until there is an answer; fails after the limit, or where the program is to stop.
pub fn until<T>(what: &str, limit: Duration, mut ask: impl FnMut() -> Result<Option<T>, String>) -> Result<T, String> {
    let end = Instant::now() + limit;
    loop {
        ensure!(!sys::stopped(), "stopped while waiting for {what}");
        if let Some(answer) = ask()? {
            return Ok(answer);
        }
        ensure!(Instant::now() < end, "no {what} within {} s", limit.as_secs_f32());
        sleep(Duration::from_millis(5));
    }
}
