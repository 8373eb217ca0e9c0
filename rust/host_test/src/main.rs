//! Tests of the program whapirohi with real packets, in network namespaces; its demonstration and its benchmark.
//!
//!     host_test WHAPIROHI [WORDS]          the tests, or those whose names hold the words
//!     host_test demo WHAPIROHI             both ends in two namespaces, and pings through them
//!     host_test bench WHAPIROHI FORWARD [SECONDS [ROUNDS [RATE]]]    the box beside the same host that only forwards
//!
//! It needs root, /dev/net/tun and `ip`; the tests say so where one is missing, and are skipped.
#![deny(unsafe_code)]

mod bench;
mod capsules;
mod check;
mod demo;
mod ends;
mod net;
mod packets;
mod peer;
mod ping;
mod plan;
mod random;
mod sys;
mod tap;
mod tests;

use check::{Outcome, While};
use ends::{Directory, Lab};
use std::fs::{self, OpenOptions};
use std::panic::{catch_unwind, AssertUnwindSafe};
use std::path::{Path, PathBuf};
use std::process::ExitCode;
use std::time::{Duration, Instant};

/// All tests together may take so long.
const LIMIT: Duration = Duration::from_secs(180);

fn main() -> ExitCode {
    sys::catch_signals();
    let arguments: Vec<String> = std::env::args().skip(1).collect();
    let words: Vec<&str> = arguments.iter().map(String::as_str).collect();
    let done = match words[..] {
        ["demo", program] => program_at(program).and_then(|program| demo::demo(&program)),
        ["bench", program, forward, ref numbers @ ..] if numbers.len() <= 3 => {
            program_at(program).and_then(|program| bench::bench(&program, &program_at(forward)?, numbers))
        }
        [program] => program_at(program).and_then(|program| test(&program, "")),
        [program, words] => program_at(program).and_then(|program| test(&program, words)),
        _ => Err(
            "usage: host_test WHAPIROHI [WORDS] | demo WHAPIROHI | bench WHAPIROHI FORWARD [SECONDS [ROUNDS [RATE]]]"
                .to_string(),
        ),
    };
    match done {
        Ok(()) => ExitCode::SUCCESS,
        Err(why) => {
            eprintln!("{why}");
            ExitCode::FAILURE
        }
    }
}

fn program_at(path: &str) -> Result<PathBuf, String> {
    fs::canonicalize(path).during(path)
}

/// Why nothing can be tested here, if so.
fn missing() -> Option<String> {
    if !sys::is_root() {
        return Some("only root may make network namespaces and TUN devices".to_string());
    }
    if let Err(error) = OpenOptions::new().read(true).write(true).open("/dev/net/tun") {
        return Some(format!("/dev/net/tun cannot be opened: {error}"));
    }
    net::pair(&format!("{}-0", std::process::id())).err().map(|error| format!("no network namespaces: {error}"))
}

fn test(program: &Path, words: &str) -> Outcome {
    if let Some(why) = missing() {
        println!("skipped: {why}");
        println!("0 passed, 0 failed");
        return Ok(());
    }
    std::thread::spawn(|| {
        std::thread::sleep(LIMIT);
        sys::stop();
    });
    let directory = Directory::new()?;
    let [mut passed, mut failed] = [0, 0];
    for (number, (name, run)) in tests::all().into_iter().enumerate().filter(|(_, (name, _))| name.contains(words)) {
        let begun = Instant::now();
        match one(program, &directory, number + 1, run) {
            Ok(()) => {
                passed += 1;
                println!("ok {name} ({:.1} s)", begun.elapsed().as_secs_f32());
            }
            Err(why) => {
                failed += 1;
                println!("FAILED {name}: {why}");
            }
        }
    }
    println!("{passed} passed, {failed} failed");
    if failed > 0 || passed == 0 {
        return Err("the tests failed".to_string());
    }
    Ok(())
}

/// One test in namespaces of its own; where it fails, the ends' last lines are shown.
fn one(program: &Path, directory: &Directory, number: usize, run: tests::Run) -> Outcome {
    if sys::stopped() {
        return Err("not run: stopped, or out of time".to_string());
    }
    let lab = Lab::new(program, directory, &format!("{}-{number}", std::process::id()))?;
    let outcome = catch_unwind(AssertUnwindSafe(|| run(&lab))).unwrap_or_else(|_| Err("panicked".to_string()));
    if outcome.is_err() {
        lab.last_lines().iter().for_each(|line| println!("    {line}"));
    }
    outcome
}
