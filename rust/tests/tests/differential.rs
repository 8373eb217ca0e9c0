//! Runs the families. `SEED=` chooses the inputs, `CASES=` how many calls are compared in all; an argument keeps the families whose names
//! contain it. The run fails where any call differs, and where any answer of the table never occurred.

use std::collections::BTreeMap;
use std::process::ExitCode;
use std::time::Instant;
use whapirohi_differential::chains;
use whapirohi_differential::compare::Run;
use whapirohi_differential::families::{FAMILIES, LIMITS, OCCASIONS};
use whapirohi_differential::random::Random;
#[cfg(feature = "library")]
use whapirohi_differential::subject::Library as Tested;
#[cfg(not(feature = "library"))]
use whapirohi_differential::subject::Model as Tested;

const SEED: u64 = 9484;
const CASES: u64 = 800_000;

fn main() -> ExitCode {
    let seed = variable("SEED", SEED);
    let cases = variable("CASES", CASES);
    let arguments: Vec<String> = std::env::args().skip(1).collect();
    if arguments.iter().any(|a| a == "--list") {
        FAMILIES.iter().for_each(|(name, _, _)| println!("{name}: test"));
        return ExitCode::SUCCESS;
    }
    let wanted: Vec<&String> = arguments.iter().filter(|a| !a.starts_with('-')).collect();
    let chosen = |name: &str| wanted.is_empty() || wanted.iter().any(|w| name.contains(w.as_str()));

    if cfg!(not(feature = "library")) {
        println!("\nwithout the library: the model against itself");
    }
    println!("\nSEED={seed} CASES={cases}");
    let begun = Instant::now();
    let mut all = Run::new(&Tested);
    let (mut passed, mut failed, mut filtered) = (0, 0, 0);
    let mut verdict = |name: &str, good: bool, remark: String| {
        println!("test {name} ... {} {remark}", if good { "ok" } else { "FAILED" });
        if good {
            passed += 1;
        } else {
            failed += 1;
        }
    };

    for (n, (name, family, share)) in FAMILIES.iter().enumerate() {
        if !chosen(name) {
            filtered += 1;
            continue;
        }
        let begun = Instant::now();
        let mut run = Run::new(&Tested);
        family(&mut run, &mut Random::new(seed ^ (n as u64) << 56), cases * share / 100);
        let remark = format!("({} cases, {} differ, {:.1} s)", run.cases, run.faults, begun.elapsed().as_secs_f64());
        verdict(name, run.faults == 0, remark);
        run.told.iter().for_each(|fault| println!("  {fault}"));
        all.cases += run.cases;
        add(&mut all.answers, run.answers);
        add(&mut all.occasions, run.occasions);
        add(&mut all.limits, run.limits);
    }

    let (table, mut missing) = all.table();
    println!("\nhow often each answer was given:\n{table}");
    println!("and how often this came about:");
    for name in OCCASIONS.iter().chain(chains::OCCASIONS) {
        let count = all.occasions.get(name).copied().unwrap_or(0);
        println!("  {name}: {count}");
        if count == 0 {
            missing.push(format!("never: {name}"));
        }
    }
    println!("and how often a size was one below its limit, at it and one above:");
    for name in LIMITS {
        let counts = [0, 1, 2].map(|place| all.limits.get(&(*name, place)).copied().unwrap_or(0));
        println!("  {name}: {}, {}, {}", counts[0], counts[1], counts[2]);
        if counts.contains(&0) {
            missing.push(format!("not about its limit: {name}"));
        }
    }
    println!();
    if wanted.is_empty() {
        verdict("every_answer_occurs", missing.is_empty(), String::new());
        missing.iter().for_each(|line| println!("  {line}"));
    }
    println!(
        "\ntest result: {}. {passed} passed; {failed} failed; 0 ignored; 0 measured; {filtered} filtered out; {} cases in {:.1} s\n",
        if failed == 0 { "ok" } else { "FAILED" },
        all.cases,
        begun.elapsed().as_secs_f64()
    );
    if failed == 0 {
        ExitCode::SUCCESS
    } else {
        ExitCode::FAILURE
    }
}

fn add<K: Ord>(sum: &mut BTreeMap<K, u64>, more: BTreeMap<K, u64>) {
    for (key, count) in more {
        *sum.entry(key).or_default() += count;
    }
}

fn variable(name: &str, usual: u64) -> u64 {
    match std::env::var(name) {
        Ok(text) => text.parse().unwrap_or_else(|_| panic!("{name}={text} is not a number")),
        Err(_) => usual,
    }
}
