//! The program `whapirohi`.

use std::io::{IsTerminal, Read, Write};
use std::path::Path;
use std::process::ExitCode;
use whapirohi_box::log::say;
use whapirohi_box::run::{self, Ending};
use whapirohi_box::{config, explain, plan_text, Fault};

const HELP: &str = "\
usage: whapirohi run CONF                   carries packets until SIGTERM or SIGINT; SIGUSR1 prints the counters
       whapirohi check CONF                 says what `run` would do, and opens nothing
       whapirohi stats TUN                  prints the counters of the box on a device
       whapirohi plan make TEXT > FILE      a plan file from text (- is standard input)
       whapirohi plan show FILE             the text of a plan file
       whapirohi plan explain FILE CAPTURE  which packets of a pcap file fit the plan, and why others do not
       whapirohi --help | --version

exit status: 0 done; 1 failed; 2 wrong usage, configuration or plan; 3 the two ends have different plans

The link is neither encrypted nor authenticated: run it inside WireGuard. See whapirohi(1) and docs/RUNNING.md.
";

/// Why the program failed: what is said, and its exit status.
struct Failure(u8, String);

const FAILED: u8 = 1;
const WRONG: u8 = 2;
const PLANS_DIFFER: u8 = 3;

fn main() -> ExitCode {
    let words: Vec<String> = std::env::args_os().skip(1).map(|word| word.to_string_lossy().into_owned()).collect();
    let words: Vec<&str> = words.iter().map(String::as_str).collect();
    match command(&words) {
        Ok(status) => ExitCode::from(status),
        Err(Failure(status, words)) => {
            say(format_args!("whapirohi: {words}"));
            ExitCode::from(status)
        }
    }
}

fn command(words: &[&str]) -> Result<u8, Failure> {
    match words {
        ["run", file] => {
            let config = configuration(file)?;
            match run::run(config).map_err(|words| Failure(FAILED, words))? {
                Ending::Signal => Ok(0),
                Ending::PlansDiffer => Ok(PLANS_DIFFER),
            }
        }
        ["check", file] => print(config::describe(&configuration(file)?).as_bytes()),
        ["stats", device] => print(run::counters(device).map_err(|words| Failure(FAILED, words))?.as_bytes()),
        ["plan", "make", file] => {
            let text =
                String::from_utf8(read(file)?).map_err(|_| Failure(WRONG, format!("{file}: not text in UTF-8")))?;
            let plan = plan_text::make(&text).map_err(|fault| at(file, fault))?;
            if std::io::stdout().is_terminal() {
                return Err(Failure(
                    WRONG,
                    "a plan file is not text: redirect it, as in `plan make TEXT > FILE`".to_string(),
                ));
            }
            print(&plan)
        }
        ["plan", "show", file] => {
            let text = plan_text::show(&read(file)?).map_err(|refusal| Failure(WRONG, format!("{file}: {refusal}")))?;
            print(text.as_bytes())
        }
        ["plan", "explain", file, capture] => {
            let plan = read(file)?;
            plan_text::read(&plan).map_err(|refusal| Failure(WRONG, format!("{file}: {refusal}")))?;
            let text = explain::explain(&plan, &read(capture)?);
            let text = text.map_err(|words| Failure(WRONG, format!("{capture}: {words}")))?;
            print(text.as_bytes())
        }
        ["--help" | "-h" | "help", ..] => print(HELP.as_bytes()),
        ["--version" | "-V"] => print(concat!("whapirohi ", env!("CARGO_PKG_VERSION"), "\n").as_bytes()),
        _ => Err(Failure(WRONG, format!("wrong usage\n{HELP}"))),
    }
}

fn configuration(file: &str) -> Result<config::Config, Failure> {
    config::read(Path::new(file)).map_err(|fault| at(file, fault))
}

fn at(file: &str, fault: Fault) -> Failure {
    match fault.line {
        0 => Failure(WRONG, format!("{file}: {}", fault.reason)),
        line => Failure(WRONG, format!("{file}:{line}: {}", fault.reason)),
    }
}

fn read(file: &str) -> Result<Vec<u8>, Failure> {
    let mut bytes = Vec::new();
    let result = match file {
        "-" => std::io::stdin().read_to_end(&mut bytes).map(|_| bytes),
        file => std::fs::read(file),
    };
    result.map_err(|error| Failure(FAILED, format!("{file}: {error}")))
}

fn print(bytes: &[u8]) -> Result<u8, Failure> {
    let mut out = std::io::stdout().lock();
    let result = out.write_all(bytes).and_then(|()| out.flush());
    result.map(|()| 0).map_err(|error| Failure(FAILED, format!("cannot write: {error}")))
}
