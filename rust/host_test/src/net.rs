//! Two network namespaces with a link between them, taken down when they are dropped.

use crate::check::{While, SOON};
use crate::sys;
use std::ffi::OsStr;
use std::fs::File;
use std::io::Read;
use std::process::{Command, Stdio};
use std::thread;
use std::time::{Duration, Instant};

/// The name of the link's device in both namespaces.
pub const LINK: &str = "link0";

/// A network namespace.
pub struct Space {
    name: String,
    file: File,
}

/// What a command left.
pub struct Finished {
    pub status: Option<i32>,
    pub out: String,
    pub err: String,
}

/// Runs a command to its end, for as long as the limit; its output has to fit a pipe.
pub fn run(command: &mut Command, limit: Duration) -> Result<Finished, String> {
    let name = format!("{command:?}");
    let mut child = command.stdin(Stdio::null()).stdout(Stdio::piped()).stderr(Stdio::piped()).spawn().during(&name)?;
    let end = Instant::now() + limit;
    let mut late = false;
    let status = loop {
        if let Some(status) = child.try_wait().during(&name)? {
            break status;
        }
        if !late && Instant::now() >= end {
            late = true;
            child.kill().during(&name)?;
        }
        thread::sleep(Duration::from_micros(500));
    };
    if late {
        return Err(format!("{name}: did not end"));
    }
    let mut finished = Finished { status: status.code(), out: String::new(), err: String::new() };
    if let (Some(mut out), Some(mut err)) = (child.stdout.take(), child.stderr.take()) {
        out.read_to_string(&mut finished.out).during(&name)?;
        err.read_to_string(&mut finished.err).during(&name)?;
    }
    Ok(finished)
}

/// The words of a line as arguments of `ip`; what it printed.
pub fn ip(line: &str) -> Result<String, String> {
    let done = run(Command::new("ip").args(line.split_whitespace()), SOON)?;
    match done.status {
        Some(0) => Ok(done.out),
        _ => Err(format!("ip {line}: {}", done.err.trim())),
    }
}

impl Space {
    pub fn new(name: String) -> Result<Space, String> {
        ip(&format!("netns add {name}"))?;
        match File::open(format!("/run/netns/{name}")).during(&name) {
            Ok(file) => Ok(Space { name, file }),
            Err(error) => {
                let _ = ip(&format!("netns del {name}"));
                Err(error)
            }
        }
    }

    pub fn name(&self) -> &str {
        &self.name
    }

    /// Does something in a thread of this namespace. What is opened and started there stays in the namespace.
    pub fn within<T: Send>(&self, work: impl FnOnce() -> T + Send) -> T {
        let inside = || {
            sys::enter(&self.file).unwrap_or_else(|error| panic!("entering {}: {error}", self.name));
            work()
        };
        thread::scope(|scope| scope.spawn(inside).join()).unwrap_or_else(|panic| std::panic::resume_unwind(panic))
    }

    /// `ip` in this namespace.
    pub fn ip(&self, line: &str) -> Result<String, String> {
        ip(&format!("-n {} {line}", self.name))
    }

    /// Runs a program in this namespace to its end.
    pub fn run(&self, program: impl AsRef<OsStr>, arguments: &[&str], limit: Duration) -> Result<Finished, String> {
        let mut command = Command::new(program);
        command.args(arguments);
        self.within(|| run(&mut command, limit))
    }

    pub fn has_device(&self, device: &str) -> bool {
        self.ip(&format!("link show dev {device}")).is_ok()
    }
}

impl Drop for Space {
    fn drop(&mut self) {
        if let Err(error) = ip(&format!("netns del {}", self.name)) {
            eprintln!("{error}");
        }
    }
}

/// The van's and the clinic's namespace: a link with the addresses 10.77.0.1 and fd77::1, 10.77.0.2 and fd77::2. New devices get no link-local
/// address, so that the kernel says nothing on them by itself.
pub fn pair(mark: &str) -> Result<(Space, Space), String> {
    let van = Space::new(format!("whv-{mark}"))?;
    let clinic = Space::new(format!("whc-{mark}"))?;
    van.ip(&format!("link add {LINK} type veth peer name {LINK} netns {}", clinic.name))?;
    for (space, number) in [(&van, 1), (&clinic, 2)] {
        space.ip("link set lo up")?;
        space.ip(&format!("addr add 10.77.0.{number}/30 dev {LINK}"))?;
        space.ip(&format!("addr add fd77::{number}/64 dev {LINK} nodad"))?;
        space.ip(&format!("link set {LINK} up"))?;
        let setting = "/proc/sys/net/ipv6/conf/default/addr_gen_mode";
        space.within(|| std::fs::write(setting, "1")).during(setting)?;
    }
    Ok((van, clinic))
}
