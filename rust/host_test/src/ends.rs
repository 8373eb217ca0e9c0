//! The program under test: its configurations, its processes with their logs, its counters.

use crate::check::{until, Outcome, While, SOON};
use crate::ensure;
use crate::net::{pair, Finished, Space};
use crate::plan::{self, Template};
use crate::sys;
use std::collections::BTreeMap;
use std::fs;
use std::io::{BufRead, BufReader, Read};
use std::path::{Path, PathBuf};
use std::process::{Child, Command, Stdio};
use std::sync::{Arc, Mutex, PoisonError};
use std::thread::{self, JoinHandle};
use std::time::Duration;

pub const VAN_TUN: &str = "wv0";
pub const CLINIC_TUN: &str = "wc0";
pub const UDP_PORT: u16 = 7000;
pub const STREAM_PORT: u16 = 7001;

/// What the clinic gives the van.
pub const GIVES: &str = "assign 192.0.2.3/32 2001:db8:1::3/128\nroute 198.51.100.0/24\nroute 2001:db8:2::/64\n";

/// A temporary directory.
pub struct Directory(PathBuf);

impl Directory {
    pub fn new() -> Result<Directory, String> {
        let path = std::env::temp_dir().join(format!("whapirohi-host-test-{}", std::process::id()));
        fs::create_dir(&path).during(path.display())?;
        Ok(Directory(path))
    }

    pub fn write(&self, name: &str, bytes: &[u8]) -> Result<PathBuf, String> {
        let path = self.0.join(name);
        fs::write(&path, bytes).during(path.display())?;
        Ok(path)
    }
}

impl Drop for Directory {
    fn drop(&mut self) {
        let _ = fs::remove_dir_all(&self.0);
    }
}

/// The lines that a process has printed so far.
#[derive(Clone, Default)]
pub struct Lines(Arc<Mutex<Vec<String>>>);

impl Lines {
    fn follow(&self, from: impl Read + Send + 'static) -> JoinHandle<()> {
        let lines = self.clone();
        thread::spawn(move || {
            for line in BufReader::new(from).split(b'\n').map_while(Result::ok) {
                let line = String::from_utf8_lossy(&line).into_owned();
                lines.0.lock().unwrap_or_else(PoisonError::into_inner).push(line);
            }
        })
    }

    pub fn all(&self) -> Vec<String> {
        self.0.lock().unwrap_or_else(PoisonError::into_inner).clone()
    }

    pub fn count(&self, words: &str) -> usize {
        self.all().iter().filter(|line| line.contains(words)).count()
    }

    /// Waits until this many lines hold the words.
    pub fn wait(&self, words: &str, count: usize) -> Outcome {
        until(&format!("line {count} with \"{words}\" in the log"), 3 * SOON, || {
            Ok((self.count(words) >= count).then_some(()))
        })
    }
}

/// How an end is configured, beside what the tests have in common.
#[derive(Clone, Copy)]
pub struct Options<'a> {
    pub plan: &'a [Template],
    /// 0 for no such line.
    pub mtu: usize,
    pub apply: &'a str,
    /// Over the link's IPv6 addresses.
    pub link6: bool,
    /// More lines of the van's configuration.
    pub van: &'a str,
}

pub const PLAIN: Options = Options { plan: &[], mtu: 1500, apply: "none", link6: false, van: "" };

/// Two namespaces and the program that is tested in them.
pub struct Lab<'a> {
    pub program: &'a Path,
    pub van: Space,
    pub clinic: Space,
    pub directory: &'a Directory,
    /// What the ends of this lab have printed.
    logs: Mutex<Vec<(String, Lines)>>,
}

impl<'a> Lab<'a> {
    pub fn new(program: &'a Path, directory: &'a Directory, mark: &str) -> Result<Lab<'a>, String> {
        let (van, clinic) = pair(mark)?;
        Ok(Lab { program, van, clinic, directory, logs: Mutex::default() })
    }

    pub fn van_config(&self, options: &Options) -> Result<String, String> {
        self.config(VAN_TUN, "connect", [1, 2], options, options.van)
    }

    pub fn clinic_config(&self, options: &Options) -> Result<String, String> {
        self.config(CLINIC_TUN, "listen", [2, 1], options, GIVES)
    }

    fn config(&self, tun: &str, stream: &str, [own, peer]: [u8; 2], o: &Options, more: &str) -> Result<String, String> {
        let address = |number| if o.link6 { format!("[fd77::{number}]") } else { format!("10.77.0.{number}") };
        let (own, peer, server) = (address(own), address(peer), address(2));
        let plan = match o.plan {
            [] => String::new(),
            plan => {
                self.directory.write(&format!("{tun}.plan"), &plan::file(plan))?;
                format!("plan {tun}.plan\n")
            }
        };
        let apply = o.apply;
        let mtu = if o.mtu == 0 { String::new() } else { format!("mtu {}\n", o.mtu) };
        Ok(format!(
            "tun {tun}\n{mtu}udp {own}:{UDP_PORT} {peer}:{UDP_PORT}\n{stream} {server}:{STREAM_PORT}\n{plan}{more}apply {apply}\n"
        ))
    }

    pub fn start_van(&self, options: &Options) -> Result<End<'_>, String> {
        self.start(&self.van, VAN_TUN, &self.van_config(options)?)
    }

    pub fn start_clinic(&self, options: &Options) -> Result<End<'_>, String> {
        self.start(&self.clinic, CLINIC_TUN, &self.clinic_config(options)?)
    }

    /// Starts both ends and waits until each has seen the other.
    pub fn start_both(&self, options: &Options) -> Result<(End<'_>, End<'_>), String> {
        let clinic = self.start_clinic(options)?;
        let van = self.start_van(options)?;
        clinic.log.wait("stream up", 1)?;
        van.log.wait("stream up", 1)?;
        Ok((van, clinic))
    }

    /// Starts an end and waits for its device. The device is brought up here where the configuration leaves that to others.
    pub fn start<'s>(&self, space: &'s Space, tun: &'static str, config: &str) -> Result<End<'s>, String> {
        let end = self.launch(space, tun, config)?;
        until(&format!("device {tun}"), SOON, || Ok(space.has_device(tun).then_some(())))?;
        if config.contains("apply none") {
            space.ip(&format!("link set {tun} up"))?;
        }
        Ok(end)
    }

    /// Starts an end, whatever becomes of it.
    pub fn launch<'s>(&self, space: &'s Space, tun: &'static str, config: &str) -> Result<End<'s>, String> {
        let path = self.directory.write(&format!("{tun}.conf"), config.as_bytes())?;
        let mut command = Command::new(self.program);
        command.arg("run").arg(path).stdin(Stdio::null()).stdout(Stdio::piped()).stderr(Stdio::piped());
        let mut child = space.within(|| command.spawn()).during(self.program.display())?;
        let (out, log) = (Lines::default(), Lines::default());
        let readers = [child.stdout.take().map(|s| out.follow(s)), child.stderr.take().map(|s| log.follow(s))];
        let mut logs = self.logs.lock().unwrap_or_else(PoisonError::into_inner);
        logs.extend([(format!("{tun} stdout"), out.clone()), (tun.to_string(), log.clone())]);
        let readers = readers.into_iter().flatten().collect();
        Ok(End { child, readers, out, log, space, tun, program: self.program.to_path_buf() })
    }

    /// The last lines of each end's log.
    pub fn last_lines(&self) -> Vec<String> {
        let logs = self.logs.lock().unwrap_or_else(PoisonError::into_inner);
        let last = |(name, lines): &(String, Lines)| {
            let lines = lines.all();
            let start = lines.len().saturating_sub(12);
            lines[start..].iter().map(|line| format!("{name}: {line}")).collect::<Vec<_>>()
        };
        logs.iter().flat_map(last).collect()
    }
}

/// A running end.
pub struct End<'a> {
    child: Child,
    readers: Vec<JoinHandle<()>>,
    pub out: Lines,
    pub log: Lines,
    space: &'a Space,
    tun: &'static str,
    program: PathBuf,
}

impl End<'_> {
    pub fn id(&self) -> u32 {
        self.child.id()
    }

    pub fn signal(&self, number: i32) -> Outcome {
        sys::send_signal(self.id(), number).during("signal")
    }

    pub fn is_alive(&mut self) -> bool {
        matches!(self.child.try_wait(), Ok(None))
    }

    /// Waits for the end of the process: its exit status. All that it printed is then there.
    pub fn wait(&mut self, limit: Duration) -> Result<i32, String> {
        let status = until(&format!("end of {}", self.tun), limit, || self.child.try_wait().during("wait"))?;
        for reader in self.readers.drain(..) {
            reader.join().map_err(|_| "the reader of a log panicked".to_string())?;
        }
        status.code().ok_or_else(|| format!("{}: ended by {status}", self.tun))
    }

    /// Kills the process, which has no time to say anything.
    pub fn kill(mut self) -> Outcome {
        self.child.kill().during("kill")?;
        self.child.wait().during("wait").map(|_| ())
    }

    pub fn stats(&self) -> Result<Finished, String> {
        self.space.run(&self.program, &["stats", self.tun], SOON)
    }

    pub fn counters(&self) -> Result<Counters, String> {
        let done = self.stats()?;
        ensure!(done.status == Some(0), "stats {}: status {:?}, {}", self.tun, done.status, done.err.trim());
        Counters::read(&done.out)
    }
}

impl Drop for End<'_> {
    fn drop(&mut self) {
        let _ = self.child.kill();
        let _ = self.child.wait();
    }
}

/// The counters of an end, by name; the refusals by `refused sending NUMBER` and `refused receiving NUMBER`.
#[derive(Clone, Debug, PartialEq, Eq)]
pub struct Counters {
    pub up: bool,
    counts: BTreeMap<String, u64>,
}

impl Counters {
    pub fn read(text: &str) -> Result<Counters, String> {
        let mut counters = Counters { up: false, counts: BTreeMap::new() };
        let mut has_stream = false;
        for line in text.lines() {
            let words: Vec<&str> = line.split_whitespace().collect();
            match words[..] {
                [] => {}
                ["stream", state] => {
                    has_stream = true;
                    counters.up = state == "up";
                }
                ["refused", way, number, .., count] => counters.put(&["refused", way, number], count, line)?,
                [ref name @ .., count] => counters.put(name, count, line)?,
            }
        }
        ensure!(has_stream, "no line of the stream in the counters: {text:?}");
        Ok(counters)
    }

    fn put(&mut self, name: &[&str], count: &str, line: &str) -> Outcome {
        let count = count.parse().during(format!("counters: {line:?}"))?;
        ensure!(self.counts.insert(name.join(" "), count).is_none(), "counters: {line:?} stands there twice");
        Ok(())
    }

    /// A counter that is not printed is 0.
    pub fn get(&self, name: &str) -> u64 {
        self.counts.get(name).copied().unwrap_or(0)
    }

    /// The sum of the counters whose names start so.
    pub fn sum(&self, name: &str) -> u64 {
        self.counts.iter().filter(|(key, _)| key.starts_with(name)).map(|(_, count)| count).sum()
    }

    /// What has changed since: each counter with its difference.
    pub fn since(&self, before: &Counters) -> BTreeMap<String, i128> {
        let names = self.counts.keys().chain(before.counts.keys());
        let difference = |name: &String| (name.clone(), i128::from(self.get(name)) - i128::from(before.get(name)));
        names.map(difference).filter(|(_, difference)| *difference != 0).collect()
    }

    /// Fails unless exactly these counters have changed, by so much.
    pub fn rose(&self, before: &Counters, by: Rise) -> Outcome {
        let found = self.since(before);
        ensure!(found == by.0, "the counters rose by {found:?}, not by {:?}", by.0);
        Ok(())
    }
}

/// By how much counters are to rise.
#[derive(Default)]
pub struct Rise(BTreeMap<String, i128>);

impl Rise {
    pub fn of(name: &str, count: usize) -> Rise {
        Rise::default().and(name, count)
    }

    pub fn and(mut self, name: &str, count: usize) -> Rise {
        if count > 0 {
            *self.0.entry(name.to_string()).or_default() += count as i128;
        }
        self
    }

    /// By packets that pass, given as sending leaves them; the way is `sent` or `received`.
    pub fn and_passed(self, way: &str, plan: &[Template], packets: &[Vec<u8>]) -> Rise {
        let link_bytes = packets.iter().map(|packet| plan::datagram(plan, packet).len()).sum();
        let short = packets.iter().filter(|packet| plan::is_short(plan, packet)).count();
        self.and(&format!("{way} packets"), packets.len())
            .and(&format!("{way} bytes"), packets.iter().map(Vec::len).sum())
            .and(&format!("{way} link bytes"), link_bytes)
            .and(&format!("{way} short"), short)
            .and(&format!("{way} full"), packets.len() - short)
    }

    pub fn passed(way: &str, plan: &[Template], packets: &[Vec<u8>]) -> Rise {
        Rise::default().and_passed(way, plan, packets)
    }
}

#[cfg(test)]
mod tests {
    use super::*;

    #[test]
    fn counters() {
        let text = "stream up\nconnections 1\nsent packets 7\nrefused sending 12 not granted: 3\nrefused sending 11 hop count spent: 1\n";
        let counters = Counters::read(text).unwrap();
        assert!(counters.up);
        assert_eq!(counters.get("refused sending 12"), 3);
        assert_eq!(counters.sum("refused sending"), 4);
        assert_eq!(counters.get("sent packets"), 7);
        assert_eq!(counters.get("received packets"), 0);
        assert!(Counters::read("sent packets 7\n").is_err());
        assert!(Counters::read("stream up\nsent packets many\n").is_err());
    }
}
