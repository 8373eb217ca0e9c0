//! The log, on standard error. What comes from outside takes a bounded number of lines a second of it.

use crate::sys;
use std::fmt::Display;
use std::io::Write;
use std::net::{Ipv4Addr, Ipv6Addr};
use std::os::fd::AsRawFd;
use std::time::{Duration, Instant};

const PERIOD: Duration = Duration::from_secs(1);

/// A line of the log. Where nobody reads it, the box goes on.
pub fn say(line: impl Display) {
    let _lost = put(&mut std::io::stderr(), &format!("{line}\n"));
}

/// Writes lines, each whole or not at all, and answers how many were lost because the file did not take them at once: a pipe that nobody reads
/// must not hold up packets and signals.
pub fn put(file: &mut (impl Write + AsRawFd), text: &str) -> usize {
    // A pipe or a socket that takes bytes takes a page of them, and no line is longer.
    let lost = |line: &&str| !sys::takes_bytes(file) || file.write_all(line.as_bytes()).is_err();
    text.split_inclusive('\n').filter(lost).count()
}

/// Lines that come in any number, of which some a second are kept to be written, and the others counted.
#[derive(Debug)]
pub struct Limit {
    /// The most lines a second, and what the lines are about.
    most: u32,
    about: &'static str,
    since: Instant,
    admitted: u32,
    held_back: u64,
    lines: Vec<String>,
}

impl Limit {
    pub fn new(now: Instant, most: u32, about: &'static str) -> Limit {
        Limit { most, about, since: now, admitted: 0, held_back: 0, lines: Vec::new() }
    }

    /// Keeps a line, or counts it.
    pub fn admit(&mut self, now: Instant, line: impl FnOnce() -> String) {
        self.turn(now);
        if self.admitted < self.most {
            self.keep(line());
        } else {
            self.held_back += 1;
        }
    }

    /// The lines to be written now; where a second is over, how many were held back in it.
    pub fn take(&mut self, now: Instant) -> Vec<String> {
        self.turn(now);
        std::mem::take(&mut self.lines)
    }

    /// When there is something to be said of lines that were held back.
    pub fn due(&self) -> Option<Instant> {
        (self.held_back > 0).then(|| self.since + PERIOD)
    }

    fn keep(&mut self, line: String) {
        self.admitted += 1;
        self.lines.push(line);
    }

    fn turn(&mut self, now: Instant) {
        if now.duration_since(self.since) >= PERIOD {
            let held_back = std::mem::take(&mut self.held_back);
            (self.since, self.admitted) = (now, 0);
            if held_back > 0 {
                self.keep(format!("{held_back} more {}", self.about));
            }
        }
    }
}

/// Addresses and protocol of a packet, or of what is there of it.
pub fn describe(packet: &[u8]) -> String {
    match packet.first().map(|first| first >> 4) {
        Some(4) if packet.len() >= 20 => {
            let address = |at: usize| Ipv4Addr::new(packet[at], packet[at + 1], packet[at + 2], packet[at + 3]);
            format!("{} > {} protocol {}, {} bytes", address(12), address(16), packet[9], packet.len())
        }
        Some(6) if packet.len() >= 40 => {
            let address = |at: usize| {
                packet[at..at + 16].try_into().map_or(Ipv6Addr::UNSPECIFIED, <Ipv6Addr as From<[u8; 16]>>::from)
            };
            format!("{} > {} protocol {}, {} bytes", address(8), address(24), packet[6], packet.len())
        }
        _ => format!("no IP header, {} bytes", packet.len()),
    }
}

#[cfg(test)]
mod tests {
    use super::*;

    #[test]
    fn ten_lines_a_second() {
        let start = Instant::now();
        let mut limit = Limit::new(start, 10, "refused packets");
        for i in 0..1000 {
            limit.admit(start + i * Duration::from_micros(500), || "x".to_string());
        }
        assert_eq!(limit.take(start + PERIOD / 2), ["x"; 10]);
        assert_eq!(limit.due(), Some(start + PERIOD));
        // The line that counts is one of the ten.
        (0..20).for_each(|_| limit.admit(start + PERIOD, || "y".to_string()));
        let next = limit.take(start + PERIOD);
        assert_eq!((next.len(), next[0].as_str(), next[9].as_str()), (10, "990 more refused packets", "y"));
        assert_eq!(limit.take(start + 2 * PERIOD), ["11 more refused packets"]);
        assert_eq!((limit.due(), limit.take(start + 9 * PERIOD)), (None, Vec::new()));
    }

    #[test]
    fn a_full_pipe_holds_nothing_up() {
        let (mut reader, mut writer) = std::io::pipe().unwrap();
        let line = "x".repeat(99) + "\n";
        // Many times what a pipe holds.
        let lost: usize = (0..1000).map(|_| put(&mut writer, &line.repeat(30))).sum();
        drop(writer);
        let mut read = String::new();
        std::io::Read::read_to_string(&mut reader, &mut read).unwrap();
        assert!(0 < lost && lost < 30_000);
        assert_eq!(read, line.repeat(30_000 - lost));
    }

    #[test]
    fn packets_in_words() {
        let mut packet = [0; 40];
        packet[0] = 0x45;
        packet[9] = 17;
        packet[12..20].copy_from_slice(&[192, 0, 2, 3, 198, 51, 100, 2]);
        assert_eq!(describe(&packet), "192.0.2.3 > 198.51.100.2 protocol 17, 40 bytes");
        packet[0] = 0x60;
        assert_eq!(describe(&packet), "11:0:c000:203:c633:6402:: > :: protocol 0, 40 bytes");
        for (bytes, length) in [(&packet[..39], 39), (&[0x45; 19][..], 19), (&[], 0), (&[0x50; 60][..], 60)] {
            assert_eq!(describe(bytes), format!("no IP header, {length} bytes"));
        }
    }
}
