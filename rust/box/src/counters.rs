//! What an end has carried and refused, as lines of text.

use std::fmt;
use whapirohi_tunnel::{reason, REASONS};

/// Packets of one direction.
#[derive(Clone, Debug, Default, PartialEq, Eq)]
pub struct Direction {
    /// The packets that passed and their bytes, as packets.
    pub packets: u64,
    pub bytes: u64,
    /// The bytes of their datagrams.
    pub link_bytes: u64,
    /// Those that went by a template.
    pub short: u64,
    /// A count for each number of a refusal.
    pub refused: [u64; NUMBERS],
}

const NUMBERS: usize = REASONS[REASONS.len() - 1].0 as usize + 1;

/// What an end counts.
#[derive(Clone, Debug, Default, PartialEq, Eq)]
pub struct Counters {
    pub up: bool,
    pub connections: u64,
    pub sent: Direction,
    pub received: Direction,
    /// Packets and datagrams that came while no stream was up.
    pub no_stream: u64,
    /// Datagrams that the link did not take, and packets that the device did not take.
    pub link: u64,
    pub device: u64,
}

impl Direction {
    pub fn pass(&mut self, packet: usize, datagram: usize, short: bool) {
        self.packets += 1;
        self.bytes += packet as u64;
        self.link_bytes += datagram as u64;
        self.short += u64::from(short);
    }

    pub fn refuse(&mut self, number: u64) {
        if let Some(count) = self.refused.get_mut(number as usize) {
            *count += 1;
        }
    }

    fn write(&self, f: &mut fmt::Formatter, name: &str) -> fmt::Result {
        writeln!(f, "{name} packets {}", self.packets)?;
        writeln!(f, "{name} bytes {}", self.bytes)?;
        writeln!(f, "{name} link bytes {}", self.link_bytes)?;
        writeln!(f, "{name} short {}", self.short)?;
        writeln!(f, "{name} full {}", self.packets - self.short)
    }

    fn write_refused(&self, f: &mut fmt::Formatter, name: &str) -> fmt::Result {
        for (number, count) in self.refused.iter().enumerate().filter(|(_, count)| **count > 0) {
            writeln!(f, "refused {name} {number} {}: {count}", reason(number as u64))?;
        }
        Ok(())
    }
}

impl fmt::Display for Counters {
    fn fmt(&self, f: &mut fmt::Formatter) -> fmt::Result {
        writeln!(f, "stream {}", if self.up { "up" } else { "down" })?;
        writeln!(f, "connections {}", self.connections)?;
        self.sent.write(f, "sent")?;
        self.received.write(f, "received")?;
        self.sent.write_refused(f, "sending")?;
        self.received.write_refused(f, "receiving")?;
        writeln!(f, "dropped no stream {}", self.no_stream)?;
        writeln!(f, "dropped link {}", self.link)?;
        writeln!(f, "dropped device {}", self.device)
    }
}

#[cfg(test)]
mod tests {
    use super::*;

    #[test]
    fn lines() {
        let mut counters = Counters { up: true, connections: 2, no_stream: 5, ..Counters::default() };
        counters.sent.pass(28, 17, true);
        counters.sent.pass(100, 101, false);
        counters.sent.refuse(12);
        counters.received.refuse(25);
        counters.received.refuse(1 << 62);
        assert_eq!(
            counters.to_string(),
            "stream up\nconnections 2\n\
             sent packets 2\nsent bytes 128\nsent link bytes 118\nsent short 1\nsent full 1\n\
             received packets 0\nreceived bytes 0\nreceived link bytes 0\nreceived short 0\nreceived full 0\n\
             refused sending 12 not granted: 1\nrefused receiving 25 plan breaks a rule of Context IDs: 1\n\
             dropped no stream 5\ndropped link 0\ndropped device 0\n"
        );
    }
}
