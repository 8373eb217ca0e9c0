//! Plans as bytes, and the datagram that a packet has to make by one: written from the rules, without the library.

use crate::capsules::number;
use crate::packets::{fold, octets, sum, Flow, ICMP, ICMPV6, OUT4, OUT6, TCP, UDP};

/// The plan of no templates, which an end has without a plan.
pub const EMPTY: [u8; 6] = [0x56, 0x41, 0x4E, 0, 1, 0];

/// Static bytes with their place, and where the checksum stands and what it covers starts.
pub struct Template {
    pub id: u64,
    pub segments: Vec<(usize, Vec<u8>)>,
    pub checksum: Option<(usize, usize)>,
}

/// The ports of the packets that the templates below fit.
pub const PORTS: (u16, u16) = (1000, 2000);

fn swapped(ports: (u16, u16)) -> (u16, u16) {
    (ports.1, ports.0)
}

/// Addresses and ports of UDP, with the checksum; only version and class before them.
fn udp(id: u64, flow: Flow, ports: (u16, u16)) -> Template {
    let mut ends = [octets(flow.source), octets(flow.target)].concat();
    ends.extend([ports.0.to_be_bytes(), ports.1.to_be_bytes()].concat());
    let start = flow.header_length();
    let (first, at) = if flow.is_v4() { (0x45, 12) } else { (0x60, 8) };
    Template { id, segments: vec![(0, vec![first]), (at, ends)], checksum: Some((start + 6, start)) }
}

/// The drivers' plan: UDP from 192.0.2.3 port 1000 to 198.51.100.2 port 2000.
pub fn drivers() -> Vec<Template> {
    let mut template = udp(2, OUT4, PORTS);
    template.segments.remove(0);
    vec![template]
}

/// UDP in both families and both ways, and TCP of IPv4 without its checksum; Context IDs of 1, 2 and 4 bytes.
pub fn both_ways() -> Vec<Template> {
    let tcp = |id, flow: Flow| Template {
        id,
        segments: vec![
            (0, vec![0x45]),
            (9, vec![TCP]),
            (12, octets(flow.source)),
            (16, octets(flow.target)),
            (32, vec![0x50]),
        ],
        checksum: None,
    };
    vec![
        udp(2, OUT4, PORTS),
        udp(63, OUT4.back(), swapped(PORTS)),
        udp(64, OUT6, PORTS),
        udp(16383, OUT6.back(), swapped(PORTS)),
        tcp(16384, OUT4),
        tcp(1 << 30, OUT4.back()),
    ]
}

/// Echo requests of the van and the clinic's replies, in both families.
pub fn pings() -> Vec<Template> {
    let echo = |id, flow: Flow, kind: u8| {
        let ends = [octets(flow.source), octets(flow.target)].concat();
        let (first, protocol, at, kind_at) =
            if flow.is_v4() { (0x45, (9, ICMP), 12, 20) } else { (0x60, (6, ICMPV6), 8, 40) };
        let segments = vec![(0, vec![first]), (protocol.0, vec![protocol.1]), (at, ends), (kind_at, vec![kind, 0])];
        Template { id, segments, checksum: None }
    };
    vec![echo(1, OUT4, 8), echo(2, OUT4.back(), 0), echo(3, OUT6, 128), echo(4, OUT6.back(), 129)]
}

/// The plan's file.
pub fn file(plan: &[Template]) -> Vec<u8> {
    let mut file = b"VAN\x00\x01".to_vec();
    file.push(plan.len() as u8);
    for template in plan {
        file.extend(number(template.id));
        file.push(template.segments.len() as u8);
        for (offset, bytes) in &template.segments {
            file.extend(number(*offset as u64));
            file.extend(number(bytes.len() as u64));
            file.extend(bytes);
        }
        match template.checksum {
            None => file.push(0),
            Some((field, start)) => {
                file.push(1);
                file.extend(number(field as u64));
                file.extend(number(start as u64));
            }
        }
    }
    file
}

fn protocol(packet: &[u8]) -> u8 {
    if packet[0] >> 4 == 4 {
        packet[9]
    } else {
        packet[6]
    }
}

/// The folded sum of the pseudo-header.
fn seed(packet: &[u8], start: usize) -> u16 {
    let ends = if packet[0] >> 4 == 4 { 12..20 } else { 8..40 };
    fold(u64::from(sum(&packet[ends])) + u64::from(protocol(packet)) + (packet.len() - start) as u64)
}

fn completion(packet: &[u8], field: usize, start: usize) -> u16 {
    let mut seeded = packet.to_vec();
    seeded[field..field + 2].copy_from_slice(&seed(packet, start).to_be_bytes());
    match !sum(&seeded[start..]) {
        0 if protocol(packet) == UDP => 0xFFFF,
        other => other,
    }
}

impl Template {
    fn fits(&self, packet: &[u8]) -> bool {
        let segment = |(offset, bytes): &(usize, Vec<u8>)| packet.get(*offset..offset + bytes.len()) == Some(bytes);
        let checksum = |(field, start): (usize, usize)| match packet.get(field..field + 2) {
            Some(found) => found == completion(packet, field, start).to_be_bytes(),
            None => false,
        };
        self.segments.iter().all(segment) && self.checksum.is_none_or(checksum)
    }

    fn short(&self, packet: &[u8]) -> Vec<u8> {
        let mut seeded = packet.to_vec();
        if let Some((field, start)) = self.checksum {
            seeded[field..field + 2].copy_from_slice(&seed(packet, start).to_be_bytes());
        }
        let is_static = |at: usize| self.segments.iter().any(|(offset, s)| (*offset..offset + s.len()).contains(&at));
        let rest = seeded.iter().enumerate().filter(|(at, _)| !is_static(*at)).map(|(_, byte)| *byte);
        number(self.id).into_iter().chain(rest).collect()
    }
}

/// Whether a packet goes short; it is given as sending leaves it.
pub fn is_short(plan: &[Template], packet: &[u8]) -> bool {
    plan.iter().any(|template| template.fits(packet))
}

/// The datagram of a packet, which is given as sending leaves it.
pub fn datagram(plan: &[Template], packet: &[u8]) -> Vec<u8> {
    match plan.iter().find(|template| template.fits(packet)) {
        Some(template) => template.short(packet),
        None => [&[0], packet].concat(),
    }
}

#[cfg(test)]
mod tests {
    use super::*;
    use crate::packets::lowered;

    /// The drivers' example.
    #[test]
    fn drivers_example() {
        let file = [
            0x56, 0x41, 0x4E, 0x00, 0x01, 0x01, 0x02, 0x01, 0x0C, 0x0C, 0xC0, 0x00, 0x02, 0x03, 0xC6, 0x33, 0x64, 0x02,
            0x03, 0xE8, 0x07, 0xD0, 0x01, 0x1A, 0x14,
        ];
        assert_eq!(super::file(&drivers()), file);
        let packet = [
            0x45, 0x00, 0x00, 0x1C, 0x00, 0x00, 0x00, 0x00, 0x40, 0x11, 0x8E, 0x98, 0xC0, 0x00, 0x02, 0x03, 0xC6, 0x33,
            0x64, 0x02, 0x03, 0xE8, 0x07, 0xD0, 0x00, 0x08, 0x07, 0xED,
        ];
        let short =
            [0x02, 0x45, 0x00, 0x00, 0x1C, 0x00, 0x00, 0x00, 0x00, 0x3F, 0x11, 0x8F, 0x98, 0x00, 0x08, 0xEC, 0x52];
        assert_eq!(datagram(&drivers(), &lowered(&packet)), short);
        let mut damaged = lowered(&packet);
        damaged[27] = 0xEE;
        assert_eq!(datagram(&drivers(), &damaged), [&[0], &damaged[..]].concat());
    }
}
