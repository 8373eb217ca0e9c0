//! Packets as bytes, made and changed here without the library.

use std::net::{IpAddr, Ipv4Addr, Ipv6Addr};

pub const ICMP: u8 = 1;
pub const TCP: u8 = 6;
pub const UDP: u8 = 17;
pub const ICMPV6: u8 = 58;

/// The addresses of the tests: the van's, which the clinic assigns, and the clinic's, which lie in what it advertises.
pub const VAN4: IpAddr = IpAddr::V4(Ipv4Addr::new(192, 0, 2, 3));
pub const VAN6: IpAddr = IpAddr::V6(Ipv6Addr::new(0x2001, 0xdb8, 1, 0, 0, 0, 0, 3));
pub const CLINIC4: IpAddr = IpAddr::V4(Ipv4Addr::new(198, 51, 100, 2));
pub const CLINIC6: IpAddr = IpAddr::V6(Ipv6Addr::new(0x2001, 0xdb8, 2, 0, 0, 0, 0, 2));

/// The sum of 16-bit words, folded; an odd last byte is the high half of its word.
pub fn sum(bytes: &[u8]) -> u16 {
    fold(bytes.chunks(2).map(|pair| 256 * u64::from(pair[0]) + u64::from(*pair.get(1).unwrap_or(&0))).sum())
}

pub fn fold(mut sum: u64) -> u16 {
    while sum > 0xFFFF {
        sum = (sum >> 16) + (sum & 0xFFFF);
    }
    sum as u16
}

pub fn octets(address: IpAddr) -> Vec<u8> {
    match address {
        IpAddr::V4(a) => a.octets().to_vec(),
        IpAddr::V6(a) => a.octets().to_vec(),
    }
}

/// Where a packet comes from and goes to.
#[derive(Clone, Copy)]
pub struct Flow {
    pub source: IpAddr,
    pub target: IpAddr,
    pub hops: u8,
}

pub const OUT4: Flow = Flow { source: VAN4, target: CLINIC4, hops: 64 };
pub const OUT6: Flow = Flow { source: VAN6, target: CLINIC6, hops: 64 };

impl Flow {
    /// The way back.
    pub fn back(self) -> Flow {
        Flow { source: self.target, target: self.source, ..self }
    }

    pub fn hops(self, hops: u8) -> Flow {
        Flow { hops, ..self }
    }

    pub fn to(self, target: IpAddr) -> Flow {
        Flow { target, ..self }
    }

    pub fn from(self, source: IpAddr) -> Flow {
        Flow { source, ..self }
    }

    pub fn is_v4(self) -> bool {
        self.source.is_ipv4()
    }

    /// The bytes of a header without options or extensions.
    pub fn header_length(self) -> usize {
        if self.is_v4() {
            20
        } else {
            40
        }
    }

    /// A packet of this protocol.
    pub fn packet(self, protocol: u8, payload: &[u8]) -> Vec<u8> {
        if self.is_v4() {
            return self.v4(protocol, &[], 0, payload);
        }
        let mut packet = vec![0x60, 0, 0, 0];
        packet.extend((payload.len() as u16).to_be_bytes());
        packet.extend([protocol, self.hops]);
        packet.extend(octets(self.source));
        packet.extend(octets(self.target));
        packet.extend(payload);
        packet
    }

    /// An IPv4 packet with options (a whole number of words) and the two bytes of flags and fragment offset.
    pub fn v4(self, protocol: u8, options: &[u8], fragment: u16, payload: &[u8]) -> Vec<u8> {
        let header = 20 + options.len();
        let mut packet = vec![0x40 + (header / 4) as u8, 0];
        packet.extend(((header + payload.len()) as u16).to_be_bytes());
        packet.extend([0x12, 0x34]);
        packet.extend(fragment.to_be_bytes());
        packet.extend([self.hops, protocol, 0, 0]);
        packet.extend(octets(self.source));
        packet.extend(octets(self.target));
        packet.extend(options);
        packet.extend(payload);
        set_header_checksum(&mut packet);
        packet
    }

    /// The checksum of a transport segment in which the field is 0.
    fn checksum(self, protocol: u8, segment: &[u8]) -> u16 {
        let ends = [octets(self.source), octets(self.target)].concat();
        let words = [u64::from(sum(&ends)), u64::from(protocol), segment.len() as u64, u64::from(sum(segment))];
        !fold(words.iter().sum())
    }

    /// A UDP segment with its checksum.
    pub fn udp_segment(self, ports: (u16, u16), data: &[u8]) -> Vec<u8> {
        let mut segment = [ports.0.to_be_bytes(), ports.1.to_be_bytes()].concat();
        segment.extend(((8 + data.len()) as u16).to_be_bytes());
        segment.extend([0, 0]);
        segment.extend(data);
        let checksum = match self.checksum(UDP, &segment) {
            0 => 0xFFFF,
            other => other,
        };
        segment[6..8].copy_from_slice(&checksum.to_be_bytes());
        segment
    }

    pub fn udp(self, ports: (u16, u16), data: &[u8]) -> Vec<u8> {
        self.packet(UDP, &self.udp_segment(ports, data))
    }

    /// A TCP segment, of no connection.
    pub fn tcp(self, ports: (u16, u16), data: &[u8]) -> Vec<u8> {
        let mut segment = [ports.0.to_be_bytes(), ports.1.to_be_bytes()].concat();
        segment.extend([1, 2, 3, 4, 5, 6, 7, 8, 0x50, 0x18, 0x20, 0, 0, 0, 0, 0]);
        segment.extend(data);
        let checksum = self.checksum(TCP, &segment);
        segment[16..18].copy_from_slice(&checksum.to_be_bytes());
        self.packet(TCP, &segment)
    }

    /// An echo request.
    pub fn echo(self, id: u16, sequence: u16, data: &[u8]) -> Vec<u8> {
        let mut message = echo_request(self.is_v4(), id, sequence, data);
        if self.is_v4() {
            return self.packet(ICMP, &message);
        }
        let checksum = self.checksum(ICMPV6, &message);
        message[2..4].copy_from_slice(&checksum.to_be_bytes());
        self.packet(ICMPV6, &message)
    }
}

/// An ICMP echo request; that of IPv6 is left without its checksum, which takes the addresses.
pub fn echo_request(v4: bool, id: u16, sequence: u16, data: &[u8]) -> Vec<u8> {
    let mut message = vec![if v4 { 8 } else { 128 }, 0, 0, 0];
    message.extend(id.to_be_bytes());
    message.extend(sequence.to_be_bytes());
    message.extend(data);
    if v4 {
        let checksum = !sum(&message);
        message[2..4].copy_from_slice(&checksum.to_be_bytes());
    }
    message
}

fn set_header_checksum(packet: &mut [u8]) {
    let header = 4 * usize::from(packet[0] & 15);
    packet[10..12].fill(0);
    let checksum = !sum(&packet[..header]);
    packet[10..12].copy_from_slice(&checksum.to_be_bytes());
}

/// The packet as it has to come out: the hop count one lower, the IPv4 header checksum made again.
pub fn lowered(packet: &[u8]) -> Vec<u8> {
    let mut packet = packet.to_vec();
    if packet[0] >> 4 == 4 {
        packet[8] -= 1;
        set_header_checksum(&mut packet);
    } else {
        packet[7] -= 1;
    }
    packet
}

#[cfg(test)]
mod tests {
    use super::*;

    /// The drivers' packet.
    #[test]
    fn drivers() {
        let packet = OUT4.v4(UDP, &[], 0, &OUT4.udp_segment((1000, 2000), &[]));
        assert_eq!(packet[20..], [0x03, 0xE8, 0x07, 0xD0, 0x00, 0x08, 0x07, 0xED]);
        let mut drivers = packet;
        drivers[4..6].fill(0);
        set_header_checksum(&mut drivers);
        assert_eq!(drivers[8..12], [0x40, 0x11, 0x8E, 0x98]);
        assert_eq!(lowered(&drivers)[8..12], [0x3F, 0x11, 0x8F, 0x98]);
    }
}
