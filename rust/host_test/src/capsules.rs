//! Numbers and capsules as bytes, made and read here without the library.

use crate::packets::octets;
use std::net::{IpAddr, Ipv4Addr, Ipv6Addr};

pub const ADDRESS_ASSIGN: u64 = 1;
pub const ADDRESS_REQUEST: u64 = 2;
pub const ROUTE_ADVERTISEMENT: u64 = 3;

/// A number in its shortest form; it is below 2^62.
pub fn number(value: u64) -> Vec<u8> {
    let (size, mark) = match value {
        0..0x40 => (1, 0),
        0x40..0x4000 => (2, 0x40),
        0x4000..0x4000_0000 => (4, 0x80),
        _ => (8, 0xC0),
    };
    let mut bytes = value.to_be_bytes()[8 - size..].to_vec();
    bytes[0] |= mark;
    bytes
}

/// The number at the front, and the bytes behind it.
pub fn read_number(bytes: &[u8]) -> Option<(u64, &[u8])> {
    let size = 1 << (bytes.first()? >> 6);
    let (front, rest) = bytes.split_at_checked(size)?;
    let value = front[1..].iter().fold(u64::from(front[0] & 0x3F), |value, byte| 256 * value + u64::from(*byte));
    Some((value, rest))
}

fn version(address: IpAddr) -> u8 {
    if address.is_ipv4() {
        4
    } else {
        6
    }
}

/// An address entry: its Request ID, its address and the length of its prefix.
pub type Entry = (u64, IpAddr, u8);

pub fn entry((id, address, length): Entry) -> Vec<u8> {
    [number(id), vec![version(address)], octets(address), vec![length]].concat()
}

/// A route range for any protocol.
pub fn range(start: IpAddr, end: IpAddr) -> Vec<u8> {
    [vec![version(start)], octets(start), octets(end), vec![0]].concat()
}

pub fn capsule(kind: u64, value: &[u8]) -> Vec<u8> {
    [&number(kind), &number(value.len() as u64), value].concat()
}

pub fn assign(entries: &[Entry]) -> Vec<u8> {
    capsule(ADDRESS_ASSIGN, &entries.iter().copied().flat_map(entry).collect::<Vec<u8>>())
}

pub fn routes(ranges: &[(IpAddr, IpAddr)]) -> Vec<u8> {
    capsule(ROUTE_ADVERTISEMENT, &ranges.iter().flat_map(|(start, end)| range(*start, *end)).collect::<Vec<u8>>())
}

/// The kind and the value of the capsule at the front, and the bytes behind it; `None` where it is not all there.
pub fn read_capsule(bytes: &[u8]) -> Option<(u64, &[u8], &[u8])> {
    let (kind, rest) = read_number(bytes)?;
    let (length, rest) = read_number(rest)?;
    let (value, rest) = rest.split_at_checked(usize::try_from(length).ok()?)?;
    Some((kind, value, rest))
}

/// The entries of a capsule's value.
pub fn entries(mut value: &[u8]) -> Option<Vec<Entry>> {
    let mut entries = Vec::new();
    while !value.is_empty() {
        let (id, rest) = read_number(value)?;
        let (version, rest) = rest.split_first()?;
        let (address, rest): (IpAddr, _) = match version {
            4 => rest.split_first_chunk().map(|(a, rest): (&[u8; 4], _)| (Ipv4Addr::from(*a).into(), rest))?,
            6 => rest.split_first_chunk().map(|(a, rest): (&[u8; 16], _)| (Ipv6Addr::from(*a).into(), rest))?,
            _ => return None,
        };
        let (length, rest) = rest.split_first()?;
        entries.push((id, address, *length));
        value = rest;
    }
    Some(entries)
}

#[cfg(test)]
mod tests {
    use super::*;

    /// Of RFC 9000, appendix A.1.
    #[test]
    fn numbers() {
        for (value, bytes) in [
            (37, &[0x25][..]),
            (15_293, &[0x7b, 0xbd]),
            (494_878_333, &[0x9d, 0x7f, 0x3e, 0x7d]),
            (151_288_809_941_952_652, &[0xc2, 0x19, 0x7c, 0x5e, 0xff, 0x14, 0xe8, 0x8c]),
        ] {
            assert_eq!(number(value), bytes);
            assert_eq!(read_number(bytes), Some((value, &[][..])));
        }
        assert_eq!(read_number(&[0x40]), None);
    }

    #[test]
    fn assigned() {
        let entry = (0, Ipv4Addr::new(192, 0, 2, 3).into(), 32);
        let bytes = [0x01, 0x07, 0x00, 0x04, 0xC0, 0x00, 0x02, 0x03, 0x20];
        assert_eq!(assign(&[entry]), bytes);
        let (kind, value, rest) = read_capsule(&bytes).unwrap();
        assert_eq!((kind, entries(value), rest), (1, Some(vec![entry]), &[][..]));
    }
}
