//! Capsules as bytes: sound by construction, at limits, damaged.

use crate::lists::{count, ordered_ranges, sound_entry};
use crate::random::Random;
use std::collections::HashSet;
use whapirohi_reference::capsule::MAX_VALUE;
use whapirohi_reference::list::{MAX_ADDRESSES, MAX_RANGES};
use whapirohi_reference::number::parse;
use whapirohi_reference::packet::MAX_PACKET;
use whapirohi_reference::{AddressEntry, RequestId, RouteRange};

/// The fewest bytes that an address entry takes: an ID of one byte and an IPv4 address.
pub const LEAST_ENTRY: usize = 7;

/// The fewest bytes that a range takes.
const LEAST_RANGE: usize = 10;

/// A number in its shortest form, or in one that is longer by `longer` steps where there is one.
pub fn number_form(value: u64, longer: usize) -> Vec<u8> {
    let mut bytes = Vec::new();
    put_number(&mut bytes, value, longer);
    bytes
}

/// As `number_form`, behind what is there.
pub fn put_number(bytes: &mut Vec<u8>, value: u64, longer: usize) {
    let shortest = match value {
        0..=0x3f => 0,
        0x40..=0x3fff => 1,
        0x4000..=0x3fff_ffff => 2,
        _ => 3,
    };
    let form = (shortest + longer).min(3);
    let mut all = value.to_be_bytes();
    let number = &mut all[8 - (1 << form)..];
    number[0] = number[0] & 0x3f | (form as u8) << 6;
    bytes.extend_from_slice(number);
}

/// A number as a sender may write it: shortest most times.
pub fn wire_number(random: &mut Random, value: u64) -> Vec<u8> {
    let longer = if random.once_in(8) { random.between(1, 3) } else { 0 };
    number_form(value, longer)
}

fn address(version: u8, address: u128) -> Vec<u8> {
    address.to_be_bytes()[if version == 4 { 12 } else { 0 }..].to_vec()
}

fn entry_bytes(random: &mut Random, entry: &AddressEntry) -> Vec<u8> {
    let mut bytes = wire_number(random, entry.request_id.0);
    bytes.push(entry.version);
    bytes.extend(address(entry.version, entry.address));
    bytes.push(entry.prefix);
    bytes
}

fn range_bytes(range: &RouteRange) -> Vec<u8> {
    let mut bytes = vec![range.version];
    bytes.extend(address(range.version, range.start));
    bytes.extend(address(range.version, range.end));
    bytes.push(range.protocol);
    bytes
}

/// How many elements a capsule lists: few, about the limit, or seldom as many as a value can hold.
fn listed(random: &mut Random, limit: usize, most: usize) -> usize {
    match random.below(48) {
        0..=2 => 0,
        3 => limit - 1,
        4 | 5 => limit,
        6 | 7 => limit + 1,
        8 => limit + 2,
        9 => random.below(4 * limit),
        10 if random.once_in(4) => most,
        _ => random.between(1, 4),
    }
}

/// The value of an address capsule; for a request, IDs are not 0 and differ unless one is spoilt.
fn address_value(random: &mut Random, request: bool) -> Vec<u8> {
    let count = listed(random, MAX_ADDRESSES, MAX_VALUE / LEAST_ENTRY);
    let spoilt = if request && random.once_in(3) { random.below(count + 1) } else { usize::MAX };
    let faulty = if random.once_in(8) { random.below(count + 1) } else { usize::MAX };
    let first_id = random.below(60) as u64;
    let small = random.once_in(3) || count > 2 * MAX_ADDRESSES;
    let mut ids: Vec<u64> = Vec::new();
    let mut used = HashSet::new();
    let mut value = Vec::new();
    for n in 0..count {
        let mut entry = sound_entry(random);
        if small {
            entry = AddressEntry { version: 4, prefix: 32, address: u128::from(random.word() as u32), ..entry };
        }
        if request {
            let fresh = if small { first_id + 1 + n as u64 } else { entry.request_id.0 };
            let fresh = if fresh == 0 || used.contains(&fresh) { (1 << 40) + n as u64 } else { fresh };
            let earlier = if ids.is_empty() { 0 } else { random.pick(&ids) };
            entry.request_id.0 = if n == spoilt { random.pick(&[0, earlier]) } else { fresh };
            ids.push(entry.request_id.0);
            used.insert(entry.request_id.0);
        } else if small {
            entry.request_id.0 = random.below(64) as u64;
        }
        let bytes = if n == faulty { spoil_entry(random, entry) } else { entry_bytes(random, &entry) };
        if value.len() + bytes.len() > MAX_VALUE {
            break;
        }
        value.extend(bytes);
    }
    value
}

fn spoil_entry(random: &mut Random, mut entry: AddressEntry) -> Vec<u8> {
    let mut bytes = match random.below(3) {
        0 => {
            entry.prefix = match entry.version {
                4 => random.pick(&[33, 128, 255]),
                _ => random.pick(&[129, 255]),
            };
            entry_bytes(random, &entry)
        }
        1 => {
            entry.address |= 1;
            entry.prefix = entry.prefix.saturating_sub(1);
            entry_bytes(random, &entry)
        }
        _ => entry_bytes(random, &entry),
    };
    if random.once_in(3) {
        let at = random.below(bytes.len());
        bytes[at] = random.pick(&[0, 1, 4, 5, 6, 7, 32, 33, 128, 129, 255]);
    }
    bytes
}

fn route_value(random: &mut Random) -> Vec<u8> {
    let count = listed(random, MAX_RANGES, MAX_VALUE / LEAST_RANGE);
    let mut ranges = ordered_ranges(random, count);
    if count > MAX_RANGES + 2 || random.once_in(8) {
        // Small ones, as many as a value can hold.
        ranges = ranges_of(random, 4, count);
    }
    if count > 0 && random.once_in(4) {
        let n = random.below(count);
        spoil_range(random, &mut ranges, n);
    }
    let mut value = Vec::new();
    for range in &ranges {
        let bytes = range_bytes(range);
        if value.len() + bytes.len() > MAX_VALUE {
            break;
        }
        value.extend(bytes);
    }
    value
}

/// Small ranges of one version, in order.
fn ranges_of(random: &mut Random, version: u8, count: usize) -> Vec<RouteRange> {
    let range = |n| {
        let start = 16 * n as u128;
        RouteRange { version, protocol: 17, start, end: start + random.below(16) as u128 }
    };
    (0..count).map(range).collect()
}

/// A list with nothing wrong but that it may be one over its limit; all ranges of one version.
pub fn about_limit(random: &mut Random) -> Vec<u8> {
    let kind = random.between(1, 3) as u64;
    let limit = if kind == 3 { MAX_RANGES } else { MAX_ADDRESSES };
    let count = limit - 1 + random.below(3);
    let version = random.pick(&[4, 6]);
    let value: Vec<u8> = match kind {
        3 => ranges_of(random, version, count).iter().flat_map(range_bytes).collect(),
        _ => (1..=count as u64).flat_map(|id| numbered_entry(random, id)).collect(),
    };
    [head(random, kind, value.len() as u64), value].concat()
}

fn numbered_entry(random: &mut Random, id: u64) -> Vec<u8> {
    let entry = AddressEntry { request_id: RequestId(id), ..sound_entry(random) };
    entry_bytes(random, &entry)
}

fn spoil_range(random: &mut Random, ranges: &mut [RouteRange], n: usize) {
    match random.below(7) {
        0 => ranges[n].version = random.pick(&[0, 3, 5, 7, 255]),
        1 => {
            let RouteRange { start, end, .. } = ranges[n];
            (ranges[n].start, ranges[n].end) = (end, start);
        }
        2 => ranges[n].start = ranges[n].end + u128::from(ranges[n].end < 0xffff_ffff),
        3 if n > 0 => ranges[n] = ranges[n - 1],
        4 if n > 0 => ranges[n] = RouteRange { start: ranges[n - 1].end, ..ranges[n - 1] },
        5 if n > 0 => ranges.swap(n - 1, n),
        _ => ranges[n].protocol = random.byte(),
    }
}

/// Type and length as a sender may write them.
pub fn head(random: &mut Random, kind: u64, length: u64) -> Vec<u8> {
    let mut bytes = wire_number(random, kind);
    bytes.extend(wire_number(random, length));
    bytes
}

/// The value of a capsule of a type from 0 to 3 that nothing is wrong with.
pub fn sound_value(random: &mut Random, kind: u64) -> Vec<u8> {
    match kind {
        0 => {
            let length = match random.below(8) {
                0 => random.pick(&[0, 1, MAX_PACKET, MAX_VALUE - 1, MAX_VALUE]),
                1 => random.below(MAX_VALUE + 1),
                _ => random.below(80),
            };
            random.bytes(length)
        }
        1 | 2 => {
            let entries = count(random, MAX_ADDRESSES).max(kind as usize - 1);
            let first_id = random.below(100);
            let entry = |n| match kind {
                2 => numbered_entry(random, (first_id + n + 1) as u64),
                _ => {
                    let entry = sound_entry(random);
                    entry_bytes(random, &entry)
                }
            };
            (0..entries).flat_map(entry).collect()
        }
        _ => {
            let ranges = count(random, MAX_RANGES);
            ordered_ranges(random, ranges).iter().flat_map(range_bytes).collect()
        }
    }
}

/// A capsule that nothing is wrong with, of any type; seldom one so long that it never ends.
pub fn sound_capsule(random: &mut Random) -> Vec<u8> {
    let kind = random.below(6) as u64;
    if kind > 3 {
        let kind = random.edge_number().max(4);
        let length = random.pick(&[0, 1, 10, 63, 64, 300, 5000, MAX_VALUE + 1]);
        let longer = if random.once_in(12) { random.edge_number() } else { 0 };
        return [head(random, kind, longer.max(length as u64)), random.bytes(length)].concat();
    }
    let value = sound_value(random, kind);
    [head(random, kind, value.len() as u64), value].concat()
}

/// A capsule; its length is off by one, its value at a limit, or its bytes damaged now and then.
pub fn capsule(random: &mut Random) -> Vec<u8> {
    let (kind, value) = match random.below(12) {
        0 | 1 => {
            let length = match random.below(4) {
                0 => random.pick(&[0, 1, 63, 64, MAX_PACKET, MAX_VALUE - 1, MAX_VALUE, MAX_VALUE + 1, MAX_VALUE + 2]),
                1 => random.below(MAX_VALUE + MAX_VALUE / 4),
                _ => random.below(100),
            };
            (0, random.bytes(length))
        }
        2..=4 => (1, address_value(random, false)),
        5..=7 => (2, address_value(random, true)),
        8..=10 => (3, route_value(random)),
        _ => {
            let length = random.pick(&[0, 1, 10, 63, 64, 5000, MAX_VALUE - 1, MAX_VALUE, MAX_VALUE + 1]);
            (random.edge_number().max(4), random.bytes(length))
        }
    };
    let length = match random.below(24) {
        0 => value.len() as u64 + 1,
        1 => (value.len() as u64).saturating_sub(1),
        2 => random.edge_number(),
        3 => random.pick(&[(1 << 62) - 1, MAX_VALUE as u64, MAX_VALUE as u64 + 1, 1 << 32]),
        _ => value.len() as u64,
    };
    let mut bytes = head(random, kind, length);
    bytes.extend(value);
    match random.below(16) {
        0 => flip(random, &mut bytes),
        1 => bytes.truncate(random.below(bytes.len() + 1)),
        2 => {
            let at = random.below(bytes.len());
            bytes.remove(at);
        }
        3 => bytes.insert(random.below(bytes.len() + 1), random.byte()),
        _ => {}
    }
    bytes
}

/// Of the capsule at the front of some bytes: its type, its length, and how many elements its list has, as far as they are sound.
pub struct Measure {
    pub kind: u64,
    pub length: u64,
    pub elements: usize,
    pub ipv6: bool,
}

impl Measure {
    /// None where type or length is cut.
    pub fn of(bytes: &[u8]) -> Option<Measure> {
        let (kind, value, length) = opened(bytes)?;
        let sizes = sizes(kind, value);
        let ipv6 = sizes.clone().all(|size| size > 2 * LEAST_ENTRY);
        Some(Measure { kind, length, elements: sizes.count(), ipv6 })
    }
}

/// The first `count` elements of the list at the front of some bytes, as a capsule.
pub fn first_elements(bytes: &[u8], count: usize) -> Option<Vec<u8>> {
    let (kind, value, _) = opened(bytes)?;
    let length = sizes(kind, value).take(count).sum();
    let mut capsule = number_form(kind, 0);
    put_number(&mut capsule, length as u64, 0);
    capsule.extend(&value[..length]);
    Some(capsule)
}

/// The type, the value as far as it is there, and the length of a capsule.
fn opened(bytes: &[u8]) -> Option<(u64, &[u8], u64)> {
    let (kind, size) = parse(bytes)?;
    let (length, length_size) = parse(&bytes[size..])?;
    let rest = &bytes[size + length_size..];
    Some((kind, &rest[..rest.len().min(length as usize)], length))
}

/// The bytes of each element of a list; none for other types.
fn sizes(kind: u64, value: &[u8]) -> impl Iterator<Item = usize> + Clone + '_ {
    let mut at = 0;
    std::iter::from_fn(move || {
        let rest = value.get(at..)?;
        let id = if kind == 3 { 0 } else { parse(rest)?.1 };
        let address = match rest.get(id)? {
            4 => 4,
            6 => 16,
            _ => return None,
        };
        let size = match kind {
            1 | 2 => id + address + 2,
            3 => 2 * address + 2,
            _ => return None,
        };
        at += size;
        (at <= value.len()).then_some(size)
    })
}

/// A bit or a byte changed.
pub fn flip(random: &mut Random, bytes: &mut [u8]) {
    if !bytes.is_empty() {
        let at = random.below(bytes.len());
        bytes[at] = if random.once_in(2) { bytes[at] ^ 1 << random.below(8) } else { random.byte() };
    }
}
