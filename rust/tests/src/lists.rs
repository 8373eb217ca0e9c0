//! Lists: sound by construction, littered where words mean nothing, and damaged.

use crate::random::Random;
use crate::words::{ENTRY_WORDS, RANGE_WORDS};
use whapirohi_reference::list::{MAX_ADDRESSES, MAX_RANGES};
use whapirohi_reference::{AddressEntry, AddressList, Grants, List, RequestId, RouteList, RouteRange};
use whapirohi_tunnel::{AddressWords, RouteWords, State};

pub fn top(version: u8) -> u128 {
    if version == 4 {
        u32::MAX.into()
    } else {
        u128::MAX
    }
}

fn bits(version: u8) -> usize {
    if version == 4 {
        32
    } else {
        128
    }
}

/// The bits beyond a prefix.
fn host_bits(version: u8, prefix: u8) -> u128 {
    top(version).checked_shr(prefix.into()).unwrap_or(0)
}

pub fn version(random: &mut Random) -> u8 {
    random.pick(&[4, 6])
}

pub fn protocol(random: &mut Random) -> u8 {
    match random.below(8) {
        0 => random.byte(),
        _ => random.pick(&[0, 0, 1, 6, 17, 17, 58, 255]),
    }
}

/// A number of items: few most times, at the limit now and then.
pub fn count(random: &mut Random, limit: usize) -> usize {
    match random.below(12) {
        0 => 0,
        1 => limit,
        2 => limit - 1,
        3 => random.below(limit + 1),
        _ => random.between(1, 3),
    }
}

pub fn sound_entry(random: &mut Random) -> AddressEntry {
    let version = version(random);
    let bits = bits(version);
    let prefix = match random.below(4) {
        0 => random.below(bits + 1),
        1 => bits,
        2 => random.pick(&[bits - 1, bits / 2, 8, 1]),
        _ => random.pick(&[0, 8, 24, bits - 8]),
    };
    let address = if random.once_in(12) { 0 } else { random.wide() & top(version) & !host_bits(version, prefix as u8) };
    AddressEntry { request_id: RequestId(random.edge_number()), version, prefix: prefix as u8, address }
}

pub fn sound_addresses(random: &mut Random, count: usize) -> AddressList {
    let mut list = AddressList { count, ..List::default() };
    list.items[..count].fill_with(|| sound_entry(random));
    list
}

/// Ranges in order; `count` may be over the limit of a list.
pub fn ordered_ranges(random: &mut Random, count: usize) -> Vec<RouteRange> {
    let mut kinds: Vec<(u8, u8)> = (0..count).map(|_| (version(random), protocol(random))).collect();
    kinds.sort();
    let mut ranges: Vec<RouteRange> = Vec::with_capacity(count);
    let mut at = 0;
    for (n, &(version, protocol)) in kinds.iter().enumerate() {
        let first = n == 0 || kinds[n - 1] != kinds[n];
        let last = n + 1 == count || kinds[n + 1] != kinds[n];
        let start = if first && random.once_in(6) {
            0
        } else if first {
            random.wide() & (top(version) >> 1)
        } else if random.once_in(4) {
            at + 1
        } else {
            at + 1 + step(random, version)
        };
        let end = match random.below(8) {
            0 if last => top(version),
            0..=2 => start,
            _ => start + step(random, version),
        };
        at = end;
        ranges.push(RouteRange { version, protocol, start, end });
    }
    ranges
}

/// So small that a thousand of them fit in half of the addresses.
fn step(random: &mut Random, version: u8) -> u128 {
    (random.wide() & top(version)) >> random.between(12, bits(version) - 1)
}

pub fn sound_routes(random: &mut Random, count: usize) -> RouteList {
    let mut list = RouteList { count, ..List::default() };
    list.items[..count].copy_from_slice(&ordered_ranges(random, count));
    list
}

pub fn sound_grants(random: &mut Random) -> Grants {
    let addresses = |random: &mut Random| {
        let count = count(random, MAX_ADDRESSES);
        sound_addresses(random, count)
    };
    let (received_addresses, given_addresses) = (addresses(random), addresses(random));
    let routes = |random: &mut Random| {
        let count = count(random, MAX_RANGES);
        sound_routes(random, count)
    };
    let (received_routes, given_routes) = (routes(random), routes(random));
    Grants { received_addresses, received_routes, given_addresses, given_routes }
}

/// Any address, and any protocol.
pub fn open_grants() -> Grants {
    let entry = |version| AddressEntry { version, ..AddressEntry::default() };
    let range = |version| RouteRange { version, end: top(version), ..RouteRange::default() };
    let mut addresses = AddressList { count: 2, ..List::default() };
    addresses.items[..2].copy_from_slice(&[entry(4), entry(6)]);
    let mut routes = RouteList { count: 2, ..List::default() };
    routes.items[..2].copy_from_slice(&[range(4), range(6)]);
    Grants { received_addresses: addresses, received_routes: routes, given_addresses: addresses, given_routes: routes }
}

/// An address that an entry covers.
pub fn address_of(random: &mut Random, entry: &AddressEntry) -> u128 {
    let bits = host_bits(entry.version, entry.prefix);
    match random.below(4) {
        0 => entry.address,
        1 => entry.address | bits,
        _ => entry.address | random.wide() & bits,
    }
}

/// An address within a range.
pub fn address_in(random: &mut Random, range: &RouteRange) -> u128 {
    match random.below(3) {
        0 => range.start,
        1 => range.end,
        _ => range.start + random.wide() % (range.end - range.start).max(1),
    }
}

/// Anything in the words and bits that mean nothing.
pub fn litter_addresses(random: &mut Random, words: &mut AddressWords) {
    let used = 1 + ENTRY_WORDS * (words[0] as usize).min(MAX_ADDRESSES);
    words[used..].fill_with(|| random.word());
    for entry in words[1..used].chunks_exact_mut(ENTRY_WORDS) {
        entry[1] |= random.word() << 16;
    }
}

pub fn litter_routes(random: &mut Random, words: &mut RouteWords) {
    let used = 1 + RANGE_WORDS * (words[0] as usize).min(MAX_RANGES);
    words[used..].fill_with(|| random.word());
    for range in words[1..used].chunks_exact_mut(RANGE_WORDS) {
        range[0] |= random.word() << 16;
    }
}

pub fn litter_lists(random: &mut Random, state: &mut State) {
    litter_addresses(random, &mut state.received_addresses);
    litter_routes(random, &mut state.received_routes);
    litter_addresses(random, &mut state.given_addresses);
    litter_routes(random, &mut state.given_routes);
}

/// One change that breaks a rule most times.
pub fn damage_addresses(random: &mut Random, words: &mut AddressWords) {
    let stored = (words[0] as usize).min(MAX_ADDRESSES);
    if stored == 0 || random.once_in(8) {
        const LIMIT: u64 = MAX_ADDRESSES as u64;
        words[0] = random.pick(&[LIMIT + 1, LIMIT + 2, 1 << 32, 1 << 63, u64::MAX, (1 << 32) + 1]);
        return;
    }
    let entry = &mut words[1 + ENTRY_WORDS * random.below(stored)..][..ENTRY_WORDS];
    match random.below(8) {
        0 => entry[0] = random.pick(&[1 << 62, (1 << 62) + 1, u64::MAX, 1 << 63]),
        1 => entry[1] = entry[1] & !0xff | random.pick(&[0, 3, 5, 7, 0x46, 0x64, 255]),
        2 => entry[1] = entry[1] & !0xff00 | random.pick(&[33, 129, 255, 128, 127]) << 8,
        3 => entry[1] ^= 2,
        4 => entry[2] ^= 1 << random.below(64),
        5 => entry[3] ^= 1 << random.below(64),
        6 => entry[3] |= 1,
        _ => entry[random.below(ENTRY_WORDS)] = random.word(),
    }
}

pub fn damage_routes(random: &mut Random, words: &mut RouteWords) {
    let stored = (words[0] as usize).min(MAX_RANGES);
    if stored == 0 || random.once_in(8) {
        const LIMIT: u64 = MAX_RANGES as u64;
        words[0] = random.pick(&[LIMIT + 1, LIMIT + 2, 1 << 32, 1 << 63, u64::MAX, (1 << 32) + 1]);
        return;
    }
    let at = random.below(stored);
    if at > 0 && random.once_in(2) {
        // Against the neighbour before: the same range twice, touching in its last address, or in the wrong order.
        let (before, range) = words[1 + RANGE_WORDS * (at - 1)..][..2 * RANGE_WORDS].split_at_mut(RANGE_WORDS);
        match random.below(4) {
            0 => range.copy_from_slice(before),
            1 => {
                range.copy_from_slice(before);
                range[1..3].copy_from_slice(&before[3..5]);
            }
            2 => before.swap_with_slice(range),
            _ => range[0] = before[0].wrapping_sub(random.pick(&[1, 2, 256])),
        }
        return;
    }
    let range = &mut words[1 + RANGE_WORDS * at..][..RANGE_WORDS];
    match random.below(6) {
        0 => range[0] = range[0] & !0xff | random.pick(&[0, 3, 5, 7, 0x46, 0x64, 255]),
        1 => range[0] ^= 2,
        2 => {
            let (start, end) = range[1..].split_at_mut(2);
            start.swap_with_slice(end);
        }
        3 => range[random.pick(&[1, 3])] ^= 1 << random.below(64),
        4 => range[random.pick(&[2, 4])] ^= 1 << random.below(64),
        _ => range[random.below(RANGE_WORDS)] = random.word(),
    }
}

/// One of the four lists damaged.
pub fn damage_lists(random: &mut Random, state: &mut State) {
    match random.below(4) {
        0 => damage_addresses(random, &mut state.received_addresses),
        1 => damage_routes(random, &mut state.received_routes),
        2 => damage_addresses(random, &mut state.given_addresses),
        _ => damage_routes(random, &mut state.given_routes),
    }
}
