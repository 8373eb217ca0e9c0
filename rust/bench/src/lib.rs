//! Inputs of the measurements.

use whapirohi_differential::capsules::number_form;
use whapirohi_differential::random::Random;
use whapirohi_reference::capsule::MAX_VALUE;
use whapirohi_reference::list::{MAX_ADDRESSES, MAX_RANGES};
use whapirohi_reference::packet::{complete, fold, put_word, seed, sum, MAX_PACKET};
use whapirohi_reference::plan::STATIC_LIMIT;
use whapirohi_reference::{
    write_datagram, write_routes, AddressEntry, AddressList, Checksum, ContextId, Grants, List, Plan, RequestId,
    RouteList, RouteRange, Segment, Template,
};
use whapirohi_tunnel::CAPSULE_ROOM;

pub const UDP: u8 = 17;

/// IPv4 or IPv6: packets and lists of one version.
#[derive(Clone, Copy, PartialEq, Eq)]
pub enum Family {
    V4,
    V6,
}

impl Family {
    pub fn version(self) -> u8 {
        match self {
            Family::V4 => 4,
            Family::V6 => 6,
        }
    }

    pub fn name(self) -> &'static str {
        match self {
            Family::V4 => "IPv4",
            Family::V6 => "IPv6",
        }
    }

    fn width(self) -> u8 {
        match self {
            Family::V4 => 32,
            Family::V6 => 128,
        }
    }

    fn header(self) -> usize {
        match self {
            Family::V4 => 20,
            Family::V6 => 40,
        }
    }

    /// Where the packet's addresses stand; they end with the header.
    fn addresses_at(self) -> usize {
        match self {
            Family::V4 => 12,
            Family::V6 => 8,
        }
    }

    fn source(self) -> u128 {
        match self {
            Family::V4 => 0xC000_0203,
            Family::V6 => 0x2001_0db8_0000_0001_0000_0000_0000_0203,
        }
    }

    fn destination(self) -> u128 {
        match self {
            Family::V4 => 0xC633_6402,
            Family::V6 => 0x2001_0db8_0000_0002_0000_0000_0000_6402,
        }
    }

    /// An address that lies in no list of the packet's side.
    fn elsewhere(self, low: u128) -> u128 {
        match self {
            Family::V4 => 0x0A00_0000 + low,
            Family::V6 => (0x2001_0db8_000a_u128 << 80) + low,
        }
    }
}

/// Lists of which the last elements match the packet; the given lists are as long and match nothing.
pub fn grants(family: Family, addresses: usize, ranges: usize) -> Grants {
    let version = family.version();
    let entries = |last: u128| {
        let mut list = AddressList { count: addresses, ..List::default() };
        for (n, entry) in list.items[..addresses].iter_mut().rev().enumerate() {
            let request_id = RequestId(n as u64 + 1);
            *entry = AddressEntry { request_id, version, prefix: family.width(), address: last - n as u128 };
        }
        list
    };
    let routes = |last: u128| {
        let mut list = RouteList { count: ranges, ..List::default() };
        for (n, range) in list.items[..ranges].iter_mut().rev().enumerate() {
            let address = last - 2 * n as u128;
            *range = RouteRange { version, protocol: UDP, start: address, end: address };
        }
        list
    };
    Grants {
        received_addresses: entries(family.source()),
        received_routes: routes(family.destination()),
        given_addresses: entries(family.elsewhere(0x0100)),
        given_routes: routes(family.elsewhere(0x1000)),
    }
}

/// A UDP packet from port 1,000 to port 2,000 with a sound checksum.
pub fn packet(family: Family, length: usize) -> Vec<u8> {
    packet_behind(family, family.header(), length)
}

/// The longest header of IPv4.
pub const LONGEST_HEADER: usize = 60;

/// The same behind an IPv4 header of 60 bytes, its options such as say nothing.
pub fn packet_with_options(length: usize) -> Vec<u8> {
    packet_behind(Family::V4, LONGEST_HEADER, length)
}

/// One template of both addresses, both ports and the checksum of UDP, for an IPv4 packet with a header of so many bytes.
pub fn plan_behind(header: usize, packet: &[u8]) -> Plan {
    let checksum = Checksum { field: header + 6, start: header };
    plan_of_parts(packet, &[(12, 8), (header, 4)], Some(checksum))
}

fn packet_behind(family: Family, header: usize, length: usize) -> Vec<u8> {
    let mut packet: Vec<u8> = (0..length).map(|n| (n * 7 + 3) as u8).collect();
    packet[..header].fill(0);
    match family {
        Family::V4 => {
            packet[0] = 0x40 + (header / 4) as u8;
            packet[20..header].fill(1);
            put_word(&mut packet, 2, length as u16);
            packet[8] = 64;
            packet[9] = UDP;
            packet[12..16].copy_from_slice(&(family.source() as u32).to_be_bytes());
            packet[16..20].copy_from_slice(&(family.destination() as u32).to_be_bytes());
        }
        Family::V6 => {
            packet[0] = 0x60;
            put_word(&mut packet, 4, (length - 40) as u16);
            packet[6] = UDP;
            packet[7] = 64;
            packet[8..24].copy_from_slice(&family.source().to_be_bytes());
            packet[24..40].copy_from_slice(&family.destination().to_be_bytes());
        }
    }
    put_word(&mut packet, header, 1000);
    put_word(&mut packet, header + 2, 2000);
    put_word(&mut packet, header + 4, (length - header) as u16);
    put_word(&mut packet, header + 6, 0);
    let checksum = complete(sum(&packet[header..]) + u32::from(seed(&packet, length, header)), true);
    put_word(&mut packet, header + 6, checksum);
    if family == Family::V4 {
        let checksum = !fold(sum(&packet[..header]));
        put_word(&mut packet, 10, checksum);
    }
    packet
}

/// As many headers of 8 bytes as an IPv6 packet can hold.
pub const MOST_HEADERS: usize = (MAX_PACKET - 40) / 8;

/// Hop-by-hop options, and destination options behind them: IPv6 headers of 8 bytes, as numbers and length bytes.
pub fn short_headers(count: usize) -> Vec<(u8, u8)> {
    (0..count).map(|n| (if n == 0 { 0 } else { 60 }, 0)).collect()
}

/// Hop-by-hop options, destination options, authentication and routing: the third lies across byte 128, the fourth behind it.
pub const ACROSS_THE_FRONT: [(u8, u8); 4] = [(0, 0), (60, 7), (51, 4), (43, 0)];

/// An IPv6 packet from and to the same addresses, with these headers before UDP.
pub fn chained_packet(headers: &[(u8, u8)], length: usize) -> Vec<u8> {
    let mut packet = packet(Family::V6, length);
    let (mut number_at, mut at) = (6, 40);
    for &(number, length) in headers {
        let unit = if number == 51 { 4 } else { 8 };
        let size = 8 + unit * usize::from(length);
        packet[number_at] = number;
        packet[at..at + size].fill(0);
        packet[at + 1] = length;
        if matches!(number, 0 | 60) {
            // One option that pads.
            packet[at + 2..at + 4].copy_from_slice(&[1, size as u8 - 4]);
        }
        (number_at, at) = (at, at + size);
    }
    packet[number_at] = UDP;
    packet
}

/// What templates of a packet with a chain have: both addresses; or all of the front but its length and hop count.
pub const ADDRESSES: [(usize, usize); 1] = [(8, 32)];
pub const WHOLE_FRONT: [(usize, usize); 2] = [(6, 1), (8, STATIC_LIMIT - 8)];

/// One template of these parts of a packet, as places and lengths.
pub fn plan_of_parts(packet: &[u8], parts: &[(usize, usize)], checksum: Option<Checksum>) -> Plan {
    let mut plan = Plan::default();
    plan.templates.count = 1;
    let template = &mut plan.templates.items[0];
    *template = Template { id: ContextId(2), checksum, ..Template::default() };
    template.segments.count = parts.len();
    for (segment, &(offset, length)) in template.segments.items.iter_mut().zip(parts) {
        *segment = Segment { offset, length };
        template.bytes[offset..offset + length].copy_from_slice(&packet[offset..offset + length]);
    }
    plan
}

/// How the templates differ from the packet.
#[derive(Clone, Copy)]
pub enum Miss {
    /// The last one fits, those before it have another port in the last byte of their segments.
    EarlierPorts,
    FirstByte,
    LastByte,
    /// All static bytes are equal, but there is no such checksum.
    Checksum,
}

/// Templates of both addresses and both ports, with the checksum of UDP.
pub fn plan(family: Family, count: usize, miss: Miss) -> Plan {
    let mut plan = Plan::default();
    plan.templates.count = count;
    let front = packet(family, 576);
    let (from, start) = (family.addresses_at(), family.header());
    let to = start + 4;
    for (n, template) in plan.templates.items[..count].iter_mut().enumerate() {
        *template = Template { id: ContextId(n as u64 + 2), ..Template::default() };
        template.segments.count = 1;
        template.segments.items[0] = Segment { offset: from, length: to - from };
        template.bytes[from..to].copy_from_slice(&front[from..to]);
        template.checksum = Some(Checksum { field: start + 6, start });
        match miss {
            Miss::EarlierPorts => template.bytes[to - 1] ^= u8::from(n + 1 < count),
            Miss::FirstByte => template.bytes[from] ^= 1,
            Miss::LastByte => template.bytes[to - 1] ^= 1,
            Miss::Checksum => template.checksum = Some(Checksum { field: start + 8, start }),
        }
    }
    plan
}

/// Full lists of received addresses and routes, as networks.
pub fn network_lists(family: Family) -> Grants {
    let mut lists = Grants::default();
    let (network, step, prefix) = match family {
        Family::V4 => (0x0A00_0000, 1 << 16, 16),
        Family::V6 => (0x2001_0db8_u128 << 96, 1 << 64, 64),
    };
    let version = family.version();
    lists.received_addresses.count = MAX_ADDRESSES;
    for (n, entry) in lists.received_addresses.items.iter_mut().enumerate() {
        let address = network + n as u128 * step;
        *entry = AddressEntry { request_id: RequestId(n as u64 + 1), version, prefix, address };
    }
    lists.received_routes.count = MAX_RANGES;
    for (n, range) in lists.received_routes.items.iter_mut().enumerate() {
        let start = network + n as u128 * step;
        *range = RouteRange { version, protocol: UDP, start, end: start + 0xffff };
    }
    lists
}

/// A DATAGRAM capsule of so many bytes in all; its length takes 2.
pub fn datagram_capsule(size: usize) -> Vec<u8> {
    let mut out = vec![0; CAPSULE_ROOM];
    let value: Vec<u8> = (0..size - 3).map(|n| (n * 7 + 3) as u8).collect();
    let length = write_datagram(&value, &mut out).unwrap();
    assert_eq!(length, size);
    out[..length].to_vec()
}

/// A ROUTE_ADVERTISEMENT of so many ranges: IPv6 takes 34 bytes each, IPv4 10.
pub fn routes_capsule(family: Family, count: usize) -> Vec<u8> {
    let mut out = vec![0; CAPSULE_ROOM];
    let list = RouteList { count, ..network_lists(family).received_routes };
    let length = write_routes(&list, &mut out).unwrap();
    out[..length].to_vec()
}

/// IDs of one byte that are not 0, the most entries whose IDs all differ, and the most entries of IDs of 4 bytes and of one byte.
pub const SHORT_IDS: usize = 63;
pub const MOST_DIFFERENT: usize = SHORT_IDS + (MAX_VALUE - 7 * SHORT_IDS) / 8;
pub const MOST_OF_FOUR: usize = MAX_VALUE / 10;
pub const MOST_ENTRIES: usize = MAX_VALUE / 7;

/// Different IDs from 1 on, in any order.
pub fn shuffled_ids(count: usize) -> Vec<u64> {
    let mut random = Random::new(1);
    let mut ids: Vec<u64> = (1..=count as u64).collect();
    (1..count).for_each(|n| ids.swap(n, random.below(n + 1)));
    ids
}

/// A capsule of IPv4 entries with these IDs.
pub fn numbered_entries(kind: u64, ids: &[u64]) -> Vec<u8> {
    let mut value = Vec::new();
    for (n, id) in ids.iter().enumerate() {
        value.extend(number_form(*id, 0));
        value.push(4);
        value.extend((n as u32).to_be_bytes());
        value.push(32);
    }
    [number_form(kind, 0), number_form(value.len() as u64, 0), value].concat()
}
