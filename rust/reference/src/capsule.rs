//! Capsules: RFC 9297 for the frame, RFC 9484 section 4.7 for the lists in it.

use crate::list::{assign_fault, request_fault, routes_fault, MAX_ADDRESSES, MAX_RANGES};
use crate::number::{self, parse};
use crate::{AddressEntry, AddressList, Refusal, RequestId, RouteList, RouteRange};

/// The largest value of a capsule of types 0 to 3.
pub const MAX_VALUE: usize = 16384;

/// The room for type and length.
const HEADER_ROOM: usize = 8;

/// The least output lent for a capsule.
pub const CAPSULE_ROOM: usize = MAX_VALUE + HEADER_ROOM;

pub(crate) const DATAGRAM: u64 = 0;
pub(crate) const ADDRESS_ASSIGN: u64 = 1;
pub(crate) const ADDRESS_REQUEST: u64 = 2;
pub(crate) const ROUTE_ADVERTISEMENT: u64 = 3;

/// The fewest bytes that an address entry takes: an ID of one byte and an IPv4 address.
const LEAST_ENTRY: usize = 7;

#[derive(Clone, Copy, Debug, PartialEq, Eq)]
#[allow(clippy::large_enum_variant)]
pub enum Capsule {
    /// Where the value stands in the bytes.
    Datagram {
        start: usize,
        length: usize,
    },
    Assign(AddressList),
    Request(AddressList),
    Routes(RouteList),
    /// Any other type.
    Skipped,
}

/// One capsule at a place of a buffer, and where the next one starts.
pub fn read_capsule(bytes: &[u8], at: usize) -> Result<(Capsule, usize), Refusal> {
    let frame = Frame::read(bytes, at)?;
    let capsule = match frame.kind {
        DATAGRAM => Capsule::Datagram { start: frame.start, length: frame.value.len() },
        ADDRESS_ASSIGN => {
            let mut list = AddressList::default();
            read_assign(frame.value, &mut list)?;
            Capsule::Assign(list)
        }
        ADDRESS_REQUEST => Capsule::Request(read_request(frame.value)?),
        ROUTE_ADVERTISEMENT => {
            let mut list = RouteList::default();
            read_routes(frame.value, &mut list)?;
            Capsule::Routes(list)
        }
        _ => Capsule::Skipped,
    };
    Ok((capsule, frame.next()))
}

/// The type and the length of a capsule, and the bytes that both take.
pub(crate) struct Head {
    pub kind: u64,
    pub length: u64,
    pub size: usize,
}

/// The most bytes that a type and a length take.
pub(crate) const HEAD_LIMIT: usize = 16;

impl Head {
    /// None where type or length is cut.
    #[inline]
    pub fn parse(bytes: &[u8]) -> Option<Head> {
        let (kind, kind_size) = parse(bytes)?;
        let (length, length_size) = parse(&bytes[kind_size..])?;
        Some(Head { kind, length, size: kind_size + length_size })
    }

    /// A type that is not skipped.
    #[inline]
    pub fn is_known(&self) -> bool {
        self.kind <= ROUTE_ADVERTISEMENT
    }

    #[inline]
    pub fn is_too_long(&self) -> bool {
        self.is_known() && self.length > MAX_VALUE as u64
    }
}

/// A capsule whose value is all there.
pub(crate) struct Frame<'a> {
    pub kind: u64,
    pub start: usize,
    pub value: &'a [u8],
}

impl<'a> Frame<'a> {
    #[inline]
    pub fn read(bytes: &'a [u8], at: usize) -> Result<Frame<'a>, Refusal> {
        let rest = bytes.get(at..).ok_or(Refusal::NotAllThere)?;
        let head = Head::parse(rest).ok_or(Refusal::NotAllThere)?;
        if head.is_too_long() {
            return Err(Refusal::ValueTooLong);
        }
        let rest = &rest[head.size..];
        if head.length > rest.len() as u64 {
            return Err(Refusal::NotAllThere);
        }
        Ok(Frame { kind: head.kind, start: at + head.size, value: &rest[..head.length as usize] })
    }

    #[inline]
    pub fn next(&self) -> usize {
        self.start + self.value.len()
    }
}

/// Replaces a list with the one that was read; a refusal leaves it.
pub(crate) fn read_assign(mut value: &[u8], held: &mut AddressList) -> Result<(), Refusal> {
    let mut list = AddressList::default();
    while !value.is_empty() {
        let (entry, rest) = read_entry(value).ok_or(Refusal::BadAddress)?;
        if list.count < MAX_ADDRESSES {
            list.items[list.count] = entry;
        }
        list.count += 1;
        value = rest;
    }
    if list.too_long() {
        return Err(Refusal::ListTooLong);
    }
    *held = list;
    Ok(())
}

/// Request IDs differ among all entries, also among those past the limit.
pub(crate) fn read_request(mut value: &[u8]) -> Result<AddressList, Refusal> {
    let mut list = AddressList::default();
    let mut ids = Vec::with_capacity(value.len() / LEAST_ENTRY);
    while !value.is_empty() {
        let Some((entry, rest)) = read_entry(value) else {
            // Two equal IDs before it are the earlier fault.
            return Err(if repeats(&mut ids) { Refusal::BadRequestId } else { Refusal::BadAddress });
        };
        if entry.request_id.0 == 0 {
            return Err(Refusal::BadRequestId);
        }
        ids.push(entry.request_id);
        if list.count < MAX_ADDRESSES {
            list.items[list.count] = entry;
        }
        list.count += 1;
        value = rest;
    }
    if list.count == 0 || repeats(&mut ids) {
        return Err(Refusal::BadRequestId);
    }
    if list.too_long() {
        return Err(Refusal::ListTooLong);
    }
    Ok(list)
}

/// Whether two are equal; they are sorted for that.
fn repeats(ids: &mut [RequestId]) -> bool {
    ids.sort_unstable();
    ids.windows(2).any(|pair| pair[0] == pair[1])
}

/// As `read_assign`.
pub(crate) fn read_routes(mut value: &[u8], held: &mut RouteList) -> Result<(), Refusal> {
    let mut list = RouteList::default();
    let mut previous: Option<RouteRange> = None;
    while !value.is_empty() {
        let (range, rest) = read_range(value).ok_or(Refusal::BadRange)?;
        if previous.is_some_and(|p| !p.in_order(&range)) {
            return Err(Refusal::RangesOutOfOrder);
        }
        if list.count < MAX_RANGES {
            list.items[list.count] = range;
        }
        list.count += 1;
        previous = Some(range);
        value = rest;
    }
    if list.too_long() {
        return Err(Refusal::ListTooLong);
    }
    *held = list;
    Ok(())
}

/// A sound entry and what follows it.
fn read_entry(value: &[u8]) -> Option<(AddressEntry, &[u8])> {
    let (id, size) = parse(value)?;
    let (&version, rest) = value[size..].split_first()?;
    let (address, rest) = read_address(version, rest)?;
    let (&prefix, rest) = rest.split_first()?;
    let entry = AddressEntry { request_id: RequestId(id), version, prefix, address };
    entry.sound().then_some((entry, rest))
}

/// A sound range and what follows it.
fn read_range(value: &[u8]) -> Option<(RouteRange, &[u8])> {
    let (&version, rest) = value.split_first()?;
    let (start, rest) = read_address(version, rest)?;
    let (end, rest) = read_address(version, rest)?;
    let (&protocol, rest) = rest.split_first()?;
    let range = RouteRange { version, protocol, start, end };
    range.sound().then_some((range, rest))
}

fn read_address(version: u8, bytes: &[u8]) -> Option<(u128, &[u8])> {
    match version {
        4 => {
            let (address, rest) = bytes.split_first_chunk()?;
            Some((u128::from(u32::from_be_bytes(*address)), rest))
        }
        6 => {
            let (address, rest) = bytes.split_first_chunk()?;
            Some((u128::from_be_bytes(*address), rest))
        }
        _ => None,
    }
}

pub fn write_datagram(value: &[u8], out: &mut [u8]) -> Result<usize, Refusal> {
    if out.len() < CAPSULE_ROOM {
        return Err(Refusal::NoRoom);
    }
    if value.len() > MAX_VALUE {
        return Err(Refusal::ValueTooLong);
    }
    let mut writer = Writer { out, at: 0 };
    writer.frame(DATAGRAM, value.len());
    writer.bytes(value);
    Ok(writer.at)
}

pub fn write_assign(list: &AddressList, out: &mut [u8]) -> Result<usize, Refusal> {
    if out.len() < CAPSULE_ROOM {
        return Err(Refusal::NoRoom);
    }
    match assign_fault(list) {
        Some(refusal) => Err(refusal),
        None => Ok(put_addresses(ADDRESS_ASSIGN, list.stored(), out)),
    }
}

pub fn write_request(list: &AddressList, out: &mut [u8]) -> Result<usize, Refusal> {
    if out.len() < CAPSULE_ROOM {
        return Err(Refusal::NoRoom);
    }
    match request_fault(list) {
        Some(refusal) => Err(refusal),
        None => Ok(put_addresses(ADDRESS_REQUEST, list.stored(), out)),
    }
}

pub fn write_routes(list: &RouteList, out: &mut [u8]) -> Result<usize, Refusal> {
    if out.len() < CAPSULE_ROOM {
        return Err(Refusal::NoRoom);
    }
    if let Some(refusal) = routes_fault(list) {
        return Err(refusal);
    }
    let ranges = list.stored();
    let length = ranges.iter().map(|r| 2 + 2 * address_size(r.version)).sum();
    let mut writer = Writer { out, at: 0 };
    writer.frame(ROUTE_ADVERTISEMENT, length);
    for range in ranges {
        writer.bytes(&[range.version]);
        writer.address(range.version, range.start);
        writer.address(range.version, range.end);
        writer.bytes(&[range.protocol]);
    }
    Ok(writer.at)
}

fn put_addresses(kind: u64, entries: &[AddressEntry], out: &mut [u8]) -> usize {
    let length = entries.iter().map(|e| number::size(e.request_id.0) + 2 + address_size(e.version)).sum();
    let mut writer = Writer { out, at: 0 };
    writer.frame(kind, length);
    for entry in entries {
        writer.number(entry.request_id.0);
        writer.bytes(&[entry.version]);
        writer.address(entry.version, entry.address);
        writer.bytes(&[entry.prefix]);
    }
    writer.at
}

fn address_size(version: u8) -> usize {
    if version == 4 {
        4
    } else {
        16
    }
}

/// Bytes put one after the other into an output that has room for them.
struct Writer<'a> {
    out: &'a mut [u8],
    at: usize,
}

impl Writer<'_> {
    fn frame(&mut self, kind: u64, length: usize) {
        self.number(kind);
        self.number(length as u64);
    }

    fn number(&mut self, value: u64) {
        self.at += number::put(value, &mut self.out[self.at..]);
    }

    fn bytes(&mut self, bytes: &[u8]) {
        self.out[self.at..][..bytes.len()].copy_from_slice(bytes);
        self.at += bytes.len();
    }

    fn address(&mut self, version: u8, address: u128) {
        let bytes = address.to_be_bytes();
        self.bytes(&bytes[16 - address_size(version)..]);
    }
}
