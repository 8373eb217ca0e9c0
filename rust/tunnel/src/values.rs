//! Entries, ranges and templates as values, to and from the words of a state.
//!
//! Builders refuse only what has no words: more than fits, or a segment that ends past the static bytes. Whether a list or a plan is sound is
//! the library's to say. Readers answer `None` where the words are no such list or plan: a count past its limit, a version that is neither 4
//! nor 6, an IPv4 address of more than 32 bits, a segment past the static bytes. What means nothing in the words is not looked at.

use crate::{number, AddressWords, PlanWords, Refusal, RouteWords};
use crate::{ADDRESS_WORDS, PLAN_WORDS, ROUTE_WORDS, TEMPLATE_WORDS};
use crate::{MAX_ADDRESSES, MAX_RANGES, MAX_SEGMENTS, MAX_TEMPLATES, STATIC_LIMIT};
use std::net::{IpAddr, Ipv4Addr, Ipv6Addr};

/// An address entry: a prefix that is assigned, or asked for.
#[derive(Clone, Copy, Debug, PartialEq, Eq)]
pub struct Entry {
    pub request_id: u64,
    pub address: IpAddr,
    pub prefix_length: u8,
}

/// The first and the last address of a range, of one version.
#[derive(Clone, Copy, Debug, PartialEq, Eq, PartialOrd, Ord)]
pub enum Span {
    V4(Ipv4Addr, Ipv4Addr),
    V6(Ipv6Addr, Ipv6Addr),
}

/// A route range: a protocol, 0 for any, and the addresses that it may go to.
#[derive(Clone, Copy, Debug, PartialEq, Eq)]
pub struct Range {
    pub protocol: u8,
    pub span: Span,
}

/// Bytes of a packet that are the same in all packets of a template, and where they start.
#[derive(Clone, Debug, PartialEq, Eq)]
pub struct Segment {
    pub offset: usize,
    pub bytes: Vec<u8>,
}

/// Where a transport checksum stands in a packet, and where the bytes start that it covers.
#[derive(Clone, Copy, Debug, PartialEq, Eq)]
pub struct Checksum {
    pub field: usize,
    pub start: usize,
}

/// A header template.
#[derive(Clone, Debug, PartialEq, Eq)]
pub struct Template {
    pub context_id: u64,
    pub segments: Vec<Segment>,
    pub checksum: Option<Checksum>,
}

impl Entry {
    /// Whether it says no to a request: the all-zero address with its full length, which covers nothing (RFC 9484, section 4.7.2).
    pub fn is_declined(&self) -> bool {
        let full_length = if self.address.is_ipv4() { 32 } else { 128 };
        self.address.is_unspecified() && self.prefix_length == full_length
    }
}

impl Span {
    /// `None` where the two are of different versions.
    pub fn new(start: IpAddr, end: IpAddr) -> Option<Span> {
        match (start, end) {
            (IpAddr::V4(start), IpAddr::V4(end)) => Some(Span::V4(start, end)),
            (IpAddr::V6(start), IpAddr::V6(end)) => Some(Span::V6(start, end)),
            _ => None,
        }
    }

    pub fn start(&self) -> IpAddr {
        match *self {
            Span::V4(start, _) => start.into(),
            Span::V6(start, _) => start.into(),
        }
    }

    pub fn end(&self) -> IpAddr {
        match *self {
            Span::V4(_, end) => end.into(),
            Span::V6(_, end) => end.into(),
        }
    }
}

const ENTRY_WORDS: usize = (ADDRESS_WORDS - 1) / MAX_ADDRESSES;
const RANGE_WORDS: usize = (ROUTE_WORDS - 1) / MAX_RANGES;

/// Where the segments and the static bytes stand among the words of a template.
const SEGMENTS_AT: usize = 5;
const STATIC_AT: usize = SEGMENTS_AT + 2 * MAX_SEGMENTS;

/// The words of a list of entries; 7 where there are more than fit.
pub fn address_words(entries: &[Entry]) -> Result<AddressWords, Refusal> {
    if entries.len() > MAX_ADDRESSES {
        return Err(Refusal(number::TOO_MANY));
    }
    let mut words = [0; ADDRESS_WORDS];
    words[0] = entries.len() as u64;
    for (entry, place) in entries.iter().zip(words[1..].chunks_exact_mut(ENTRY_WORDS)) {
        let (version, [high, low]) = halves(entry.address);
        place.copy_from_slice(&[entry.request_id, version + 256 * u64::from(entry.prefix_length), high, low]);
    }
    Ok(words)
}

/// The entries of a list.
pub fn entries(words: &AddressWords) -> Option<Vec<Entry>> {
    let count = at_most(words[0], MAX_ADDRESSES)?;
    words[1..].chunks_exact(ENTRY_WORDS).take(count).map(entry).collect()
}

fn entry(place: &[u64]) -> Option<Entry> {
    let [version, prefix_length, ..] = place[1].to_le_bytes();
    let address = address(version, [place[2], place[3]])?;
    Some(Entry { request_id: place[0], address, prefix_length })
}

/// The words of a list of ranges; 7 where there are more than fit.
pub fn route_words(ranges: &[Range]) -> Result<RouteWords, Refusal> {
    if ranges.len() > MAX_RANGES {
        return Err(Refusal(number::TOO_MANY));
    }
    let mut words = [0; ROUTE_WORDS];
    words[0] = ranges.len() as u64;
    for (range, place) in ranges.iter().zip(words[1..].chunks_exact_mut(RANGE_WORDS)) {
        let (version, start) = halves(range.span.start());
        let (_, end) = halves(range.span.end());
        place.copy_from_slice(&[version + 256 * u64::from(range.protocol), start[0], start[1], end[0], end[1]]);
    }
    Ok(words)
}

/// The ranges of a list.
pub fn ranges(words: &RouteWords) -> Option<Vec<Range>> {
    let count = at_most(words[0], MAX_RANGES)?;
    words[1..].chunks_exact(RANGE_WORDS).take(count).map(range).collect()
}

fn range(place: &[u64]) -> Option<Range> {
    let [version, protocol, ..] = place[0].to_le_bytes();
    let span = Span::new(address(version, [place[1], place[2]])?, address(version, [place[3], place[4]])?)?;
    Some(Range { protocol, span })
}

/// The words of a plan; 25 where it has too many templates, 23 where a template has too many segments, or one that ends past the static bytes.
pub fn plan_words(templates: &[Template]) -> Result<PlanWords, Refusal> {
    if templates.len() > MAX_TEMPLATES {
        return Err(Refusal(number::PLAN_CONTEXT));
    }
    let mut words = [0; PLAN_WORDS];
    words[0] = templates.len() as u64;
    for (template, place) in templates.iter().zip(words[1..].chunks_exact_mut(TEMPLATE_WORDS)) {
        if template.segments.len() > MAX_SEGMENTS {
            return Err(Refusal(number::PLAN_RULE));
        }
        place[0] = template.context_id;
        place[1] = template.segments.len() as u64;
        if let Some(Checksum { field, start }) = template.checksum {
            place[2..SEGMENTS_AT].copy_from_slice(&[1, field as u64, start as u64]);
        }
        let (pairs, image) = place[SEGMENTS_AT..].split_at_mut(STATIC_AT - SEGMENTS_AT);
        for (segment, pair) in template.segments.iter().zip(pairs.chunks_exact_mut(2)) {
            pair.copy_from_slice(&[segment.offset as u64, segment.bytes.len() as u64]);
            let bytes = image.get_mut(segment.offset..).and_then(|rest| rest.get_mut(..segment.bytes.len()));
            for (word, byte) in bytes.ok_or(Refusal(number::PLAN_RULE))?.iter_mut().zip(&segment.bytes) {
                *word = u64::from(*byte);
            }
        }
    }
    Ok(words)
}

/// The templates of a plan.
pub fn templates(words: &PlanWords) -> Option<Vec<Template>> {
    let count = at_most(words[0], MAX_TEMPLATES)?;
    words[1..].chunks_exact(TEMPLATE_WORDS).take(count).map(template).collect()
}

fn template(place: &[u64]) -> Option<Template> {
    let count = at_most(place[1], MAX_SEGMENTS)?;
    let segment = |pair: &[u64]| {
        let offset = at_most(pair[0], STATIC_LIMIT)?;
        let length = at_most(pair[1], STATIC_LIMIT - offset)?;
        // A static byte is the lowest of its word.
        let bytes = place[STATIC_AT + offset..][..length].iter().map(|word| *word as u8).collect();
        Some(Segment { offset, bytes })
    };
    let segments = place[SEGMENTS_AT..STATIC_AT].chunks_exact(2).take(count).map(segment).collect::<Option<_>>()?;
    let checksum = match place[2] {
        0 => None,
        1 => Some(Checksum { field: usize::try_from(place[3]).ok()?, start: usize::try_from(place[4]).ok()? }),
        _ => return None,
    };
    Some(Template { context_id: place[0], segments, checksum })
}

/// The version of an address, and its high and low half.
fn halves(address: IpAddr) -> (u64, [u64; 2]) {
    match address {
        IpAddr::V4(a) => (4, [0, u64::from(u32::from(a))]),
        IpAddr::V6(a) => (6, [(u128::from(a) >> 64) as u64, u128::from(a) as u64]),
    }
}

fn address(version: u8, [high, low]: [u64; 2]) -> Option<IpAddr> {
    match version {
        4 if high == 0 => Some(Ipv4Addr::from(u32::try_from(low).ok()?).into()),
        6 => Some(Ipv6Addr::from(u128::from(high) << 64 | u128::from(low)).into()),
        _ => None,
    }
}

/// A word that counts or places something, where it is within its limit.
fn at_most(word: u64, limit: usize) -> Option<usize> {
    usize::try_from(word).ok().filter(|n| *n <= limit)
}
