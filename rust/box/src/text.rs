//! Addresses, prefixes, ranges and hex as text.

use std::net::{IpAddr, Ipv4Addr, Ipv6Addr};
use std::str::FromStr;
use whapirohi_tunnel::{Entry, Range, Span};

/// The protocols that have a name in a configuration; 0 is any protocol.
pub const PROTOCOLS: [(u8, &str); 5] = [(0, "any"), (1, "icmp"), (6, "tcp"), (17, "udp"), (58, "icmp6")];

/// A decimal number without sign and leading zeros.
pub fn decimal<T: FromStr>(text: &str) -> Option<T> {
    let strict = text.bytes().all(|byte| byte.is_ascii_digit()) && (text == "0" || !text.starts_with('0'));
    text.parse().ok().filter(|_| strict)
}

/// A protocol by its name or number.
pub fn protocol(text: &str) -> Result<u8, String> {
    let named = PROTOCOLS.iter().find(|(_, name)| *name == text).map(|(number, _)| *number);
    named.or_else(|| decimal(text)).ok_or_else(|| {
        let names = PROTOCOLS.map(|(_, name)| name).join(", ");
        format!("`{text}` is no protocol; write a number from 0 to 255 or one of {names}")
    })
}

/// `192.0.2.0/24`, or an address by itself for its full length. Bits beyond the prefix are refused.
pub fn prefix(text: &str) -> Result<(IpAddr, u8), String> {
    let (left, length) = text.split_once('/').map_or((text, None), |(left, length)| (left, Some(length)));
    let address = self::address(left)?;
    let (bits, _) = number(address);
    let length = match length {
        None => bits,
        Some(digits) => decimal(digits)
            .filter(|length| *length <= bits)
            .ok_or_else(|| format!("`{text}`: the prefix length is a number from 0 to {bits}"))?,
    };
    match span_of(address, length).start() {
        first if first == address => Ok((address, length)),
        first => Err(format!("{text}: bits beyond the prefix; {first}/{length} is meant?")),
    }
}

/// The addresses of a prefix.
pub fn span_of(address: IpAddr, prefix_length: u8) -> Span {
    let (bits, number) = number(address);
    let host = ones(bits.saturating_sub(prefix_length));
    span_between(bits, number & !host, number | host)
}

/// `START-END` or a prefix.
pub fn span(text: &str) -> Result<Span, String> {
    let Some((start, end)) = text.split_once('-') else {
        return prefix(text).map(|(address, length)| span_of(address, length));
    };
    match Span::new(address(start)?, address(end)?) {
        None => Err(format!("`{text}`: start and end are of different versions")),
        Some(span) if span.start() > span.end() => {
            Err(format!("`{text}`: the start is above the end; {end}-{start} is meant?"))
        }
        Some(span) => Ok(span),
    }
}

/// The least prefixes that make up a span, in order.
pub fn prefixes(span: Span) -> Vec<(IpAddr, u8)> {
    let (bits, start) = number(span.start());
    let (_, end) = number(span.end());
    let mut list = Vec::new();
    let mut next = Some(start);
    while let Some(start) = next.filter(|start| *start <= end) {
        // The largest prefix that starts here: as far as the start's low bits are 0, and not past the end.
        let host = (0..=bits).rev().find(|host| start & ones(*host) == 0 && ones(*host) <= end - start).unwrap_or(0);
        list.push((address_of(bits, start), bits - host));
        next = (start | ones(host)).checked_add(1);
    }
    list
}

/// A range as in a configuration: a prefix where it is one, else `START-END`; then the protocol where it is not 0.
pub fn range(range: &Range) -> String {
    let span = match prefixes(range.span)[..] {
        [(address, length)] => format!("{address}/{length}"),
        _ => format!("{}-{}", range.span.start(), range.span.end()),
    };
    match PROTOCOLS.iter().find(|(number, _)| *number == range.protocol) {
        Some((0, _)) => span,
        Some((_, name)) => format!("{span} {name}"),
        None => format!("{span} {}", range.protocol),
    }
}

fn address(text: &str) -> Result<IpAddr, String> {
    text.parse().map_err(|_| format!("`{text}` is no address such as 192.0.2.1 or 2001:db8::1"))
}

/// The bits of an address's version, and the address as a number.
pub(crate) fn number(address: IpAddr) -> (u8, u128) {
    match address {
        IpAddr::V4(address) => (32, u32::from(address).into()),
        IpAddr::V6(address) => (128, address.into()),
    }
}

/// The address that is such a number.
pub(crate) fn address_of(bits: u8, number: u128) -> IpAddr {
    match bits {
        32 => Ipv4Addr::from(number as u32).into(),
        _ => Ipv6Addr::from(number).into(),
    }
}

/// The span between two such numbers.
pub(crate) fn span_between(bits: u8, start: u128, end: u128) -> Span {
    match bits {
        32 => Span::V4(Ipv4Addr::from(start as u32), Ipv4Addr::from(end as u32)),
        _ => Span::V6(Ipv6Addr::from(start), Ipv6Addr::from(end)),
    }
}

/// The number whose lowest bits are 1, so many of them.
fn ones(count: u8) -> u128 {
    u128::MAX.checked_shr(128 - u32::from(count)).unwrap_or(0)
}

/// An entry as it was given: its prefix and the request that it answers, if any.
pub fn entry(entry: &Entry) -> String {
    let Entry { request_id, address, prefix_length } = entry;
    match (entry.is_declined(), request_id) {
        (true, _) => format!("none for request {request_id}"),
        (false, 0) => format!("{address}/{prefix_length}"),
        (false, _) => format!("{address}/{prefix_length} for request {request_id}"),
    }
}

/// Bytes as lower-case hex without spaces.
pub fn hex(bytes: &[u8]) -> String {
    bytes.iter().map(|byte| format!("{byte:02x}")).collect()
}

/// The bytes of such hex, upper case taken too; `None` where it is none.
pub fn unhex(text: &str) -> Option<Vec<u8>> {
    let digit = |c: u8| (c as char).to_digit(16).map(|d| d as u8);
    let digits = text.as_bytes().iter().map(|c| digit(*c)).collect::<Option<Vec<u8>>>()?;
    (digits.len() % 2 == 0).then(|| digits.chunks_exact(2).map(|pair| 16 * pair[0] + pair[1]).collect())
}
