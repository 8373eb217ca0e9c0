//! IP packets: form, header facts, hop count, and the RFC 1071 sums.

/// The most bytes of a packet.
pub const MAX_PACKET: usize = 1500;

const UDP: u8 = 17;

// IPv6 headers that may stand before the one a packet is about.
const HOP_BY_HOP: u8 = 0;
const ROUTING: u8 = 43;
const FRAGMENT: u8 = 44;
const AUTHENTICATION: u8 = 51;
const DESTINATION: u8 = 60;
const MOBILITY: u8 = 135;

/// Bits of an address; none for a version other than 4 and 6.
#[inline]
pub fn width(version: u8) -> Option<u32> {
    match version {
        4 => Some(32),
        6 => Some(128),
        _ => None,
    }
}

/// The 16-bit words of `bytes` added up; an odd last byte is padded with 0.
#[inline]
pub fn sum(bytes: &[u8]) -> u32 {
    let words = bytes.chunks_exact(2);
    let last = words.remainder().first().map_or(0, |&b| u32::from(b) << 8);
    words.map(|w| u32::from(u16::from_be_bytes([w[0], w[1]]))).sum::<u32>() + last
}

/// The words of `head` followed by `tail`.
#[inline]
pub fn sum_joined(head: &[u8], tail: &[u8]) -> u32 {
    match (head, tail) {
        ([even @ .., high], [low, rest @ ..]) if even.len() % 2 == 0 => {
            sum(even) + u32::from(u16::from_be_bytes([*high, *low])) + sum(rest)
        }
        _ => sum(head) + sum(tail),
    }
}

/// The carries added back in.
#[inline]
pub fn fold(mut sum: u32) -> u16 {
    while sum > 0xffff {
        sum = (sum & 0xffff) + (sum >> 16);
    }
    sum as u16
}

#[inline]
pub fn word_at(bytes: &[u8], at: usize) -> u16 {
    u16::from_be_bytes([bytes[at], bytes[at + 1]])
}

#[inline]
pub fn put_word(bytes: &mut [u8], at: usize, word: u16) {
    bytes[at..at + 2].copy_from_slice(&word.to_be_bytes());
}

/// What is judged of a packet of good form.
#[derive(Clone, Copy, Debug, PartialEq, Eq)]
pub struct Header {
    pub version: u8,
    /// Of IPv6 the number behind the chain of headers.
    pub protocol: u8,
    pub hop_count: u8,
    pub source: u128,
    pub destination: u128,
}

impl Header {
    /// The header of the packet `front` followed by `tail`, where `front` has at least the first 60 bytes, or all; none where the form is bad.
    #[inline]
    pub fn read(front: &[u8], tail: &[u8]) -> Option<Header> {
        match front.first()? >> 4 {
            4 => Self::read_ipv4(front, front.len() + tail.len()),
            6 => Self::read_ipv6(front, tail),
            _ => None,
        }
    }

    fn read_ipv4(front: &[u8], length: usize) -> Option<Header> {
        let fixed: &[u8; 20] = front.first_chunk()?;
        let header_length = 4 * usize::from(fixed[0] & 0x0f);
        if header_length < 20 || usize::from(word_at(fixed, 2)) != length {
            return None;
        }
        if fold(sum(front.get(..header_length)?)) != 0xffff {
            return None;
        }
        Some(Header {
            version: 4,
            protocol: fixed[9],
            hop_count: fixed[8],
            source: ipv4_at(fixed, 12),
            destination: ipv4_at(fixed, 16),
        })
    }

    fn read_ipv6(front: &[u8], tail: &[u8]) -> Option<Header> {
        let (fixed, payload) = front.split_first_chunk::<40>()?;
        if usize::from(word_at(fixed, 4)) != payload.len() + tail.len() {
            return None;
        }
        let first = fixed[6];
        Some(Header {
            version: 6,
            protocol: if is_skipped(first) { behind_chain(first, payload, tail)? } else { first },
            hop_count: fixed[7],
            source: ipv6_at(fixed, 8),
            destination: ipv6_at(fixed, 24),
        })
    }

    /// Protocol 1 is ICMP in IPv4 only, 58 in IPv6 only.
    #[inline]
    pub fn is_icmp(&self) -> bool {
        matches!((self.version, self.protocol), (4, 1) | (6, 58))
    }
}

/// Whether a header with this number is one of those before the protocol.
#[inline]
fn is_skipped(number: u8) -> bool {
    matches!(number, HOP_BY_HOP | ROUTING | FRAGMENT | AUTHENTICATION | DESTINATION | MOBILITY)
}

/// The number behind the chain of IPv6 headers that `first` begins and that stands at the front of `near` followed by `far`; none where one
/// of them is not there whole. Not a part of its caller, so that packets without a chain do not pay for it.
#[inline(never)]
fn behind_chain<'a>(first: u8, mut near: &'a [u8], mut far: &'a [u8]) -> Option<u8> {
    let mut number = first;
    while is_skipped(number) {
        let [next, length, high, low] = match near.first_chunk() {
            Some(start) => *start,
            None => first_four(near, far)?,
        };
        let size = match number {
            FRAGMENT => 8,
            AUTHENTICATION => 8 + 4 * usize::from(length),
            _ => 8 + 8 * usize::from(length),
        };
        near = match near.get(size..) {
            Some(rest) => rest,
            None => {
                let rest = far.get(size - near.len()..)?;
                far = &[];
                rest
            }
        };
        // Of a later fragment nothing more is known.
        if number == FRAGMENT && u16::from_be_bytes([high, low]) >> 3 != 0 {
            return Some(FRAGMENT);
        }
        number = next;
    }
    Some(number)
}

/// The first bytes of `near` followed by `far`.
#[cold]
fn first_four(near: &[u8], far: &[u8]) -> Option<[u8; 4]> {
    let mut bytes = near.iter().chain(far).copied();
    Some([bytes.next()?, bytes.next()?, bytes.next()?, bytes.next()?])
}

fn ipv4_at(header: &[u8; 20], at: usize) -> u128 {
    u128::from(u32::from_be_bytes([header[at], header[at + 1], header[at + 2], header[at + 3]]))
}

fn ipv6_at(header: &[u8; 40], at: usize) -> u128 {
    header[at..at + 16].iter().fold(0, |address, &b| address << 8 | u128::from(b))
}

/// The checksum of a header that had `checksum`, when one of its words changes: RFC 1624, equation 3.
#[inline]
pub fn updated(checksum: u16, old: u16, new: u16) -> u16 {
    !fold(u32::from(!checksum) + u32::from(!old) + u32::from(new))
}

/// Lowers the hop count by one and updates the IPv4 header checksum; `front` begins a packet of good form that has a hop left.
#[inline]
pub fn lower(front: &mut [u8]) {
    if front[0] >> 4 == 4 {
        let old = word_at(front, 8);
        front[8] -= 1;
        let checksum = updated(word_at(front, 10), old, word_at(front, 8));
        put_word(front, 10, checksum);
    } else {
        front[7] -= 1;
    }
}

/// Whether a packet, perhaps rebuilt and of any form, says UDP; `front` has at least 10 bytes.
#[inline]
pub fn is_udp(front: &[u8]) -> bool {
    match front[0] >> 4 {
        4 => front[9] == UDP,
        6 => front[6] == UDP,
        _ => false,
    }
}

/// The folded pseudo-header of a packet of good form and of `length` bytes.
#[inline]
pub fn seed(front: &[u8], length: usize, start: usize) -> u16 {
    let (addresses, protocol) = if front[0] >> 4 == 4 { (&front[12..20], front[9]) } else { (&front[8..40], front[6]) };
    fold(sum(addresses) + u32::from(protocol) + (length - start) as u32)
}

/// The checksum of words that add up to `sum`, the seed among them.
#[inline]
pub fn complete(sum: u32, udp: bool) -> u16 {
    match !fold(sum) {
        0 if udp => 0xffff,
        checksum => checksum,
    }
}
