//! Captures in the classic pcap format: the IP packets in them, and captures of raw IP packets.

use std::io::{self, Write};
use std::time::Duration;

/// What a record of a capture comes to.
#[derive(Clone, Copy, Debug, PartialEq, Eq)]
pub enum Captured<'a> {
    /// An IP packet, without the link's header and padding.
    Packet(&'a [u8]),
    /// A frame that carries no IP packet.
    NotIp,
    /// Only the front of a frame was captured.
    Shortened,
    /// The capture ends within this record.
    Cut,
}

const MICROSECONDS: u32 = 0xa1b2_c3d4;
const NANOSECONDS: u32 = 0xa1b2_3c4d;
const PCAPNG: [u8; 4] = [0x0a, 0x0d, 0x0d, 0x0a];

const FILE_HEADER: usize = 24;
const RECORD_HEADER: usize = 16;

const RAW_IP: u32 = 101;
const MAX_TAGS: usize = 2;

/// How frames of a link carry a packet.
#[derive(Clone, Copy)]
enum Link {
    /// A frame is a packet.
    Raw,
    /// An EtherType stands at `at`; `header` bytes come before what it tells of.
    Typed { at: usize, header: usize },
}

/// What each record of a capture comes to, in order.
pub fn packets(capture: &[u8]) -> Result<Vec<Captured<'_>>, String> {
    if capture.starts_with(&PCAPNG) {
        let convert = "convert it with `tcpdump -r IN -w OUT` or `editcap -F pcap IN OUT`";
        return Err(format!("the capture is in the pcapng format: {convert}"));
    }
    let Some((header, mut rest)) = capture.split_at_checked(FILE_HEADER) else {
        return Err("no pcap capture: its header is not all there".into());
    };
    let read: fn([u8; 4]) -> u32 = match (word(header, 0, u32::from_be_bytes), word(header, 0, u32::from_le_bytes)) {
        (MICROSECONDS | NANOSECONDS, _) => u32::from_be_bytes,
        (_, MICROSECONDS | NANOSECONDS) => u32::from_le_bytes,
        _ => return Err("no pcap capture: it does not start as one".into()),
    };
    let link = link(word(header, 20, read))?;
    let mut found = Vec::new();
    while !rest.is_empty() {
        let Some((captured, behind)) = record(rest, read, link) else {
            found.push(Captured::Cut);
            break;
        };
        found.push(captured);
        rest = behind;
    }
    Ok(found)
}

/// The link of a capture's link type; the upper half of that word is about other things.
fn link(kind: u32) -> Result<Link, String> {
    match kind & 0xffff {
        12 | 14 | RAW_IP | 228 | 229 => Ok(Link::Raw),
        1 => Ok(Link::Typed { at: 12, header: 14 }),
        // Linux cooked captures, versions 1 and 2: those of `tcpdump -i any`.
        113 => Ok(Link::Typed { at: 14, header: 16 }),
        276 => Ok(Link::Typed { at: 0, header: 20 }),
        other => {
            Err(format!("link type {other} is not known: captures are of raw IP, Ethernet or Linux cooked frames"))
        }
    }
}

/// The first record, and the bytes behind it; `None` where it is cut.
fn record(bytes: &[u8], read: fn([u8; 4]) -> u32, link: Link) -> Option<(Captured<'_>, &[u8])> {
    let (header, rest) = bytes.split_at_checked(RECORD_HEADER)?;
    let (captured, original) = (word(header, 8, read), word(header, 12, read));
    let (frame, rest) = rest.split_at_checked(usize::try_from(captured).ok()?)?;
    if captured < original {
        return Some((Captured::Shortened, rest));
    }
    let packet = match link {
        Link::Raw => Some(frame),
        Link::Typed { at, header } => carried(frame, at, header),
    };
    Some((packet.map_or(Captured::NotIp, Captured::Packet), rest))
}

/// The packet in a frame with an EtherType, behind VLAN tags.
fn carried(frame: &[u8], mut at: usize, mut header: usize) -> Option<&[u8]> {
    const TAGS: [u16; 2] = [0x8100, 0x88a8];
    for _ in 0..MAX_TAGS {
        if TAGS.contains(&half(frame, at)?) {
            // A tag is two bytes, and the next EtherType.
            at = header + 2;
            header += 4;
        }
    }
    let packet = frame.get(header..)?;
    let length = match half(frame, at)? {
        0x0800 => usize::from(half(packet, 2)?),
        0x86dd => 40 + usize::from(half(packet, 4)?),
        _ => return None,
    };
    // What stands behind the packet's own length is padding; a length that is too long is for the box to judge.
    Some(packet.get(..length).unwrap_or(packet))
}

fn half(bytes: &[u8], at: usize) -> Option<u16> {
    Some(u16::from_be_bytes(bytes.get(at..at + 2)?.try_into().ok()?))
}

/// A word of a header, which is long enough.
fn word(header: &[u8], at: usize, read: fn([u8; 4]) -> u32) -> u32 {
    read([header[at], header[at + 1], header[at + 2], header[at + 3]])
}

/// Starts a capture of raw IP packets.
pub fn write_header(out: &mut impl Write) -> io::Result<()> {
    const VERSION: u32 = 2 << 16 | 4;
    const LIMIT: u32 = 65535;
    for word in [MICROSECONDS, VERSION, 0, 0, LIMIT, RAW_IP] {
        out.write_all(&word.to_be_bytes())?;
    }
    Ok(())
}

/// Adds a packet, with the time since 1970.
pub fn write_packet(out: &mut impl Write, time: Duration, packet: &[u8]) -> io::Result<()> {
    let too_large = |_| io::Error::from(io::ErrorKind::InvalidInput);
    let length = u32::try_from(packet.len()).map_err(too_large)?;
    // The format has 32 bits for the seconds.
    for word in [time.as_secs() as u32, time.subsec_micros(), length, length] {
        out.write_all(&word.to_be_bytes())?;
    }
    out.write_all(packet)
}
