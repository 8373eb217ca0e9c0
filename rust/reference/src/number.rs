//! QUIC numbers, RFC 9000 section 16.

use crate::Refusal;

/// The least output lent for a number by itself.
pub const NUMBER_ROOM: usize = 8;

/// The largest number that has a form.
pub const MAX_NUMBER: u64 = (1 << 62) - 1;

/// The number at the front of `bytes` and the bytes that it takes; none where it is cut.
#[inline]
pub fn parse(bytes: &[u8]) -> Option<(u64, usize)> {
    let first = *bytes.first()?;
    Some(match first >> 6 {
        0 => (u64::from(first), 1),
        1 => (u64::from(u16::from_be_bytes(*bytes.first_chunk()?) & 0x3fff), 2),
        2 => (u64::from(u32::from_be_bytes(*bytes.first_chunk()?) & 0x3fff_ffff), 4),
        _ => (u64::from_be_bytes(*bytes.first_chunk()?) & MAX_NUMBER, 8),
    })
}

/// Bytes of the shortest form of a number up to `MAX_NUMBER`.
#[inline]
pub fn size(value: u64) -> usize {
    match value {
        0..=0x3f => 1,
        0x40..=0x3fff => 2,
        0x4000..=0x3fff_ffff => 4,
        _ => 8,
    }
}

/// Puts the shortest form at the front of `out`, which has room for it.
#[inline]
pub fn put(value: u64, out: &mut [u8]) -> usize {
    let size = size(value);
    match size {
        1 => out[0] = value as u8,
        2 => out[..2].copy_from_slice(&(value as u16 | 0x4000).to_be_bytes()),
        4 => out[..4].copy_from_slice(&(value as u32 | 0x8000_0000).to_be_bytes()),
        _ => out[..8].copy_from_slice(&(value | 0xc000_0000_0000_0000).to_be_bytes()),
    }
    size
}

/// A number by itself: its value and size.
pub fn read_number(bytes: &[u8]) -> Result<(u64, usize), Refusal> {
    parse(bytes).ok_or(Refusal::NotAllThere)
}

/// A number by itself, in its shortest form.
pub fn write_number(value: u64, out: &mut [u8]) -> Result<usize, Refusal> {
    if out.len() < NUMBER_ROOM {
        return Err(Refusal::NoRoom);
    }
    if value > MAX_NUMBER {
        return Err(Refusal::BadAddress);
    }
    Ok(put(value, out))
}
