//! Packets sent as datagrams and received from them.

use crate::number::{self, NUMBER_ROOM};
use crate::packet::{complete, is_udp, lower, put_word, seed, sum, sum_joined, word_at, Header, MAX_PACKET};
use crate::plan::{Plan, Template, STATIC_LIMIT};
use crate::{Grants, Refusal};

/// The least output lent for sending: a Context ID and a packet.
pub const SEND_ROOM: usize = NUMBER_ROOM + MAX_PACKET;

/// The least output lent for receiving: a packet.
pub const RECEIVE_ROOM: usize = MAX_PACKET;

/// Sends a packet: its hop count lowered, in the short form of the first template that fits, or in full.
pub fn send(grants: &Grants, plan: &Plan, packet: &[u8], out: &mut [u8]) -> Result<usize, Refusal> {
    if out.len() < SEND_ROOM {
        return Err(Refusal::NoRoom);
    }
    if !grants.sound() || !plan.sound() {
        return Err(Refusal::BrokenState);
    }
    if packet.len() > MAX_PACKET {
        return Err(Refusal::PacketTooLong);
    }
    let header = Header::read(packet, &[]).ok_or(Refusal::BadForm)?;
    if header.hop_count <= 1 {
        return Err(Refusal::HopCountSpent);
    }
    if !grants.allow_sending(&header) {
        return Err(Refusal::NotGranted);
    }

    // Lowering and templates alter only the front of a packet.
    let mut front = [0; STATIC_LIMIT];
    let (near, tail) = packet.split_at(packet.len().min(STATIC_LIMIT));
    let front = &mut front[..near.len()];
    front.copy_from_slice(near);
    lower(front);
    match plan.templates.stored().iter().find(|template| fits(template, front, packet)) {
        Some(template) => Ok(write_short(template, front, packet.len(), tail, out)),
        None => Ok(write_full(front, tail, out)),
    }
}

/// Whether a template fits a packet as sending leaves it: `front` lowered, the rest as it stands in `packet`.
fn fits(template: &Template, front: &[u8], packet: &[u8]) -> bool {
    let equal = template
        .segments
        .stored()
        .iter()
        .all(|s| front.get(s.offset..s.end()).is_some_and(|bytes| *bytes == template.bytes[s.offset..s.end()]));
    equal
        && template.checksum.is_none_or(|c| {
            if c.field + 2 > packet.len() {
                return false;
            }
            // The field is counted with the seed in place of what it holds; no byte from the start on is altered by lowering.
            let held = word_at(packet, c.field);
            let seed = seed(front, packet.len(), c.start);
            let words = sum(&packet[c.start..]) - u32::from(held) + u32::from(seed);
            complete(words, is_udp(front)) == held
        })
}

fn write_short(template: &Template, front: &mut [u8], length: usize, tail: &[u8], out: &mut [u8]) -> usize {
    if let Some(c) = template.checksum {
        put_word(front, c.field, seed(front, length, c.start));
    }
    let mut at = number::put(template.id.0, out);
    let mut from = 0;
    for segment in template.segments.stored() {
        append(out, &mut at, &front[from..segment.offset]);
        from = segment.end();
    }
    append(out, &mut at, &front[from..]);
    append(out, &mut at, tail);
    at
}

fn write_full(front: &[u8], tail: &[u8], out: &mut [u8]) -> usize {
    let mut at = number::put(0, out);
    append(out, &mut at, front);
    append(out, &mut at, tail);
    at
}

/// Receives a datagram: the packet that it stands for.
pub fn receive(grants: &Grants, plan: &Plan, datagram: &[u8], out: &mut [u8]) -> Result<usize, Refusal> {
    if out.len() < RECEIVE_ROOM {
        return Err(Refusal::NoRoom);
    }
    if !grants.sound() || !plan.sound() {
        return Err(Refusal::BrokenState);
    }
    let (id, size) = number::parse(datagram).ok_or(Refusal::DatagramCut)?;
    let body = &datagram[size..];
    if id == 0 {
        return deliver(grants, body, &[], out);
    }
    let template = plan.templates.stored().iter().find(|t| t.id.0 == id).ok_or(Refusal::UnknownContext)?;
    let length = body.len() + template.static_length();
    if length < template.reach() {
        return Err(Refusal::DatagramCut);
    }
    if length > MAX_PACKET {
        return Err(Refusal::PacketTooLong);
    }

    let mut front = [0; STATIC_LIMIT];
    let front = &mut front[..length.min(STATIC_LIMIT)];
    let mut rest = body;
    let mut at = 0;
    for segment in template.segments.stored() {
        rest = fill(&mut front[at..segment.offset], rest);
        at = segment.end();
        front[segment.offset..at].copy_from_slice(&template.bytes[segment.offset..at]);
    }
    let tail = fill(&mut front[at..], rest);
    if let Some(c) = template.checksum {
        let words = sum_joined(&front[c.start..], tail);
        put_word(front, c.field, complete(words, is_udp(front)));
    }
    deliver(grants, front, tail, out)
}

/// Judges the packet `front` followed by `tail` and writes it.
fn deliver(grants: &Grants, front: &[u8], tail: &[u8], out: &mut [u8]) -> Result<usize, Refusal> {
    let length = front.len() + tail.len();
    if length > MAX_PACKET {
        return Err(Refusal::PacketTooLong);
    }
    let header = Header::read(front, tail).ok_or(Refusal::BadForm)?;
    if !grants.allow_receiving(&header) {
        return Err(Refusal::NotGranted);
    }
    let mut at = 0;
    append(out, &mut at, front);
    append(out, &mut at, tail);
    Ok(length)
}

#[inline]
fn append(out: &mut [u8], at: &mut usize, bytes: &[u8]) {
    out[*at..][..bytes.len()].copy_from_slice(bytes);
    *at += bytes.len();
}

/// Fills `place` from the front of `bytes`; the rest of them.
#[inline]
fn fill<'a>(place: &mut [u8], bytes: &'a [u8]) -> &'a [u8] {
    let (taken, rest) = bytes.split_at(place.len());
    place.copy_from_slice(taken);
    rest
}
