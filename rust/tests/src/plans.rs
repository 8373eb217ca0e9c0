//! Plans: sound by construction, as files with one piece damaged, as words with one word damaged.

use crate::capsules::number_form;
use crate::random::Random;
use crate::words::{BYTES, FIELD, FLAG, SEGMENTS, SEGMENT_COUNT, START};
use whapirohi_reference::plan::{MAX_SEGMENTS, MAX_TEMPLATES, STATIC_LIMIT};
use whapirohi_reference::{Checksum, ContextId, Plan, Segment, Template};
use whapirohi_tunnel::{PlanWords, TEMPLATE_WORDS};

/// Context IDs in order: small ones most times.
pub fn ids(random: &mut Random, count: usize) -> Vec<u64> {
    let mut ids: Vec<u64> = Vec::new();
    while ids.len() < count {
        let id = if random.once_in(3) { random.edge_number() } else { random.below(60) as u64 };
        if id != 0 && !ids.contains(&id) {
            ids.push(id);
        }
    }
    ids.sort();
    ids
}

/// A legal pair: 20 ≤ start ≤ field ≤ 126, an even difference.
pub fn any_checksum(random: &mut Random) -> Checksum {
    let field = random.pick(&[20, 21, 26, 36, 56, 125, 126]);
    let field = if random.once_in(2) { random.between(20, 126) } else { field };
    Checksum { field, start: field - 2 * random.below((field - 20) / 2 + 1) }
}

/// Segments within the first `limit` bytes that leave the field alone.
pub fn segments(random: &mut Random, limit: usize, checksum: Option<Checksum>, template: &mut Template) {
    let wanted = match random.below(6) {
        0 => MAX_SEGMENTS,
        1 => random.below(MAX_SEGMENTS + 1),
        _ => random.between(1, 3),
    };
    let mut at = 0;
    for _ in 0..wanted {
        let gap = if random.once_in(3) { 0 } else { random.below(limit / 3 + 2) };
        let mut offset = at + gap;
        if let Some(c) = checksum {
            if offset == c.field || offset == c.field + 1 {
                offset = c.field + 2;
            }
        }
        let mut last = limit;
        if let Some(c) = checksum {
            if offset < c.field {
                last = last.min(c.field);
            }
        }
        if offset >= last {
            continue;
        }
        let length = if random.once_in(8) { last - offset } else { 1 + random.below((last - offset).min(24)) };
        template.segments.items[template.segments.count] = Segment { offset, length };
        template.segments.count += 1;
        at = offset + length;
    }
}

pub fn sound_plan(random: &mut Random) -> Plan {
    let count = match random.below(6) {
        0 => 0,
        1 => MAX_TEMPLATES,
        2 => random.below(MAX_TEMPLATES + 1),
        _ => random.between(1, 2),
    };
    let mut plan = Plan::default();
    plan.templates.count = count;
    for (n, id) in ids(random, count).into_iter().enumerate() {
        let checksum = random.once_in(2).then(|| any_checksum(random));
        let mut template = Template { id: ContextId(id), checksum, ..Template::default() };
        segments(random, STATIC_LIMIT, checksum, &mut template);
        if template.segments.count == 0 && checksum.is_none() {
            template.segments.items[0] = Segment { offset: 127, length: 1 };
            template.segments.count = 1;
        }
        for segment in template.segments.stored().to_vec() {
            template.bytes[segment.offset..segment.end()].fill_with(|| random.byte());
        }
        plan.templates.items[n] = template;
    }
    plan
}

/// What a plan file is made of.
enum Piece {
    Bytes(Vec<u8>),
    Byte(u8),
    Number(u64),
}

fn pieces(plan: &Plan) -> Vec<Piece> {
    let mut pieces = vec![Piece::Bytes(b"VAN".to_vec()), Piece::Bytes(vec![0, 1])];
    pieces.push(Piece::Byte(plan.templates.count as u8));
    for template in plan.templates.stored() {
        pieces.push(Piece::Number(template.id.0));
        pieces.push(Piece::Byte(template.segments.count as u8));
        for segment in template.segments.stored() {
            pieces.push(Piece::Number(segment.offset as u64));
            pieces.push(Piece::Number(segment.length as u64));
            pieces.push(Piece::Bytes(template.bytes[segment.offset..segment.end()].to_vec()));
        }
        pieces.push(Piece::Byte(template.checksum.is_some().into()));
        if let Some(checksum) = template.checksum {
            pieces.push(Piece::Number(checksum.field as u64));
            pieces.push(Piece::Number(checksum.start as u64));
        }
    }
    pieces
}

fn file_of(pieces: &[Piece], longer: usize) -> Vec<u8> {
    let mut file = Vec::new();
    for (n, piece) in pieces.iter().enumerate() {
        match piece {
            Piece::Bytes(bytes) => file.extend(bytes),
            Piece::Byte(byte) => file.push(*byte),
            Piece::Number(value) => file.extend(number_form(*value, usize::from(n == longer))),
        }
    }
    file
}

pub fn plan_file(plan: &Plan) -> Vec<u8> {
    file_of(&pieces(plan), usize::MAX)
}

/// The file with one piece damaged, cut or followed by more.
pub fn damaged_file(random: &mut Random, plan: &Plan) -> Vec<u8> {
    let mut pieces = pieces(plan);
    let at = if random.once_in(4) { random.below(3) } else { random.below(pieces.len()) };
    let mut longer = usize::MAX;
    match &mut pieces[at] {
        Piece::Bytes(bytes) => match random.below(3) {
            0 => {
                bytes.pop();
            }
            1 => bytes.push(random.byte()),
            _ => bytes[0] ^= 1 << random.below(8),
        },
        Piece::Byte(byte) => {
            *byte = random.pick(&[0, 1, 2, 8, 9, 255, *byte ^ 1, byte.wrapping_add(1), byte.wrapping_sub(1)])
        }
        Piece::Number(value) => match random.below(5) {
            0 => longer = at,
            1 => *value = random.edge_number(),
            2 => *value = value.wrapping_sub(1) & ((1 << 62) - 1),
            3 => *value = 0,
            _ => *value += 1,
        },
    }
    let mut file = file_of(&pieces, longer);
    match random.below(12) {
        0 => file.truncate(random.below(file.len() + 1)),
        1 => file.push(random.byte()),
        2 => crate::capsules::flip(random, &mut file),
        _ => {}
    }
    file
}

/// Anything in the words that mean nothing: templates and segments past their counts, static bytes outside the segments, field and start
/// without a checksum, and the bits above a static byte.
pub fn litter_plan(random: &mut Random, words: &mut PlanWords) {
    let used = (words[0] as usize).min(MAX_TEMPLATES);
    for (n, w) in words[1..].chunks_exact_mut(TEMPLATE_WORDS).enumerate() {
        if n >= used {
            w.fill_with(|| random.word());
            continue;
        }
        let count = (w[SEGMENT_COUNT] as usize).min(MAX_SEGMENTS);
        let mut is_static = [false; STATIC_LIMIT];
        for segment in w[SEGMENTS..][..2 * count].chunks_exact(2) {
            let (offset, length) = (segment[0] as usize, segment[1] as usize);
            is_static.iter_mut().skip(offset).take(length).for_each(|s| *s = true);
        }
        w[SEGMENTS + 2 * count..BYTES].fill_with(|| random.edge());
        for (byte, is_static) in w[BYTES..].iter_mut().zip(is_static) {
            if !is_static {
                *byte = random.word();
            }
        }
        if w[FLAG] == 0 {
            w[FIELD] = random.edge();
            w[START] = random.edge();
        }
    }
}

/// Bits above a static byte, which mean nothing.
pub fn litter_static_bytes(random: &mut Random, words: &mut PlanWords) {
    for template in words[1..].chunks_exact_mut(TEMPLATE_WORDS) {
        for byte in &mut template[BYTES..] {
            *byte |= random.word() << 8;
        }
    }
}

/// One change that breaks a rule most times.
pub fn damage_plan(random: &mut Random, words: &mut PlanWords) {
    let stored = (words[0] as usize).min(MAX_TEMPLATES);
    if stored == 0 || random.once_in(8) {
        words[0] = random.pick(&[9, 10, 256, (1 << 32) + 1, 1 << 63, u64::MAX]);
        return;
    }
    let at = random.below(stored);
    let previous = if at == 0 { 0 } else { words[1 + TEMPLATE_WORDS * (at - 1)] };
    let w = &mut words[1 + TEMPLATE_WORDS * at..][..TEMPLATE_WORDS];
    let count = w[SEGMENT_COUNT] as usize;
    match random.below(9) {
        // The field just before, at the first, at the last byte of a segment, or just behind it.
        8 if count > 0 => {
            let segment = &w[SEGMENTS + 2 * random.below(count)..][..2];
            let (offset, end) = (segment[0], segment[0] + segment[1]);
            w[FLAG] = 1;
            w[FIELD] = random.pick(&[offset.wrapping_sub(2), offset.wrapping_sub(1), offset, end.wrapping_sub(1), end]);
            w[START] = w[FIELD];
        }
        0 => w[0] = random.pick(&[0, previous, previous.wrapping_sub(1), 1 << 62, (1 << 62) + 1, u64::MAX]),
        1 => w[SEGMENT_COUNT] = random.pick(&[0, 9, 256, (1 << 32) + 1, 1 << 63, u64::MAX]),
        2 => w[FLAG] = random.pick(&[2, 3, 256, 257, 1 << 32, u64::MAX]),
        3 => w[FLAG] ^= 1,
        4 => w[FIELD] = random.pick(&[w[FIELD].wrapping_add(1), 0, 19, 127, 128, 256 + w[FIELD], 1 << 63, u64::MAX]),
        5 => w[START] = random.pick(&[w[START].wrapping_sub(1), 0, 18, 19, 127, 128, 1 << 63, u64::MAX]),
        _ if count == 0 => w[SEGMENT_COUNT] = 1,
        _ => {
            let segment = &mut w[SEGMENTS + 2 * random.below(count)..][..2];
            match random.below(4) {
                0 => {
                    segment[0] = random.pick(&[0, segment[0].wrapping_sub(1), segment[0] + 1, 127, 128, 129, u64::MAX])
                }
                1 => segment[1] = random.pick(&[0, segment[1] + 1, 128, 129, u64::MAX, u64::MAX - segment[0] + 1]),
                2 => segment[random.below(2)] += random.pick(&[256, 1 << 32, 1 << 63]),
                _ => segment[random.below(2)] = random.edge(),
            }
        }
    }
}
