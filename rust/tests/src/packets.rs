//! Packets and datagrams: allowed by lists, fitting templates, and just not.

use crate::capsules::{flip, number_form};
use crate::chains::{chain, damage_chain, Chain};
use crate::lists::{address_in, address_of, open_grants, sound_grants, top, version};
use crate::plans::{any_checksum, ids, segments};
use crate::random::Random;
use whapirohi_reference::packet::{complete, fold, is_udp, put_word, seed, sum, word_at, MAX_PACKET};
use whapirohi_reference::plan::{MAX_TEMPLATES, STATIC_LIMIT};
use whapirohi_reference::tunnel::SEND_ROOM;
use whapirohi_reference::{number, Checksum, ContextId, Grants, Plan, Template};

/// Lists, a packet that they most times let pass, and a plan made for that packet.
pub struct Scene {
    pub grants: Grants,
    pub plan: Plan,
    pub packet: Vec<u8>,
    pub checksum: Option<Checksum>,
}

struct Flow {
    version: u8,
    source: u128,
    destination: u128,
    protocol: u8,
}

pub fn scene(random: &mut Random) -> Scene {
    let grants = if random.once_in(4) { open_grants() } else { sound_grants(random) };
    let flow = flow(random, &grants);
    let length = packet_length(random);
    let mut packet = packet(random, &flow, length);
    let checksum = checksum_of(random, &packet);
    settle(random, &mut packet, checksum);
    let plan = plan_for(random, &packet, checksum);
    Scene { grants, plan, packet, checksum }
}

/// Addresses and protocol that sending is granted for, forwards or as a reply, where the lists have any; just outside now and then.
fn flow(random: &mut Random, grants: &Grants) -> Flow {
    let reply = random.once_in(3);
    let (addresses, routes) = if reply {
        (&grants.given_addresses, &grants.given_routes)
    } else {
        (&grants.received_addresses, &grants.received_routes)
    };
    let wanted = version(random);
    let has =
        |v: u8| addresses.stored().iter().any(|e| e.version == v) && routes.stored().iter().any(|r| r.version == v);
    let version = if has(wanted) || !has(10 - wanted) { wanted } else { 10 - wanted };
    let entries: Vec<_> = addresses.stored().iter().filter(|e| e.version == version).collect();
    let ranges: Vec<_> = routes.stored().iter().filter(|r| r.version == version).collect();
    let mut near = if entries.is_empty() {
        random.wide() & top(version)
    } else {
        let entry = random.pick(&entries);
        let address = address_of(random, entry);
        if entry.prefix > 0 && random.once_in(16) {
            let bits = if version == 4 { 32 } else { 128 };
            address ^ 1 << (bits - usize::from(entry.prefix) + random.below(entry.prefix.into()))
        } else {
            address
        }
    };
    if random.once_in(40) {
        near = random.pick(&[0, top(version)]);
    }
    let (mut far, mut protocol) = (random.wide() & top(version), random.byte());
    if !ranges.is_empty() {
        let range = random.pick(&ranges);
        far = match random.below(16) {
            0 => range.start.wrapping_sub(1) & top(version),
            1 => range.end.wrapping_add(1) & top(version),
            _ => address_in(random, range),
        };
        protocol = match random.below(12) {
            0 => random.byte(),
            1 => 1,
            2 => 58,
            _ if range.protocol == 0 => random.pick(&[6, 17, 17, 132]),
            _ => range.protocol,
        };
    }
    let (source, destination) = if reply { (far, near) } else { (near, far) };
    Flow { version, source, destination, protocol }
}

fn packet_length(random: &mut Random) -> usize {
    match random.below(16) {
        0 => random.pick(&[MAX_PACKET - 2, MAX_PACKET - 1, MAX_PACKET]),
        1 => random.below(MAX_PACKET + 1),
        2 => random.pick(&[20, 21, 28, 40, 41, 48, 127, 128, 129, 130]),
        3 => random.pick(&[575, 576, 1280, 1400]),
        _ => random.between(28, 200),
    }
}

/// A packet of at least its headers, with its length and its header checksum right; IPv6 often has a chain of them before the protocol.
fn packet(random: &mut Random, flow: &Flow, length: usize) -> Vec<u8> {
    let hops = random.pick(&[2, 3, 64, 64, 128, 255]);
    let mut packet;
    if flow.version == 4 {
        let words = if random.once_in(4) { random.between(5, 15) } else { 5 };
        packet = random.bytes(length.max(4 * words));
        packet[0] = 0x40 + words as u8;
        packet[8] = hops;
        packet[9] = flow.protocol;
        packet[12..16].copy_from_slice(&(flow.source as u32).to_be_bytes());
        packet[16..20].copy_from_slice(&(flow.destination as u32).to_be_bytes());
    } else {
        let (first, chain) =
            if random.once_in(3) { chain(random, flow.protocol, MAX_PACKET - 40) } else { (flow.protocol, Vec::new()) };
        packet = random.bytes(length.max(40 + chain.len()));
        packet[0] = 0x60 | packet[0] & 0x0f;
        packet[6] = first;
        packet[40..][..chain.len()].copy_from_slice(&chain);
        packet[7] = hops;
        packet[8..24].copy_from_slice(&flow.source.to_be_bytes());
        packet[24..40].copy_from_slice(&flow.destination.to_be_bytes());
    }
    seal_length(&mut packet);
    packet
}

fn header_length(packet: &[u8]) -> usize {
    match packet[0] >> 4 {
        4 => (4 * usize::from(packet[0] & 0x0f)).clamp(20, packet.len()),
        _ => 40,
    }
}

/// Where the headers end, those of a whole chain among them.
fn headers_length(packet: &[u8]) -> usize {
    match packet[0] >> 4 {
        6 if packet.len() >= 40 => Some(Chain::of(packet)).filter(|c| c.protocol.is_some()).map_or(40, |c| c.end()),
        _ => header_length(packet),
    }
}

/// The length and, for IPv4, the header checksum.
pub fn seal_length(packet: &mut [u8]) {
    let length = packet.len();
    match packet[0] >> 4 {
        4 => put_word(packet, 2, length as u16),
        _ => put_word(packet, 4, (length - 40) as u16),
    }
    seal_header(packet);
}

fn seal_header(packet: &mut [u8]) {
    if packet[0] >> 4 == 4 {
        put_word(packet, 10, 0);
        let checksum = !fold(sum(&packet[..header_length(packet)]));
        put_word(packet, 10, checksum);
    }
}

/// The packet with one hop fewer, its IPv4 header checksum made again from all the words of the header: what every update must come to.
pub fn lowered(packet: &[u8]) -> Vec<u8> {
    let mut packet = packet.to_vec();
    let hop = if packet[0] >> 4 == 4 { 8 } else { 7 };
    packet[hop] -= 1;
    seal_header(&mut packet);
    packet
}

/// Where a template may look for a checksum: where UDP, TCP and ICMP have it, or anywhere.
fn checksum_of(random: &mut Random, packet: &[u8]) -> Option<Checksum> {
    if random.once_in(5) {
        return None;
    }
    if random.once_in(5) {
        return Some(any_checksum(random));
    }
    let start = headers_length(packet);
    let field = start + random.pick(&[6, 6, 16, 2, 0]);
    (field <= 126).then_some(Checksum { field, start })
}

/// The checksum that completes the packet; none where the field is not in it.
pub fn completion(packet: &[u8], checksum: Checksum) -> Option<u16> {
    let Checksum { field, start } = checksum;
    if field + 2 > packet.len() {
        return None;
    }
    let words =
        sum(&packet[start..]) - u32::from(word_at(packet, field)) + u32::from(seed(packet, packet.len(), start));
    Some(complete(words, is_udp(packet)))
}

/// Header and transport checksums as the packet wants them; now and then such that one comes to zero.
fn settle(random: &mut Random, packet: &mut [u8], checksum: Option<Checksum>) {
    if let Some(c) = checksum.filter(|c| c.field + 2 <= packet.len()) {
        // Another word that makes up for all others, so that the sum comes to zero.
        let other = c.field + 2;
        if other + 2 <= packet.len() && other >= headers_length(packet) && random.once_in(10) {
            put_word(packet, other, 0);
            if let Some(rest) = completion(packet, c) {
                put_word(packet, other, rest);
            }
        }
        seal_transport(packet, c);
    }
    if packet[0] >> 4 == 4 && random.once_in(10) {
        // An identification for which the header checksum is 0000, and FFFF as sound; or FEFF, which a hop makes 0000.
        put_word(packet, 4, 0);
        seal_header(packet);
        let checksum: u16 = random.pick(&[0, 0xffff, 0xfeff]);
        let identification = fold(u32::from(word_at(packet, 10)) + u32::from(!checksum));
        put_word(packet, 4, identification);
        put_word(packet, 10, checksum);
    } else {
        seal_header(packet);
    }
}

pub fn seal_transport(packet: &mut [u8], c: Checksum) {
    put_word(packet, c.field, 0);
    let Some(closing) = completion(packet, c) else { return };
    let in_addresses = packet[0] >> 4 == 6 && c.field < 40;
    if in_addresses {
        // The field counts twice, in the seed and as itself: twice it and the rest come to a multiple of 65,535.
        let field = u32::from(closing) * 32768 % 65535;
        put_word(packet, c.field, field as u16);
    } else {
        put_word(packet, c.field, closing);
    }
}

/// Templates made from the packet as sending leaves it; some fit, some just not.
fn plan_for(random: &mut Random, packet: &[u8], checksum: Option<Checksum>) -> Plan {
    let lowered = lowered(packet);
    let count = match random.below(6) {
        0 => 0,
        1 => MAX_TEMPLATES,
        _ => random.between(1, 4),
    };
    let mut plan = Plan::default();
    plan.templates.count = count;
    for (n, id) in ids(random, count).into_iter().enumerate() {
        plan.templates.items[n] = template_for(random, ContextId(id), &lowered, checksum);
    }
    plan
}

fn template_for(random: &mut Random, id: ContextId, lowered: &[u8], checksum: Option<Checksum>) -> Template {
    let mut checksum = checksum;
    if random.once_in(4) {
        checksum = None;
    } else if random.once_in(8) {
        checksum = Some(any_checksum(random));
    }
    let mut template = Template { id, checksum, ..Template::default() };
    let limit = if random.once_in(10) { STATIC_LIMIT } else { lowered.len().min(STATIC_LIMIT) };
    if random.once_in(2) {
        stable_segments(lowered, checksum, &mut template);
    } else {
        segments(random, limit, checksum, &mut template);
    }
    if template.segments.count == 0 && checksum.is_none() {
        template.segments.items[0].length = 1;
        template.segments.count = 1;
    }
    for segment in template.segments.stored().to_vec() {
        for p in segment.offset..segment.end() {
            template.bytes[p] = lowered.get(p).copied().unwrap_or_else(|| random.byte());
        }
    }
    if template.segments.count > 0 && random.once_in(3) {
        // One static byte just not: any, the first or the last of a segment.
        let segment = random.pick(template.segments.stored());
        let at = match random.below(3) {
            0 => segment.offset,
            1 => segment.end() - 1,
            _ => segment.offset + random.below(segment.length),
        };
        template.bytes[at] ^= 1 << random.below(8);
    }
    template
}

/// What packets of one flow share: version, protocol, addresses and ports.
fn stable_segments(lowered: &[u8], checksum: Option<Checksum>, template: &mut Template) {
    let header = header_length(lowered);
    let pieces = if lowered[0] >> 4 == 4 {
        [(0, 2), (6, 2), (9, 1), (12, 8), (header, 4)]
    } else {
        [(0, 4), (6, 1), (8, 16), (24, 16), (40, 4)]
    };
    for (offset, length) in pieces {
        let in_field = checksum.is_some_and(|c| offset < c.field + 2 && c.field < offset + length);
        if !in_field && offset + length <= lowered.len().min(STATIC_LIMIT) {
            let n = template.segments.count;
            template.segments.items[n].offset = offset;
            template.segments.items[n].length = length;
            template.segments.count += 1;
        }
    }
}

/// A packet of the scene's flow, or one that differs from it in something that matters.
pub fn variation(random: &mut Random, scene: &Scene) -> Vec<u8> {
    let mut packet = scene.packet.clone();
    let header = headers_length(&packet).min(packet.len());
    let hop = if packet[0] >> 4 == 4 { 8 } else { 7 };
    match random.below(23) {
        0 | 1 => {}
        2 | 3 => {
            packet[hop] = random.pick(&[0, 1, 1, 2, 255]);
            seal_header(&mut packet);
        }
        4 | 5 => {
            if packet.len() > header {
                packet[header..].fill_with(|| random.byte());
                if packet.len() >= header + 4 {
                    packet[header..header + 4].copy_from_slice(&scene.packet[header..header + 4]);
                }
            }
            settle(random, &mut packet, scene.checksum);
        }
        6 | 7 => {
            let length =
                random.pick(&[packet.len() + 1, packet.len().saturating_sub(1), header, MAX_PACKET - 1, MAX_PACKET]);
            let length = if random.once_in(2) { random.between(header, MAX_PACKET) } else { length.max(header) };
            let more = random.bytes(length);
            packet.truncate(length);
            let kept = packet.len();
            packet.extend(&more[kept..]);
            seal_length(&mut packet);
            settle(random, &mut packet, scene.checksum);
        }
        8 | 9 => {
            if let Some(c) = scene.checksum.filter(|c| c.field + 2 <= packet.len()) {
                let word = word_at(&packet, c.field);
                let damaged =
                    random.pick(&[0, 0xffff, word.wrapping_add(1), word.wrapping_sub(1), !word, word ^ 0x0100]);
                put_word(&mut packet, c.field, damaged);
                seal_header(&mut packet);
            }
        }
        10 => flip(random, &mut packet),
        11 => {
            flip(random, &mut packet[..header]);
            seal_header(&mut packet);
        }
        12 => {
            let place = if packet[0] >> 4 == 4 { 2 } else { 4 };
            let length = word_at(&packet, place);
            put_word(&mut packet, place, random.pick(&[length.wrapping_add(1), length.wrapping_sub(1), 0, 0xffff]));
            seal_header(&mut packet);
        }
        13 => {
            packet[0] = random.byte() & 0xf0 | packet[0] & 0x0f;
            if random.once_in(2) {
                packet[0] = random.pick(&[0x40, 0x44, 0x45, 0x46, 0x4f, 0x60, 0x50]);
                seal_header(&mut packet);
            }
        }
        14 => packet.truncate(random.below(packet.len() + 1)),
        15 | 16 => {
            let flow = flow(random, &scene.grants);
            packet = self::packet(random, &flow, scene.packet.len());
            settle(random, &mut packet, scene.checksum);
        }
        17 => {
            packet[if hop == 8 { 9 } else { 6 }] = random.pick(&[0, 1, 6, 17, 43, 44, 50, 51, 58, 59, 60, 135, 255]);
            settle(random, &mut packet, scene.checksum);
        }
        18 if random.once_in(3) => {
            let length = random.pick(&[MAX_PACKET + 1, MAX_PACKET + 2, SEND_ROOM, 1600, 65535]);
            packet.resize(length, random.byte());
            seal_length(&mut packet);
        }
        19..=21 => {
            if packet[0] >> 4 == 6 {
                damage_chain(random, &mut packet);
            }
            settle(random, &mut packet, scene.checksum.filter(|c| c.field >= header));
        }
        _ => {
            let length = random.pick(&[0, 1, 19, 20, 39, 40, 60, 200]);
            packet = random.bytes(length);
            if length > 0 && random.once_in(2) {
                packet[0] = random.pick(&[0x45, 0x60]);
            }
        }
    }
    packet
}

/// A datagram to receive: one that was sent where there is one, changed in something that matters, or another.
pub fn datagram(random: &mut Random, scene: &Scene, sent: Option<&[u8]>) -> Vec<u8> {
    let templates = scene.plan.templates.stored();
    let Some(sent) = sent.filter(|_| !random.once_in(4)) else {
        return other_datagram(random, scene);
    };
    let (id, size) = number::parse(sent).unwrap();
    let body = &sent[size..];
    let mut datagram = sent.to_vec();
    match random.below(12) {
        0 | 1 => {}
        2 | 3 => datagram = [&number_form(id, random.between(1, 3))[..], body].concat(),
        4 => {
            let other = match random.below(4) {
                0 => id.wrapping_add(1) & ((1 << 62) - 1),
                1 => id.saturating_sub(1),
                2 if !templates.is_empty() => random.pick(templates).id.0,
                _ => random.edge_number(),
            };
            datagram = [&number_form(other, 0)[..], body].concat();
        }
        5 => datagram.truncate(random.below(datagram.len() + 1)),
        6 => flip(random, &mut datagram),
        7 => flip(random, &mut datagram[size..]),
        8 => {
            let more = random.pick(&[1, 2, 100, 1400]);
            datagram.extend(random.bytes(more));
        }
        9 => {
            // As many bytes as come to a packet about the limit.
            let rebuilt = templates.iter().find(|t| t.id.0 == id).map_or(0, Template::static_length);
            let length = size + random.between(MAX_PACKET - 1, MAX_PACKET + 2) - rebuilt;
            datagram.resize(length.max(size), random.byte());
        }
        10 => datagram = random.bytes(sent.len().min(40)),
        _ => datagram = [&[0][..], body].concat(),
    }
    datagram
}

fn other_datagram(random: &mut Random, scene: &Scene) -> Vec<u8> {
    let templates = scene.plan.templates.stored();
    if !templates.is_empty() && random.once_in(3) {
        // A body that just reaches, or just not, of whatever bytes.
        let template = random.pick(templates);
        let least = template.reach().saturating_sub(template.static_length());
        let length = match random.below(3) {
            0 => random.below(least + 40),
            _ => (least + random.below(3)).saturating_sub(1),
        };
        return [number_form(template.id.0, 0), random.bytes(length)].concat();
    }
    match random.below(8) {
        0 => Vec::new(),
        1 => {
            let form = number_form(random.edge_number(), random.below(3));
            let cut = random.below(form.len());
            form[..cut].to_vec()
        }
        2 => {
            let length = random.between(MAX_PACKET - 1, MAX_PACKET + 3);
            [&number_form(0, random.below(4))[..], &random.bytes(length)].concat()
        }
        3 => {
            let length = random.pick(&[1600, 65535]);
            [&[0][..], &random.bytes(length)].concat()
        }
        4 => {
            let length = random.below(60);
            random.bytes(length)
        }
        5 => {
            let id = random.edge_number();
            let length = random.pick(&[0, 30, MAX_PACKET, MAX_PACKET + 1, 65535]);
            [number_form(id, 0), random.bytes(length)].concat()
        }
        _ => [&number_form(0, random.below(2))[..], &variation(random, scene)].concat(),
    }
}
