//! Chains of IPv6 headers: made at random, read in a plain way, and a family of packets that have them.

use crate::capsules::number_form;
use crate::compare::Run;
use crate::lists::{open_grants, top};
use crate::packets::{completion, lowered, seal_length, seal_transport};
use crate::random::Random;
use crate::words::{mirrored, state_of};
use whapirohi_reference::packet::{put_word, seed, word_at, MAX_PACKET};
use whapirohi_reference::plan::STATIC_LIMIT;
use whapirohi_reference::{Checksum, ContextId, Grants, List, Plan, RouteList, RouteRange, Segment, Template};
use whapirohi_tunnel::{RECEIVE_ROOM, SEND_ROOM};

const HEADER: usize = 40;
const FRAGMENT: u8 = 44;
const AUTHENTICATION: u8 = 51;
const ICMP: u8 = 58;

/// The numbers that are skipped, and what a packet that passed with one of them is counted as.
const SKIPPED: [(u8, &str); 6] = [
    (0, "chain: passed with hop-by-hop options"),
    (43, "chain: passed with a routing header"),
    (FRAGMENT, "chain: passed with a fragment header"),
    (AUTHENTICATION, "chain: passed with an authentication header"),
    (60, "chain: passed with destination options"),
    (135, "chain: passed with a mobility header"),
];

/// As many headers as a packet can hold.
const MOST_HEADERS: usize = (MAX_PACKET - HEADER) / 8;

/// A header of a chain, and the bytes that it takes by its own account.
#[derive(Clone, Copy)]
pub struct Link {
    pub number: u8,
    pub at: usize,
    pub size: usize,
}

/// The headers of a packet up to the first that is not there whole, and the protocol; none where there is such a header.
pub struct Chain {
    pub links: Vec<Link>,
    pub protocol: Option<u8>,
}

impl Chain {
    /// The chain of an IPv6 packet that has its fixed header.
    pub fn of(packet: &[u8]) -> Chain {
        let mut chain = Chain { links: Vec::new(), protocol: None };
        let mut number = packet[6];
        while SKIPPED.iter().any(|(skipped, _)| *skipped == number) {
            let at = chain.end();
            let size = packet.get(at + 1).map_or(8, |length| size(number, *length));
            chain.links.push(Link { number, at, size });
            if at + size > packet.len() {
                return chain;
            }
            if number == FRAGMENT && word_at(packet, at + 2) & 0xfff8 != 0 {
                break;
            }
            number = packet[at];
        }
        chain.protocol = Some(number);
        chain
    }

    pub fn end(&self) -> usize {
        self.links.last().map_or(HEADER, |link| link.at + link.size)
    }
}

fn size(number: u8, length: u8) -> usize {
    match number {
        FRAGMENT => 8,
        AUTHENTICATION => (usize::from(length) + 2) * 4,
        _ => 8 + 8 * usize::from(length),
    }
}

/// A chain before `protocol` that takes at most `room` bytes: the number that it begins with, and its headers.
pub fn chain(random: &mut Random, protocol: u8, room: usize) -> (u8, Vec<u8>) {
    let (most, most_bytes) = match random.below(16) {
        0 => (MOST_HEADERS, room),
        1 | 2 => (MOST_HEADERS, random.between(STATIC_LIMIT - HEADER - 12, STATIC_LIMIT - HEADER + 24)),
        3 => (1, room),
        _ => (random.between(1, 4), room),
    };
    let longest = if most == 1 { 255 } else { random.pick(&[0, 0, 1, 3]) };
    let mut headers = Vec::new();
    let mut bytes = 0;
    // A later fragment comes last.
    let room = most_bytes.min(room) - if protocol == FRAGMENT { 8 } else { 0 };
    while headers.len() < most {
        let (number, _) = random.pick(&SKIPPED);
        let length = random.between(0, longest) as u8;
        bytes += size(number, length);
        if bytes > room {
            break;
        }
        headers.push((number, length));
    }
    chain_of(random, &headers, protocol)
}

/// Headers of these numbers and length bytes before `protocol`.
fn chain_of(random: &mut Random, headers: &[(u8, u8)], protocol: u8) -> (u8, Vec<u8>) {
    let mut bytes = Vec::new();
    for (n, &(number, length)) in headers.iter().enumerate() {
        let mut header = random.bytes(size(number, length));
        header[0] = headers.get(n + 1).map_or(protocol, |(next, _)| *next);
        header[1] = length;
        if number == FRAGMENT {
            // Flags, and no offset; its second byte says nothing.
            header[1] = random.byte();
            put_word(&mut header, 2, random.below(8) as u16);
        }
        bytes.extend(header);
    }
    if protocol == FRAGMENT {
        let mut header = random.bytes(8);
        header[0] = random.pick(&[6, 17, ICMP, FRAGMENT, 60]);
        put_word(&mut header, 2, later_offset(random));
        bytes.extend(header);
    }
    (headers.first().map_or(protocol, |(number, _)| *number), bytes)
}

/// The word of a fragment that is not the first.
fn later_offset(random: &mut Random) -> u16 {
    let any = random.word() as u16 | 8;
    random.pick(&[8, 0x0100, 0x8000, 0xfff8, any]) | random.below(8) as u16
}

/// One thing of a packet's chain otherwise; most times a header is no longer there whole, or the protocol is another.
pub fn damage_chain(random: &mut Random, packet: &mut Vec<u8>) {
    let chain = Chain::of(packet);
    let whole: Vec<Link> = chain.links.iter().filter(|l| l.at + 4 <= packet.len()).copied().collect();
    if whole.is_empty() {
        return;
    }
    let link = if random.once_in(2) { whole[whole.len() - 1] } else { random.pick(&whole) };
    match random.below(7) {
        0 | 1 => {
            let end = chain.end().min(packet.len());
            packet.truncate((end - random.between(1, 8)).max(HEADER));
            seal_length(packet);
        }
        2 => {
            packet.truncate(chain.end());
            seal_length(packet);
        }
        3 => packet[link.at + 1] = random.pick(&[255, 255, 128, packet[link.at + 1].wrapping_add(1)]),
        4 => packet[link.at] = random.pick(&[0, 6, 17, 43, FRAGMENT, 50, AUTHENTICATION, ICMP, 59, 60, 135, 255]),
        5 => {
            let word = if random.once_in(3) { random.below(8) as u16 } else { later_offset(random) };
            put_word(packet, link.at + 2, word);
        }
        _ => {
            // A later fragment of which the offset is there, and not all.
            put_word(packet, link.at + 2, later_offset(random));
            packet.truncate(link.at + random.between(4, 8));
            seal_length(packet);
        }
    }
}

/// How a packet went.
#[derive(Clone, Copy, PartialEq)]
pub enum Way {
    SentFull,
    SentShort,
    ReceivedFull,
    ReceivedShort,
}

pub const OCCASIONS: &[&str] = &[
    "chain: sent in full",
    "chain: sent short",
    "chain: received in full",
    "chain: received short",
    "chain: sent, cut short",
    "chain: received in full, cut short",
    "chain: received short, cut short",
    SKIPPED[0].1,
    SKIPPED[1].1,
    SKIPPED[2].1,
    SKIPPED[3].1,
    SKIPPED[4].1,
    SKIPPED[5].1,
    "chain: first fragment, passed",
    "chain: later fragment, passed",
    "chain: later fragment, not granted",
    "chain: later fragment, cut short",
    "chain: ICMP behind it, passed",
    "chain: ICMP behind it, passed where another protocol is granted",
    "chain: the protocol behind it granted, no other",
    "chain: the protocol behind it not granted",
    "chain: ESP behind it, passed",
    "chain: ends with the packet",
    "chain: one byte too long",
    "chain: eight bytes too long",
    "chain: a length byte of 255, cut short",
    "chain: as many headers as fit 1,500 bytes",
    "chain: goes on behind the front, received short",
    "chain: goes on behind the front, received short, cut short",
    "chain: a header across the front's end, received short",
    "chain: a header across the front's end, received short, cut short",
    "chain: cut at every byte",
];

/// Counts what came about with the chain of a packet that was answered with a number.
pub fn note(run: &mut Run, way: Way, packet: &[u8], number: u64) {
    let sized = (HEADER..=MAX_PACKET).contains(&packet.len()) && packet[0] >> 4 == 6;
    if !sized || usize::from(word_at(packet, 4)) + HEADER != packet.len() {
        return;
    }
    let chain = Chain::of(packet);
    let Some(last) = chain.links.last() else { return };
    let short = way == Way::ReceivedShort;
    let behind = short && last.at >= STATIC_LIMIT;
    let across = short && chain.links.iter().any(|l| l.at < STATIC_LIMIT && l.at + l.size > STATIC_LIMIT);
    match number {
        0 => {
            run.occasion(match way {
                Way::SentFull => "chain: sent in full",
                Way::SentShort => "chain: sent short",
                Way::ReceivedFull => "chain: received in full",
                Way::ReceivedShort => "chain: received short",
            });
            for (number, name) in SKIPPED {
                if chain.links.iter().any(|l| l.number == number) {
                    run.occasion(name);
                }
            }
            match chain.protocol {
                Some(FRAGMENT) => run.occasion("chain: later fragment, passed"),
                Some(ICMP) => run.occasion("chain: ICMP behind it, passed"),
                Some(50) => run.occasion("chain: ESP behind it, passed"),
                _ => {}
            }
            if chain.protocol != Some(FRAGMENT) && chain.links.iter().any(|l| l.number == FRAGMENT) {
                run.occasion("chain: first fragment, passed");
            }
            if chain.end() == packet.len() {
                run.occasion("chain: ends with the packet");
            }
            if chain.links.len() == MOST_HEADERS {
                run.occasion("chain: as many headers as fit 1,500 bytes");
            }
            if behind {
                run.occasion("chain: goes on behind the front, received short");
            }
            if across {
                run.occasion("chain: a header across the front's end, received short");
            }
        }
        10 => {
            run.occasion(match way {
                Way::SentFull | Way::SentShort => "chain: sent, cut short",
                Way::ReceivedFull => "chain: received in full, cut short",
                Way::ReceivedShort => "chain: received short, cut short",
            });
            if last.number == FRAGMENT && last.at + 4 <= packet.len() && word_at(packet, last.at + 2) & 0xfff8 != 0 {
                run.occasion("chain: later fragment, cut short");
            }
            match chain.end() - packet.len() {
                1 => run.occasion("chain: one byte too long"),
                8 => run.occasion("chain: eight bytes too long"),
                _ => {}
            }
            if last.number != FRAGMENT && packet.get(last.at + 1) == Some(&255) {
                run.occasion("chain: a length byte of 255, cut short");
            }
            if behind {
                run.occasion("chain: goes on behind the front, received short, cut short");
            }
            if across {
                run.occasion("chain: a header across the front's end, received short, cut short");
            }
        }
        12 if chain.protocol == Some(FRAGMENT) => run.occasion("chain: later fragment, not granted"),
        12 => run.occasion("chain: the protocol behind it not granted"),
        _ => {}
    }
}

/// Any IPv6 address and one protocol granted, or all; and how a template is made for a packet.
struct Scene {
    granted: u8,
    grants: Grants,
    id: u64,
    segments: &'static [(usize, usize)],
    checksum: Option<Checksum>,
}

/// Static bytes that leave the payload length alone.
const SEGMENTS: [&[(usize, usize)]; 5] = [
    &[(0, 4), (6, 1), (8, 32)],
    &[(6, 1), (8, 32), (40, 4)],
    &[(6, 1), (8, 120)],
    &[(0, 4), (120, 8)],
    &[(6, 1), (40, 1), (48, 2), (127, 1)],
];

/// Packets with chains, whole and damaged, sent and received in full and by a template.
pub fn chains(run: &mut Run, random: &mut Random, cases: u64) {
    while run.cases < cases {
        let protocol = random.pick(&[6, 17, FRAGMENT, FRAGMENT, 50, ICMP, 59, 132]);
        let granted = match random.below(6) {
            0 => 0,
            1 => random.pick(&[1, 6, FRAGMENT, AUTHENTICATION, ICMP, 60, 255]),
            _ => protocol,
        };
        let packet = packet(random, protocol);
        let scene = scene(random, granted, &packet);
        carry(run, random, &scene, &packet);
        for _ in 0..8 {
            let mut damaged = packet.clone();
            damage_chain(random, &mut damaged);
            carry(run, random, &scene, &damaged);
        }
        if random.once_in(20) {
            cut_everywhere(run, random, &scene, &packet);
        }
    }
}

fn packet(random: &mut Random, protocol: u8) -> Vec<u8> {
    let (first, chain) = chain(random, protocol, MAX_PACKET - HEADER);
    let behind = random.pick(&[0, 0, 4, 7, 8, 20, 33, 64]);
    let mut packet = random.bytes((HEADER + chain.len() + behind).min(MAX_PACKET));
    packet[0] = 0x60 | packet[0] & 0x0f;
    packet[6] = first;
    packet[7] = random.pick(&[2, 64, 255]);
    packet[HEADER..][..chain.len()].copy_from_slice(&chain);
    seal_length(&mut packet);
    packet
}

fn scene(random: &mut Random, granted: u8, packet: &[u8]) -> Scene {
    let mut routes = RouteList { count: 1, ..List::default() };
    routes.items[0] = RouteRange { version: 6, protocol: granted, start: 0, end: top(6) };
    let grants = Grants { received_routes: routes, given_routes: RouteList::default(), ..open_grants() };
    let start = Chain::of(packet).end();
    let field = start + random.pick(&[0, 2, 6, 6, 16]);
    let checksum = (field <= 126 && !random.once_in(3)).then_some(Checksum { field, start });
    Scene { granted, grants, id: random.pick(&[1, 63, 64, 1 << 40]), segments: random.pick(&SEGMENTS), checksum }
}

/// What the law answers, and what each call does.
fn carry(run: &mut Run, random: &mut Random, scene: &Scene, packet: &[u8]) {
    let mut packet = packet.to_vec();
    let checksum = scene.checksum.filter(|c| c.field + 2 <= packet.len());
    if let Some(c) = checksum {
        seal_transport(&mut packet, c);
    }
    let chain = Chain::of(&packet);
    let wanted = match chain.protocol {
        None => 10,
        Some(protocol) if scene.granted == 0 || protocol == scene.granted || protocol == ICMP => 0,
        Some(_) => 12,
    };
    let lowered = lowered(&packet);
    let template = template(scene, checksum, &lowered);
    let short = short_form(&template, &lowered);
    let full = [&[0][..], &lowered].concat();
    let mut plan = Plan::default();
    plan.templates.count = 1;
    plan.templates.items[0] = template;
    let here = state_of(&scene.grants, &plan);
    let there = mirrored(&here);

    let out = random.bytes(SEND_ROOM);
    let sent = run.send(&here, &packet, &out);
    run.expect(sent.answer.number == wanted, || format!("send: {} and not {wanted}", sent.answer.number));
    let way = if sent.bytes() == Some(&full) { Way::SentFull } else { Way::SentShort };
    if let Some(bytes) = sent.bytes() {
        let fits = checksum.is_none_or(|c| completion(&packet, c) == Some(word_at(&packet, c.field)));
        run.expect(bytes == if fits { &short } else { &full }, || "sent in another form".into());
    }
    note(run, way, &packet, sent.answer.number);
    for (way, datagram) in [(Way::ReceivedFull, &full), (Way::ReceivedShort, &short)] {
        let out = random.bytes(RECEIVE_ROOM);
        let received = run.receive(&there, datagram, &out);
        run.expect(received.answer.number == wanted, || {
            format!("receive: {} and not {wanted}", received.answer.number)
        });
        if let Some(bytes) = received.bytes() {
            run.expect(bytes == lowered, || "received another packet".into());
        }
        note(run, way, &lowered, received.answer.number);
    }
    if wanted == 0 && !chain.links.is_empty() && scene.granted != 0 {
        run.occasion(match chain.protocol {
            Some(ICMP) if scene.granted != ICMP => "chain: ICMP behind it, passed where another protocol is granted",
            _ => "chain: the protocol behind it granted, no other",
        });
    }
}

/// A template that the packet fits where its checksum is right.
fn template(scene: &Scene, checksum: Option<Checksum>, lowered: &[u8]) -> Template {
    let mut template = Template { id: ContextId(scene.id), checksum, ..Template::default() };
    for &(offset, length) in scene.segments {
        let last = match checksum {
            Some(c) if offset < c.field + 2 => c.field,
            _ => STATIC_LIMIT,
        };
        let end = (offset + length).min(last).min(lowered.len());
        if offset < end {
            template.segments.items[template.segments.count] = Segment { offset, length: end - offset };
            template.segments.count += 1;
            template.bytes[offset..end].copy_from_slice(&lowered[offset..end]);
        }
    }
    template
}

/// A packet in the form of a template, whether it may pass or not.
fn short_form(template: &Template, lowered: &[u8]) -> Vec<u8> {
    let mut packet = lowered.to_vec();
    if let Some(c) = template.checksum {
        put_word(&mut packet, c.field, seed(lowered, lowered.len(), c.start));
    }
    let mut datagram = number_form(template.id.0, 0);
    let mut from = 0;
    for segment in template.segments.stored() {
        datagram.extend(&packet[from..segment.offset]);
        from = segment.end();
    }
    datagram.extend(&packet[from..]);
    datagram
}

/// The packet cut at every place behind its fixed header, with the payload length that it then has.
fn cut_everywhere(run: &mut Run, random: &mut Random, scene: &Scene, packet: &[u8]) {
    let step = if packet.len() > 300 { random.between(3, 17) } else { 1 };
    if step == 1 && Chain::of(packet).links.len() > 1 {
        run.occasion("chain: cut at every byte");
    }
    for cut in (HEADER..=packet.len()).step_by(step) {
        let mut front = packet[..cut].to_vec();
        seal_length(&mut front);
        carry(run, random, scene, &front);
    }
}
