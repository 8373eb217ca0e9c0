//! The families of cases.

use crate::capsules::{about_limit, capsule, number_form};
use crate::chains::{self, chains, Way};
use crate::compare::{Run, Written};
use crate::lists::{
    count, damage_addresses, damage_lists, damage_routes, litter_addresses, litter_lists, litter_routes,
    sound_addresses, sound_grants, sound_routes,
};
use crate::packets::{datagram, lowered, scene, variation, Scene};
use crate::pieces::{capsules_in_pieces, litter_store};
use crate::plans::{damage_plan, damaged_file, litter_plan, litter_static_bytes, plan_file, sound_plan};
use crate::random::Random;
use crate::requests::requests;
use crate::words::{
    address_list, address_words, empty_state, mirrored, plan_of, plan_words, route_list, route_words, state_of,
};
use whapirohi_reference::capsule::MAX_VALUE;
use whapirohi_reference::list::{MAX_ADDRESSES, MAX_RANGES};
use whapirohi_reference::packet::{word_at, MAX_PACKET};
use whapirohi_reference::{number, Plan};
use whapirohi_tunnel::{AddressWords, State, ADDRESS_WORDS};
use whapirohi_tunnel::{CAPSULE_ROOM, NUMBER_ROOM, PLAN_ROOM, RECEIVE_ROOM, SEND_ROOM};

pub type Family = fn(&mut Run, &mut Random, u64);

/// Each family with its share of the cases, in hundredths.
pub const FAMILIES: &[(&str, Family, u64)] = &[
    ("numbers", numbers, 8),
    ("capsules_read", capsules_read, 15),
    ("capsules_written", capsules_written, 10),
    ("plans", plans, 12),
    ("packets", packets, 27),
    ("capsules_in_pieces", capsules_in_pieces, 19),
    ("requests", requests, 1),
    ("chains", chains, 8),
];

/// Sizes that a run must have come by one below their limits, at them and one above.
pub const LIMITS: &[&str] = &[
    "datagram read",
    "datagram in pieces",
    "datagram written",
    "value of a list, read",
    "value of a list, in pieces",
    "assign read",
    "assign in pieces",
    "assign written",
    "request read",
    "request in pieces",
    "request written",
    "routes read",
    "routes in pieces",
    "routes written",
    "IPv6 routes read",
    "IPv6 routes in pieces",
    "output for a capsule",
    "output for a piece",
    "bytes kept",
];

/// What a run must have come by, beside every answer; and the occasions of chains.
pub const OCCASIONS: &[&str] = &[
    "capsule read under a broken plan",
    "received by an end with other words of the same meaning",
    "sent short, IPv4",
    "sent short, IPv6",
    "sent short, IPv4 with options",
    "sent short, odd length",
    "sent short, no checksum",
    "sent short, field in an IPv6 address",
    "sent short, UDP checksum FFFF",
    "sent short, other checksum 0000",
    "sent short, not by the first template",
    "sent short, 1,500 bytes",
    "sent short, Context ID of 8 bytes",
    "sent in full past templates",
    "sent, header checksum 0000",
    "sent, header checksum FFFF",
    "sent, header checksum FEFF",
    "sent, header checksum with a carry",
    "sent, header of 60 bytes",
    "received short, Context ID in a longer form",
    "received alike in both forms, passed",
    "received alike in both forms, refused",
    "plan read and written back",
    "capsule written and read back",
    "cut in a type",
    "cut in a length",
    "cut in a value",
    "cut in a skipped value",
    "cut in a skipped value of 2^61 bytes or more",
    "empty piece while a capsule is open",
    "one byte at a time",
    "list that ends in a later piece",
    "datagram that ends in a later piece",
    "refusal repeated",
    "16 in the middle of a stream",
    "9 in the middle of a stream",
    "pieces as the whole buffer, clean end",
    "pieces as the whole buffer, open end",
    "pieces as the whole buffer, refused",
    "store: more kept than there is room for",
    "store: remembers what is not remembered",
    "store: skips 2^62 bytes or more",
    "store: keeps bytes and skips",
    "store: keeps a whole capsule",
    "store: keeps a type that is skipped",
    "store: keeps a length that is refused",
    "store: sound",
    "request: all IDs differ",
    "request: all IDs differ, as many as a value can hold",
    "request: as many entries as a value can hold",
    "request: an ID repeated at every distance",
    "request: the first ID and the last are equal",
    "request: neighbours are equal",
    "request: IDs past the limit of a list are equal",
    "request: equal IDs in two forms",
    "request: the last ID is 0",
    "request: a bad entry",
    "request: a bad entry behind a repeated ID",
    "request: a bad entry before a repeated ID, or with it",
    "request: a value about its limit",
    "request: the last entry is cut",
    "request: the last entry is cut, behind a repeated ID",
];

fn numbers(run: &mut Run, random: &mut Random, cases: u64) {
    for first in 0..=255 {
        run.read_number(&[first]);
    }
    while run.cases < cases {
        let mut bytes = match random.below(3) {
            0 => {
                let length = random.below(12);
                random.bytes(length)
            }
            _ => number_form(random.edge_number(), random.below(4)),
        };
        let more = random.below(4);
        bytes.extend(random.bytes(more));
        if random.once_in(4) {
            for cut in 0..=bytes.len() {
                run.read_number(&bytes[..cut]);
            }
        } else {
            run.read_number(&bytes);
        }
        let value = random.edge();
        let room = random.pick(&[0, 1, 2, 4, 6, 7, 8, 8, 8, 8, 9, 9, 16, 100]);
        let out = random.bytes(room);
        let written = run.write_number(value, &out);
        if let Some(bytes) = written.bytes() {
            let read = run.read_number(bytes);
            run.expect((read.number, read.value, read.size) == (0, value, bytes.len() as u64), || {
                format!("{value} written is read as {read:?}")
            });
        }
        let out = random.output(NUMBER_ROOM);
        run.write_number(random.edge_number(), &out);
    }
}

/// A state of sound lists, a sound plan and an empty store, littered now and then, damaged seldom.
pub fn lists_state(random: &mut Random) -> State {
    let plan = if random.once_in(3) { sound_plan(random) } else { Plan::default() };
    let mut state = state_of(&sound_grants(random), &plan);
    if random.once_in(3) {
        litter_lists(random, &mut state);
        litter_plan(random, &mut state.plan);
    }
    if random.once_in(30) {
        damage_lists(random, &mut state);
    }
    if random.once_in(30) {
        damage_plan(random, &mut state.plan);
    }
    state
}

pub fn requested(random: &mut Random) -> AddressWords {
    let mut words = [0; ADDRESS_WORDS];
    words.fill_with(|| random.word());
    words
}

fn capsules_read(run: &mut Run, random: &mut Random, cases: u64) {
    while run.cases < cases {
        let mut state = lists_state(random);
        litter_store(random, &mut state);
        let requested = requested(random);
        if !plan_of(&state.plan).sound() {
            run.occasion("capsule read under a broken plan");
        }
        if random.once_in(80) {
            let bytes = capsule(random);
            let step = if bytes.len() > 200 { random.between(3, 40) } else { 1 };
            for cut in (0..=bytes.len()).step_by(step) {
                run.read_capsule(&state, &bytes[..cut], 0, &requested);
            }
            continue;
        }
        let mut bytes = match random.below(36) {
            0 => about_limit(random),
            1..=3 => {
                let length = random.below(40);
                let mut bytes = random.bytes(length);
                if let Some(first) = bytes.first_mut() {
                    *first &= 0x07;
                }
                bytes
            }
            _ => capsule(random),
        };
        while random.once_in(3) {
            bytes.extend(capsule(random));
        }
        let mut at = 0;
        if random.once_in(12) {
            at = random.pick(&[
                bytes.len(),
                bytes.len() + 1,
                usize::MAX,
                usize::MAX / 2,
                bytes.len().saturating_sub(1),
                1,
            ]);
        }
        // From capsule to capsule, the state carried on.
        for _ in 0..6 {
            let (read, after, _) = run.read_capsule(&state, &bytes, at, &requested);
            if read.number != 0 {
                break;
            }
            state = after;
            at = read.next as usize;
        }
        if random.once_in(50) {
            run.start(&state);
        }
    }
}

fn capsules_written(run: &mut Run, random: &mut Random, cases: u64) {
    while run.cases < cases {
        let mut state = lists_state(random);
        litter_store(random, &mut state);
        let out = random.output(CAPSULE_ROOM);
        match random.below(10) {
            0 | 1 => {
                let length = match random.below(4) {
                    0 => random.pick(&[0, 63, 64, 5000, MAX_VALUE - 1, MAX_VALUE, MAX_VALUE + 1, 65535]),
                    1 => random.below(MAX_VALUE + 100),
                    _ => random.below(70),
                };
                let value = random.bytes(length);
                let written = run.write_datagram(&value, &out);
                if let Some(bytes) = written.bytes() {
                    let (read, _, _) = run.read_capsule(&state, bytes, 0, &[7; ADDRESS_WORDS]);
                    let place = read.start as usize..(read.start + read.length) as usize;
                    let same =
                        read.number != 0 || bytes.get(place) == Some(&value[..]) && read.next as usize == bytes.len();
                    run.expect(same, || format!("datagram of {length} bytes read back as {read:?}"));
                }
            }
            2..=6 => {
                let entries = count(random, MAX_ADDRESSES);
                let mut list = sound_addresses(random, entries);
                let request = random.once_in(2);
                if request {
                    distinct_ids(random, &mut list.items[..entries]);
                }
                let mut words = address_words(&list);
                if random.once_in(3) {
                    litter_addresses(random, &mut words);
                }
                match random.below(8) {
                    0 | 1 => damage_addresses(random, &mut words),
                    2 => words[0] = MAX_ADDRESSES as u64 + 1,
                    3 if entries > 1 && request => {
                        let (a, b) = (random.below(entries), random.below(entries));
                        words[1 + 4 * a] = random.pick(&[words[1 + 4 * b], 0]);
                    }
                    _ => {}
                }
                let written =
                    if request { run.write_request(&words, &out) } else { run.write_assign(&state, &words, &out) };
                if let Some(bytes) = written.bytes() {
                    run.occasion("capsule written and read back");
                    let (read, after, requested) = run.read_capsule(&empty_state(), bytes, 0, &[7; ADDRESS_WORDS]);
                    let got = if request { requested } else { after.received_addresses };
                    let same = read.next as usize == bytes.len() && got == address_words(&address_list(&words));
                    run.expect(same, || format!("addresses read back as {read:?}"));
                }
            }
            _ => {
                let ranges = count(random, MAX_RANGES);
                let mut words = route_words(&sound_routes(random, ranges));
                if random.once_in(3) {
                    litter_routes(random, &mut words);
                }
                match random.below(6) {
                    0 | 1 => damage_routes(random, &mut words),
                    2 if ranges == MAX_RANGES => words[0] = MAX_RANGES as u64 + 1,
                    _ => {}
                }
                let written = run.write_routes(&state, &words, &out);
                if let Some(bytes) = written.bytes() {
                    run.occasion("capsule written and read back");
                    let (read, after, _) = run.read_capsule(&empty_state(), bytes, 0, &[7; ADDRESS_WORDS]);
                    let same =
                        read.next as usize == bytes.len() && after.received_routes == route_words(&route_list(&words));
                    run.expect(same, || format!("ranges read back as {read:?}"));
                }
            }
        }
    }
}

fn distinct_ids(random: &mut Random, entries: &mut [whapirohi_reference::AddressEntry]) {
    for n in 0..entries.len() {
        let id = entries[n].request_id;
        if id.0 == 0 || entries[..n].iter().any(|e| e.request_id == id) {
            entries[n].request_id.0 = (1 << 40) + random.below(1 << 30) as u64;
        }
    }
}

fn plans(run: &mut Run, random: &mut Random, cases: u64) {
    while run.cases < cases {
        let mut state = empty_state();
        let plan = sound_plan(random);
        state.plan = plan_words(&sound_plan(random));
        litter_plan(random, &mut state.plan);
        litter_store(random, &mut state);
        let file = plan_file(&plan);
        let out = random.output(PLAN_ROOM);

        let (number, loaded) = run.load_plan(&state, &file);
        run.expect(number == 0, || "a sound plan is refused".into());
        let written = run.write_plan(&loaded, &out);
        if let Some(bytes) = written.bytes() {
            run.occasion("plan read and written back");
            run.expect(bytes == file, || "a plan read is written as another file".into());
        }
        if random.once_in(60) {
            for cut in 0..file.len() {
                run.load_plan(&state, &file[..cut]);
            }
        }
        for _ in 0..4 {
            let file = damaged_file(random, &plan);
            run.load_plan(&state, &file);
        }
        if random.once_in(6) {
            let length = random.below(40);
            let junk = random.bytes(length);
            run.load_plan(&state, &[b"VAN\x00\x01\x01", &junk[..]].concat());
            run.load_plan(&state, &junk);
        }

        let mut words = plan_words(&plan);
        for _ in 0..2 {
            state.plan = words;
            litter_plan(random, &mut state.plan);
            if random.once_in(2) {
                litter_static_bytes(random, &mut state.plan);
            }
            damage_plan(random, &mut state.plan);
            let out = random.output(PLAN_ROOM);
            run.write_plan(&state, &out);
            words = plan_words(&plan);
        }
    }
}

fn packets(run: &mut Run, random: &mut Random, cases: u64) {
    while run.cases < cases {
        let scene = scene(random);
        let mut state = state_of(&scene.grants, &scene.plan);
        if random.once_in(3) {
            litter_lists(random, &mut state);
            litter_plan(random, &mut state.plan);
            litter_static_bytes(random, &mut state.plan);
        }
        litter_store(random, &mut state);
        if random.once_in(20) {
            if random.once_in(2) {
                damage_lists(random, &mut state);
            } else {
                damage_plan(random, &mut state.plan);
            }
        }
        let other = State { plan: state.plan, ..lists_state(random) };
        let plan = plan_of(&state.plan);
        // The other end means the same, and holds other words where words mean nothing.
        let mut home = mirrored(&state);
        if random.once_in(2) {
            litter_lists(random, &mut home);
            litter_plan(random, &mut home.plan);
            litter_static_bytes(random, &mut home.plan);
            run.occasion("received by an end with other words of the same meaning");
        }
        let receivers = [home, state.clone(), other];
        for _ in 0..8 {
            let packet = variation(random, &scene);
            let out = random.output(SEND_ROOM);
            let sent = run.send(&state, &packet, &out);
            let way = if sent.bytes().is_some_and(|b| b[0] != 0) { Way::SentShort } else { Way::SentFull };
            chains::note(run, way, &packet, sent.answer.number);
            if sent.bytes().is_some() {
                occasions(run, &plan, &packet, &sent);
                both_forms(run, random, &receivers, &packet, &sent);
            }
            let datagram = datagram(random, &scene, sent.bytes());
            let receiver = if random.once_in(6) { random.pick(&[&receivers[1], &receivers[2]]) } else { &receivers[0] };
            let out = random.output(RECEIVE_ROOM);
            let received = run.receive(receiver, &datagram, &out);
            if let (Some(bytes), Some((id, size))) = (received.bytes(), number::parse(&datagram)) {
                chains::note(run, if id == 0 { Way::ReceivedFull } else { Way::ReceivedShort }, bytes, 0);
                if id != 0 && size > number::size(id) {
                    run.occasion("received short, Context ID in a longer form");
                }
            }
        }
        if random.once_in(100) {
            cut_everywhere(run, random, &state, &scene);
        }
    }
}

/// A packet, and the datagram that it goes as, cut at every place.
fn cut_everywhere(run: &mut Run, random: &mut Random, state: &State, scene: &Scene) {
    let step = if scene.packet.len() > 300 { random.between(3, 17) } else { 1 };
    let out = random.bytes(SEND_ROOM);
    for cut in (0..=scene.packet.len()).step_by(step) {
        run.send(state, &scene.packet[..cut], &out);
    }
    let sent = run.send(state, &scene.packet, &out);
    let datagram = sent.bytes().unwrap_or(&[]);
    for cut in (0..=datagram.len()).step_by(step) {
        run.receive(&mirrored(state), &datagram[..cut], &out);
    }
}

/// Whoever receives it, the datagram is answered as the packet's full form is; under mirrored lists it comes out as the lowered packet.
fn both_forms(run: &mut Run, random: &mut Random, receivers: &[State; 3], packet: &[u8], sent: &Written) {
    let datagram = sent.bytes().unwrap();
    let lowered = lowered(packet);
    let out = random.bytes(RECEIVE_ROOM);
    let home = run.receive(&receivers[0], datagram, &out);
    run.expect(home.bytes() == Some(&lowered), || "what was sent does not come out under mirrored lists".into());
    if datagram[0] == 0 {
        return;
    }
    let full = [&[0][..], &lowered].concat();
    for receiver in receivers {
        let short = run.receive(receiver, datagram, &out);
        let long = run.receive(receiver, &full, &out);
        run.expect((short.answer, &short.out) == (long.answer, &long.out), || {
            "short and full form are answered differently".into()
        });
        if short.answer.number == 0 {
            run.occasion("received alike in both forms, passed");
        } else {
            run.occasion("received alike in both forms, refused");
        }
    }
}

fn occasions(run: &mut Run, plan: &Plan, packet: &[u8], sent: &Written) {
    let datagram = sent.bytes().unwrap();
    let (id, size) = number::parse(datagram).unwrap();
    let ipv4 = packet[0] >> 4 == 4;
    if ipv4 {
        match word_at(packet, 10) {
            0 => run.occasion("sent, header checksum 0000"),
            0xffff => run.occasion("sent, header checksum FFFF"),
            0xfeff => run.occasion("sent, header checksum FEFF"),
            0xff00..=0xfffe => run.occasion("sent, header checksum with a carry"),
            _ => {}
        }
        if packet[0] == 0x4f {
            run.occasion("sent, header of 60 bytes");
        }
    }
    if id == 0 {
        if plan.templates.count > 0 {
            run.occasion("sent in full past templates");
        }
        return;
    }
    run.occasion(if ipv4 { "sent short, IPv4" } else { "sent short, IPv6" });
    if ipv4 && packet[0] != 0x45 {
        run.occasion("sent short, IPv4 with options");
    }
    if packet.len() % 2 == 1 {
        run.occasion("sent short, odd length");
    }
    if packet.len() == MAX_PACKET {
        run.occasion("sent short, 1,500 bytes");
    }
    if size == 8 {
        run.occasion("sent short, Context ID of 8 bytes");
    }
    let Some(index) = plan.templates.stored().iter().position(|t| t.id.0 == id) else { return };
    if index > 0 {
        run.occasion("sent short, not by the first template");
    }
    match plan.templates.items[index].checksum {
        None => run.occasion("sent short, no checksum"),
        Some(c) if !ipv4 && c.field < 40 => run.occasion("sent short, field in an IPv6 address"),
        Some(c) if word_at(packet, c.field) == 0xffff => run.occasion("sent short, UDP checksum FFFF"),
        Some(c) if word_at(packet, c.field) == 0 => run.occasion("sent short, other checksum 0000"),
        Some(_) => {}
    }
}
