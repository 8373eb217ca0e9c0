//! So many calls of one row, by the library or by the reference, and nothing else: for `scripts/instructions`, which counts what a call takes.
//!
//!     calls library|reference ROW CALLS

use std::hint::black_box;
use std::process::ExitCode;
use whapirohi_bench::{
    chained_packet, grants, packet, packet_with_options, plan, plan_behind, short_headers, Family, Miss,
    LONGEST_HEADER, MOST_HEADERS,
};
use whapirohi_differential::subject::{Library, Subject};
use whapirohi_differential::words::{mirrored, state_of};
use whapirohi_reference::list::{MAX_ADDRESSES, MAX_RANGES};
use whapirohi_reference::packet::MAX_PACKET;
use whapirohi_reference::{receive, send, Plan};
use whapirohi_tunnel::{RECEIVE_ROOM, SEND_ROOM};

struct Row {
    name: &'static str,
    family: Family,
    sending: bool,
    length: usize,
    addresses: usize,
    ranges: usize,
    templates: usize,
    /// The IPv6 headers of the packet's chain.
    headers: usize,
    /// The bytes of the IPv4 header, where rows differ in them alone.
    header: Option<usize>,
}

impl Row {
    fn packet(&self) -> Vec<u8> {
        match (self.headers, self.header) {
            (0, Some(LONGEST_HEADER)) => packet_with_options(self.length),
            (0, _) => packet(self.family, self.length),
            (headers, _) => chained_packet(&short_headers(headers), self.length),
        }
    }

    fn plan(&self) -> Plan {
        match (self.templates, self.header) {
            (1, Some(header)) => plan_behind(header, &self.packet()),
            (templates, _) => plan(self.family, templates, Miss::EarlierPorts),
        }
    }
}

const FIRST: Row = Row {
    name: "send-64-in-full",
    family: Family::V4,
    sending: true,
    length: 64,
    addresses: 1,
    ranges: 1,
    templates: 0,
    headers: 0,
    header: None,
};

const SHORT_HEADER: Row = Row { name: "send-128-header-20", length: 128, header: Some(20), ..FIRST };
const LONG_HEADER: Row = Row { name: "send-128-header-60", header: Some(LONGEST_HEADER), ..SHORT_HEADER };
const LONG_IPV6: Row = Row { name: "send-1500-in-full-ipv6", family: Family::V6, length: MAX_PACKET, ..FIRST };

const ROWS: [Row; 19] = [
    FIRST,
    Row { name: "receive-1500-in-full", sending: false, length: MAX_PACKET, ..FIRST },
    Row { name: "send-64-by-a-template", templates: 1, ..FIRST },
    Row { name: "send-64-full-lists", addresses: MAX_ADDRESSES, ranges: MAX_RANGES, ..FIRST },
    SHORT_HEADER,
    LONG_HEADER,
    Row { name: "receive-128-header-20", sending: false, ..SHORT_HEADER },
    Row { name: "receive-128-header-60", sending: false, ..LONG_HEADER },
    Row { name: "send-128-header-20-by-a-template", templates: 1, ..SHORT_HEADER },
    Row { name: "send-128-header-60-by-a-template", templates: 1, ..LONG_HEADER },
    Row { name: "send-64-in-full-ipv6", family: Family::V6, ..FIRST },
    Row { name: "receive-1500-in-full-ipv6", family: Family::V6, sending: false, length: MAX_PACKET, ..FIRST },
    Row { name: "send-64-by-a-template-ipv6", family: Family::V6, templates: 1, ..FIRST },
    Row { name: "receive-64-by-a-template-ipv6", family: Family::V6, sending: false, templates: 1, ..FIRST },
    Row {
        name: "receive-576-by-a-template-ipv6",
        family: Family::V6,
        sending: false,
        length: 576,
        templates: 1,
        ..FIRST
    },
    LONG_IPV6,
    Row { name: "send-1500-half-chain-ipv6", headers: MOST_HEADERS / 2, ..LONG_IPV6 },
    Row { name: "send-1500-longest-chain-ipv6", headers: MOST_HEADERS, ..LONG_IPV6 },
    Row { name: "receive-1500-longest-chain-ipv6", sending: false, headers: MOST_HEADERS, ..LONG_IPV6 },
];

fn main() -> ExitCode {
    let words: Vec<String> = std::env::args().skip(1).collect();
    let [subject, name, calls] = &words[..] else {
        return usage();
    };
    let (Some(row), Ok(calls)) = (ROWS.iter().find(|row| row.name == name), calls.parse()) else {
        return usage();
    };
    match subject.as_str() {
        "library" => by_library(row, calls),
        "reference" => by_reference(row, calls),
        _ => return usage(),
    }
    ExitCode::SUCCESS
}

fn usage() -> ExitCode {
    eprintln!("usage: calls library|reference ROW CALLS, where ROW is one of");
    ROWS.iter().for_each(|row| eprintln!("    {}", row.name));
    ExitCode::from(2)
}

fn by_library(row: &Row, calls: u32) {
    let &Row { family, sending, addresses, ranges, .. } = row;
    let plan = row.plan();
    let state = state_of(&grants(family, addresses, ranges), &plan);
    let there = mirrored(&state);
    let packet = row.packet();
    let (mut datagram, mut out) = (vec![0; SEND_ROOM], vec![0; RECEIVE_ROOM]);
    let sent = Library.send(&state, &packet, &mut datagram);
    assert_eq!(sent.number, 0);
    for _ in 0..calls {
        if sending {
            black_box(Library.send(black_box(&state), black_box(&packet), black_box(&mut datagram)));
        } else {
            let bytes = &datagram[..sent.length as usize];
            black_box(Library.receive(black_box(&there), black_box(bytes), black_box(&mut out)));
        }
    }
}

fn by_reference(row: &Row, calls: u32) {
    let &Row { family, sending, addresses, ranges, .. } = row;
    let plan = row.plan();
    let here = grants(family, addresses, ranges);
    let there = here.mirrored();
    let packet = row.packet();
    let (mut datagram, mut out) = (vec![0; SEND_ROOM], vec![0; RECEIVE_ROOM]);
    let sent = send(&here, &plan, &packet, &mut datagram).expect("a packet that passes");
    for _ in 0..calls {
        if sending {
            let _ = black_box(send(black_box(&here), black_box(&plan), black_box(&packet), black_box(&mut datagram)));
        } else {
            let bytes = &datagram[..sent];
            let _ = black_box(receive(black_box(&there), black_box(&plan), black_box(bytes), black_box(&mut out)));
        }
    }
}
