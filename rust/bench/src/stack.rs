//! The deepest stack of each call of the library, by painting: the stack below a call is filled with a pattern, and afterwards the lowest word that
//! changed is looked for. Run by hand; `all` prints every case.
//!
//!     cargo run --release --offline --manifest-path rust/Cargo.toml -p whapirohi-bench --bin stack [all]

use std::hint::black_box;
use std::ptr::{read_volatile, write_volatile};
use std::thread;
use whapirohi_bench::{
    chained_packet, grants, network_lists, numbered_entries, packet, plan, routes_capsule, short_headers, shuffled_ids,
    Family, Miss, MOST_DIFFERENT, MOST_HEADERS,
};
use whapirohi_differential::capsules::number_form;
use whapirohi_differential::words::{address_words, mirrored, route_words, state_of};
use whapirohi_reference::capsule::MAX_VALUE;
use whapirohi_reference::list::{MAX_ADDRESSES, MAX_RANGES};
use whapirohi_reference::packet::MAX_PACKET;
use whapirohi_reference::plan::{MAX_SEGMENTS, MAX_TEMPLATES};
use whapirohi_reference::{self as reference, Checksum, ContextId, Grants, Plan, Segment, Template};
use whapirohi_tunnel::{
    kept_size, read_number, state_size, write_datagram, write_number, write_request, State, ADDRESS_WORDS,
    CAPSULE_ROOM, FEED_ROOM, KEPT_SIZE, NUMBER_ROOM, PLAN_ROOM, RECEIVE_ROOM, SEND_ROOM,
};

const WORD: usize = size_of::<u64>();
const PATTERN: u64 = 0x5AA5_C33C_9669_F00F;

/// The stack of a thread that makes one call, how much of it is painted, and what is left out just below the frame that paints.
const STACK: usize = 8 << 20;
const PAINTED: usize = 4 << 20;
const GAP: usize = 512;

/// The bytes of stack that a call takes; `GAP` where it is that or less.
fn depth(call: impl FnOnce() -> u64 + Send) -> usize {
    thread::scope(|scope| {
        let measured = thread::Builder::new().stack_size(STACK).spawn_scoped(scope, || painted(call));
        measured.unwrap().join().unwrap()
    })
}

#[inline(never)]
fn painted(call: impl FnOnce() -> u64) -> usize {
    let frame = 0_u64;
    let top = black_box(&raw const frame) as usize - GAP;
    let words = || (1..PAINTED / WORD).map(|n| (top - n * WORD) as *mut u64);
    for word in words() {
        // SAFETY: a word of this thread's stack, below the frames of this function and of the loop, which are smaller than the gap; the stack
        // is larger than what is painted, and nothing lives there.
        unsafe { write_volatile(word, PATTERN) };
    }
    black_box(call());
    // SAFETY: as above.
    let lowest = words().rfind(|word| unsafe { read_volatile(*word) } != PATTERN);
    lowest.map_or(GAP, |word| GAP + top - word as usize)
}

/// One line for each case; the deepest of each call is printed.
#[derive(Default)]
struct Depths(Vec<(&'static str, String, usize)>);

impl Depths {
    /// A call that must be answered with this number.
    fn call(&mut self, name: &'static str, case: &str, number: u64, call: impl FnOnce() -> u64 + Send) {
        let mut answered = u64::MAX;
        let depth = depth(|| {
            answered = call();
            answered
        });
        assert_eq!(answered, number, "{name}, {case}");
        self.0.push((name, case.into(), depth));
    }

    fn print(&self, all: bool) {
        println!("| call | case | bytes of stack |");
        println!("|---|---|---:|");
        for lines in self.0.chunk_by(|line, next| line.0 == next.0) {
            let deepest = lines.iter().rev().max_by_key(|line| line.2).into_iter();
            let shown: Vec<_> = if all { lines.iter().collect() } else { deepest.collect() };
            for (name, case, depth) in shown {
                println!("| {name} | {case} | {depth} |");
            }
        }
    }
}

fn main() {
    if cfg!(debug_assertions) {
        panic!("the gap is for a release build");
    }
    let all = std::env::args().any(|argument| argument == "all");
    println!("Bytes of stack below the caller of each call, through the Rust wrapper; {GAP} stands for that or less. Each call gets a thread of its own,");
    println!("whose stack is painted first; what a call reserves there and never writes is not counted. Full lists, values as long as they may be.");
    println!(
        "{}\n",
        if all { "All cases." } else { "The deepest case of each call; with the argument `all` all of them." }
    );
    let mut depths = Depths::default();
    sizes(&mut depths);
    plans(&mut depths);
    reading(&mut depths);
    pieces(&mut depths);
    writing(&mut depths);
    packets(&mut depths);
    numbers(&mut depths);
    depths.print(all);
}

/// Full lists and 8 templates, of which the last fits the packet.
fn full_state(templates: usize) -> Box<State> {
    Box::new(state_of(&grants(Family::V4, MAX_ADDRESSES, MAX_RANGES), &plan(Family::V4, templates, Miss::EarlierPorts)))
}

/// As many templates and segments as there may be, with checksums.
fn full_plan() -> Plan {
    let mut plan = Plan::default();
    plan.templates.count = MAX_TEMPLATES;
    for (n, template) in plan.templates.items.iter_mut().enumerate() {
        *template = Template { id: ContextId((1 << 40) + n as u64), ..Template::default() };
        template.segments.count = MAX_SEGMENTS;
        for (n, segment) in template.segments.items.iter_mut().enumerate() {
            *segment = Segment { offset: 16 * n, length: 14 };
            template.bytes[segment.offset..segment.end()].fill(n as u8 + 1);
        }
        template.checksum = Some(Checksum { field: 30, start: 20 });
    }
    plan
}

fn sizes(depths: &mut Depths) {
    depths.call("whapirohi_state_size", "", size_of::<State>() as u64, state_size);
    depths.call("whapirohi_kept_size", "", KEPT_SIZE as u64, kept_size);
    let mut state = full_state(MAX_TEMPLATES);
    depths.call("whapirohi_start", "full state", 0, || {
        state.start();
        0
    });
}

fn plans(depths: &mut Depths) {
    let mut out = vec![0; PLAN_ROOM];
    let length = reference::write_plan(&full_plan(), &mut out).unwrap();
    let file = out[..length].to_vec();
    let cut = &file[..length - 1];
    let mut state = full_state(MAX_TEMPLATES);
    depths.call("whapirohi_load_plan", "cut in its last byte", 22, || state.load_plan(cut));
    depths.call("whapirohi_load_plan", "full plan", 0, || state.load_plan(&file));
    depths.call("whapirohi_write_plan", "full plan", 0, || state.write_plan(&mut out).number);
}

/// Capsules, and the number that each is answered with.
fn capsules() -> Vec<(&'static str, u64, Vec<u8>)> {
    let full = network_lists(Family::V6);
    let mut out = vec![0; CAPSULE_ROOM];
    let length = reference::write_datagram(&[0; MAX_VALUE], &mut out).unwrap();
    let datagram = out[..length].to_vec();
    let length = reference::write_assign(&full.received_addresses, &mut out).unwrap();
    let assign = out[..length].to_vec();
    let length = reference::write_request(&full.received_addresses, &mut out).unwrap();
    let request = out[..length].to_vec();
    let too_many = shuffled_ids(MOST_DIFFERENT);
    let mut faulty = numbered_entries(2, &too_many);
    *faulty.last_mut().unwrap() = 33;
    let skipped = [number_form(4, 3), number_form(MAX_VALUE as u64 + 1, 3), vec![0; MAX_VALUE + 1]].concat();
    vec![
        ("DATAGRAM", 0, datagram),
        ("skipped type", 0, skipped),
        ("full assign, IPv6", 0, assign),
        ("full request, IPv6", 0, request),
        ("full routes, IPv6", 0, routes_capsule(Family::V6, MAX_RANGES)),
        ("assign over the limit", 7, numbered_entries(1, &too_many)),
        ("request over the limit", 7, numbered_entries(2, &too_many)),
        ("request over the limit, its last entry bad", 3, faulty),
    ]
}

fn reading(depths: &mut Depths) {
    let mut requested = [0; ADDRESS_WORDS];
    for (name, number, bytes) in capsules() {
        let mut state = full_state(MAX_TEMPLATES);
        depths.call("whapirohi_read_capsule", name, number, || state.read_capsule(&bytes, 0, &mut requested).number);
    }
}

fn pieces(depths: &mut Depths) {
    let (mut out, mut requested) = (vec![0; FEED_ROOM], [0; ADDRESS_WORDS]);
    let mut kept = Box::new([0; KEPT_SIZE]);
    for (name, number, bytes) in capsules() {
        let mut feed = |case: &str, number, state: &mut State, bytes: &[u8]| {
            let call = || state.feed(&mut kept, bytes, &mut out, &mut requested).number;
            depths.call("whapirohi_feed", &format!("{name}, {case}"), number, call);
        };
        feed("whole", number, &mut full_state(MAX_TEMPLATES), &bytes);
        let mut state = full_state(MAX_TEMPLATES);
        let (first, second) = bytes.split_at(bytes.len() / 2);
        feed("first of two pieces", 1, &mut state, first);
        feed("second of two pieces", number, &mut state, second);
    }
}

fn writing(depths: &mut Depths) {
    let Grants { received_addresses, received_routes, .. } = network_lists(Family::V6);
    let addresses = address_words(&received_addresses);
    let routes = Box::new(route_words(&received_routes));
    let mut out = vec![0; CAPSULE_ROOM];
    let mut state = full_state(MAX_TEMPLATES);
    depths.call("whapirohi_write_assign", "full list, IPv6", 0, || state.write_assign(&addresses, &mut out).number);
    depths.call("whapirohi_write_routes", "full list, IPv6", 0, || state.write_routes(&routes, &mut out).number);
    depths.call("whapirohi_write_request", "full list, IPv6", 0, || write_request(&addresses, &mut out).number);
    let value = vec![0; MAX_VALUE];
    depths.call("whapirohi_write_datagram", "longest value", 0, || write_datagram(&value, &mut out).number);
}

fn packets(depths: &mut Depths) {
    let packet = packet(Family::V4, MAX_PACKET);
    let chained = chained_packet(&short_headers(MOST_HEADERS), MAX_PACKET);
    let ipv6 = Box::new(state_of(&grants(Family::V6, MAX_ADDRESSES, MAX_RANGES), &Plan::default()));
    let cases = [
        ("in full", full_state(0), &packet),
        ("by the last of 8 templates", full_state(MAX_TEMPLATES), &packet),
        ("in full, the longest chain of IPv6", ipv6, &chained),
    ];
    let (mut datagram, mut out) = (vec![0; SEND_ROOM], vec![0; RECEIVE_ROOM]);
    for (case, state, packet) in &cases {
        depths.call("whapirohi_send", case, 0, || state.send(packet, &mut datagram).number);
    }
    for (case, state, packet) in &cases {
        let length = state.send(packet, &mut datagram).length as usize;
        let there = Box::new(mirrored(state));
        depths.call("whapirohi_receive", case, 0, || there.receive(&datagram[..length], &mut out).number);
    }
}

fn numbers(depths: &mut Depths) {
    let mut out = [0; NUMBER_ROOM];
    depths.call("whapirohi_write_number", "of 8 bytes", 0, || write_number(1 << 40, &mut out).number);
    depths.call("whapirohi_read_number", "of 8 bytes", 0, || read_number(&out).number);
}
