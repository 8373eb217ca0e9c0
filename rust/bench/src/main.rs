//! The proved library and the reference on the same inputs, timed in one run; prints a Markdown table.
//!
//! Both are called with a state that the host holds in the form each one likes (words, and the reference's types), and with outputs that are
//! not cleared between calls. The median of several rounds is taken, in which the two take turns.

use std::cell::RefCell;
use std::hint::black_box;
use std::time::{Duration, Instant};
use whapirohi_bench::{
    chained_packet, datagram_capsule, grants, network_lists, numbered_entries, packet, packet_with_options, plan,
    plan_behind, plan_of_parts, routes_capsule, short_headers, shuffled_ids, Family, Miss, ACROSS_THE_FRONT, ADDRESSES,
    MOST_DIFFERENT, MOST_ENTRIES, MOST_HEADERS, MOST_OF_FOUR, SHORT_IDS, WHOLE_FRONT,
};
use whapirohi_differential::subject::{Lent, Subject};
use whapirohi_differential::words::{mirrored, state_of};
use whapirohi_reference::list::{MAX_ADDRESSES, MAX_RANGES};
use whapirohi_reference::packet::MAX_PACKET;
use whapirohi_reference::plan::{MAX_TEMPLATES, STATIC_LIMIT};
use whapirohi_reference::{
    receive, send, write_assign, write_datagram, write_request, AddressList, Grants, Piece, Plan, Stream,
};
use whapirohi_tunnel::{State, ADDRESS_WORDS, CAPSULE_ROOM, FEED_ROOM, KEPT_SIZE, RECEIVE_ROOM, SEND_ROOM};

#[cfg(feature = "library")]
use whapirohi_differential::subject::Library as Proved;
#[cfg(not(feature = "library"))]
use whapirohi_differential::subject::Model as Proved;

/// Many short rounds, so that a round in which the machine did something else counts for little; fewer where a call takes long.
const ROUNDS: usize = 101;
const ROUND: Duration = Duration::from_micros(400);
const FEWEST_ROUNDS: usize = 11;
const LONGEST: Duration = Duration::from_secs(3);

/// The ratios of all rows, and of those that the search among templates does not decide.
#[derive(Default)]
struct Ratios {
    all: Vec<f64>,
    without_search: Vec<f64>,
}

/// What the rows of one table have in common, and the ratios of all tables.
struct Rows<'a> {
    ratios: &'a mut Ratios,
    searches: bool,
}

fn main() {
    if cfg!(not(feature = "library")) {
        println!("without the library: the first column is the reference behind words\n");
    }
    let mut ratios = Ratios::default();
    println!("Nanoseconds a call, median of {ROUNDS} rounds, or of as many as fit in {LONGEST:?}; outputs are not cleared between calls.");
    for family in [Family::V4, Family::V6] {
        let states = states(family);
        println!("\n{} packets and lists.\n", family.name());
        println!("| call | packet | templates | lists | proved | Rust | ratio |");
        println!("|---|---:|---|---|---:|---:|---:|");
        for (lists, grants) in &states {
            for length in [64, 576, MAX_PACKET] {
                for templates in [0, 1, MAX_TEMPLATES] {
                    let mut rows = Rows { ratios: &mut ratios, searches: templates == MAX_TEMPLATES };
                    let plan = plan(family, templates, Miss::EarlierPorts);
                    rows.tunnel(lists, grants, &packet(family, length), &templates.to_string(), &plan);
                }
            }
        }
        println!(
            "\n{}: choosing a template, by what it costs to send 576 bytes in full past 8 templates that do not fit.\n",
            family.name()
        );
        println!("| call | packet | templates | lists | proved | Rust | ratio |");
        println!("|---|---:|---|---|---:|---:|---:|");
        let mut rows = Rows { ratios: &mut ratios, searches: true };
        for (name, miss) in [
            ("8, first byte differs", Miss::FirstByte),
            ("8, last byte differs", Miss::LastByte),
            ("8, checksum differs", Miss::Checksum),
        ] {
            rows.send("1", &states[0].1, &packet(family, 576), name, &plan(family, MAX_TEMPLATES, miss));
        }
        println!("\nReading a capsule; the state and the capsule's lists are {}.\n", family.name());
        println!("| capsule | bytes | | lists | proved | Rust | ratio |");
        println!("|---|---:|---|---|---:|---:|---:|");
        let mut rows = Rows { ratios: &mut ratios, searches: false };
        for (lists, grants) in &states {
            rows.capsules(lists, grants, family);
        }
    }
    let mut rows = Rows { ratios: &mut ratios, searches: false };
    println!("\nIPv4 packets with headers of 20 and of 60 bytes.\n");
    println!("| call | packet | templates | lists | proved | Rust | ratio |");
    println!("|---|---:|---|---|---:|---:|---:|");
    rows.options("1", &grants(Family::V4, 1, 1));
    println!("\nIPv6 packets with chains of headers: in full, and by one template where the chain goes on behind byte {STATIC_LIMIT}.\n");
    println!("| call | packet | templates | lists | proved | Rust | ratio |");
    println!("|---|---:|---|---|---:|---:|---:|");
    rows.chains("1", &grants(Family::V6, 1, 1));
    let states = states(Family::V4);
    let one = &states[0].1;
    println!("\nReading more entries than a list holds, as an ADDRESS_REQUEST and as an ADDRESS_ASSIGN of the same bytes, microseconds; lists of 1.");
    println!("Both are refused with 7, but a request in which IDs repeat with 6.\n");
    println!(
        "| entries | bytes | proved: request | assign | request / assign | Rust: request | assign | request / assign | request: proved / Rust |"
    );
    println!("|---|---:|---:|---:|---:|---:|---:|---:|---:|");
    rows.over_the_limit(one);
    println!("\nA stream of {STREAM_CAPSULES} capsules in pieces, microseconds a stream; both test the whole state in every call.\n");
    println!("| capsules | bytes each | pieces of | lists | proved | Rust | ratio |");
    println!("|---|---:|---:|---|---:|---:|---:|");
    for (lists, grants) in &states {
        rows.streams(lists, grants, "DATAGRAM", &datagram_capsule(1000));
        rows.streams(lists, grants, "ROUTE_ADVERTISEMENT", &routes_capsule(Family::V6, 29));
    }
    println!("\nOne DATAGRAM capsule in pieces of 1 byte, microseconds; what 4 times the bytes take is a multiple of what the bytes take.\n");
    println!("| | 4,000 bytes | 1,000 bytes | quotient |");
    println!("|---|---:|---:|---:|");
    growth_rows(one, 4000, 1000);
    println!("\n| | 16,000 bytes | 4,000 bytes | quotient |");
    println!("|---|---:|---:|---:|");
    growth_rows(one, 16000, 4000);
    println!("\nproved / Rust: {}; without 8 templates: {}", closing(ratios.all), closing(ratios.without_search));
}

fn states(family: Family) -> [(&'static str, Grants); 3] {
    [
        ("1", grants(family, 1, 1)),
        ("16/64", grants(family, 16, 64)),
        ("full", grants(family, MAX_ADDRESSES, MAX_RANGES)),
    ]
}

fn closing(mut ratios: Vec<f64>) -> String {
    ratios.sort_by(f64::total_cmp);
    let rows = ratios.len();
    format!("{rows} rows, worst {:.2}, median {:.2}", ratios[rows - 1], ratios[rows / 2])
}

impl Rows<'_> {
    fn count(&mut self, ratio: f64) {
        self.ratios.all.push(ratio);
        if !self.searches {
            self.ratios.without_search.push(ratio);
        }
    }

    fn row(&mut self, call: &str, length: usize, templates: &str, lists: &str, (proved, rust, ratio): (f64, f64, f64)) {
        self.count(ratio);
        println!("| {call} | {length} | {templates} | {lists} | {proved:.0} | {rust:.0} | {ratio:.2} |");
    }

    fn tunnel(&mut self, lists: &str, grants: &Grants, packet: &[u8], templates: &str, plan: &Plan) {
        let datagram = self.send(lists, grants, packet, templates, plan);
        assert_eq!(datagram[0] == 0, plan.templates.count == 0, "goes short where there is a template");

        let (there, state) = (grants.mirrored(), mirrored(&state_of(grants, plan)));
        let (mut out, mut other) = (vec![0; RECEIVE_ROOM], vec![0; RECEIVE_ROOM]);
        let answer = Proved.receive(&state, &datagram, &mut out);
        assert_eq!(receive(&there, plan, &datagram, &mut other), Ok(answer.length as usize));
        assert_eq!((answer.number, answer.length), (0, packet.len() as u64));
        assert_eq!(out, other);
        let times = take_turns(
            || Proved.receive(black_box(&state), black_box(&datagram), black_box(&mut out)).length as usize,
            || receive(black_box(&there), black_box(plan), black_box(&datagram), black_box(&mut other)).unwrap_or(0),
        );
        self.row("receive", packet.len(), templates, lists, times);
    }

    fn options(&mut self, lists: &str, grants: &Grants) {
        for length in [128, 576, MAX_PACKET] {
            for packet in [packet(Family::V4, length), packet_with_options(length)] {
                let header = 4 * usize::from(packet[0] & 0x0f);
                self.tunnel(lists, grants, &packet, &format!("0, header of {header}"), &Plan::default());
                self.tunnel(lists, grants, &packet, &format!("1, header of {header}"), &plan_behind(header, &packet));
            }
        }
    }

    fn chains(&mut self, lists: &str, grants: &Grants) {
        let chains = [
            ("1 header", short_headers(1)),
            ("91 headers", short_headers(MOST_HEADERS / 2)),
            ("182 headers", short_headers(MOST_HEADERS)),
            ("91 of 16 bytes", vec![(60, 1); 91]),
            ("182 authentication", vec![(51, 0); MOST_HEADERS]),
            ("121 authentication of 12 bytes", vec![(51, 1); 121]),
            ("182 first fragments", vec![(44, 0); MOST_HEADERS]),
        ];
        for (name, headers) in chains {
            let packet = chained_packet(&headers, MAX_PACKET);
            self.tunnel(lists, grants, &packet, &format!("0, {name}"), &Plan::default());
        }
        let packet = chained_packet(&ACROSS_THE_FRONT, 576);
        for (name, parts) in [("both addresses", &ADDRESSES[..]), ("121 static bytes", &WHOLE_FRONT)] {
            self.tunnel(lists, grants, &packet, &format!("1, 4 headers, {name}"), &plan_of_parts(&packet, parts, None));
        }
    }

    fn send(&mut self, lists: &str, grants: &Grants, packet: &[u8], templates: &str, plan: &Plan) -> Vec<u8> {
        let state = state_of(grants, plan);
        let (mut out, mut other) = (vec![0; SEND_ROOM], vec![0; SEND_ROOM]);
        let answer = Proved.send(&state, packet, &mut out);
        assert_eq!(send(grants, plan, packet, &mut other), Ok(answer.length as usize));
        assert_eq!(answer.number, 0);
        assert_eq!(out, other);
        let datagram = out[..answer.length as usize].to_vec();
        let times = take_turns(
            || Proved.send(black_box(&state), black_box(packet), black_box(&mut out)).length as usize,
            || send(black_box(grants), black_box(plan), black_box(packet), black_box(&mut other)).unwrap_or(0),
        );
        self.row("send", packet.len(), templates, lists, times);
        datagram
    }

    fn capsules(&mut self, lists: &str, held: &Grants, family: Family) {
        let full = network_lists(family);
        let mut out = vec![0; CAPSULE_ROOM];
        let mut capsules = Vec::new();
        for count in [16, MAX_ADDRESSES] {
            let length = write_assign(&AddressList { count, ..full.received_addresses }, &mut out).unwrap();
            capsules.push((format!("assign of {count} addresses"), out[..length].to_vec()));
        }
        for count in [1, 16, MAX_ADDRESSES] {
            let length = write_request(&AddressList { count, ..full.received_addresses }, &mut out).unwrap();
            capsules.push((format!("request of {count} entries"), out[..length].to_vec()));
        }
        for count in [64, MAX_RANGES] {
            capsules.push((format!("advertisement of {count} ranges"), routes_capsule(family, count)));
        }
        let length = write_datagram(&packet(family, MAX_PACKET), &mut out).unwrap();
        capsules.push(("datagram of 1,500 bytes".into(), out[..length].to_vec()));
        for (name, bytes) in capsules {
            // Each reading starts from the lists that the one before left: the first replaces them, then they are as long as the capsule's.
            let mut state: State = state_of(held, &Plan::default());
            let mut grants = *held;
            let plan = Plan::default();
            let mut requested = [0; ADDRESS_WORDS];
            let times = take_turns(
                || {
                    let read =
                        Proved.read_capsule(black_box(&mut state), black_box(&bytes), 0, black_box(&mut requested));
                    read.next as usize
                },
                || {
                    black_box(&mut grants)
                        .read_capsule(black_box(&plan), black_box(&bytes), 0)
                        .map_or(0, |(_, next)| next)
                },
            );
            assert_eq!(state, state_of(&grants, &Plan::default()));
            self.row(&name, bytes.len(), "", lists, times);
        }
    }

    fn over_the_limit(&mut self, held: &Grants) {
        let in_order: Vec<u64> = (1..=MOST_DIFFERENT as u64).collect();
        let of_four: Vec<u64> = shuffled_ids(MOST_OF_FOUR).iter().map(|id| id << 14).collect();
        let repeated: Vec<u64> = (0..MOST_ENTRIES as u64).map(|n| 1 + n % SHORT_IDS as u64).collect();
        self.over_the_limit_row(held, "IDs differ, in order", &in_order, 7);
        self.over_the_limit_row(held, "IDs differ, in any order", &shuffled_ids(MOST_DIFFERENT), 7);
        self.over_the_limit_row(held, "IDs of 4 bytes, in any order", &of_four, 7);
        self.over_the_limit_row(held, "IDs of 1 byte repeat", &repeated, 6);
    }

    fn over_the_limit_row(&mut self, held: &Grants, name: &str, ids: &[u64], refusal: u64) {
        let (request, assign) = (numbered_entries(2, ids), numbered_entries(1, ids));
        let mut state = state_of(held, &Plan::default());
        let mut requested = [0; ADDRESS_WORDS];
        let mut proved = |bytes: &[u8]| Proved.read_capsule(&mut state, bytes, 0, &mut requested).number as usize;
        let (mut grants, plan) = (*held, Plan::default());
        let mut rust =
            |bytes: &[u8]| grants.read_capsule(&plan, bytes, 0).map_or_else(|refusal| refusal.number().into(), |_| 0);
        assert_eq!((proved(&request), proved(&assign)), (refusal as usize, 7));
        assert_eq!((rust(&request), rust(&assign)), (refusal as usize, 7));
        let first = take_turns_of(&mut proved, &request, &assign);
        let second = take_turns_of(&mut rust, &request, &assign);
        let shown = |(request, assign, quotient): (f64, f64, f64)| {
            format!("{:.1} | {:.1} | {quotient:.2}", request / 1e3, assign / 1e3)
        };
        let (_, _, ratio) = take_turns(|| proved(black_box(&request)), || rust(black_box(&request)));
        self.count(ratio);
        println!("| {}, {name} | {} | {} | {} | {ratio:.2} |", ids.len(), request.len(), shown(first), shown(second));
    }

    fn streams(&mut self, lists: &str, held: &Grants, name: &str, capsule: &[u8]) {
        let bytes = capsule.repeat(STREAM_CAPSULES);
        for (pieces, size) in [("whole", bytes.len()), ("1,400", 1400), ("100", 100), ("1", 1)] {
            let (mut proved, mut rust) = (Host::new(held), RustHost::new(held));
            assert_eq!(proved.feed(&bytes, size), STREAM_CAPSULES);
            assert_eq!(rust.feed(&bytes, size), STREAM_CAPSULES);
            assert_eq!(proved.lent.state, state_of(&rust.grants, &rust.plan));
            assert_eq!(proved.lent.out, rust.out);
            let (proved, rust, ratio) = take_turns(|| proved.feed(&bytes, size), || rust.feed(&bytes, size));
            self.count(ratio);
            let (proved, rust) = (proved / 1e3, rust / 1e3);
            println!("| {name} | {} | {pieces} | {lists} | {proved:.1} | {rust:.1} | {ratio:.2} |", capsule.len());
        }
    }
}

/// One call on two inputs.
fn take_turns_of(call: &mut impl FnMut(&[u8]) -> usize, first: &[u8], second: &[u8]) -> (f64, f64, f64) {
    let call = RefCell::new(call);
    take_turns(|| call.borrow_mut()(black_box(first)), || call.borrow_mut()(black_box(second)))
}

const STREAM_CAPSULES: usize = 64;

/// A host that hands in pieces of one size, and again what a call leaves; how many capsules came to their end.
struct Host {
    lent: Lent,
}

struct RustHost {
    grants: Grants,
    plan: Plan,
    stream: Stream,
    out: Vec<u8>,
}

impl Host {
    fn new(grants: &Grants) -> Host {
        let state = state_of(grants, &Plan::default());
        Host { lent: Lent { state, kept: [0; KEPT_SIZE], out: vec![0; FEED_ROOM], requested: [0; ADDRESS_WORDS] } }
    }

    fn feed(&mut self, bytes: &[u8], size: usize) -> usize {
        let mut ended = 0;
        for mut rest in bytes.chunks(size) {
            while !rest.is_empty() {
                let piece = Proved.feed(black_box(&mut self.lent), black_box(rest));
                if piece.number > 1 {
                    return 0;
                }
                rest = &rest[piece.taken as usize..];
                ended += piece.handed as usize;
            }
        }
        ended
    }
}

impl RustHost {
    fn new(grants: &Grants) -> RustHost {
        RustHost { grants: *grants, plan: Plan::default(), stream: Stream::default(), out: vec![0; FEED_ROOM] }
    }

    fn feed(&mut self, bytes: &[u8], size: usize) -> usize {
        let mut ended = 0;
        for mut rest in bytes.chunks(size) {
            while !rest.is_empty() {
                let RustHost { grants, plan, stream, out } = black_box(&mut *self);
                match stream.feed(grants, plan, black_box(rest), out) {
                    Ok(Piece::Ended(_, taken)) => {
                        rest = &rest[taken..];
                        ended += 1;
                    }
                    Ok(_) => break,
                    Err(_) => return 0,
                }
            }
        }
        ended
    }
}

fn growth_rows(held: &Grants, long: usize, short: usize) {
    let (long, short) = (datagram_capsule(long), datagram_capsule(short));
    let (mut first, mut second) = (Host::new(held), Host::new(held));
    growth_row("proved", take_turns(|| first.feed(&long, 1), || second.feed(&short, 1)));
    let (mut first, mut second) = (RustHost::new(held), RustHost::new(held));
    growth_row("Rust", take_turns(|| first.feed(&long, 1), || second.feed(&short, 1)));
}

fn growth_row(name: &str, (long, short, quotient): (f64, f64, f64)) {
    println!("| {name} | {:.1} | {:.1} | {quotient:.2} |", long / 1e3, short / 1e3);
}

/// The medians of both, in nanoseconds a call, and of their ratio turn by turn.
fn take_turns(mut first: impl FnMut() -> usize, mut second: impl FnMut() -> usize) -> (f64, f64, f64) {
    let (first_count, second_count) = (calls(&mut first), calls(&mut second));
    let (mut firsts, mut seconds) = (Vec::new(), Vec::new());
    let begun = Instant::now();
    while firsts.len() < ROUNDS && (firsts.len() < FEWEST_ROUNDS || begun.elapsed() < LONGEST) {
        firsts.push(timed(&mut first, first_count));
        seconds.push(timed(&mut second, second_count));
    }
    let ratios = firsts.iter().zip(&seconds).map(|(first, second)| first / second).collect();
    (median(firsts), median(seconds), median(ratios))
}

/// How many calls fill a round.
fn calls(call: &mut impl FnMut() -> usize) -> u32 {
    let mut count = 1;
    loop {
        let begun = Instant::now();
        for _ in 0..count {
            black_box(call());
        }
        if begun.elapsed() >= ROUND {
            return count;
        }
        count *= 2;
    }
}

fn timed(call: &mut impl FnMut() -> usize, count: u32) -> f64 {
    let begun = Instant::now();
    for _ in 0..count {
        black_box(call());
    }
    begun.elapsed().as_secs_f64() * 1e9 / f64::from(count)
}

fn median(mut times: Vec<f64>) -> f64 {
    times.sort_by(f64::total_cmp);
    times[times.len() / 2]
}
