//! Two ends in memory: what one sends on the stream and on the link is handed to the other.

use std::path::PathBuf;
use std::time::Instant;
use whapirohi_box::config::{Apply, Config, Stream};
use whapirohi_box::end::{End, Event};
use whapirohi_tunnel::{number, Entry, Range, Refusal, Span};

const PLAN: &[u8] = b"VAN\x00\x01\x01\x02\x01\x0C\x0C\xC0\x00\x02\x03\xC6\x33\x64\x02\x03\xE8\x07\xD0\x01\x1A\x14";
const PACKET: &[u8; 28] =
    b"\x45\x00\x00\x1C\x00\x00\x00\x00\x40\x11\x8E\x98\xC0\x00\x02\x03\xC6\x33\x64\x02\x03\xE8\x07\xD0\x00\x08\x07\xED";
const SHORT: &[u8] = b"\x02\x45\x00\x00\x1C\x00\x00\x00\x00\x3F\x11\x8F\x98\x00\x08\xEC\x52";

fn entry(request_id: u64, address: &str, prefix_length: u8) -> Entry {
    Entry { request_id, address: address.parse().unwrap(), prefix_length }
}

fn config() -> Config {
    Config {
        tun: "wh0".to_string(),
        mtu: None,
        local: "10.77.0.1:4433".parse().unwrap(),
        peer: "10.77.0.2:4433".parse().unwrap(),
        stream: Stream::Connect("10.77.0.2:4434".parse().unwrap()),
        plan: Some((PathBuf::from("van.plan"), PLAN.to_vec())),
        assign: Vec::new(),
        routes: Vec::new(),
        request: Vec::new(),
        apply: Apply::None,
    }
}

fn udp_to_clinic() -> Range {
    let clinic = "198.51.100.2".parse().unwrap();
    Range { protocol: 17, span: Span::V4(clinic, clinic) }
}

/// A van that asks, and a clinic that gives.
fn ends() -> (End, End) {
    let van = Config { request: vec![entry(1, "0.0.0.0", 32), entry(2, "192.0.2.9", 32)], ..config() };
    let clinic = Config { assign: vec![entry(0, "192.0.2.3", 32)], routes: vec![udp_to_clinic()], ..config() };
    (End::new(&van).unwrap(), End::new(&clinic).unwrap())
}

/// Hands over bytes of the stream in pieces, and answers what is to be sent back.
fn hand(to: &mut End, bytes: &[u8], piece: usize) -> Vec<u8> {
    let mut back = Vec::new();
    for part in bytes.chunks(piece) {
        let act = |event: Event| {
            if let Event::Capsule(bytes) = event {
                back.extend_from_slice(bytes);
            }
        };
        to.feed(part, act).unwrap();
    }
    back
}

fn connect(van: &mut End, clinic: &mut End, piece: usize) {
    let (asked, given) = (van.opening().unwrap(), clinic.opening().unwrap());
    (van.counters.up, clinic.counters.up) = (true, true);
    assert_eq!(hand(van, &given, piece), []);
    let answer = hand(clinic, &asked, piece);
    assert_eq!(hand(van, &answer, piece), []);
}

fn passes(van: &mut End, clinic: &mut End) -> bool {
    let (mut datagram, mut packet) = ([0; 2048], [0; 2048]);
    let Some(length) = van.send(PACKET, &mut datagram) else { return false };
    assert_eq!(datagram[..length], *SHORT);
    let length = clinic.receive(&datagram[..length], &mut packet).unwrap();
    let mut lowered = *PACKET;
    lowered[8..12].copy_from_slice(b"\x3F\x11\x8F\x98");
    assert_eq!(packet[..length], lowered);
    true
}

struct Random(u64);

impl Random {
    fn next(&mut self) -> u64 {
        self.0 ^= self.0 << 13;
        self.0 ^= self.0 >> 7;
        self.0 ^= self.0 << 17;
        self.0
    }

    fn bytes(&mut self, most: u64) -> Vec<u8> {
        let length = self.next() % (most + 1);
        (0..length).map(|_| (self.next() >> 32) as u8).collect()
    }
}

#[test]
fn a_packet_goes_there_and_back() {
    for piece in [1, 2, 7, 4096] {
        let (mut van, mut clinic) = ends();
        assert!(!passes(&mut van, &mut clinic));
        assert_eq!(van.counters.no_stream, 1);
        connect(&mut van, &mut clinic, piece);
        assert!(passes(&mut van, &mut clinic));
        let (sent, received) = (&van.counters.sent, &clinic.counters.received);
        assert_eq!((sent.packets, sent.bytes, sent.link_bytes, sent.short), (1, 28, 17, 1));
        assert_eq!((received.packets, received.bytes, received.link_bytes, received.short), (1, 28, 17, 1));
    }
}

#[test]
fn lists_and_requests_come_out_as_events() {
    let (mut van, mut clinic) = ends();
    let (asked, given) = (van.opening().unwrap(), clinic.opening().unwrap());
    let (mut addresses, mut routes, mut answer) = (Vec::new(), Vec::new(), Vec::new());
    van.feed(&given, |event| match event {
        Event::Addresses(list) => addresses = list,
        Event::Routes(list) => routes = list,
        other => panic!("{other:?}"),
    })
    .unwrap();
    assert_eq!((addresses.clone(), routes), (vec![entry(0, "192.0.2.3", 32)], vec![udp_to_clinic()]));
    // The van gives nothing, and says so.
    let mut given = Vec::new();
    clinic
        .feed(&asked, |event| match event {
            Event::Capsule(bytes) => answer.extend_from_slice(bytes),
            other => given.push(format!("{other:?}")),
        })
        .unwrap();
    assert_eq!(given, ["Addresses([])", "Routes([])"]);
    van.feed(&answer, |event| match event {
        Event::Addresses(list) => addresses = list,
        other => panic!("{other:?}"),
    })
    .unwrap();
    assert_eq!(addresses, [entry(1, "192.0.2.3", 32), entry(2, "0.0.0.0", 32)]);
}

#[test]
fn a_datagram_on_the_stream_is_a_packet_for_the_device() {
    let (mut van, mut clinic) = ends();
    connect(&mut van, &mut clinic, 4096);
    let capsule = [&[0, SHORT.len() as u8], SHORT].concat();
    let mut packets = 0;
    clinic
        .feed(&capsule, |event| match event {
            Event::Packet(packet) => packets += usize::from(packet[8] == 0x3F && packet.len() == PACKET.len()),
            other => panic!("{other:?}"),
        })
        .unwrap();
    assert_eq!(packets, 1);
    assert!(passes(&mut van, &mut clinic));
}

#[test]
fn refused_packets_are_counted_by_their_number() {
    let (mut van, mut clinic) = ends();
    connect(&mut van, &mut clinic, 4096);
    let mut out = [0; 2048];
    let mut other = *PACKET;
    other[19] = 3;
    (other[10], other[11]) = (0x8E, 0x97);
    assert_eq!(van.send(&other, &mut out), None);
    assert_eq!(van.send(&PACKET[..27], &mut out), None);
    assert_eq!(clinic.receive(b"\x03", &mut out), None);
    assert_eq!(clinic.receive(b"", &mut out), None);
    assert_eq!(clinic.receive(b"\x00", &mut out), None);
    let refused =
        |counts: &[u64]| counts.iter().enumerate().filter(|(_, n)| **n > 0).map(|(k, n)| (k, *n)).collect::<Vec<_>>();
    assert_eq!(refused(&van.counters.sent.refused), [(10, 1), (12, 1)]);
    assert_eq!(refused(&clinic.counters.received.refused), [(10, 1), (13, 1), (14, 1)]);
    let later = Instant::now();
    assert_eq!(
        van.log.take(later),
        [
            "refused sending 12 not granted: 192.0.2.3 > 198.51.100.3 protocol 17, 28 bytes",
            "refused sending 10 bad packet form: 192.0.2.3 > 198.51.100.2 protocol 17, 27 bytes"
        ]
    );
    assert_eq!(
        clinic.log.take(later),
        [
            "refused receiving 13 unknown Context ID: Context ID 3, 1 bytes",
            "refused receiving 14 datagram cut: no Context ID, 0 bytes",
            "refused receiving 10 bad packet form: no IP header, 0 bytes"
        ]
    );
    assert!(passes(&mut van, &mut clinic));
}

#[test]
fn a_fresh_start_forgets_the_grants_and_a_half_capsule() {
    let (mut van, mut clinic) = ends();
    connect(&mut van, &mut clinic, 4096);
    assert!(!clinic.capsule_is_open());
    hand(&mut clinic, b"\x01\x07\x00\x04", 4096);
    assert!(clinic.capsule_is_open());
    van.start().unwrap();
    clinic.start().unwrap();
    assert!(!clinic.capsule_is_open() && !van.counters.up);
    van.counters.up = true;
    assert!(!passes(&mut van, &mut clinic));
    assert_eq!(van.counters.sent.refused[number::NOT_GRANTED as usize], 1);
    connect(&mut van, &mut clinic, 3);
    assert!(passes(&mut van, &mut clinic));
}

#[test]
fn random_datagrams_leave_the_grants() {
    let (mut van, mut clinic) = ends();
    connect(&mut van, &mut clinic, 4096);
    let (mut random, mut out) = (Random(20261117), [0; 2048]);
    for i in 0..10_000 {
        let mut datagram = random.bytes(1600);
        if i % 2 == 0 && datagram.len() > 1 {
            (datagram[0], datagram[1]) = (if i % 4 == 0 { 0 } else { 2 }, if i % 8 < 4 { 0x45 } else { 0x60 });
        }
        clinic.receive(&datagram, &mut out);
    }
    let received = &clinic.counters.received;
    assert_eq!(received.packets + received.refused.iter().sum::<u64>(), 10_000);
    assert!(received.refused[number::BAD_FORM as usize] > 0 && received.refused[number::UNKNOWN_CONTEXT as usize] > 0);
    assert!(passes(&mut van, &mut clinic));
}

#[test]
fn random_streams_end_in_a_refusal_and_a_fresh_start_works() {
    let mut random = Random(20261117);
    let mut refused = [0; 26];
    for _ in 0..2_000 {
        let (mut van, mut clinic) = ends();
        connect(&mut van, &mut clinic, 4096);
        let mut bytes = random.bytes(400);
        if let Some(first) = bytes.first_mut() {
            *first %= 4;
        }
        let mut result = Ok(());
        for part in bytes.chunks(1 + (random.next() % 50) as usize) {
            result = clinic.feed(part, |_| ());
            if result.is_err() {
                break;
            }
        }
        if let Err(Refusal(number)) = result {
            assert!((2..=7).contains(&number));
            refused[number as usize] += 1;
        }
        van.start().unwrap();
        clinic.start().unwrap();
        connect(&mut van, &mut clinic, 4096);
        assert!(passes(&mut van, &mut clinic));
    }
    assert!(refused[2..5].iter().all(|count| *count > 0), "{refused:?}");
}
