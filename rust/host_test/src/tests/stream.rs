//! The stream of capsules, against a van written by hand.

use super::Run;
use crate::capsules::{assign, capsule, entry, range, routes, ADDRESS_ASSIGN, ROUTE_ADVERTISEMENT};
use crate::check::{until, Outcome, While, SOON};
use crate::ends::{End, Lab, Rise, CLINIC_TUN, PLAIN};
use crate::ensure;
use crate::packets::{Flow, OUT4, VAN4, VAN6};
use crate::peer::{arrives, greeting, van_socket, Peer};
use crate::plan;
use crate::random::Random;
use crate::tap::Tap;
use std::net::{IpAddr, Ipv4Addr, UdpSocket};

pub const TESTS: &[(&str, Run)] = &[
    ("stream: the clinic's capsules", capsules),
    ("stream: cut in half a capsule, and a fresh state", cut),
    ("stream: lists in pieces, and each good list replaces the one before", pieces),
    ("stream: capsules that break a rule, 50 seeds", broken),
    ("stream: random bytes behind the greeting, 50 seeds", random_bytes),
    ("stream: no greeting", no_greeting),
    ("stream: a greeting without an end", endless_greeting),
    ("stream: a newer connection takes the place of an older one", newer),
    ("stream: a newer connection that does not greet takes no place", not_greeted),
    ("stream: a connection of someone else", stranger),
    ("stream: packets in DATAGRAM capsules", datagrams),
];

/// What the clinic gives: its capsules, byte by byte.
fn given(peer: &mut Peer) -> Outcome {
    let [assigned, advertised] = peer.capsules([ADDRESS_ASSIGN, ROUTE_ADVERTISEMENT])?;
    let expected = [entry((0, VAN4, 32)), entry((0, VAN6, 128))].concat();
    ensure!(assigned == expected, "assigned {assigned:02x?}, not {expected:02x?}");
    let ends = ["198.51.100.0", "198.51.100.255", "2001:db8:2::", "2001:db8:2::ffff:ffff:ffff:ffff"];
    let ends: Vec<IpAddr> = ends.iter().map(|text| text.parse().expect("an address")).collect();
    let expected = [range(ends[0], ends[1]), range(ends[2], ends[3])].concat();
    ensure!(advertised == expected, "advertised {advertised:02x?}, not {expected:02x?}");
    Ok(())
}

/// A new connection, as good as the first.
fn good(lab: &Lab, clinic: &mut End, socket: &UdpSocket, tap: &Tap) -> Result<Peer, String> {
    let mut peer = Peer::greeted(lab)?;
    given(&mut peer)?;
    until("stream that is up", SOON, || Ok(clinic.counters()?.up.then_some(())))?;
    let packet = OUT4.udp((1000, 2000), b"good");
    socket.send(&[&[0], &packet[..]].concat()).during("sending")?;
    tap.only(&packet)?;
    Ok(peer)
}

fn capsules(lab: &Lab) -> Outcome {
    let mut clinic = lab.start_clinic(&PLAIN)?;
    let (socket, tap) = (van_socket(lab)?, Tap::open(&lab.clinic, CLINIC_TUN)?);
    good(lab, &mut clinic, &socket, &tap).map(|_| ())
}

fn v4(a: u8, b: u8, c: u8, d: u8) -> IpAddr {
    Ipv4Addr::new(a, b, c, d).into()
}

/// From an address that the van by hand assigns to the clinic, to one that it advertises.
fn to_van() -> Flow {
    Flow { source: v4(203, 0, 113, 1), target: v4(198, 18, 0, 5), hops: 9 }
}

fn lists(source: IpAddr) -> Vec<u8> {
    [assign(&[(0, source, 32)]), routes(&[(v4(198, 18, 0, 0), v4(198, 18, 0, 255))])].concat()
}

/// Waits until a packet of the clinic comes to the van's socket.
fn comes(tap: &Tap, socket: &UdpSocket, flow: Flow) -> Outcome {
    arrives(tap, socket, &[], &flow.udp((7, 7), b"clinic"))
}

/// A packet of the clinic is refused, once.
fn refused(clinic: &End, tap: &Tap, flow: Flow) -> Outcome {
    let before = clinic.counters()?;
    tap.send(&flow.udp((7, 7), b"clinic")).during("sending")?;
    until("refusal of the clinic's packet", SOON, || Ok((clinic.counters()? != before).then_some(())))?;
    clinic.counters()?.rose(&before, Rise::of("refused sending 12", 1))
}

/// Until the clinic has noticed that the stream is down.
fn down(clinic: &End, times: usize) -> Outcome {
    clinic.log.wait("stream down", times)?;
    until("stream that is down", SOON, || Ok((!clinic.counters()?.up).then_some(())))
}

fn cut(lab: &Lab) -> Outcome {
    let mut clinic = lab.start_clinic(&PLAIN)?;
    let (socket, tap) = (van_socket(lab)?, Tap::open(&lab.clinic, CLINIC_TUN)?);
    let whole = lists(to_van().source);
    let mut times = 0;
    for length in [1, 2, 5, 8] {
        let mut peer = good(lab, &mut clinic, &socket, &tap)?;
        refused(&clinic, &tap, to_van())?;
        peer.send(&whole)?;
        comes(&tap, &socket, to_van())?;
        peer.send(&whole[..length])?;
        drop(peer);
        times += 1;
        down(&clinic, times)?;
    }
    ensure!(clinic.is_alive(), "the clinic has ended");
    Ok(())
}

fn pieces(lab: &Lab) -> Outcome {
    let mut clinic = lab.start_clinic(&PLAIN)?;
    let (socket, tap) = (van_socket(lab)?, Tap::open(&lab.clinic, CLINIC_TUN)?);
    let mut peer = good(lab, &mut clinic, &socket, &tap)?;
    // A capsule of an unknown type in front is passed over.
    let unknown = capsule(0x1A76_8469 + 1000, &[9; 300]);
    for byte in [unknown, lists(to_van().source)].concat() {
        peer.send(&[byte])?;
    }
    comes(&tap, &socket, to_van())?;
    let other = to_van().from(v4(203, 0, 113, 2));
    refused(&clinic, &tap, other)?;
    peer.send(&lists(other.source))?;
    comes(&tap, &socket, other)?;
    refused(&clinic, &tap, to_van())?;
    peer.send(&assign(&[]))?;
    until("empty list", SOON, || Ok(refused(&clinic, &tap, other).is_ok().then_some(())))
}

/// After each of the hostile streams: the connection is closed, the refusal is in the log, and a good one works.
fn hostile(lab: &Lab, words: &str, must_close: bool, streams: impl Iterator<Item = (bool, Vec<u8>)>) -> Outcome {
    let mut clinic = lab.start_clinic(&PLAIN)?;
    let (socket, tap) = (van_socket(lab)?, Tap::open(&lab.clinic, CLINIC_TUN)?);
    for (index, (greets, bytes)) in streams.enumerate() {
        let mut peer = if greets { Peer::greeted(lab)? } else { Peer::connect(lab)? };
        let before = clinic.log.count(words);
        // The clinic may close before it has all of it.
        let _ = peer.send(&bytes);
        if must_close {
            peer.closed().during(format!("stream {index}"))?;
            clinic.log.wait(words, before + 1).during(format!("stream {index}"))?;
        } else {
            let _ = peer.finish();
            let _ = peer.closed();
        }
        drop(peer);
        good(lab, &mut clinic, &socket, &tap).during(format!("behind stream {index}"))?;
    }
    ensure!(clinic.is_alive(), "the clinic has ended");
    Ok(())
}

/// Capsules with sound types and lengths and random values: one of many breaks a rule.
fn broken(lab: &Lab) -> Outcome {
    let stream = |seed: u64| {
        let mut random = Random::new(seed);
        let mut one = || {
            let (kind, length) = (1 + random.below(3) as u64, 1 + random.below(200));
            capsule(kind, &random.bytes(length))
        };
        (true, (0..20).flat_map(|_| one()).collect())
    };
    hostile(lab, "stream refused", true, (0..50).map(stream))
}

/// These may be a long capsule of an unknown type, which is passed over until the stream ends.
fn random_bytes(lab: &Lab) -> Outcome {
    let stream = |seed: u64| {
        let mut random = Random::new(1000 + seed);
        let length = 1 + random.below(3000);
        (true, random.bytes(length))
    };
    hostile(lab, "stream", false, (0..50).map(stream))
}

fn no_greeting(lab: &Lab) -> Outcome {
    let good = greeting(&plan::EMPTY);
    let mut lines: Vec<Vec<u8>> = [
        "\n",
        "GET / HTTP/1.1\n",
        "whapirohi 2 plan 56414e000100\n",
        "whapirohi 1 plan 56414e00010\n",
        "whapirohi 1 plan 56414e0001zz\n",
        "whapirohi 1 plan\n",
        "whapirohi 1\n",
        " whapirohi 1 plan 56414e000100\n",
    ]
    .map(|line| line.as_bytes().to_vec())
    .to_vec();
    lines.push([&[0], good.as_bytes()].concat());
    lines.extend((0..20_u64).map(|seed| {
        let mut random = Random::new(2000 + seed);
        let mut bytes = random.bytes(200);
        bytes.push(b'\n');
        bytes
    }));
    hostile(lab, "stream down: the peer", true, lines.into_iter().map(|line| (false, line)))
}

fn endless_greeting(lab: &Lab) -> Outcome {
    let endless = [b"whapirohi 1 plan ".to_vec(), vec![b'5'; 100_000]];
    hostile(lab, "stream down: the peer", true, [(false, endless.concat()), (false, vec![0; 100_000])].into_iter())
}

/// A connection that says nothing, and one that is up, both give way to a newer one of the peer.
fn newer(lab: &Lab) -> Outcome {
    let mut clinic = lab.start_clinic(&PLAIN)?;
    let (socket, tap) = (van_socket(lab)?, Tap::open(&lab.clinic, CLINIC_TUN)?);
    let mut silent = Peer::connect(lab)?;
    let mut first = good(lab, &mut clinic, &socket, &tap)?;
    silent.closed()?;
    first.send(&lists(to_van().source))?;
    comes(&tap, &socket, to_van())?;
    let _second = good(lab, &mut clinic, &socket, &tap)?;
    first.closed()?;
    refused(&clinic, &tap, to_van())
}

/// Until its first line is there and good, a newer connection changes nothing.
fn not_greeted(lab: &Lab) -> Outcome {
    let mut clinic = lab.start_clinic(&PLAIN)?;
    let (socket, tap) = (van_socket(lab)?, Tap::open(&lab.clinic, CLINIC_TUN)?);
    let mut peer = good(lab, &mut clinic, &socket, &tap)?;
    peer.send(&lists(to_van().source))?;
    comes(&tap, &socket, to_van())?;
    let _silent = Peer::connect(lab)?;
    for line in ["whapirohi 1 plan 5\n", "whapirohi 2 plan 56414e000100\n", "GET / HTTP/1.1\r\n\r\n"] {
        let mut newer = Peer::connect(lab)?;
        newer.send(line.as_bytes())?;
        newer.closed()?;
    }
    clinic.log.wait("the stream stays up; a newer connection is closed", 3)?;
    comes(&tap, &socket, to_van())?;
    let counters = clinic.counters()?;
    ensure!(counters.up && counters.get("connections") == 1, "the stream did not stay up: {counters:?}");
    Ok(())
}

/// Only the peer's address is taken; the stream that is up stays so.
fn stranger(lab: &Lab) -> Outcome {
    let mut clinic = lab.start_clinic(&PLAIN)?;
    let (socket, tap) = (van_socket(lab)?, Tap::open(&lab.clinic, CLINIC_TUN)?);
    let mut peer = good(lab, &mut clinic, &socket, &tap)?;
    let mut other = Peer::connect_from(&lab.clinic)?;
    let _ = other.send(greeting(&plan::EMPTY).as_bytes());
    other.closed()?;
    ensure!(clinic.counters()?.up, "the stream is down");
    peer.send(&lists(to_van().source))?;
    comes(&tap, &socket, to_van())
}

fn datagrams(lab: &Lab) -> Outcome {
    let mut clinic = lab.start_clinic(&PLAIN)?;
    let (socket, tap) = (van_socket(lab)?, Tap::open(&lab.clinic, CLINIC_TUN)?);
    let mut peer = good(lab, &mut clinic, &socket, &tap)?;
    let before = clinic.counters()?;
    let (packet, bad) = (OUT4.udp((1, 2), b"in a capsule"), OUT4.back().udp((1, 2), b"in a capsule"));
    for packet in [&bad, &packet] {
        peer.send(&capsule(0, &[&[0], &packet[..]].concat()))?;
    }
    tap.only(&packet)?;
    clinic.counters()?.rose(&before, Rise::passed("received", &[], &[packet]).and("refused receiving 12", 1))
}
