//! Random datagrams at the clinic's socket.

use super::Run;
use crate::capsules::number;
use crate::check::{until, Outcome, While, SOON};
use crate::ends::{Counters, Lab, Options, Rise, CLINIC_TUN, PLAIN};
use crate::ensure;
use crate::net::LINK;
use crate::packets::{OUT4, OUT6, VAN4};
use crate::peer::{van_socket, Peer};
use crate::plan::{both_ways, datagram, file, PORTS};
use crate::random::Random;
use crate::tap::Tap;
use std::net::UdpSocket;

pub const TESTS: &[(&str, Run)] =
    &[("datagrams: 10,000 random ones", random), ("datagrams: from another port or address", strangers)];

const COUNT: usize = 10_000;
const SEED: u64 = 20_261_117;

/// How many are under way at most: more would not fit the socket's buffer.
const WINDOW: usize = 40;

/// Half are random bytes, half look like the datagrams that the clinic expects.
fn one(random: &mut Random, ids: &[u64]) -> Vec<u8> {
    let length = random.below(1601);
    let bytes = random.bytes(length);
    let (header4, header6) = (OUT4.packet(17, &bytes[..length.min(1400)]), OUT6.packet(17, &bytes[..length.min(1400)]));
    match random.below(8) {
        0..4 => bytes,
        4 => [&[0, 0x45, 0], &bytes[..]].concat(),
        5 => [&number(ids[random.below(ids.len())]), &bytes[..length.min(1590)]].concat(),
        which => {
            let mut packet = if which == 6 { header4 } else { header6 };
            let at = random.below(60.min(packet.len()));
            packet[at] ^= 1 << random.below(8);
            [&[0], &packet[..]].concat()
        }
    }
}

fn taken(counters: &Counters) -> u64 {
    counters.get("received packets") + counters.sum("refused receiving") + counters.get("dropped device")
}

fn random(lab: &Lab) -> Outcome {
    println!("    seed {SEED}");
    let plan = both_ways();
    let mut clinic = lab.start_clinic(&Options { plan: &plan, ..PLAIN })?;
    let mut peer = Peer::connect(lab)?;
    peer.greet(&file(&plan))?;
    clinic.log.wait("stream up", 1)?;
    let (socket, tap) = (van_socket(lab)?, Tap::open(&lab.clinic, CLINIC_TUN)?);
    let before = clinic.counters()?;
    let ids: Vec<u64> = plan.iter().map(|template| template.id).collect();
    let mut random = Random::new(SEED);
    for sent in (WINDOW..=COUNT).step_by(WINDOW) {
        for _ in 0..WINDOW {
            socket.send(&one(&mut random, &ids)).during("sending")?;
        }
        let all = until(&format!("count of {sent} datagrams"), SOON, || {
            let counters = clinic.counters()?;
            Ok((taken(&counters) - taken(&before) >= sent as u64).then_some(counters))
        });
        let counters = all.during(format!("{:?}", clinic.counters()?.since(&before)))?;
        ensure!(taken(&counters) - taken(&before) == sent as u64, "{sent} sent: {:?}", counters.since(&before));
    }
    let counters = clinic.counters()?;
    ensure!(counters.up && clinic.is_alive(), "the stream is down");
    for (name, least) in [("received packets", 100), ("refused receiving 10", 100), ("refused receiving 13", 100)] {
        ensure!(counters.get(name) > least, "the inputs are poor: {counters:?}");
    }
    // The packets that came out are those that were counted.
    for _ in 0..counters.get("received packets") - before.get("received packets") {
        ensure!(tap.next(SOON)?.is_some(), "fewer packets came out than were counted");
    }
    let good = OUT4.udp(PORTS, b"good");
    let bad = OUT4.back().udp(PORTS, b"bad");
    for packet in [&bad, &good] {
        socket.send(&datagram(&plan, packet)).during("sending")?;
    }
    tap.only(&good)?;
    let rise = Rise::passed("received", &plan, &[good]).and("refused receiving 12", 1);
    clinic.counters()?.rose(&counters, rise)
}

fn strangers(lab: &Lab) -> Outcome {
    let clinic = lab.start_clinic(&PLAIN)?;
    let (socket, _peer) = (van_socket(lab)?, Peer::greeted(lab)?);
    clinic.log.wait("stream up", 1)?;
    let tap = Tap::open(&lab.clinic, CLINIC_TUN)?;
    lab.van.ip(&format!("addr add 10.77.1.1/32 dev {LINK}"))?;
    lab.clinic.ip(&format!("route add 10.77.1.1/32 dev {LINK}"))?;
    let bind = |address: &str| lab.van.within(|| UdpSocket::bind(address)).during("binding");
    let others = [bind("10.77.0.1:7005")?, bind("10.77.1.1:7000")?];
    let (stranger, good) = (OUT4.udp(PORTS, b"stranger"), OUT4.from(VAN4).udp(PORTS, b"good"));
    let before = clinic.counters()?;
    for other in &others {
        for bytes in [&[&[0], &stranger[..]].concat()[..], &[0x3F; 100], &[]] {
            other.send_to(bytes, "10.77.0.2:7000").during("sending")?;
        }
    }
    socket.send(&[&[0], &good[..]].concat()).during("sending")?;
    tap.only(&good)?;
    clinic.counters()?.rose(&before, Rise::passed("received", &[], &[good]))
}
