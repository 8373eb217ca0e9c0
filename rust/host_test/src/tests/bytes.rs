//! Packets go in at one end and are compared, byte by byte, with what comes out of the other.

use super::Run;
use crate::capsules::{assign, routes};
use crate::check::{Outcome, While, SOON};
use crate::ends::{Lab, Options, Rise, CLINIC_TUN, PLAIN, VAN_TUN};
use crate::ensure;
use crate::net::LINK;
use crate::packets::{lowered, Flow, CLINIC4, CLINIC6, OUT4, OUT6, UDP, VAN4, VAN6};
use crate::peer::{arrives, clinic_socket, Peer};
use crate::plan::{both_ways, datagram, drivers, file, Template, PORTS};
use crate::random::Random;
use crate::tap::{carry, passes, Tap};

pub const TESTS: &[(&str, Run)] = &[
    ("bytes: no plan", |lab| carried(lab, &PLAIN)),
    ("bytes: a plan for both ways", |lab| carried(lab, &Options { plan: &both_ways(), ..PLAIN })),
    ("bytes: the drivers' plan, mtu 1280", |lab| carried(lab, &Options { plan: &drivers(), mtu: 1280, ..PLAIN })),
    ("bytes: over a link of IPv6", |lab| carried(lab, &Options { plan: &both_ways(), link6: true, ..PLAIN })),
    ("bytes: datagrams on the link", on_the_link),
    ("bytes: the mtu of the link, IPv4", |lab| whole(lab, &[], false, 1500 - 28 - 1)),
    ("bytes: the mtu of the link, IPv6", |lab| whole(lab, &[], true, 1500 - 48 - 1)),
    ("bytes: the mtu of the link, Context ID of 8 bytes", |lab| whole(lab, &long_id(), false, 1500 - 28 - 8)),
];

/// Each size near the ends, and some between.
fn sizes(least: usize, most: usize) -> impl Iterator<Item = usize> {
    (least..=most).filter(move |size| size - least < 24 || most - size < 6 || size % 41 == 0)
}

/// Packets of every kind that the grants allow, of at most `mtu` bytes.
fn every_kind(flow: Flow, ports: (u16, u16), mtu: usize) -> Vec<Vec<u8>> {
    let mut random = Random::new(u64::from(ports.0) + mtu as u64);
    let header = flow.header_length();
    let mut packets = Vec::new();
    // The header alone, and payloads that are no segment of the protocol that they claim.
    packets.extend(sizes(0, 30).map(|size| flow.packet(UDP, &random.bytes(size))));
    for size in sizes(header + 8, mtu) {
        packets.push(flow.udp(ports, &random.bytes(size - header - 8)));
        packets.push(flow.udp((ports.0, 53), &random.bytes(size - header - 8)));
        packets.push(flow.echo(7, size as u16, &random.bytes(size - header - 8)));
    }
    packets.extend(sizes(header + 20, mtu).map(|size| flow.tcp(ports, &random.bytes(size - header - 20))));
    packets.extend((2..=255).map(|hops| flow.hops(hops).udp(ports, &random.bytes(9))));
    // Checksums that are damaged, or left out.
    for bytes in [[0, 0], [0x12, 0x34]] {
        let mut packet = flow.udp(ports, &random.bytes(33));
        packet[header + 6..header + 8].copy_from_slice(&bytes);
        packets.push(packet);
    }
    packets.extend([0, 2, 50, 89, 132, 253].map(|protocol| match protocol {
        0 if !flow.is_v4() => flow.packet(59, &[]),
        protocol => flow.packet(protocol, &random.bytes(100)),
    }));
    let segment = flow.udp_segment(ports, &random.bytes(60));
    if flow.is_v4() {
        packets.extend((1..=10).map(|words| flow.v4(UDP, &random.bytes(4 * words), 0, &segment)));
        // More fragments, a later one, the last one, and one that may not be cut.
        packets.extend([0x2000, 0x2003, 0x0010, 0x4000].map(|field| flow.v4(UDP, &[], field, &segment)));
    } else {
        // Hop-by-hop, routing and destination options, mobility (8 bytes each, and 16), authentication, fragments, and chains of them.
        for kind in [0, 43, 60, 135] {
            packets.push(flow.packet(kind, &[&[UDP, 0, 1, 4, 0, 0, 0, 0], &segment[..]].concat()));
            packets.push(flow.packet(kind, &[&[UDP, 1, 1, 12][..], &[0; 12], &segment].concat()));
        }
        packets.push(flow.packet(51, &[&[UDP, 4, 0, 0][..], &[7; 20], &segment].concat()));
        packets.push(flow.packet(44, &[&[UDP, 0, 0, 1, 9, 9, 9, 9], &segment[..]].concat()));
        packets.push(flow.packet(44, &[&[UDP, 0, 0, 0x51, 9, 9, 9, 9], &segment[..]].concat()));
        let chain: Vec<u8> =
            [[60, 0, 1, 4, 0, 0, 0, 0], [44, 0, 1, 4, 0, 0, 0, 0], [UDP, 0, 0, 1, 9, 9, 9, 9]].concat();
        packets.push(flow.packet(0, &[&chain, &segment[..]].concat()));
    }
    packets
}

fn carried(lab: &Lab, options: &Options) -> Outcome {
    let (van, clinic) = lab.start_both(options)?;
    let (at_van, at_clinic) = (Tap::open(&lab.van, VAN_TUN)?, Tap::open(&lab.clinic, CLINIC_TUN)?);
    passes(&at_van, &at_clinic, OUT4)?;
    passes(&at_van, &at_clinic, OUT6)?;
    let back = (PORTS.1, PORTS.0);
    let ways = [
        (&van, &at_van, &clinic, &at_clinic, [OUT4, OUT6], PORTS),
        (&clinic, &at_clinic, &van, &at_van, [OUT4.back(), OUT6.back()], back),
    ];
    for (sender, from, receiver, to, flows, ports) in ways {
        let packets = flows.map(|flow| every_kind(flow, ports, options.mtu)).concat();
        let before = (sender.counters()?, receiver.counters()?);
        carry(from, to, &packets)?;
        let lowered: Vec<Vec<u8>> = packets.iter().map(|packet| lowered(packet)).collect();
        sender.counters()?.rose(&before.0, Rise::passed("sent", options.plan, &lowered))?;
        receiver.counters()?.rose(&before.1, Rise::passed("received", options.plan, &lowered))?;
    }
    Ok(())
}

/// A template that saves one byte and costs eight.
fn long_id() -> Vec<Template> {
    vec![Template { id: 1 << 61, segments: vec![(0, vec![0x45])], checksum: None }]
}

/// Without an mtu in the configuration the device has this one, and a packet of that length is one packet of the link.
fn whole(lab: &Lab, plan: &[Template], link6: bool, mtu: usize) -> Outcome {
    let _ends = lab.start_both(&Options { plan, mtu: 0, link6, ..PLAIN })?;
    let device = lab.van.ip(&format!("link show dev {VAN_TUN}"))?;
    ensure!(device.contains(&format!("mtu {mtu} ")), "an mtu of {mtu} is expected: {device}");
    let (at_van, at_clinic) = (Tap::open(&lab.van, VAN_TUN)?, Tap::open(&lab.clinic, CLINIC_TUN)?);
    passes(&at_van, &at_clinic, OUT4)?;
    let on_link = Tap::open(&lab.clinic, LINK)?;
    let packet = OUT4.udp(PORTS, &vec![7; mtu - 28]);
    carry(&at_van, &at_clinic, std::slice::from_ref(&packet))?;
    let datagram = datagram(plan, &lowered(&packet));
    let expected = datagram.len() + if link6 { 48 } else { 28 };
    let found = on_link.next(SOON)?.ok_or("nothing on the link")?;
    ensure!(found.len() == expected && found.ends_with(&datagram), "{} bytes on the link, not {expected}", found.len());
    Ok(())
}

/// A van against a clinic written by hand: each packet makes the datagram of the rules, and each such datagram the packet.
fn on_the_link(lab: &Lab) -> Outcome {
    let plan = both_ways();
    let (listener, socket) = (Peer::listen(lab)?, clinic_socket(lab)?);
    let van = lab.start_van(&Options { plan: &plan, ..PLAIN })?;
    let mut peer = Peer::accept(&listener)?;
    peer.greet(&file(&plan))?;
    peer.send(&assign(&[(0, VAN4, 32), (0, VAN6, 128)]))?;
    peer.send(&routes(&[(CLINIC4, CLINIC4), (CLINIC6, CLINIC6)]))?;
    let tap = Tap::open(&lab.van, VAN_TUN)?;
    arrives(&tap, &socket, &plan, &OUT4.udp(PORTS, b"probe"))?;

    let mut bytes = [0; 2048];
    let mut forms = [0, 0];
    for packet in [every_kind(OUT4, PORTS, 1500), every_kind(OUT6, PORTS, 1500)].concat() {
        let expected = datagram(&plan, &lowered(&packet));
        forms[usize::from(expected[0] == 0)] += 1;
        tap.send(&packet).during("sending")?;
        let length = socket.recv(&mut bytes).during("waiting for a datagram")?;
        let found = &bytes[..length];
        ensure!(found == expected, "a packet of {} bytes made {found:02x?}, not {expected:02x?}", packet.len());
    }
    ensure!(forms[0] > 50 && forms[1] > 50, "short and full: {forms:?}");

    let back = (PORTS.1, PORTS.0);
    for packet in [every_kind(OUT4.back(), back, 1500), every_kind(OUT6.back(), back, 1500)].concat() {
        for bytes in [datagram(&plan, &packet), [&[0], &packet[..]].concat(), [&[0x40, 0], &packet[..]].concat()] {
            socket.send(&bytes).during("sending a datagram")?;
            tap.only(&packet)?;
        }
    }
    let counters = van.counters()?;
    ensure!(counters.sum("refused receiving") == 0, "datagrams were refused: {counters:?}");
    Ok(())
}
