//! Packets that may not pass: none comes out, each is counted once under its number, and the log has its addresses.

use super::Run;
use crate::check::{Outcome, While, SOON};
use crate::ends::{Lab, Rise, CLINIC_TUN, PLAIN, VAN_TUN};
use crate::ensure;
use crate::packets::{lowered, Flow, CLINIC4, CLINIC6, OUT4, OUT6, TCP, VAN4, VAN6};
use crate::peer::{van_socket, Peer};
use crate::tap::{passes, refused, Tap};
use std::net::IpAddr;

pub const TESTS: &[(&str, Run)] = &[
    ("refusals: not granted on sending", not_granted),
    ("refusals: not granted on receiving", not_granted_receiving),
    ("refusals: hop count", hop_count),
    ("refusals: form", form),
    ("refusals: longer than the mtu", too_long),
];

fn address(text: &str) -> IpAddr {
    text.parse().expect("an address of the tests")
}

/// Packets refused on sending with one number, each way: one at a time, and a good packet behind each.
fn sending(lab: &Lab, number: u64, packets: &[Vec<u8>], lines: &[&str]) -> Outcome {
    let (van, _clinic) = lab.start_both(&PLAIN)?;
    let (at_van, at_clinic) = (Tap::open(&lab.van, VAN_TUN)?, Tap::open(&lab.clinic, CLINIC_TUN)?);
    passes(&at_van, &at_clinic, OUT4)?;
    passes(&at_van, &at_clinic, OUT6)?;
    let good = OUT4.udp((5, 6), b"good");
    for (index, packet) in packets.iter().enumerate() {
        let before = van.counters()?;
        refused(&at_van, &at_clinic, std::slice::from_ref(packet), &good).during(format!("packet {index}"))?;
        let rise = Rise::passed("sent", &[], &[lowered(&good)]).and(&format!("refused sending {number}"), 1);
        van.counters()?.rose(&before, rise).during(format!("packet {index}"))?;
    }
    lines.iter().try_for_each(|line| van.log.wait(line, 1))
}

fn not_granted(lab: &Lab) -> Outcome {
    let flows = [
        OUT4.from(address("192.0.2.4")),
        OUT4.to(address("198.51.101.9")),
        OUT4.back(),
        OUT6.from(address("2001:db8:1::4")),
        OUT6.to(address("2001:db8:3::9")),
        OUT6.back(),
    ];
    let mut packets: Vec<Vec<u8>> = flows.iter().map(|flow| flow.udp((1000, 2000), b"refused")).collect();
    packets.push(flows[0].tcp((1000, 2000), b"refused"));
    packets.push(flows[1].echo(1, 1, b"refused"));
    sending(
        lab,
        12,
        &packets,
        &[
            "refused sending 12 not granted: 192.0.2.4 > 198.51.100.2 protocol 17",
            "refused sending 12 not granted: 192.0.2.3 > 198.51.101.9 protocol 17",
            "refused sending 12 not granted: 2001:db8:1::4 > 2001:db8:2::2 protocol 17",
            "refused sending 12 not granted: 2001:db8:1::3 > 2001:db8:3::9 protocol 17",
        ],
    )
}

fn hop_count(lab: &Lab) -> Outcome {
    let spent = |flow: Flow| [0, 1].map(|hops| flow.hops(hops).udp((1000, 2000), b"spent"));
    let lines = ["refused sending 11 hop count spent: 192.0.2.3 > 198.51.100.2 protocol 17"];
    sending(lab, 11, &[spent(OUT4), spent(OUT6)].concat(), &lines)
}

fn form(lab: &Lab) -> Outcome {
    let (good4, good6) = (OUT4.udp((1000, 2000), b"form"), OUT6.udp((1000, 2000), b"form"));
    let changed = |packet: &[u8], at: usize, bits: u8| {
        let mut packet = packet.to_vec();
        packet[at] ^= bits;
        packet
    };
    let packets = [
        changed(&good4, 10, 1),                       // the header checksum
        changed(&good4, 3, 1),                        // the total length
        changed(&good4, 0, 0x10),                     // version 5
        good4[..19].to_vec(),                         // a header that is cut
        [&good4[..], &[0]].concat(),                  // a byte too many
        changed(&good6, 5, 1),                        // the payload's length
        good6[..39].to_vec(),                         // a header that is cut
        OUT6.packet(0, &[TCP, 1, 1, 4, 0, 0, 0, 0]),  // a chain that goes past the end
        OUT6.packet(44, &[TCP, 0, 0, 0x51, 0, 0, 0]), // a fragment header that is cut
    ];
    sending(lab, 10, &packets, &["refused sending 10 bad packet form"])
}

/// A van written by hand sends datagrams whose packets the clinic has not granted it.
fn not_granted_receiving(lab: &Lab) -> Outcome {
    let clinic = lab.start_clinic(&PLAIN)?;
    let (socket, _peer) = (van_socket(lab)?, Peer::greeted(lab)?);
    clinic.log.wait("stream up", 1)?;
    let tap = Tap::open(&lab.clinic, CLINIC_TUN)?;
    let good = OUT6.udp((1000, 2000), b"good");
    let datagram = |packet: &[u8]| [&[0], packet].concat();
    socket.send(&datagram(&good)).during("sending")?;
    tap.only(&good)?;
    let bad = [
        OUT4.from(address("192.0.2.2")),
        OUT4.to(address("198.51.99.255")),
        OUT4.from(CLINIC4).to(VAN4),
        OUT6.from(address("2001:db8:1::2")),
        OUT6.to(address("2001:db8:2:1::")),
        OUT6.from(CLINIC6).to(VAN6),
    ];
    for flow in bad {
        let before = clinic.counters()?;
        socket.send(&datagram(&flow.udp((1000, 2000), b"bad"))).during("sending")?;
        socket.send(&datagram(&good)).during("sending")?;
        tap.only(&good)?;
        let rise = Rise::passed("received", &[], std::slice::from_ref(&good)).and("refused receiving 12", 1);
        clinic.counters()?.rose(&before, rise)?;
    }
    clinic.log.wait("refused receiving 12 not granted: 192.0.2.2 > 198.51.100.2 protocol 17", 1)?;
    clinic.log.wait("refused receiving 12 not granted: 2001:db8:1::2 > 2001:db8:2::2 protocol 17", 1)
}

/// The kernel hands over no packet longer than the device's mtu; where that is raised behind the program's back, the box refuses them.
fn too_long(lab: &Lab) -> Outcome {
    let (van, _clinic) = lab.start_both(&PLAIN)?;
    let (at_van, at_clinic) = (Tap::open(&lab.van, VAN_TUN)?, Tap::open(&lab.clinic, CLINIC_TUN)?);
    passes(&at_van, &at_clinic, OUT4)?;
    passes(&at_van, &at_clinic, OUT6)?;
    let long = |flow: Flow, size: usize| flow.udp((5, 6), &vec![7; size - flow.header_length() - 8]);
    let good = long(OUT4, 1500);
    ensure!(at_van.send(&long(OUT4, 1501)).is_err(), "the device takes 1,501 bytes with an mtu of 1,500");
    lab.van.ip(&format!("link set {VAN_TUN} mtu 9000"))?;
    let before = van.counters()?;
    let packets: Vec<Vec<u8>> = [1501, 1502, 1508, 1509, 2048, 2049, 9000]
        .iter()
        .flat_map(|size| [OUT4, OUT6].map(|f| long(f, *size)))
        .collect();
    refused(&at_van, &at_clinic, &packets, &good)?;
    crate::check::until("count of every packet", SOON, || {
        let counters = van.counters()?;
        let count = counters.get("refused sending 15") - before.get("refused sending 15");
        Ok((count == packets.len() as u64 && counters.get("sent packets") == before.get("sent packets") + 1)
            .then_some(()))
    })
}
