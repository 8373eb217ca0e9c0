//! Addresses and routes on the device.

use super::sockets::applied;
use super::Run;
use crate::capsules::{assign, routes};
use crate::check::{until, Outcome, SOON};
use crate::ends::{Lab, Options, PLAIN, VAN_TUN};
use crate::ensure;
use crate::packets::{VAN4, VAN6};
use crate::peer::Peer;
use crate::plan;
use std::net::IpAddr;

pub const TESTS: &[(&str, Run)] = &[
    ("apply: both ends", |lab| applied(lab, &Options { mtu: 1400, ..PLAIN }).and_then(|_| has_mtu(lab))),
    ("apply: a new list replaces the old one", replaced),
    ("apply: a device that was down has all again with the next stream", put_again),
    ("apply: none prints the commands", printed),
];

fn has_mtu(lab: &Lab) -> Outcome {
    let link = lab.van.ip(&format!("link show dev {VAN_TUN}"))?;
    ensure!(link.contains("mtu 1400"), "{link}");
    Ok(())
}

fn address(text: &str) -> IpAddr {
    text.parse().expect("an address of the tests")
}

/// The addresses, or the routes, of the van's device; what the kernel adds by itself is left out.
fn on_device(lab: &Lab) -> Result<Vec<String>, String> {
    let mut found = Vec::new();
    for line in lab.van.ip(&format!("-o addr show dev {VAN_TUN}"))?.lines() {
        let words = line.split_whitespace().skip_while(|word| !word.starts_with("inet")).nth(1);
        found.extend(words.filter(|word| !word.starts_with("fe80")).map(|word| format!("address {word}")));
    }
    for family in ["-4", "-6"] {
        for line in lab.van.ip(&format!("{family} route show dev {VAN_TUN}"))?.lines() {
            let word = line.split_whitespace().next().unwrap_or("");
            let own = line.contains("proto kernel") || word.starts_with("fe80") || word.starts_with("multicast");
            found.extend((!own).then(|| format!("route {word}")));
        }
    }
    found.sort();
    Ok(found)
}

fn waits(lab: &Lab, expected: &[&str]) -> Outcome {
    let mut expected = expected.to_vec();
    expected.sort();
    until(&format!("{expected:?} on the device"), SOON, || Ok((on_device(lab)? == expected).then_some(())))
        .map_err(|error| format!("{error}; there is {:?}", on_device(lab)))
}

fn replaced(lab: &Lab) -> Outcome {
    let listener = Peer::listen(lab)?;
    let _van = lab.start_van(&Options { apply: "ip", ..PLAIN })?;
    let mut peer = Peer::accept(&listener)?;
    peer.greet(&plan::EMPTY)?;
    peer.send(&assign(&[(0, VAN4, 32), (0, VAN6, 128)]))?;
    peer.send(&routes(&[
        (address("198.51.100.0"), address("198.51.100.255")),
        (address("2001:db8:2::"), address("2001:db8:2::ffff:ffff:ffff:ffff")),
    ]))?;
    let addresses = ["address 192.0.2.3/32", "address 2001:db8:1::3/128"];
    waits(lab, &[&addresses[..], &["route 198.51.100.0/24", "route 2001:db8:2::/64"]].concat())?;
    // A declined request is no address.
    peer.send(&assign(&[(0, address("192.0.2.4"), 32), (0, VAN6, 128), (1, address("0.0.0.0"), 32)]))?;
    let addresses = ["address 192.0.2.4/32", "address 2001:db8:1::3/128"];
    waits(lab, &[&addresses[..], &["route 198.51.100.0/24", "route 2001:db8:2::/64"]].concat())?;
    // A range that is no prefix is the prefixes that make it up.
    peer.send(&routes(&[
        (address("198.51.100.2"), address("198.51.100.9")),
        (address("203.0.113.0"), address("203.0.113.255")),
    ]))?;
    let parts = ["route 198.51.100.2/31", "route 198.51.100.4/30", "route 198.51.100.8/31", "route 203.0.113.0/24"];
    waits(lab, &[&addresses[..], &parts].concat())?;
    peer.send(&[assign(&[]), routes(&[])].concat())?;
    waits(lab, &[])
}

/// With the device down, the kernel drops its routes.
fn put_again(lab: &Lab) -> Outcome {
    let all = ["address 192.0.2.3/32", "address 2001:db8:1::3/128", "route 198.51.100.0/24", "route 2001:db8:2::/64"];
    let (van, clinic) = applied(lab, &PLAIN)?;
    waits(lab, &all)?;
    lab.van.ip(&format!("link set {VAN_TUN} down"))?;
    lab.van.ip(&format!("link set {VAN_TUN} up"))?;
    ensure!(!on_device(lab)?.contains(&"route 198.51.100.0/24".to_string()), "the route is still there");
    clinic.kill()?;
    let _clinic = lab.start_clinic(&Options { apply: "ip", ..PLAIN })?;
    van.log.wait("stream up", 2)?;
    waits(lab, &all)
}

fn printed(lab: &Lab) -> Outcome {
    let (van, clinic) = lab.start_both(&PLAIN)?;
    for (end, words) in
        [(&van, "192.0.2.3"), (&van, "2001:db8:1::3"), (&van, "198.51.100.0/24"), (&clinic, "192.0.2.3")]
    {
        end.out.wait(words, 1)?;
    }
    for line in van.out.all().iter().chain(&clinic.out.all()) {
        ensure!(line.starts_with("ip "), "not a command of ip: {line:?}");
    }
    ensure!(on_device(lab)?.is_empty(), "on the device: {:?}", on_device(lab)?);
    Ok(())
}
