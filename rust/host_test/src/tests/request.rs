//! Addresses that are asked for.

use super::Run;
use crate::capsules::{capsule, entries, entry, Entry, ADDRESS_ASSIGN, ADDRESS_REQUEST, ROUTE_ADVERTISEMENT};
use crate::check::Outcome;
use crate::ends::{Lab, Options, CLINIC_TUN, PLAIN, VAN_TUN};
use crate::ensure;
use crate::packets::{OUT4, OUT6, VAN4, VAN6};
use crate::peer::Peer;
use crate::plan;
use crate::tap::{passes, Tap};
use std::net::{IpAddr, Ipv4Addr, Ipv6Addr};

pub const TESTS: &[(&str, Run)] =
    &[("request: the clinic's answer", answered), ("request: the van's capsule", asked), ("request: both ends", both)];

const ANY4: IpAddr = IpAddr::V4(Ipv4Addr::UNSPECIFIED);
const ANY6: IpAddr = IpAddr::V6(Ipv6Addr::UNSPECIFIED);
const NINE: IpAddr = IpAddr::V4(Ipv4Addr::new(192, 0, 2, 9));

/// Each ID that was asked for is answered once, by an address that is assigned or by all zeros, which declines it.
fn answered(lab: &Lab) -> Outcome {
    let _clinic = lab.start_clinic(&PLAIN)?;
    let mut peer = Peer::greeted(lab)?;
    peer.capsules([ADDRESS_ASSIGN, ROUTE_ADVERTISEMENT])?;
    let asked = [(1, ANY4, 32), (2, NINE, 32), (70, ANY6, 128), (3, VAN4, 32)];
    peer.send(&capsule(ADDRESS_REQUEST, &asked.map(entry).concat()))?;
    let (kind, value) = peer.capsule()?;
    ensure!(kind == ADDRESS_ASSIGN, "a capsule of kind {kind}");
    let found = entries(&value).ok_or_else(|| format!("no entries: {value:02x?}"))?;
    let is_known = |entry: &Entry| {
        let (_, address, length) = *entry;
        [(VAN4, 32), (VAN6, 128), (ANY4, 32), (ANY6, 128)].contains(&(address, length))
    };
    ensure!(found.iter().all(is_known), "an address that is not assigned: {found:?}");
    for (id, address, _) in asked {
        let answers: Vec<&Entry> = found.iter().filter(|entry| entry.0 == id).collect();
        ensure!(answers.len() == 1, "Request ID {id} is answered {} times: {found:?}", answers.len());
        ensure!(answers[0].1.is_ipv4() == address.is_ipv4(), "Request ID {id} is answered in the other version");
    }
    // What is assigned stays so.
    for address in [VAN4, VAN6] {
        ensure!(found.iter().any(|entry| entry.1 == address), "{address} is no longer assigned: {found:?}");
    }
    Ok(())
}

const REQUESTS: Options = Options { van: "request 4\nrequest 192.0.2.9/32\nrequest 6\n", ..PLAIN };

fn asked(lab: &Lab) -> Outcome {
    let listener = Peer::listen(lab)?;
    let _van = lab.start_van(&REQUESTS)?;
    let mut peer = Peer::accept(&listener)?;
    peer.greet(&plan::EMPTY)?;
    let expected = [(1, ANY4, 32), (2, NINE, 32), (3, ANY6, 128)].map(entry).concat();
    loop {
        let (kind, value) = peer.capsule()?;
        // A van that gives nothing may say so.
        if kind == ADDRESS_REQUEST {
            ensure!(value == expected, "asked for {value:02x?}, not {expected:02x?}");
            return Ok(());
        }
        ensure!(value.is_empty(), "the van gives what it is not configured to: {kind}, {value:02x?}");
    }
}

fn both(lab: &Lab) -> Outcome {
    let _ends = lab.start_both(&REQUESTS)?;
    let (at_van, at_clinic) = (Tap::open(&lab.van, VAN_TUN)?, Tap::open(&lab.clinic, CLINIC_TUN)?);
    passes(&at_van, &at_clinic, OUT4)?;
    passes(&at_van, &at_clinic, OUT6)?;
    passes(&at_clinic, &at_van, OUT4.back())
}
