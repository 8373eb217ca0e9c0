//! The drivers' examples of the paper, the numbers of RFC 9000 appendix A.1, and chains of IPv6 headers.

use whapirohi_reference::capsule::{CAPSULE_ROOM, MAX_VALUE};
use whapirohi_reference::list::{MAX_ADDRESSES, MAX_RANGES};
use whapirohi_reference::packet::{self, Header};
use whapirohi_reference::plan::PLAN_ROOM;
use whapirohi_reference::tunnel::{RECEIVE_ROOM, SEND_ROOM};
use whapirohi_reference::*;

fn hex(text: &str) -> Vec<u8> {
    let digits: Vec<u32> = text.chars().filter_map(|c| c.to_digit(16)).collect();
    digits.chunks(2).map(|pair| (pair[0] * 16 + pair[1]) as u8).collect()
}

fn ipv4(text: &str) -> u128 {
    u128::from(u32::from(text.parse::<std::net::Ipv4Addr>().unwrap()))
}

fn entry(address: &str, prefix: u8) -> AddressEntry {
    AddressEntry { request_id: RequestId(0), version: 4, prefix, address: ipv4(address) }
}

fn range(start: &str, end: &str, protocol: u8) -> RouteRange {
    RouteRange { version: 4, protocol, start: ipv4(start), end: ipv4(end) }
}

/// The length in its form of 4 bytes.
fn capsule(kind: u8, value: &[u8]) -> Vec<u8> {
    [&[kind][..], &(value.len() as u32 | 0x8000_0000).to_be_bytes(), value].concat()
}

fn list<T: Copy + Default, const N: usize>(items: &[T]) -> List<T, N> {
    let mut list = List { count: items.len(), ..List::default() };
    list.items[..items.len()].copy_from_slice(items);
    list
}

/// 192.0.2.3 is ours, UDP to 198.51.100.2 is routed to us.
fn grants() -> Grants {
    Grants {
        received_addresses: list(&[entry("192.0.2.3", 32)]),
        received_routes: list(&[range("198.51.100.2", "198.51.100.2", 17)]),
        ..Grants::default()
    }
}

const PACKET: &str = "45 00 00 1C 00 00 00 00 40 11 8E 98 C0 00 02 03 C6 33 64 02 03 E8 07 D0 00 08 07 ED";
const LOWERED: &str = "45 00 00 1C 00 00 00 00 3F 11 8F 98 C0 00 02 03 C6 33 64 02 03 E8 07 D0 00 08 07 ED";
const PLAN: &str = "56 41 4E 00 01 01 02 01 0C 0C C0 00 02 03 C6 33 64 02 03 E8 07 D0 01 1A 14";

fn sent(plan: &Plan, packet: &[u8]) -> Result<Vec<u8>, Refusal> {
    let mut out = [0xAA; SEND_ROOM];
    let length = send(&grants(), plan, packet, &mut out)?;
    assert!(out[length..].iter().all(|b| *b == 0xAA));
    Ok(out[..length].to_vec())
}

fn received(plan: &Plan, datagram: &[u8]) -> Result<Vec<u8>, Refusal> {
    let mut out = [0xAA; RECEIVE_ROOM];
    let length = receive(&grants().mirrored(), plan, datagram, &mut out)?;
    assert!(out[length..].iter().all(|b| *b == 0xAA));
    Ok(out[..length].to_vec())
}

#[test]
fn rooms_of_the_paper() {
    assert_eq!((SEND_ROOM, RECEIVE_ROOM, CAPSULE_ROOM, PLAN_ROOM), (1508, 1500, 16392, 1400));
}

#[test]
fn numbers_of_rfc_9000() {
    for (form, value) in
        [("c2197c5eff14e88c", 151_288_809_941_952_652), ("9d7f3e7d", 494_878_333), ("7bbd", 15_293), ("25", 37)]
    {
        let form = hex(form);
        assert_eq!(read_number(&form), Ok((value, form.len())));
        let mut out = [0xAA; 9];
        assert_eq!(write_number(value, &mut out), Ok(form.len()));
        assert_eq!(out[..form.len()], form);
        assert!(out[form.len()..].iter().all(|b| *b == 0xAA));
        assert_eq!(read_number(&form[..form.len() - 1]), Err(Refusal::NotAllThere));
    }
    assert_eq!(read_number(&hex("4025")), Ok((37, 2)));
    assert_eq!(write_number(1 << 62, &mut [0; 8]), Err(Refusal::BadAddress));
    assert_eq!(write_number(1 << 62, &mut [0; 7]), Err(Refusal::NoRoom));
}

#[test]
fn addresses_assigned() {
    let mut held = Grants::default();
    let read = held.read_capsule(&Plan::default(), &hex("01 07 00 04 C0 00 02 03 20"), 0);
    assert_eq!(read.unwrap().1, 9);
    assert_eq!(held.received_addresses, list(&[entry("192.0.2.3", 32)]));
    assert_eq!(held.read_capsule(&Plan::default(), &hex("02 00"), 0), Err(Refusal::BadRequestId));
    assert_eq!(held.received_addresses, list(&[entry("192.0.2.3", 32)]));
    assert_eq!(held.read_capsule(&Plan::default(), &hex("01 00"), 0).unwrap().1, 2);
    assert_eq!(held, Grants::default());
}

#[test]
fn bits_beyond_the_prefix() {
    assert!(read_capsule(&hex("01 07 00 04 C0 00 02 00 18"), 0).is_ok());
    assert_eq!(read_capsule(&hex("01 07 00 04 C0 00 02 01 18"), 0), Err(Refusal::BadAddress));
}

#[test]
fn routes_advertised() {
    let mut held = Grants::default();
    assert!(held.read_capsule(&Plan::default(), &hex("03 0A 04 C6 33 64 02 C6 33 64 02 11"), 0).is_ok());
    assert_eq!(held.received_routes, list(&[range("198.51.100.2", "198.51.100.2", 17)]));
}

#[test]
fn ranges_in_order() {
    let ranges = |first: &str, second: &str| hex(&format!("03 14 {first} {second}"));
    let from_2_to_9 = "04 C6 33 64 02 C6 33 64 09 11";
    assert!(read_capsule(&ranges(from_2_to_9, "04 C6 33 64 0A C6 33 64 0C 11"), 0).is_ok());
    let touching = ranges(from_2_to_9, "04 C6 33 64 09 C6 33 64 0C 11");
    assert_eq!(read_capsule(&touching, 0), Err(Refusal::RangesOutOfOrder));
    let protocol_0_last = ranges(from_2_to_9, "04 C6 33 64 0A C6 33 64 0C 00");
    assert_eq!(read_capsule(&protocol_0_last, 0), Err(Refusal::RangesOutOfOrder));
}

#[test]
fn packet_sent_in_full() {
    let full = [&[0][..], &hex(LOWERED)].concat();
    assert_eq!(sent(&Plan::default(), &hex(PACKET)), Ok(full.clone()));
    assert_eq!(received(&Plan::default(), &full), Ok(hex(LOWERED)));
}

#[test]
fn packet_sent_short() {
    let plan = read_plan(&hex(PLAN)).unwrap();
    let short = hex("02 45 00 00 1C 00 00 00 00 3F 11 8F 98 00 08 EC 52");
    assert_eq!(sent(&plan, &hex(PACKET)), Ok(short.clone()));
    assert_eq!(received(&plan, &short), Ok(hex(LOWERED)));
}

#[test]
fn damaged_checksum_sent_in_full() {
    let plan = read_plan(&hex(PLAN)).unwrap();
    for checksum in [0x07EE, 0] {
        let mut packet = hex(PACKET);
        packet::put_word(&mut packet, 26, checksum);
        let mut lowered = packet.clone();
        packet::lower(&mut lowered);
        assert_eq!(sent(&plan, &packet), Ok([&[0][..], &lowered].concat()));
    }
}

#[test]
fn sum_of_zero_is_ffff() {
    let file = hex("56 41 4E 00 01 01 02 01 0C 08 C0 00 02 03 C6 33 64 02 01 1A 14");
    let plan = read_plan(&file).unwrap();
    for (checksum, first) in [(0xFFFF, 2), (0, 0)] {
        let mut packet = hex(PACKET);
        packet::put_word(&mut packet, 22, 4029);
        packet::put_word(&mut packet, 26, checksum);
        let datagram = sent(&plan, &packet).unwrap();
        assert_eq!(datagram[0], first);
        packet::lower(&mut packet);
        assert_eq!(received(&plan, &datagram), Ok(packet));
    }
}

#[test]
fn list_limits() {
    assert_eq!((MAX_ADDRESSES, MAX_RANGES), (32, 256));
    let addresses = |count: usize| capsule(1, &hex("00 04 C0 00 02 03 20").repeat(count));
    assert!(read_capsule(&addresses(MAX_ADDRESSES), 0).is_ok());
    assert_eq!(read_capsule(&addresses(MAX_ADDRESSES + 1), 0), Err(Refusal::ListTooLong));

    let routes = |count: usize| {
        let ranges = (0..count as u16).map(u16::to_be_bytes);
        capsule(3, &ranges.flat_map(|[high, low]| [4, 10, 0, high, low, 10, 0, high, low, 0]).collect::<Vec<u8>>())
    };
    assert!(read_capsule(&routes(MAX_RANGES), 0).is_ok());
    assert_eq!(read_capsule(&routes(MAX_RANGES + 1), 0), Err(Refusal::ListTooLong));
}

#[test]
fn hop_counts() {
    for (ttl, passes) in [(0, false), (1, false), (2, true), (255, true)] {
        let mut packet = hex(PACKET);
        packet[8] = ttl;
        packet::put_word(&mut packet, 10, 0);
        let checksum = !packet::fold(packet::sum(&packet[..20]));
        packet::put_word(&mut packet, 10, checksum);
        let answer = sent(&Plan::default(), &packet);
        if passes {
            assert_eq!(answer.unwrap()[9], ttl - 1);
        } else {
            assert_eq!(answer, Err(Refusal::HopCountSpent));
        }
    }
}

/// RFC 1624, section 4: m goes from 5555 to 3285, and the other words fold to CD7A.
#[test]
fn update_of_rfc_1624() {
    assert_eq!(!packet::fold(0xCD7A + 0x5555), 0xDD2F);
    assert_eq!(packet::updated(0xDD2F, 0x5555, 0x3285), 0x0000);
    assert_eq!(!packet::fold(0xCD7A + 0x3285), 0x0000);
}

/// Every header checksum, FFFF in the place of 0000 among them, and every hop count that passes: the update is the sum made again.
#[test]
fn update_is_the_sum_made_again() {
    let sample = hex(&PACKET[..59]);
    for checksum in 0..=0xffff_u16 {
        for hops in 2..=255 {
            let mut header = sample.clone();
            header[8] = hops;
            // The identification that makes up for the checksum.
            packet::put_word(&mut header, 4, 0);
            packet::put_word(&mut header, 10, checksum);
            let identification = !packet::fold(packet::sum(&header));
            packet::put_word(&mut header, 4, identification);
            assert_eq!(packet::fold(packet::sum(&header)), 0xffff);
            let mut wanted = header.clone();
            wanted[8] -= 1;
            packet::put_word(&mut wanted, 10, 0);
            let again = !packet::fold(packet::sum(&wanted));
            packet::put_word(&mut wanted, 10, again);
            packet::lower(&mut header);
            assert_eq!(header, wanted);
        }
    }
}

/// Checksums about those that a hop carries over, sent in full; the expected words were worked out by hand.
#[test]
fn header_checksums_about_the_carry() {
    for (identification, stored, wanted) in [
        (0x8EA0, 0x0000, 0x0100),
        (0x8EA0, 0xFFFF, 0x0100),
        (0x8FA0, 0xFEFF, 0x0000),
        (0x8FA1, 0xFEFE, 0xFFFE),
        (0x8F9F, 0xFF00, 0x0001),
    ] {
        let mut packet = hex("45 00 00 14 00 00 00 00 40 11 00 00 C0 00 02 03 C6 33 64 02");
        packet::put_word(&mut packet, 4, identification);
        packet::put_word(&mut packet, 10, stored);
        let datagram = sent(&Plan::default(), &packet).unwrap();
        assert_eq!(packet::word_at(&datagram[1..], 10), wanted);
    }
}

#[test]
fn one_plan_has_one_file() {
    let plan = read_plan(&hex(PLAN)).unwrap();
    let mut out = [0xAA; PLAN_ROOM];
    assert_eq!(write_plan(&plan, &mut out), Ok(hex(PLAN).len()));
    assert_eq!(out[..25], hex(PLAN));
    assert!(out[25..].iter().all(|b| *b == 0xAA));
    assert_eq!(write_plan(&plan, &mut out[..PLAN_ROOM - 1]), Err(Refusal::NoRoom));
    for cut in 0..25 {
        assert_eq!(read_plan(&hex(PLAN)[..cut]), Err(Refusal::PlanCut));
    }
    assert_eq!(read_plan(&[&hex(PLAN)[..], &[0]].concat()), Err(Refusal::PlanCut));
}

#[test]
fn plan_rules_in_order() {
    let refused = |text: &str| read_plan(&hex(text)).unwrap_err().number();
    assert!(read_plan(&hex("56414E 0001 00")).is_ok());
    assert_eq!(refused("56414D 0001 00"), 20);
    assert_eq!(refused("5642"), 22);
    assert_eq!(refused("56414E 0002 00"), 21);
    assert_eq!(refused("56414E 0001 09"), 25);
    assert_eq!(refused("56414E 0001 01 00"), 25);
    assert_eq!(refused("56414E 0001 01 4002"), 24);
    assert_eq!(refused("56414E 0001 01 02 09"), 23);
    assert_eq!(refused("56414E 0001 01 02 01 05 00"), 23);
    assert_eq!(refused("56414E 0001 01 02 01 4080 01"), 23);
    assert_eq!(refused("56414E 0001 01 02 01 4080"), 22);
    assert_eq!(refused("56414E 0001 01 02 01 05 02 AA"), 22);
    assert_eq!(refused("56414E 0001 01 02 02 05 02 AAAA 06 01"), 23);
    assert_eq!(refused("56414E 0001 01 02 00 00"), 23);
    assert_eq!(refused("56414E 0001 01 02 00 02"), 23);
    assert!(read_plan(&hex("56414E 0001 01 02 00 01 14 14")).is_ok());
    assert_eq!(refused("56414E 0001 01 02 00 01 14 13"), 23);
    assert_eq!(refused("56414E 0001 01 02 00 01 15 14"), 23);
    assert_eq!(refused("56414E 0001 01 02 01 15 01 AA 01 14 14"), 23);
    assert_eq!(refused("56414E 0001 02 02 01 05 01 AA 00 02"), 25);
}

#[test]
fn requests_look_at_every_entry() {
    let request = |ids: &[u16]| {
        let ids = ids.iter().map(|id| (id | 0x4000).to_be_bytes());
        capsule(2, &ids.flat_map(|[high, low]| [high, low, 4, 192, 0, 2, 3, 32]).collect::<Vec<u8>>())
    };
    let refusal = |bytes: &[u8]| read_capsule(bytes, 0).unwrap_err();
    let full = MAX_ADDRESSES as u16;
    let most = (MAX_VALUE / 8) as u16;
    let ids: Vec<u16> = (1..=most).collect();
    assert!(read_capsule(&request(&ids[..MAX_ADDRESSES]), 0).is_ok());
    assert_eq!(refusal(&request(&ids[..MAX_ADDRESSES + 1])), Refusal::ListTooLong);
    assert_eq!(refusal(&request(&ids)), Refusal::ListTooLong);
    for repeated in [1, full, full + 1, most - 1] {
        let mut ids = ids.clone();
        ids[usize::from(most) - 1] = repeated;
        assert_eq!(refusal(&request(&ids)), Refusal::BadRequestId);
        ids.rotate_right(1);
        assert_eq!(refusal(&request(&ids)), Refusal::BadRequestId);
    }
    assert_eq!(refusal(&request(&[1, 0])), Refusal::BadRequestId);
    assert_eq!(refusal(&request(&[])), Refusal::BadRequestId);
}

#[test]
fn the_first_fault_of_a_request() {
    let (first, bad) = ("01 04 C0 00 02 03 20", "05 04 C0 00 02 03 21");
    let refusal = |entries: &[&str]| read_capsule(&capsule(2, &hex(&entries.concat())), 0).unwrap_err();
    assert_eq!(refusal(&[first, first, bad]), Refusal::BadRequestId);
    assert_eq!(refusal(&[first, bad, first]), Refusal::BadAddress);
    assert_eq!(refusal(&[first, "00 04 C0 00 02 03 20", bad]), Refusal::BadRequestId);
    assert_eq!(refusal(&[first, "00 04 C0 00 02 03 21"]), Refusal::BadAddress);
    assert_eq!(refusal(&[first, "01 04 C0 00 02 03 21"]), Refusal::BadAddress);
    assert_eq!(refusal(&[first, first, "05 04"]), Refusal::BadRequestId);
}

#[test]
fn unknown_types_are_skipped() {
    let long = capsule(0x21, &[0; 2 * MAX_VALUE]);
    assert_eq!(read_capsule(&long, 0), Ok((Capsule::Skipped, long.len())));
    assert_eq!(read_capsule(&long[..long.len() - 1], 0), Err(Refusal::NotAllThere));
    assert_eq!(read_capsule(&hex("00 80004001"), 0), Err(Refusal::ValueTooLong));
    assert_eq!(read_capsule(&hex("00 80004000"), 0), Err(Refusal::NotAllThere));
    assert_eq!(read_capsule(&[], 0), Err(Refusal::NotAllThere));
    assert_eq!(read_capsule(&[], usize::MAX), Err(Refusal::NotAllThere));
    assert_eq!(read_capsule(&hex("FF 00 02 AA BB"), 1), Ok((Capsule::Datagram { start: 3, length: 2 }, 5)));
}

#[test]
fn icmp_by_version() {
    let header = |version, protocol| Header { version, protocol, hop_count: 64, source: 0, destination: 0 };
    assert!(header(4, 1).is_icmp() && header(6, 58).is_icmp());
    assert!(!header(6, 1).is_icmp() && !header(4, 58).is_icmp());
}

#[test]
fn joined_sums() {
    let bytes: Vec<u8> = (0..=255).collect();
    for length in [0, 1, 2, 7, 8, 255, 256] {
        for cut in 0..=length {
            let (head, tail) = bytes[..length].split_at(cut);
            assert_eq!(packet::sum_joined(head, tail), packet::sum(&bytes[..length]), "{length} cut at {cut}");
        }
    }
}

#[test]
fn broken_state_is_9() {
    let mut broken = grants();
    broken.given_addresses = list(&[entry("192.0.2.3", 31)]);
    let plan = Plan::default();
    assert_eq!(send(&broken, &plan, &hex(PACKET), &mut [0; SEND_ROOM]), Err(Refusal::BrokenState));
    assert_eq!(send(&broken, &plan, &hex(PACKET), &mut [0; SEND_ROOM - 1]), Err(Refusal::NoRoom));
    assert_eq!(receive(&broken, &plan, &[], &mut [0; RECEIVE_ROOM]), Err(Refusal::BrokenState));
    assert_eq!(broken.read_capsule(&Plan::default(), &[], 0), Err(Refusal::BrokenState));
    assert_eq!(broken.write_assign(&Plan::default(), &list(&[]), &mut [0; CAPSULE_ROOM]), Err(Refusal::BrokenState));
    assert_eq!(broken.write_assign(&Plan::default(), &list(&[]), &mut [0; CAPSULE_ROOM - 1]), Err(Refusal::NoRoom));
}

/// A packet in hex: its chain of IPv6 headers ends at `end`, and it is of `protocol`.
struct Chained {
    packet: &'static str,
    end: usize,
    protocol: u8,
}

const ICMP_BEHIND_HOP_BY_HOP: Chained = Chained {
    packet: concat!(
        "60 00 00 00 00 10 00 40", // version 6, payload of 16 bytes, next is 0, hop limit 64
        "20010DB8 00000000 00000000 00000001", // from 2001:db8::1
        "20010DB8 00000000 00000000 00000002", // to 2001:db8::2
        "3A 00 01 04 00 00 00 00", // hop-by-hop options: next is 58, 8 bytes, PadN of 4
        "80 00 24 40 00 07 00 01", // ICMPv6 echo request
    ),
    end: 48,
    protocol: 58,
};

const TCP_BEHIND_ROUTING: Chained = Chained {
    packet: concat!(
        "60 00 00 00 00 2C 2B 40", // payload of 44 bytes, next is 43
        "20010DB8 00000000 00000000 00000001",
        "20010DB8 00000000 00000000 00000002",
        "06 02 04 00 00 00 00 00", // routing: next is 6, 24 bytes, type 4, no segments left
        "20010DB8 00000000 00000000 00000002",
        "03E8 0050 00000001 00000000 5002 FFFF 5035 0000", // TCP: SYN from port 1,000 to port 80
    ),
    end: 64,
    protocol: 6,
};

const UDP_BEHIND_DESTINATION: Chained = Chained {
    packet: concat!(
        "60 00 00 00 00 18 3C 40", // payload of 24 bytes, next is 60
        "20010DB8 00000000 00000000 00000001",
        "20010DB8 00000000 00000000 00000002",
        "11 01 01 0C 00 00 00 00 00 00 00 00 00 00 00 00", // destination options: next is 17, 16 bytes, PadN of 12
        "03 E8 07 D0 00 08 98 B1",                         // UDP
    ),
    end: 56,
    protocol: 17,
};

const UDP_BEHIND_AUTHENTICATION: Chained = Chained {
    packet: concat!(
        "60 00 00 00 00 20 33 40", // payload of 32 bytes, next is 51
        "20010DB8 00000000 00000000 00000001",
        "20010DB8 00000000 00000000 00000002",
        "11 04 00 00 00 00 01 00 00 00 00 01", // authentication: next is 17, (4 + 2) * 4 bytes, SPI 256, number 1
        "A0 A1 A2 A3 A4 A5 A6 A7 A8 A9 AA AB", // its ICV
        "03 E8 07 D0 00 08 98 B1",             // UDP
    ),
    end: 64,
    protocol: 17,
};

const NOTHING_BEHIND_MOBILITY: Chained = Chained {
    packet: concat!(
        "60 00 00 00 00 08 87 40", // payload of 8 bytes, next is 135
        "20010DB8 00000000 00000000 00000001",
        "20010DB8 00000000 00000000 00000002",
        "3B 00 00 00 68 FB 00 00", // mobility: next is 59 (no next header), 8 bytes, a binding refresh request
    ),
    end: 48,
    protocol: 59,
};

const NO_NEXT_HEADER: Chained = Chained {
    packet: concat!(
        "60 00 00 00 00 04 3B 40", // payload of 4 bytes, next is 59
        "20010DB8 00000000 00000000 00000001",
        "20010DB8 00000000 00000000 00000002",
        "3A FF 00 00", // bytes of nothing
    ),
    end: 40,
    protocol: 59,
};

const ESP_BEHIND_HOP_BY_HOP: Chained = Chained {
    packet: concat!(
        "60 00 00 00 00 14 00 40", // payload of 20 bytes, next is 0
        "20010DB8 00000000 00000000 00000001",
        "20010DB8 00000000 00000000 00000002",
        "32 00 01 04 00 00 00 00",             // hop-by-hop options: next is 50
        "3A 00 01 00 00 00 00 01 C0 C1 C2 C3", // ESP: SPI 3A000100, number 1, and what nobody can read
    ),
    end: 48,
    protocol: 50,
};

const FIRST_FRAGMENT: Chained = Chained {
    packet: concat!(
        "60 00 00 00 00 10 2C 40", // payload of 16 bytes, next is 44
        "20010DB8 00000000 00000000 00000001",
        "20010DB8 00000000 00000000 00000002",
        "3A 00 00 01 12 34 56 78", // fragment: next is 58, offset 0, more to come
        "80 00 24 40 00 07 00 01", // ICMPv6 echo request
    ),
    end: 48,
    protocol: 58,
};

const LATER_FRAGMENT: Chained = Chained {
    packet: concat!(
        "60 00 00 00 00 10 2C 40", // payload of 16 bytes, next is 44
        "20010DB8 00000000 00000000 00000001",
        "20010DB8 00000000 00000000 00000002",
        "3A 00 05 A8 12 34 56 78", // fragment: next is 58, offset 181 times 8 bytes, the last
        "61 62 63 64 65 66 67 68", // data
    ),
    end: 48,
    protocol: 44,
};

const EVERY_KIND: Chained = Chained {
    packet: concat!(
        "60 00 00 00 00 64 00 40", // payload of 100 bytes, next is 0
        "20010DB8 00000000 00000000 00000001",
        "20010DB8 00000000 00000000 00000002",
        "3C 00 01 04 00 00 00 00", // at 40, hop-by-hop options: next is 60
        "2B 01 01 0C 00 00 00 00 00 00 00 00 00 00 00 00", // at 48, destination options: next is 43, 16 bytes
        "2C 02 04 00 00 00 00 00", // at 64, routing: next is 44, 24 bytes
        "20010DB8 00000000 00000000 00000002",
        "33 00 00 01 12 34 56 78",             // at 88, fragment: next is 51, offset 0
        "87 01 00 00 00 00 01 00 00 00 00 01", // at 96, authentication: next is 135, (1 + 2) * 4 bytes
        "3C 01 00 00 00 00 00 00 00 00 00 00 00 00 00 00", // at 108, mobility: next is 60, 16 bytes
        "11 00 01 04 00 00 00 00",             // at 124, destination options across byte 128: next is 17
        "03 E8 07 D0 00 08 98 B1",             // at 132, UDP
    ),
    end: 132,
    protocol: 17,
};

const LATER_FRAGMENT_BEHIND_THE_FRONT: Chained = Chained {
    packet: concat!(
        "60 00 00 00 00 6C 3C 40", // payload of 108 bytes, next is 60
        "20010DB8 00000000 00000000 00000001",
        "20010DB8 00000000 00000000 00000002",
        "33 09 01 4C 00 00 00 00 00 00 00 00 00 00 00 00", // at 40, destination options: next is 51, 80 bytes, PadN of 76
        "00 00 00 00 00 00 00 00 00 00 00 00 00 00 00 00",
        "00 00 00 00 00 00 00 00 00 00 00 00 00 00 00 00",
        "00 00 00 00 00 00 00 00 00 00 00 00 00 00 00 00",
        "00 00 00 00 00 00 00 00 00 00 00 00 00 00 00 00",
        "2C 01 00 00 00 00 01 00 00 00 00 01", // at 120, authentication across byte 128: next is 44, 12 bytes
        "11 00 00 08 12 34 56 78",             // at 132, fragment: next is 17, offset 8 bytes
        "61 62 63 64 65 66 67 68",             // at 140, data
    ),
    end: 140,
    protocol: 44,
};

const CHAINED: [Chained; 11] = [
    ICMP_BEHIND_HOP_BY_HOP,
    TCP_BEHIND_ROUTING,
    UDP_BEHIND_DESTINATION,
    UDP_BEHIND_AUTHENTICATION,
    NOTHING_BEHIND_MOBILITY,
    NO_NEXT_HEADER,
    ESP_BEHIND_HOP_BY_HOP,
    FIRST_FRAGMENT,
    LATER_FRAGMENT,
    EVERY_KIND,
    LATER_FRAGMENT_BEHIND_THE_FRONT,
];

/// 2001:db8::1 is ours, a protocol to 2001:db8::2 is routed to us.
fn ipv6_grants(protocol: u8) -> Grants {
    let address = |low: u128| (0x2001_0DB8 << 96) + low;
    let entry = AddressEntry { request_id: RequestId(0), version: 6, prefix: 128, address: address(1) };
    let range = RouteRange { version: 6, protocol, start: address(2), end: address(2) };
    Grants { received_addresses: list(&[entry]), received_routes: list(&[range]), ..Grants::default() }
}

/// One template of both IPv6 addresses.
fn ipv6_plan() -> Plan {
    let mut template =
        Template { id: ContextId(2), segments: list(&[Segment { offset: 8, length: 32 }]), ..Template::default() };
    template.bytes[8..40].copy_from_slice(&hex(NO_NEXT_HEADER.packet)[8..40]);
    Plan { templates: list(&[template]) }
}

/// Sent and received in full and by a template: the one answer of all.
fn carried(protocol: u8, packet: &[u8]) -> Result<(), Refusal> {
    let grants = ipv6_grants(protocol);
    let mut lowered = packet.to_vec();
    lowered[7] -= 1;
    let full = [&[0][..], &lowered].concat();
    let short = [&[2][..], &lowered[..8], &lowered[40..]].concat();
    let answers = [(Plan::default(), full), (ipv6_plan(), short)].map(|(plan, datagram)| {
        let (mut out, mut back) = ([0xAA; SEND_ROOM], [0xAA; RECEIVE_ROOM]);
        let sent = send(&grants, &plan, packet, &mut out);
        let received = receive(&grants.mirrored(), &plan, &datagram, &mut back);
        assert_eq!(sent.map(|length| out[..length].to_vec()), received.map(|_| datagram));
        assert_eq!(received.map(|length| back[..length].to_vec()), received.map(|_| lowered.clone()));
        received.map(|_| ())
    });
    assert_eq!(answers[0], answers[1]);
    answers[0]
}

/// The protocol of a packet, wherever it is taken apart.
fn protocol_of(packet: &[u8]) -> Option<u8> {
    let whole = Header::read(packet, &[]);
    for cut in 40..packet.len() {
        let (front, tail) = packet.split_at(cut);
        assert_eq!(Header::read(front, tail), whole, "taken apart at {cut}");
    }
    whole.map(|header| header.protocol)
}

/// The packet's first bytes, with the payload length that they have.
fn cut_at(packet: &[u8], cut: usize) -> Vec<u8> {
    let mut front = packet[..cut].to_vec();
    packet::put_word(&mut front, 4, (cut - 40) as u16);
    front
}

#[test]
fn protocol_behind_a_chain() {
    for Chained { packet, protocol, .. } in CHAINED {
        let packet = hex(packet);
        assert_eq!(protocol_of(&packet), Some(protocol));
        assert_eq!(carried(protocol, &packet), Ok(()));
        assert_eq!(carried(0, &packet), Ok(()));
        // ICMP passes whatever protocol a range names; byte 6 lets nothing pass.
        for other in [1, 255, packet[6], 44, 50, 51, 59, 60] {
            if other == 0 || other == protocol {
                continue;
            }
            let answer = if protocol == 58 { Ok(()) } else { Err(Refusal::NotGranted) };
            assert_eq!(carried(other, &packet), answer, "{protocol} where {other} is granted");
        }
    }
}

#[test]
fn chain_cut_at_every_byte() {
    for Chained { packet, end, protocol } in CHAINED {
        let packet = hex(packet);
        for cut in 40..=packet.len() {
            let front = cut_at(&packet, cut);
            let whole = cut >= end;
            assert_eq!(protocol_of(&front), whole.then_some(protocol), "{protocol} cut at {cut}");
            for granted in [protocol, 0] {
                let answer = if whole { Ok(()) } else { Err(Refusal::BadForm) };
                assert_eq!(carried(granted, &front), answer, "{protocol} cut at {cut}");
            }
        }
    }
}

#[test]
fn fragments() {
    let with = |length: u8, word: u16| {
        let mut packet = hex(LATER_FRAGMENT.packet);
        packet[41] = length;
        packet::put_word(&mut packet, 42, word);
        packet
    };
    // The flag for more, the reserved bits and the reserved byte are no offset and no length.
    for (length, word) in [(0, 0), (0, 1), (0, 2), (0, 4), (0, 7), (255, 0), (255, 7)] {
        assert_eq!(protocol_of(&with(length, word)), Some(58));
        assert_eq!(carried(6, &with(length, word)), Ok(()));
    }
    for (length, word) in [(0, 8), (0, 9), (255, 8), (0, 0x0100), (0, 0x8000), (255, 0xFFFF)] {
        let packet = with(length, word);
        assert_eq!(protocol_of(&packet), Some(44));
        assert_eq!((carried(44, &packet), carried(6, &packet)), (Ok(()), Err(Refusal::NotGranted)));
        assert_eq!(carried(58, &packet), Err(Refusal::NotGranted));
        for cut in 40..48 {
            assert_eq!(carried(44, &cut_at(&packet, cut)), Err(Refusal::BadForm));
        }
        assert_eq!(carried(44, &cut_at(&packet, 48)), Ok(()));
    }
}

#[test]
fn sizes_of_headers() {
    // A header of `number` and `length` before UDP, in a packet of which it leaves `room` bytes.
    let with = |number: u8, length: u8, size: usize, room: usize| {
        let mut packet = cut_at(&hex(NO_NEXT_HEADER.packet), 40);
        packet[6] = number;
        packet.extend([17, length]);
        packet.resize(40 + size + room - 1, 0x3A);
        let length = packet.len();
        cut_at(&packet, length)
    };
    for length in [0, 1, 2, 3, 4, 127, 128, 181] {
        let wide = 8 + 8 * usize::from(length);
        let narrow = (usize::from(length) + 2) * 4;
        for (number, size) in [(0, wide), (43, wide), (60, wide), (135, wide), (51, narrow), (44, 8)] {
            // A fragment's second byte is reserved, and its offset here would not be 0.
            let whole = if number == 44 { 44 } else { 17 };
            assert_eq!(protocol_of(&with(number, length, size, 0)), None);
            assert_eq!(protocol_of(&with(number, length, size, 1)), Some(whole));
            assert_eq!(carried(whole, &with(number, length, size, 1)), Ok(()));
            assert_eq!(carried(whole, &with(number, length, size, 0)), Err(Refusal::BadForm));
        }
    }
    // No packet has room for the longest but of authentication.
    assert_eq!(protocol_of(&with(51, 255, 1028, 1)), Some(17));
    assert_eq!(carried(17, &with(0, 255, 1460, 1)), Err(Refusal::BadForm));
    assert_eq!(carried(17, &with(0, 255, 2048, 1)), Err(Refusal::PacketTooLong));
}

#[test]
fn longest_chain() {
    // 182 headers of 8 bytes each, and 4 bytes are left.
    let mut packet = hex(NO_NEXT_HEADER.packet);
    packet.truncate(40);
    packet[6] = 0;
    packet.extend(hex("3C 00 01 04 00 00 00 00").repeat(181));
    packet.extend(hex("11 00 01 04 00 00 00 00"));
    packet.extend([0x3C; 4]);
    let packet = cut_at(&packet, 1500);
    assert_eq!(protocol_of(&packet), Some(17));
    assert_eq!((carried(17, &packet), carried(60, &packet)), (Ok(()), Err(Refusal::NotGranted)));
    assert_eq!(carried(17, &cut_at(&packet, 1496)), Ok(()));
    assert_eq!(carried(17, &cut_at(&packet, 1495)), Err(Refusal::BadForm));
}

#[test]
fn form_comes_before_hop_count_and_grants() {
    let mut packet = hex(EVERY_KIND.packet);
    packet[7] = 1;
    let sent = |packet: &[u8]| send(&ipv6_grants(6), &Plan::default(), packet, &mut [0; SEND_ROOM]);
    assert_eq!(sent(&cut_at(&packet, 131)), Err(Refusal::BadForm));
    assert_eq!(sent(&packet), Err(Refusal::HopCountSpent));
    packet[7] = 2;
    assert_eq!(sent(&packet), Err(Refusal::NotGranted));
}

#[test]
fn ipv4_has_no_chain() {
    for protocol in [0, 43, 44, 51, 60, 135] {
        let mut packet = hex(PACKET);
        packet[9] = protocol;
        packet::put_word(&mut packet, 10, 0);
        let checksum = !packet::fold(packet::sum(&packet[..20]));
        packet::put_word(&mut packet, 10, checksum);
        assert_eq!(Header::read(&packet, &[]).map(|header| header.protocol), Some(protocol));
    }
}

#[test]
fn sums_keep_byte_6() {
    // The words of UDP behind destination options come to FFFF with 17 in the pseudo-header; the seed has 60.
    let packet = hex(UDP_BEHIND_DESTINATION.packet);
    let rest = packet::sum(&packet[8..40]) + packet::sum(&packet[56..]) + 8;
    assert_eq!(packet::fold(rest + 17), 0xFFFF);
    assert_eq!(packet::seed(&packet, 64, 56), packet::fold(packet::sum(&packet[8..40]) + 60 + 8));
    assert!(!packet::is_udp(&packet) && packet::is_udp(&cut_at(&[&packet[..6], &[17], &packet[7..]].concat(), 64)));
}
