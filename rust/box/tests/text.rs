//! Addresses, prefixes and ranges as text.

use std::net::IpAddr;
use whapirohi_box::text::{self, decimal, prefix, prefixes, protocol, range, span, span_of};
use whapirohi_tunnel::{Entry, Range, Span};

const TOP4: &str = "255.255.255.255";
const TOP6: &str = "ffff:ffff:ffff:ffff:ffff:ffff:ffff:ffff";

fn address(text: &str) -> IpAddr {
    text.parse().unwrap()
}

fn between(start: &str, end: &str) -> Span {
    Span::new(address(start), address(end)).unwrap()
}

fn listed(span: Span) -> Vec<String> {
    prefixes(span).iter().map(|(address, length)| format!("{address}/{length}")).collect()
}

#[test]
fn prefixes_are_read() {
    assert_eq!(prefix("192.0.2.0/24"), Ok((address("192.0.2.0"), 24)));
    assert_eq!(prefix("192.0.2.1"), Ok((address("192.0.2.1"), 32)));
    assert_eq!(prefix("2001:db8::1"), Ok((address("2001:db8::1"), 128)));
    assert_eq!(prefix("0.0.0.0/0"), Ok((address("0.0.0.0"), 0)));
    assert_eq!(prefix("::/0"), Ok((address("::"), 0)));
    assert_eq!(prefix("255.255.255.255/32"), Ok((address(TOP4), 32)));
    assert_eq!(prefix("8000::/1"), Ok((address("8000::"), 1)));
}

#[test]
fn bits_beyond_the_prefix_name_the_right_one() {
    let reason = "192.0.2.1/24: bits beyond the prefix; 192.0.2.0/24 is meant?";
    assert_eq!(prefix("192.0.2.1/24"), Err(reason.to_string()));
    assert!(prefix("2001:db8::1/127").unwrap_err().contains("2001:db8::/127 is meant?"));
    assert!(prefix("0.0.0.1/0").unwrap_err().contains("0.0.0.0/0 is meant?"));
    assert!(prefix("::1/0").unwrap_err().contains("::/0 is meant?"));
}

#[test]
fn text_is_strict() {
    for text in ["", "/", "/24", "192.0.2/24", "192.0.02.0/24", "+192.0.2.0/24", " 192.0.2.0", "2001:db8:::/32", "van"]
    {
        assert!(prefix(text).unwrap_err().contains("is no address"), "{text}");
    }
    for text in ["0.0.0.0/", "0.0.0.0/33", "0.0.0.0/+8", "0.0.0.0/-1", "0.0.0.0/08", "0.0.0.0/8/8", "0.0.0.0/256"] {
        assert!(prefix(text).unwrap_err().contains("from 0 to 32"), "{text}");
    }
    assert!(prefix("::/129").unwrap_err().contains("from 0 to 128"));
    assert_eq!(decimal("0"), Some(0_u8));
    assert_eq!(decimal("255"), Some(255_u8));
    for text in ["", "256", "00", "01", "+1", "-0", "1 ", "0x1", "٣"] {
        assert_eq!(decimal::<u8>(text), None, "{text}");
    }
}

#[test]
fn spans_are_read() {
    assert_eq!(span("192.0.2.2-192.0.2.9"), Ok(between("192.0.2.2", "192.0.2.9")));
    assert_eq!(span("192.0.2.2-192.0.2.2"), Ok(between("192.0.2.2", "192.0.2.2")));
    assert_eq!(span("192.0.2.0/24"), Ok(between("192.0.2.0", "192.0.2.255")));
    assert_eq!(span("2001:db8::/32"), Ok(between("2001:db8::", "2001:db8:ffff:ffff:ffff:ffff:ffff:ffff")));
    assert_eq!(span("::/0"), Ok(between("::", TOP6)));
    assert!(span("192.0.2.9-192.0.2.2").unwrap_err().contains("192.0.2.2-192.0.2.9 is meant?"));
    assert!(span("192.0.2.9-::").unwrap_err().contains("different versions"));
    assert!(span("192.0.2.0/24-192.0.3.0").unwrap_err().contains("is no address"));
    assert!(span("192.0.2.1-").unwrap_err().contains("is no address"));
    assert!(span("192.0.2.1/24").unwrap_err().contains("bits beyond"));
}

#[test]
fn spans_of_prefixes() {
    assert_eq!(span_of(address("0.0.0.0"), 0), between("0.0.0.0", TOP4));
    assert_eq!(span_of(address("::"), 0), between("::", TOP6));
    assert_eq!(span_of(address(TOP4), 32), between(TOP4, TOP4));
    assert_eq!(span_of(address(TOP6), 128), between(TOP6, TOP6));
    assert_eq!(span_of(address(TOP4), 31), between("255.255.255.254", TOP4));
    // Longer than any prefix is taken as the full length.
    assert_eq!(span_of(address("192.0.2.1"), 255), between("192.0.2.1", "192.0.2.1"));
}

#[test]
fn least_prefixes_at_the_edges() {
    assert_eq!(listed(between("0.0.0.0", TOP4)), ["0.0.0.0/0"]);
    assert_eq!(listed(between("::", TOP6)), ["::/0"]);
    assert_eq!(listed(between(TOP4, TOP4)), ["255.255.255.255/32"]);
    assert_eq!(listed(between(TOP6, TOP6)), [format!("{TOP6}/128")]);
    assert_eq!(listed(between("0.0.0.0", "0.0.0.0")), ["0.0.0.0/32"]);
    assert_eq!(listed(between("0.0.0.1", "0.0.0.4")), ["0.0.0.1/32", "0.0.0.2/31", "0.0.0.4/32"]);
    assert_eq!(listed(between("127.255.255.255", "128.0.0.0")), ["127.255.255.255/32", "128.0.0.0/32"]);
    assert_eq!(listed(between("255.255.255.253", TOP4)), ["255.255.255.253/32", "255.255.255.254/31"]);
    // The longest lists: all but the first and the last address.
    let all_but = prefixes(between("0.0.0.1", "255.255.255.254"));
    assert_eq!((all_but.len(), all_but[30], all_but[31]), (62, (address("64.0.0.0"), 2), (address("128.0.0.0"), 2)));
    assert_eq!(prefixes(between("::1", "ffff:ffff:ffff:ffff:ffff:ffff:ffff:fffe")).len(), 254);
    assert_eq!(prefixes(between("192.0.2.9", "192.0.2.2")), []);
    assert_eq!(prefixes(between("::1", "::")), []);
}

/// The least prefixes by another way: from the whole downwards, a prefix is taken where it lies within, and halved where it lies across.
fn halved(bits: u8, base: u128, length: u8, start: u128, end: u128, found: &mut Vec<(u128, u8)>) {
    let last = base + ((1_u128 << (bits - length)) - 1);
    if start <= base && last <= end {
        found.push((base, length));
    } else if base <= end && start <= last {
        halved(bits, base, length + 1, start, end, found);
        halved(bits, base + (1 << (bits - length - 1)), length + 1, start, end, found);
    }
}

#[test]
fn least_prefixes_agree_with_halving() {
    for start in 0..64_u32 {
        for end in start..64 {
            let mut expected = Vec::new();
            halved(32, 0, 0, start.into(), end.into(), &mut expected);
            let found = prefixes(Span::V4(start.into(), end.into()));
            let found: Vec<_> = found.into_iter().map(|(a, length)| (number(a), length)).collect();
            assert_eq!(found, expected, "{start} to {end}");
            // The same at the top of IPv6: its last 64 addresses are one prefix of length 122.
            let base = u128::MAX - 63;
            let mut expected = Vec::new();
            halved(128, base, 122, base + u128::from(start), base + u128::from(end), &mut expected);
            let found = prefixes(Span::V6((base + u128::from(start)).into(), (base + u128::from(end)).into()));
            let found: Vec<_> = found.into_iter().map(|(a, length)| (number(a), length)).collect();
            assert_eq!(found, expected, "{start} to {end}, at the top");
        }
    }
}

fn number(address: IpAddr) -> u128 {
    match address {
        IpAddr::V4(address) => u32::from(address).into(),
        IpAddr::V6(address) => address.into(),
    }
}

#[test]
fn ranges_are_written_as_they_are_read() {
    let written = |text: &str, protocol| range(&Range { protocol, span: span(text).unwrap() });
    assert_eq!(written("192.0.2.0-192.0.2.255", 0), "192.0.2.0/24");
    assert_eq!(written("192.0.2.2-192.0.2.9", 0), "192.0.2.2-192.0.2.9");
    assert_eq!(written("198.51.100.2", 17), "198.51.100.2/32 udp");
    assert_eq!(written("::/0", 58), "::/0 icmp6");
    assert_eq!(written("::1-::2", 132), "::1-::2 132");
}

#[test]
fn protocols_have_names_and_numbers() {
    let read: Vec<_> = ["any", "icmp", "tcp", "udp", "icmp6", "0", "255"].map(|text| protocol(text).unwrap()).into();
    assert_eq!(read, [0, 1, 6, 17, 58, 0, 255]);
    for text in ["256", "-1", "+6", "06", "TCP", "sctp", ""] {
        assert!(protocol(text).unwrap_err().contains("any, icmp, tcp, udp, icmp6"), "{text}");
    }
}

#[test]
fn entries_as_they_were_given() {
    let entry = |request_id, text| {
        let (address, prefix_length) = text::prefix(text).unwrap();
        text::entry(&Entry { request_id, address, prefix_length })
    };
    assert_eq!(entry(0, "192.0.2.3"), "192.0.2.3/32");
    assert_eq!(entry(2, "2001:db8::/64"), "2001:db8::/64 for request 2");
    assert_eq!(entry(3, "0.0.0.0"), "none for request 3");
}
