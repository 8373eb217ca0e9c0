//! From lists to the addresses and routes of a device.

use std::net::{IpAddr, Ipv4Addr};
use whapirohi_box::apply::{commands, run, wanted, Wanted};
use whapirohi_box::text;
use whapirohi_tunnel::{Entry, Range, Span};

fn entry(text: &str) -> Entry {
    let (address, prefix_length) = text::prefix(text).unwrap();
    Entry { request_id: 0, address, prefix_length }
}

fn range(text: &str, protocol: u8) -> Range {
    Range { protocol, span: text::span(text).unwrap() }
}

fn listed(prefixes: &[(IpAddr, u8)]) -> Vec<String> {
    prefixes.iter().map(|(address, length)| format!("{address}/{length}")).collect()
}

fn of(addresses: &[&str], routes: &[&str]) -> Wanted {
    let read = |list: &[&str]| list.iter().map(|text| text::prefix(text).unwrap()).collect();
    Wanted { addresses: read(addresses), routes: read(routes) }
}

fn joined(device: &str, old: &Wanted, new: &Wanted) -> Vec<String> {
    commands(device, old, new).iter().map(|words| words.join(" ")).collect()
}

#[test]
fn nothing_held_wants_nothing() {
    assert_eq!(wanted(&[], &[], &[], &["192.0.2.1".parse().unwrap()]), Wanted::default());
}

#[test]
fn declined_entries_want_nothing() {
    let received = ["0.0.0.0/32", "192.0.2.3", "::", "2001:db8::/64", "192.0.2.3/32"].map(entry);
    let found = wanted(&received, &[], &["0.0.0.0", "::/128"].map(entry), &[]);
    assert_eq!(listed(&found.addresses), ["192.0.2.3/32", "2001:db8::/64"]);
    assert_eq!(found.routes, []);
}

#[test]
fn an_address_that_answers_two_requests_stands_once() {
    let received = [1, 2].map(|request_id| Entry { request_id, ..entry("192.0.2.3") });
    assert_eq!(listed(&wanted(&received, &[], &[], &[]).addresses), ["192.0.2.3/32"]);
}

#[test]
fn routes_are_the_union_across_protocols_and_given_prefixes() {
    let routes = [
        range("198.51.100.0/25", 6),
        range("198.51.100.64-198.51.100.199", 17),
        range("198.51.100.200-198.51.100.255", 58),
        range("2001:db8::/33", 6),
        range("2001:db8:8000::/33", 17),
    ];
    let found = wanted(&[], &routes, &["198.51.101.0/24", "203.0.113.7", "2001:db8::5"].map(entry), &[]);
    assert_eq!(listed(&found.routes), ["198.51.100.0/23", "203.0.113.7/32", "2001:db8::/32"]);
}

#[test]
fn versions_are_not_merged() {
    let found = wanted(&[], &[range("255.255.255.255", 0), range("::", 0)], &[], &[]);
    assert_eq!(listed(&found.routes), ["255.255.255.255/32", "::/128"]);
}

#[test]
fn a_spared_address_is_left_out_of_everything() {
    let routes = [range("0.0.0.0/0", 0), range("::/0", 0)];
    let peer4: IpAddr = "192.0.2.1".parse().unwrap();
    let peer6: IpAddr = "2001:db8::1".parse().unwrap();
    let covers = |found: &Wanted, a: IpAddr| {
        let inside = |(address, length): &(IpAddr, u8)| {
            let span = text::span_of(*address, *length);
            span.start().is_ipv4() == a.is_ipv4() && span.start() <= a && a <= span.end()
        };
        found.routes.iter().any(inside)
    };
    let found = wanted(&[], &routes, &[], &[peer4, peer6]);
    // One prefix for each bit of the address.
    assert_eq!(found.routes.len(), 32 + 128);
    assert_eq!(listed(&found.routes[..2]), ["0.0.0.0/1", "128.0.0.0/2"]);
    for (peer, beside) in [(peer4, ["192.0.2.0", "192.0.2.2"]), (peer6, ["2001:db8::", "2001:db8::2"])] {
        assert!(!covers(&found, peer));
        assert!(beside.iter().all(|a| covers(&found, a.parse().unwrap())));
    }
    // The ends of a version, where nothing is left on one side.
    for edge in ["0.0.0.0", "255.255.255.255", "::", "ffff:ffff:ffff:ffff:ffff:ffff:ffff:ffff"] {
        let edge: IpAddr = edge.parse().unwrap();
        let found = wanted(&[], &routes, &[], &[edge]);
        assert_eq!(found.routes.len(), 1 + if edge.is_ipv4() { 32 } else { 128 });
        assert!(!covers(&found, edge));
    }
    // An IPv4 peer of an IPv6 socket, and a range of the spared address alone.
    assert!(!covers(&wanted(&[], &routes, &[], &["::ffff:192.0.2.1".parse().unwrap()]), peer4));
    assert_eq!(wanted(&[], &[range("192.0.2.1", 17)], &[entry("192.0.2.1")], &[peer4]), Wanted::default());
}

#[test]
fn a_spared_address_is_not_put_on_the_device() {
    let received = ["192.0.2.1", "192.0.2.0/24", "192.0.2.3", "2001:db8::/64"].map(entry);
    let spared = ["::ffff:192.0.2.1", "2001:db8::1"].map(|address| address.parse().unwrap());
    assert_eq!(listed(&wanted(&received, &[], &[], &spared).addresses), ["192.0.2.3/32"]);
}

/// Every pair of ranges, given prefix and spared address among 8 addresses: an address has a route exactly when it is meant to.
#[test]
fn routes_hold_exactly_what_they_should() {
    let at = |n: u32| Ipv4Addr::from(0x0A00_0000 + n);
    let pairs = (0..8).flat_map(|start| (start..8).map(move |end| (start, end)));
    for (a, b) in pairs.clone() {
        for (c, d) in pairs.clone() {
            for spared in 0..8 {
                let ranges =
                    [(6, a, b), (17, c, d)].map(|(protocol, s, e)| Range { protocol, span: Span::V4(at(s), at(e)) });
                let given = Entry { request_id: 0, address: at(c ^ 1).into(), prefix_length: 32 };
                let found = wanted(&[], &ranges, &[given], &[at(spared).into()]);
                for n in 0..8 {
                    let meant = ((a..=b).contains(&n) || (c..=d).contains(&n) || n == c ^ 1) && n != spared;
                    let spans = found.routes.iter().map(|(address, length)| text::span_of(*address, *length));
                    let count = spans.filter(|span| (span.start()..=span.end()).contains(&IpAddr::V4(at(n)))).count();
                    assert_eq!(count, usize::from(meant), "{n} of {a}-{b}, {c}-{d} without {spared}");
                }
            }
        }
    }
}

#[test]
fn commands_put_what_is_new() {
    let new = of(&["192.0.2.3", "2001:db8::3"], &["198.51.100.0/24", "2001:db8:1::/48"]);
    let expected = [
        "ip address replace 192.0.2.3/32 dev van0",
        "ip address replace 2001:db8::3/128 dev van0 nodad",
        "ip route replace 198.51.100.0/24 dev van0 metric 9484",
        "ip route replace 2001:db8:1::/48 dev van0 metric 9484",
    ];
    assert_eq!(joined("van0", &Wanted::default(), &new), expected);
    assert_eq!(joined("van0", &new, &new), [""; 0]);
}

#[test]
fn commands_take_away_what_is_gone() {
    let old = of(&["192.0.2.3", "2001:db8::3"], &["198.51.100.0/24", "203.0.113.0/24", "2001:db8:1::/48"]);
    let new = of(&["192.0.2.4"], &["203.0.113.0/24", "198.51.100.0/25"]);
    let expected = [
        "ip route del 198.51.100.0/24 dev van0 metric 9484",
        "ip route del 2001:db8:1::/48 dev van0 metric 9484",
        "ip address replace 192.0.2.4/32 dev van0",
        "ip address del 192.0.2.3/32 dev van0",
        "ip address del 2001:db8::3/128 dev van0",
        "ip route replace 198.51.100.0/25 dev van0 metric 9484",
    ];
    assert_eq!(joined("van0", &old, &new), expected);
}

#[test]
fn ipv4_routes_are_put_again_after_the_last_address() {
    let old = of(&["192.0.2.3", "2001:db8::3"], &["198.51.100.0/24", "2001:db8:1::/48"]);
    let new = of(&[], &["198.51.100.0/24", "2001:db8:1::/48"]);
    let expected = [
        "ip address del 192.0.2.3/32 dev van0",
        "ip address del 2001:db8::3/128 dev van0",
        "ip route replace 198.51.100.0/24 dev van0 metric 9484",
    ];
    assert_eq!(joined("van0", &old, &new), expected);
}

#[test]
fn a_prefix_puts_its_first_host() {
    let hosts = |prefixes: &[&str]| -> Vec<String> {
        let words = commands("van0", &Wanted::default(), &of(prefixes, &[]));
        words.iter().map(|words| words.iter().find(|word| word.contains('/')).unwrap().clone()).collect()
    };
    assert_eq!(
        hosts(&["192.0.2.0/24", "192.0.2.4/30", "192.0.2.8/31"]),
        ["192.0.2.1/32", "192.0.2.5/32", "192.0.2.8/32"]
    );
    assert_eq!(hosts(&["2001:db8::/64", "2001:db8::4/126"]), ["2001:db8::1/128", "2001:db8::5/128"]);
    assert_eq!(hosts(&["2001:db8::8/127", "2001:db8::8/128"]), ["2001:db8::8/128"]);
    assert_eq!(hosts(&["0.0.0.0/0", "::/0"]), [""; 0]);
    // The host of a prefix stays where another entry still names it.
    assert_eq!(joined("van0", &of(&["192.0.2.0/24"], &[]), &of(&["192.0.2.1"], &[])), [""; 0]);
}

#[test]
fn all_of_a_version_goes_as_two_halves() {
    let expected = [
        "ip route replace 0.0.0.0/1 dev van0 metric 9484",
        "ip route replace 128.0.0.0/1 dev van0 metric 9484",
        "ip route replace ::/1 dev van0 metric 9484",
        "ip route replace 8000::/1 dev van0 metric 9484",
    ];
    assert_eq!(joined("van0", &Wanted::default(), &of(&[], &["0.0.0.0/0", "::/0"])), expected);
}

#[test]
fn a_command_that_fails_is_said_and_the_others_run() {
    let new = of(&["192.0.2.3"], &["198.51.100.0/24"]);
    let said = run(&commands("no-such-device", &Wanted::default(), &new));
    if std::process::Command::new("ip").arg("-V").output().is_err() {
        assert!(said[0].starts_with("ip: "), "{said:?}");
        return;
    }
    let failed: Vec<&String> = said.iter().filter(|line| line.starts_with("failed: ")).collect();
    let expected = [
        "failed: ip address replace 192.0.2.3/32 dev no-such-device",
        "failed: ip route replace 198.51.100.0/24 dev no-such-device metric 9484",
    ];
    assert_eq!(failed, expected, "{said:?}");
    assert!(said[0].starts_with("ip: ") && said[0].contains("no-such-device"), "{said:?}");
    assert_eq!(run(&[]), [""; 0]);
}
