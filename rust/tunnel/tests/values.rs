//! Lists and plans as values: their words, and back; and the names of this crate beside those of the C header, of the document and of Rattle.

use std::net::{IpAddr, Ipv4Addr, Ipv6Addr};
use whapirohi_tunnel::{address_words, entries, plan_words, ranges, reason, route_words, templates};
use whapirohi_tunnel::{Checksum, Entry, Range, Refusal, Segment, Span, Template, REASONS};
use whapirohi_tunnel::{ADDRESS_WORDS, ROUTE_WORDS, TEMPLATE_WORDS};

fn v4(low: u32) -> Ipv4Addr {
    Ipv4Addr::from(0xC000_0200 + low)
}

fn v6(low: u32) -> Ipv6Addr {
    Ipv6Addr::from(0x2001_0DB8_0000_0000_0000_0000_0000_0000 + u128::from(low))
}

/// Entries of both versions in turn.
fn some_entries(count: u32) -> Vec<Entry> {
    let address = |i| if i % 2 == 0 { IpAddr::from(v4(i)) } else { v6(i).into() };
    let prefix_length = |i| if i % 2 == 0 { 32 } else { 128 };
    (0..count)
        .map(|i| Entry { request_id: 1000 + u64::from(i), address: address(i), prefix_length: prefix_length(i) })
        .collect()
}

/// Ranges in order: half of them of IPv4, the others of IPv6.
fn some_ranges(count: u32) -> Vec<Range> {
    let span = |i| if i < count / 2 { Span::V4(v4(4 * i), v4(4 * i + 3)) } else { Span::V6(v6(4 * i), v6(4 * i + 2)) };
    (0..count).map(|i| Range { protocol: 17, span: span(i) }).collect()
}

/// Templates of 8 segments each, in order, every second one with a checksum.
fn some_templates(count: u8) -> Vec<Template> {
    let segment =
        |k: u8, i: u8| Segment { offset: 30 + 5 * usize::from(k), bytes: vec![i + 1; 1 + usize::from(k) % 5] };
    (0..count)
        .map(|i| Template {
            context_id: 2 + 2 * u64::from(i),
            segments: (0..8).map(|k| segment(k, i)).collect(),
            checksum: (i % 2 == 0).then_some(Checksum { field: 26, start: 20 }),
        })
        .collect()
}

#[test]
fn words_of_entries() {
    let list = [
        Entry { request_id: 0, address: v4(3).into(), prefix_length: 32 },
        Entry { request_id: u64::MAX, address: v6(5).into(), prefix_length: 255 },
    ];
    let words = address_words(&list).unwrap();
    assert_eq!(words[..5], [2, 0, 4 + 256 * 32, 0, 0xC000_0203]);
    assert_eq!(words[5..9], [u64::MAX, 6 + 256 * 255, 0x2001_0DB8_0000_0000, 5]);
    assert_eq!(words[9..], [0; ADDRESS_WORDS - 9]);
    assert_eq!(entries(&words).unwrap(), list);
}

#[test]
fn words_of_ranges() {
    let list = [
        Range { protocol: 17, span: Span::V4(v4(2), v4(9)) },
        Range { protocol: 255, span: Span::V6(v6(7), Ipv6Addr::from(u128::MAX - 1)) },
    ];
    let words = route_words(&list).unwrap();
    assert_eq!(words[..6], [2, 4 + 256 * 17, 0, 0xC000_0202, 0, 0xC000_0209]);
    assert_eq!(words[6..11], [6 + 256 * 255, 0x2001_0DB8_0000_0000, 7, u64::MAX, u64::MAX - 1]);
    assert_eq!(words[11..], [0; ROUTE_WORDS - 11]);
    assert_eq!(ranges(&words).unwrap(), list);
}

#[test]
fn words_of_templates() {
    let segments =
        vec![Segment { offset: 12, bytes: vec![0xC0, 0xFF] }, Segment { offset: 126, bytes: vec![0xAA, 0xBB] }];
    let list = [
        Template { context_id: 2, segments, checksum: None },
        Template { context_id: 5, segments: vec![], checksum: Some(Checksum { field: 26, start: 20 }) },
    ];
    let words = plan_words(&list).unwrap();
    let mut first = [0; TEMPLATE_WORDS];
    first[..9].copy_from_slice(&[2, 2, 0, 0, 0, 12, 2, 126, 2]);
    first[21 + 12..][..2].copy_from_slice(&[0xC0, 0xFF]);
    first[21 + 126..].copy_from_slice(&[0xAA, 0xBB]);
    let mut second = [0; TEMPLATE_WORDS];
    second[..5].copy_from_slice(&[5, 0, 1, 26, 20]);
    assert_eq!(words[0], 2);
    assert_eq!(words[1..1 + TEMPLATE_WORDS], first);
    assert_eq!(words[1 + TEMPLATE_WORDS..][..TEMPLATE_WORDS], second);
    assert!(words[1 + 2 * TEMPLATE_WORDS..].iter().all(|word| *word == 0));
    assert_eq!(templates(&words).unwrap(), list);
}

#[test]
fn from_none_to_full_and_one_more() {
    for count in [0, 1, 31, 32] {
        assert_eq!(entries(&address_words(&some_entries(count)).unwrap()).unwrap(), some_entries(count));
    }
    for count in [0, 1, 255, 256] {
        assert_eq!(ranges(&route_words(&some_ranges(count)).unwrap()).unwrap(), some_ranges(count));
    }
    for count in [0, 1, 7, 8] {
        assert_eq!(templates(&plan_words(&some_templates(count)).unwrap()).unwrap(), some_templates(count));
    }
    assert_eq!(address_words(&some_entries(33)), Err(Refusal(7)));
    assert_eq!(route_words(&some_ranges(257)), Err(Refusal(7)));
    assert_eq!(plan_words(&some_templates(9)), Err(Refusal(25)));
}

#[test]
fn segments_that_have_no_words() {
    let plan = |segments| plan_words(&[Template { context_id: 2, segments, checksum: None }]);
    let one = |offset, length| plan(vec![Segment { offset, bytes: vec![1; length] }]);
    for (offset, length) in [(0, 128), (127, 1), (128, 0)] {
        assert_eq!(one(offset, length).map(|words| words[6..8].to_vec()), Ok(vec![offset as u64, length as u64]));
    }
    for (offset, length) in [(0, 129), (127, 2), (128, 1), (129, 0), (usize::MAX, 1)] {
        assert_eq!(one(offset, length), Err(Refusal(23)), "{length} bytes from {offset} on");
    }
    assert!(plan(vec![Segment { offset: 0, bytes: vec![] }; 8]).is_ok());
    assert_eq!(plan(vec![Segment { offset: 0, bytes: vec![] }; 9]), Err(Refusal(23)));
}

#[test]
fn words_that_are_no_list() {
    let addresses = address_words(&some_entries(2)).unwrap();
    let routes = route_words(&some_ranges(2)).unwrap();
    let plan = plan_words(&some_templates(2)).unwrap();
    // The words with another one at a place; the element there is the first, of IPv4 and with a checksum.
    let address = |at: usize, word| entries(&with(addresses, at, word));
    let route = |at: usize, word| ranges(&with(routes, at, word));
    let template = |at: usize, word| templates(&with(plan, at, word));

    for count in [33, 1 << 32, u64::MAX] {
        assert_eq!(address(0, count), None);
    }
    for count in [257, 1 << 32, u64::MAX] {
        assert_eq!(route(0, count), None);
    }
    for count in [9, 1 << 32, u64::MAX] {
        assert_eq!((template(0, count), template(2, count)), (None, None));
    }
    for version in [0, 5, 255] {
        assert_eq!((address(2, version), route(1, version)), (None, None));
    }
    // An IPv4 address of more than 32 bits.
    assert_eq!((address(3, 1), address(4, 1 << 32)), (None, None));
    for (high, low) in [(2, 3), (4, 5)] {
        assert_eq!((route(high, 1), route(low, 1 << 32)), (None, None));
    }
    for flag in [2, 256, u64::MAX] {
        assert_eq!(template(3, flag), None);
    }
    // The first segment has 1 byte from 30 on.
    for (at, word) in [(6, 128), (6, 129), (6, u64::MAX), (7, 99), (7, u64::MAX)] {
        assert_eq!(template(at, word), None, "word {at} is {word}");
    }
    assert!(template(6, 127).is_some() && template(7, 98).is_some());
}

#[test]
fn words_that_mean_nothing() {
    let high = 0xABCD_EF01_2345_0000;
    let addresses = address_words(&some_entries(1)).unwrap();
    assert_eq!(entries(&with(addresses, 2, addresses[2] + high)).unwrap(), some_entries(1));
    assert_eq!(entries(&with(addresses, 6, u64::MAX)).unwrap(), some_entries(1));
    let routes = route_words(&some_ranges(1)).unwrap();
    assert_eq!(ranges(&with(routes, 1, routes[1] + high)).unwrap(), some_ranges(1));
    assert_eq!(ranges(&with(routes, 6, u64::MAX)).unwrap(), some_ranges(1));
    let list = [Template { checksum: None, ..some_templates(1).remove(0) }];
    let plan = plan_words(&list).unwrap();
    // Field and start, a byte outside all segments, the bits above a static byte, the next template.
    for (at, word) in [(4, 7), (5, 7), (22, 7), (22 + 30, 1 + high), (TEMPLATE_WORDS + 2, 9)] {
        assert_eq!(templates(&with(plan, at, word)).unwrap(), list, "word {at} is {word}");
    }
}

fn with<const N: usize>(mut words: [u64; N], at: usize, word: u64) -> [u64; N] {
    words[at] = word;
    words
}

/// The words that the library makes, and what it makes of words that were built.
#[cfg(feature = "link")]
mod library {
    use super::*;
    use std::{fs, path::Path};
    use whapirohi_tunnel::{kind, number, write_request, State, CAPSULE_ROOM, PLAN_ROOM};

    #[test]
    fn lists_cross() {
        let (mut clinic, mut van) = (State::new(), State::new());
        let (mut out, mut requested) = ([0; CAPSULE_ROOM], [0; ADDRESS_WORDS]);

        let size = clinic.write_assign(&address_words(&some_entries(32)).unwrap(), &mut out).written().unwrap();
        let read = van.read_capsule(&out[..size], 0, &mut requested);
        assert_eq!((read.number, read.kind), (number::DONE, kind::ADDRESS_ASSIGN));
        assert_eq!(entries(&van.received_addresses).unwrap(), some_entries(32));
        assert_eq!(entries(&clinic.given_addresses).unwrap(), some_entries(32));

        let size = clinic.write_routes(&route_words(&some_ranges(256)).unwrap(), &mut out).written().unwrap();
        let read = van.read_capsule(&out[..size], 0, &mut requested);
        assert_eq!((read.number, read.kind), (number::DONE, kind::ROUTE_ADVERTISEMENT));
        assert_eq!(ranges(&van.received_routes).unwrap(), some_ranges(256));
        assert_eq!(ranges(&clinic.given_routes).unwrap(), some_ranges(256));

        let size = write_request(&address_words(&some_entries(32)).unwrap(), &mut out).written().unwrap();
        let read = clinic.read_capsule(&out[..size], 0, &mut requested);
        assert_eq!((read.number, read.kind), (number::DONE, kind::ADDRESS_REQUEST));
        assert_eq!(entries(&requested).unwrap(), some_entries(32));
    }

    #[test]
    fn the_library_judges_what_was_built() {
        let (mut clinic, mut out) = (State::new(), [0; CAPSULE_ROOM]);
        let host_bits = [Entry { request_id: 0, address: v4(1).into(), prefix_length: 24 }];
        let refused = clinic.write_assign(&address_words(&host_bits).unwrap(), &mut out).written();
        assert_eq!(refused, Err(Refusal(number::BAD_ADDRESS)));
        let backwards = [Range { protocol: 0, span: Span::V4(v4(9), v4(2)) }];
        let refused = clinic.write_routes(&route_words(&backwards).unwrap(), &mut out).written();
        assert_eq!(refused, Err(Refusal(number::BAD_RANGE)));
        let twice = vec![Segment { offset: 12, bytes: vec![1, 2] }; 2];
        clinic.plan = plan_words(&[Template { context_id: 2, segments: twice, checksum: None }]).unwrap();
        assert_eq!(clinic.write_plan(&mut out).written(), Err(Refusal(number::PLAN_RULE)));
    }

    #[test]
    fn templates_are_the_plan() {
        let mut state = State::new();
        let mut out = [0; PLAN_ROOM];
        state.plan = plan_words(&some_templates(8)).unwrap();
        let size = state.write_plan(&mut out).written().unwrap();
        let mut other = State::new();
        assert_eq!(other.load_plan(&out[..size]), number::DONE);
        assert_eq!(other.plan, state.plan);
    }

    #[test]
    fn plan_files_come_back() {
        let mut good = 0;
        let directory = Path::new(env!("CARGO_MANIFEST_DIR")).join("../../examples/plans");
        for file in fs::read_dir(directory).unwrap() {
            let path = file.unwrap().path();
            let mut state = State::new();
            if path.extension().is_none_or(|e| e != "hex") || state.load_plan(&bytes_of(&path)) != number::DONE {
                continue;
            }
            let list = templates(&state.plan).unwrap();
            let words = plan_words(&list).unwrap();
            assert_eq!(words, state.plan, "{}", path.display());
            let mut out = [0; PLAN_ROOM];
            let size = State { plan: words, ..State::new() }.write_plan(&mut out).written().unwrap();
            assert_eq!(out[..size], bytes_of(&path), "{}", path.display());
            good += 1;
        }
        assert!(good >= 9, "{good} good plans");
    }

    /// The bytes of lines of hex; `#` starts a comment.
    fn bytes_of(path: &Path) -> Vec<u8> {
        let text = fs::read_to_string(path).unwrap();
        let digits: String = text.lines().flat_map(|line| line.split('#').next().unwrap().split_whitespace()).collect();
        digits.as_bytes().chunks(2).map(|two| u8::from_str_radix(str::from_utf8(two).unwrap(), 16).unwrap()).collect()
    }
}

const HEADER: &str = include_str!("../../../include/whapirohi.h");
const NAMES: &str = include_str!("../src/names.rs");
const DOCUMENT: &str = include_str!("../../../docs/NUMBERS.md");
const RATTLE: &str = include_str!("../../../crates/answer/src/lib.rt");

/// The names and values up to the first brace behind `opening`, in lines such as `WHAPIROHI_DONE = 0,` or `pub const DONE: u64 = 0;`.
fn constants<'a>(text: &'a str, opening: &str, prefix: &str) -> Vec<(&'a str, u64)> {
    let (_, rest) = text.split_once(opening).unwrap();
    let (block, _) = rest.split_once('}').unwrap();
    let constant = |line: &'a str| {
        let (name, value) = line.trim().strip_prefix(prefix)?.split_once(" = ")?;
        Some((name.trim_end_matches(": u64"), value.trim_end_matches([',', ';']).parse().unwrap()))
    };
    block.lines().filter_map(constant).collect()
}

fn header_numbers() -> Vec<(&'static str, u64)> {
    constants(HEADER, "/* The numbers that", "WHAPIROHI_")
}

#[test]
fn the_header_has_the_same_names() {
    let numbers = constants(NAMES, "pub mod number {", "pub const ");
    assert_eq!(header_numbers(), numbers);
    assert_eq!(numbers.iter().map(|(_, value)| *value).collect::<Vec<_>>(), REASONS.map(|(value, _)| value));
    let kinds = constants(NAMES, "pub mod kind {", "pub const ");
    assert_eq!(constants(HEADER, "/* The kinds of capsules", "WHAPIROHI_"), kinds);
    assert_eq!(kinds.len(), 5);
}

#[test]
fn the_header_has_the_same_reasons() {
    let numbers = header_numbers();
    let said = |line: &'static str| {
        let (name, words) = line.trim().strip_prefix("case WHAPIROHI_")?.split_once(": return \"")?;
        let (_, number) = *numbers.iter().find(|(other, _)| *other == name).unwrap();
        Some((number, words.strip_suffix("\";").unwrap()))
    };
    assert_eq!(HEADER.lines().filter_map(said).collect::<Vec<_>>(), REASONS);
    assert!(HEADER.contains(&format!("default: return \"{}\";", reason(8))));
}

/// The rows of the document's tables, cell by cell.
fn rows() -> Vec<Vec<&'static str>> {
    let cells = |line: &'static str| line.trim_matches('|').split('|').map(str::trim).collect::<Vec<_>>();
    DOCUMENT
        .lines()
        .filter(|line| line.starts_with("| "))
        .map(cells)
        .filter(|row| row[0].parse::<u64>().is_ok())
        .collect()
}

#[test]
fn the_document_has_the_same_tables() {
    let kinds = constants(HEADER, "/* The kinds of capsules", "WHAPIROHI_");
    let names = header_numbers()
        .into_iter()
        .chain(kinds)
        .map(|(name, value)| (value.to_string(), format!("`WHAPIROHI_{name}`")));
    assert_eq!(
        rows().iter().map(|row| (row[0].to_string(), row[1].to_string())).collect::<Vec<_>>(),
        names.collect::<Vec<_>>()
    );
    for (row, (number, words)) in rows().iter().zip(REASONS) {
        assert_eq!(row[3], words, "{number}");
        let rattle = format!("{} => {number},", row[2].trim_matches('`'));
        assert!(number == 0 || RATTLE.lines().any(|line| line.trim() == rattle), "{rattle}");
    }
}

#[test]
fn a_number_in_words() {
    assert_eq!((reason(0), reason(12), reason(25)), ("done", "not granted", "plan breaks a rule of Context IDs"));
    for number in [8, 17, 18, 19, 26, 1 << 32, u64::MAX] {
        assert_eq!(reason(number), "unknown number");
    }
    assert_eq!(Refusal(7).to_string(), "refused 7: list too long");
}

#[test]
fn a_range_has_one_version() {
    assert_eq!(Span::new(v4(1).into(), v4(2).into()), Some(Span::V4(v4(1), v4(2))));
    assert_eq!(Span::new(v6(1).into(), v6(2).into()), Some(Span::V6(v6(1), v6(2))));
    assert_eq!(Span::new(v4(1).into(), v6(2).into()), None);
    assert_eq!(Span::new(v6(1).into(), v4(2).into()), None);
}

#[test]
fn declined_entries() {
    let entry =
        |address: &str, prefix_length| Entry { request_id: 1, address: address.parse().unwrap(), prefix_length };
    assert!(entry("0.0.0.0", 32).is_declined() && entry("::", 128).is_declined());
    for (address, prefix_length) in
        [("0.0.0.0", 31), ("0.0.0.0", 0), ("::", 32), ("::", 0), ("0.0.0.1", 32), ("::1", 128)]
    {
        assert!(!entry(address, prefix_length).is_declined(), "{address}/{prefix_length}");
    }
}
