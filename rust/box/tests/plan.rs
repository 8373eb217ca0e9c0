//! Plans as text, captures, and what is told of both.

use std::collections::BTreeMap;
use std::path::Path;
use std::time::Duration;
use whapirohi_box::explain::explain;
use whapirohi_box::fields::{self, IP4, IP6, TCP, UDP};
use whapirohi_box::pcap::{self, packets, Captured};
use whapirohi_box::plan_text::{make, show};
use whapirohi_box::text::{hex, unhex};
use whapirohi_tunnel::{
    plan_words, Checksum, Refusal, Segment, State, Template, MAX_SEGMENTS, PLAN_ROOM, STATIC_LIMIT,
};

const DRIVERS: &str = "56414e0001010201 0c0c c0000203c633640203e807d0 011a14";
const DRIVERS_LINE: &str = "2 ip4.src=192.0.2.3 ip4.dst=198.51.100.2 udp.sport=1000 udp.dport=2000 checksum=udp\n";
const DRIVERS_PACKET: &str = "4500001c000000004011 8e98 c0000203c6336402 03e807d0000807ed";

fn bytes(text: &str) -> Vec<u8> {
    unhex(&text.replace(' ', "")).unwrap()
}

/// A small generator (xorshift64) with a fixed seed.
struct Random(u64);

impl Random {
    fn below(&mut self, limit: usize) -> usize {
        self.0 ^= self.0 << 13;
        self.0 ^= self.0 >> 7;
        self.0 ^= self.0 << 17;
        (self.0 >> 11) as usize % limit
    }

    fn bytes(&mut self, length: usize) -> Vec<u8> {
        (0..length).map(|_| self.below(256) as u8).collect()
    }

    fn pick<T: Copy>(&mut self, items: &[T]) -> T {
        items[self.below(items.len())]
    }

    /// A template that may be sound: its segments often touch, and start and end where fields do.
    fn template(&mut self, context_id: u64) -> Template {
        const EDGES: [usize; 24] =
            [0, 1, 2, 4, 6, 7, 8, 9, 10, 12, 16, 20, 22, 24, 26, 28, 32, 36, 38, 40, 42, 44, 46, 56];
        const PAIRS: [(usize, usize); 6] = [(26, 20), (36, 20), (46, 40), (56, 40), (26, 24), (28, 20)];
        let mut places: Vec<usize> = (0..2 + self.below(2 * MAX_SEGMENTS))
            .map(|_| if self.below(4) == 0 { self.below(STATIC_LIMIT + 1) } else { self.pick(&EDGES) })
            .collect();
        places.sort_unstable();
        places.dedup();
        let mut segments = Vec::new();
        for pair in places.windows(2) {
            if self.below(2) == 0 {
                segments.push(Segment { offset: pair[0], bytes: self.bytes(pair[1] - pair[0]) });
            }
        }
        segments.truncate(self.below(MAX_SEGMENTS + 1));
        for segment in &mut segments {
            let ends = segment.offset + segment.bytes.len();
            for (at, values) in [(0, &[0x45, 0x60, 0x46][..]), (6, &[17, 6]), (9, &[17, 6])] {
                if (segment.offset..ends).contains(&at) && self.below(4) != 0 {
                    segment.bytes[at - segment.offset] = self.pick(values);
                }
            }
        }
        let (field, start) = if self.below(4) == 0 { (self.below(130), self.below(130)) } else { self.pick(&PAIRS) };
        let checksum = (self.below(3) != 0).then_some(Checksum { field, start });
        Template { context_id, segments, checksum }
    }

    fn plan(&mut self) -> Vec<Template> {
        let mut ids: Vec<u64> =
            (0..self.below(9)).map(|_| self.pick(&[1, 60, 1 << 14, 1 << 40]) + self.below(90) as u64).collect();
        ids.sort_unstable();
        ids.dedup();
        let candidates: Vec<Template> = ids.into_iter().map(|id| self.template(id)).collect();
        candidates.into_iter().filter(|template| file(std::slice::from_ref(template)).is_ok()).collect()
    }
}

/// The file of a plan, by the library alone.
fn file(plan: &[Template]) -> Result<Vec<u8>, Refusal> {
    let mut state = State::new();
    state.plan = plan_words(plan)?;
    let mut out = [0; PLAN_ROOM];
    let length = state.write_plan(&mut out).written()?;
    Ok(out[..length].to_vec())
}

#[test]
fn the_drivers_plan() {
    assert_eq!(show(&bytes(DRIVERS)).unwrap(), DRIVERS_LINE);
    assert_eq!(hex(&make(DRIVERS_LINE).unwrap()), DRIVERS.replace(' ', ""));
    assert_eq!(make("2 checksum=26,20 12=c0000203C633640203e807d0 # raw").unwrap(), bytes(DRIVERS));
}

#[test]
fn every_plan_of_the_examples() {
    let directory = Path::new(env!("CARGO_MANIFEST_DIR")).join("../../examples/plans");
    let (mut sound, mut refused) = (0, 0);
    for entry in std::fs::read_dir(directory).unwrap() {
        let path = entry.unwrap().path();
        if path.extension().is_none_or(|extension| extension != "hex") {
            continue;
        }
        let text = std::fs::read_to_string(&path).unwrap();
        let digits: String =
            text.lines().flat_map(|line| line.split('#').next()).flat_map(str::split_whitespace).collect();
        let file = unhex(&digits).unwrap();
        let name = path.file_stem().unwrap().to_str().unwrap();
        match name.strip_prefix("refused-") {
            Some(rest) => {
                let number = rest[..2].parse().unwrap();
                assert_eq!(show(&file), Err(Refusal(number)), "{name}");
                refused += 1;
            }
            None => {
                let text = show(&file).unwrap();
                assert_eq!(make(&text).as_ref(), Ok(&file), "{name}: {text}");
                sound += 1;
            }
        }
    }
    assert!(sound >= 9 && refused >= 30, "{sound} {refused}");
}

#[test]
fn random_sound_plans_come_back() {
    let mut random = Random(0x5eed);
    let mut seen: BTreeMap<&str, usize> = BTreeMap::new();
    let mut texts = BTreeMap::new();
    for _ in 0..6000 {
        let file = file(&random.plan()).unwrap();
        let text = show(&file).unwrap();
        assert_eq!(make(&text).as_ref(), Ok(&file), "{text}");
        for what in [" | ", "ip4.", "ip6.", "udp.", "tcp.", "checksum=udp", "checksum=tcp", ",20", ",40", " 0=", "# no"]
        {
            *seen.entry(what).or_default() += usize::from(text.contains(what));
        }
        // Two plans never have one text.
        assert_eq!(texts.entry(text).or_insert_with(|| file.clone()), &file);
    }
    assert!(seen.values().all(|count| *count > 20), "{seen:?}");
}

#[test]
fn every_field_is_read_as_it_is_shown() {
    let mut random = Random(7);
    for field in IP4.iter().chain(&IP6).chain(&UDP).chain(&TCP) {
        assert_eq!(fields::find(field.name).map(|(_, found)| found), Some(field));
        for _ in 0..100 {
            let value = random.bytes(field.length);
            assert_eq!(field.read(&field.show(&value)), Some(value), "{}", field.name);
        }
        let most = vec![0xff; field.length];
        assert_eq!(field.read(&field.show(&most)), Some(most));
    }
}

#[test]
fn fields_stand_where_the_headers_have_them() {
    let raw = |text: &str| make(text).unwrap();
    let four =
        "1 ip4.version_ihl=0x45 ip4.tos=1 ip4.length=0x203 ip4.id=0x405 ip4.fragment=0x4007 ip4.ttl=8 ip4.protocol=9 \
                ip4.checksum=0xa0b ip4.src=12.13.14.15 ip4.dst=16.17.18.19";
    let in_order: String = (0..20).map(|i| format!("{i:02x}")).collect();
    let front = in_order.replacen("00", "45", 1).replacen("06", "40", 1);
    assert_eq!(raw(four), raw(&format!("1 0={front}")));
    let udp = "udp.sport=0x1415 udp.dport=0x1617 udp.length=0x1819 checksum=udp";
    assert_eq!(raw(&format!("1 ip4.tos=1 {udp}")), raw("1 1=01 20=141516171819 checksum=26,20"));
    assert_eq!(raw(&format!("1 ip6.hops=1 {udp}")), raw("1 7=01 40=141516171819 checksum=46,40"));
    let tcp = "tcp.sport=1 tcp.dport=2 tcp.seq=3 tcp.ack=4 tcp.offset=0x50 tcp.flags=16 tcp.window=5 tcp.urgent=6 checksum=tcp";
    let behind = "00010002000000030000000450100005";
    assert_eq!(raw(&format!("1 ip4.tos=1 {tcp}")), raw(&format!("1 1=01 20={behind} 38=0006 checksum=36,20")));
    assert_eq!(raw(&format!("1 ip6.hops=1 {tcp}")), raw(&format!("1 7=01 40={behind} 58=0006 checksum=56,40")));
    let six = "1 ip6.version_class_flow=0x60000000 ip6.length=9 ip6.next=17 ip6.hops=63 ip6.src=2001:db8::1 ip6.dst=2001:db8::2";
    let addresses = "20010db800000000000000000000000120010db8000000000000000000000002";
    assert_eq!(raw(six), raw(&format!("1 0=600000000009113f{addresses}")));
    let parts = "1 ip6.flow=0 ip6.class_flow=0 ip6.version_class=0x60";
    assert_eq!(raw(parts), raw("1 ip6.version_class_flow=0x60000000"));
}

#[test]
fn show_gives_names_only_where_it_is_sure() {
    for (text, shown) in [
        // Without byte 0 or a checksum the version is not known.
        ("1 ip4.src=192.0.2.3", "1 12=c0000203"),
        ("1 ip6.src=2001:db8::1", "1 8=20010db8000000000000000000000001"),
        // Byte 0 tells it; a protocol tells the transport.
        ("1 0=4500 9=11 20=0035", "1 ip4.version_ihl=0x45 ip4.tos=0x00 ip4.protocol=17 udp.sport=53"),
        ("1 0=60 6=06 40=0035", "1 ip6.version_class=0x60 ip6.next=6 tcp.sport=53"),
        ("1 0=4500 20=0035", "1 ip4.version_ihl=0x45 ip4.tos=0x00 20=0035"),
        // Options: the transport is not at 20.
        ("1 0=46 9=11 20=0035", "1 ip4.version_ihl=0x46 ip4.protocol=17 20=0035"),
        // Protocol and checksum that disagree.
        ("1 0=45 9=11 checksum=36,20", "1 ip4.version_ihl=0x45 ip4.protocol=17 checksum=36,20"),
        ("1 9=11 checksum=26,20", "1 ip4.protocol=17 checksum=udp"),
        // No name of the IP header, so none behind it.
        ("1 20=03e807d0 checksum=26,20", "1 20=03e807d0 checksum=26,20"),
        // Half of a field.
        ("1 12=c000 14=02 16=c6336402 checksum=26,20", "1 12=c00002 ip4.dst=198.51.100.2 checksum=udp"),
        ("1 10=8f98c00002 checksum=26,20", "1 ip4.checksum=0x8f98 12=c00002 checksum=udp"),
        ("1 0=75", "1 0=75"),
        ("0x10 checksum=126,20", "16 checksum=126,20"),
        ("", "# no templates"),
    ] {
        let file = make(text).unwrap();
        assert_eq!(show(&file).unwrap(), format!("{shown}\n"), "{text}");
        assert_eq!(make(shown), Ok(file), "{shown}");
    }
}

#[test]
fn segments_that_touch_are_told_apart() {
    let merged = make("2 ip4.src=192.0.2.3 ip4.dst=198.51.100.2 checksum=udp").unwrap();
    let apart = make("2 ip4.src=192.0.2.3 | ip4.dst=198.51.100.2 checksum=udp").unwrap();
    assert_eq!(merged, bytes("56414e000101 0201 0c08c0000203c6336402 011a14"));
    assert_eq!(apart, bytes("56414e000101 0202 0c04c0000203 1004c6336402 011a14"));
    assert_eq!(show(&apart).unwrap(), "2 ip4.src=192.0.2.3 | ip4.dst=198.51.100.2 checksum=udp\n");
    // Words stand in any order, and a `|` goes with the word behind it.
    assert_eq!(make("2 checksum=udp | ip4.dst=198.51.100.2 ip4.src=192.0.2.3"), Ok(apart));
    assert_eq!(make("2 checksum=udp ip4.dst=198.51.100.2 | ip4.src=192.0.2.3"), Ok(merged));
    // A field that two segments share has no name.
    let halves = make("1 0=45 12=c000 | 14=0203").unwrap();
    assert_eq!(show(&halves).unwrap(), "1 ip4.version_ihl=0x45 12=c000 | 14=0203\n");
}

#[test]
fn faults_name_the_line_and_the_word() {
    let nine: String = (1..10).map(|id| format!("{id} 0=45\n")).collect();
    let nine_segments: String = (0..9).map(|i| format!(" {}=00", 2 * i)).collect();
    for (text, line, parts) in [
        ("x 0=45", 1, &["x:", "Context ID"][..]),
        ("-1 0=45", 1, &["-1:", "Context ID"]),
        ("\n# all\n1 0=45 nonsense", 3, &["nonsense:"]),
        ("1 0=4", 1, &["0=4:", "hex"]),
        ("1 0=", 1, &["0=:", "hex"]),
        ("1 0=zz", 1, &["0=zz:", "hex"]),
        ("1 0x0=45", 1, &["0x0=45:", "offset"]),
        ("1 99999999=45", 1, &["99999999=45:", "offset"]),
        ("1 =45", 1, &["=45:"]),
        ("1 ip4.nothing=1", 1, &["ip4.nothing=1:", "no field ip4.nothing"]),
        ("1 ip5.src=1", 1, &["ip5.src=1:", "no field"]),
        ("1 ip4.ttl=256", 1, &["ip4.ttl=256:", "below 256"]),
        ("1 ip4.ttl=+5", 1, &["ip4.ttl=+5:", "below 256"]),
        ("1 ip4.ttl=0x", 1, &["ip4.ttl=0x:", "below 256"]),
        ("1 ip4.src=1.2.3", 1, &["ip4.src=1.2.3:", "IPv4 address"]),
        ("1 ip6.src=1.2.3.4", 1, &["ip6.src=1.2.3.4:", "IPv6 address"]),
        ("1 0=45\n2 udp.sport=1", 2, &["udp.sport=1:", "add an ip4 or ip6 field"]),
        ("1 0=45 checksum=tcp", 1, &["checksum=tcp:", "add an ip4 or ip6 field"]),
        ("1 ip4.tos=0 ip6.hops=1 udp.sport=1", 1, &["ip4.tos=0 and ip6.hops=1:"]),
        ("1 ip4.tos=0 udp.sport=1 checksum=tcp", 1, &["udp.sport=1 and checksum=tcp:"]),
        ("1 ip4.tos=0 checksum=udp checksum=26,20", 1, &["checksum=26,20:", "second"]),
        ("1 0=45 checksum=sctp", 1, &["checksum=sctp:", "udp, tcp or FIELD,START"]),
        ("1 0=45 checksum=26", 1, &["checksum=26:", "udp, tcp or FIELD,START"]),
        ("1 0=45 checksum=26,-20", 1, &["checksum=26,-20:"]),
        ("1 12=c0000203 ip4.src=192.0.2.3", 1, &["12=c0000203 and ip4.src=192.0.2.3:", "overlap"]),
        ("1 14=0203 0=45 ip4.src=192.0.2.3", 1, &["ip4.src=192.0.2.3 and 14=0203:", "overlap"]),
        ("1 0=4500 1=00", 1, &["0=4500 and 1=00:", "overlap"]),
        ("1 0=45 |", 1, &["|:"]),
        ("1 0=45 | | 1=00", 1, &["|:"]),
        ("1 0=45 | checksum=26,20", 1, &["checksum=26,20:"]),
        ("0 0=45", 1, &["refused 25:", "in full"]),
        ("0x4000000000000000 0=45", 1, &["refused 25:", "2^62"]),
        ("1 0=45\n\n1 0=46", 3, &["refused 25:", "ascend"]),
        ("2 0=45\n1 0=46\n3 0=47", 2, &["refused 25:", "ascend"]),
        (&nine, 9, &["refused 25:", "at most 8 templates"]),
        (&format!("1 0=45\n2{nine_segments}"), 2, &["refused 23:", "at most 8 segments"]),
        ("1 127=0102", 1, &["refused 23:", "128"]),
        ("1 60000=01", 1, &["refused 23:", "128"]),
        ("1", 1, &["refused 23:", "bytes, or a checksum"]),
        ("1 20=03e807d000080000 checksum=26,20", 1, &["refused 23:", "leave them out"]),
        ("1 ip4.tos=0 27=00 checksum=udp", 1, &["refused 23:", "leave them out"]),
        ("1 checksum=27,20", 1, &["refused 23:", "even"]),
        ("1 checksum=128,20", 1, &["refused 23:", "126"]),
        ("1 checksum=18,18", 1, &["refused 23:", "20 <= START"]),
    ] {
        let fault = make(text).expect_err(text);
        assert_eq!(fault.line, line, "{text}: {fault:?}");
        for part in parts {
            assert!(fault.reason.contains(part), "{text}: {fault:?} lacks {part}");
        }
    }
}

#[test]
fn any_text_gets_an_answer() {
    const PARTS: [&str; 26] = [
        "1",
        "2",
        "0",
        " ",
        " ",
        " ",
        "=",
        "|",
        " | ",
        "\n",
        "#",
        ".",
        ",",
        "ip4.src",
        "ip6.dst",
        "udp.sport",
        "tcp.",
        "checksum",
        "0x",
        "192.0.2.3",
        "::",
        "45",
        "é",
        "4611686018427387904",
        "\u{2028}",
        "\r",
    ];
    let mut random = Random(99);
    let mut made = 0;
    for _ in 0..30_000 {
        let text: String = (0..random.below(14)).map(|_| random.pick(&PARTS)).collect();
        if let Ok(file) = make(&text) {
            assert_eq!(make(&show(&file).unwrap()), Ok(file), "{text}");
            made += 1;
        }
        let _ = make(&String::from_utf8_lossy(&random.bytes(40)));
    }
    assert!(made > 1000);
}

// ---- captures

/// A capture of frames, in either byte order.
fn capture(magic: u32, link: u32, big_endian: bool, frames: &[(&[u8], usize)]) -> Vec<u8> {
    let word = |word: u32| if big_endian { word.to_be_bytes() } else { word.to_le_bytes() };
    let half = |half: u16| if big_endian { half.to_be_bytes() } else { half.to_le_bytes() };
    let mut out = [&word(magic)[..], &half(2), &half(4), &word(0), &word(0), &word(65535), &word(link)].concat();
    for (frame, original) in frames {
        out.extend([word(1), word(2), word(frame.len() as u32), word(*original as u32)].concat());
        out.extend(*frame);
    }
    out
}

fn ethernet(types: &str, packet: &[u8], padding: usize) -> Vec<u8> {
    [&[2; 12][..], &bytes(types), packet, &vec![0xee; padding]].concat()
}

fn whole(frames: &[Vec<u8>]) -> Vec<(&[u8], usize)> {
    frames.iter().map(|frame| (&frame[..], frame.len())).collect()
}

#[test]
fn captures_in_both_byte_orders() {
    let packet = bytes(DRIVERS_PACKET);
    for magic in [0xa1b2c3d4, 0xa1b23c4d] {
        for big_endian in [false, true] {
            for link in [12, 14, 101, 228, 229, 0x1000_0065] {
                let capture = capture(magic, link, big_endian, &[(&packet, 28), (&packet[..20], 28), (&packet, 28)]);
                let expected = vec![Captured::Packet(&packet), Captured::Shortened, Captured::Packet(&packet)];
                assert_eq!(packets(&capture), Ok(expected));
            }
        }
    }
}

#[test]
fn frames_with_types() {
    let four = bytes(DRIVERS_PACKET);
    let mut six = bytes("60000000 0003 3b40");
    six.resize(43, 9);
    let cooked = |kind: &str, packet: &[u8]| [&[0; 14][..], &bytes(kind), packet].concat();
    let cooked2 = |kind: &str, packet: &[u8]| [&bytes(kind)[..], &[0; 18], packet].concat();
    let is = |frame: Vec<u8>, link: u32, expected: Captured| {
        let capture = capture(0xa1b2c3d4, link, false, &whole(&[frame]));
        assert_eq!(packets(&capture), Ok(vec![expected]));
    };
    is(ethernet("0800", &four, 0), 1, Captured::Packet(&four));
    is(ethernet("0800", &four, 18), 1, Captured::Packet(&four));
    is(ethernet("86dd", &six, 3), 1, Captured::Packet(&six));
    is(ethernet("8100 0007 0800", &four, 14), 1, Captured::Packet(&four));
    is(ethernet("88a8 0007 8100 0008 86dd", &six, 0), 1, Captured::Packet(&six));
    is(ethernet("88a8 0007 8100 0008 8100 0009 0800", &four, 0), 1, Captured::NotIp);
    is(ethernet("0806", &four, 0), 1, Captured::NotIp);
    is(ethernet("8100 00", &[], 0), 1, Captured::NotIp);
    is(vec![1, 2, 3], 1, Captured::NotIp);
    is(cooked("0800", &four), 113, Captured::Packet(&four));
    is(cooked("86dd", &six), 113, Captured::Packet(&six));
    is(cooked2("0800", &four), 276, Captured::Packet(&four));
    is(cooked2("0806", &four), 276, Captured::NotIp);
    // A packet that says it is longer than its frame is left as it is: the box refuses its form.
    is(ethernet("0800", &four[..24], 0), 1, Captured::Packet(&four[..24]));
}

#[test]
fn captures_that_are_none_or_cut() {
    let packet = bytes(DRIVERS_PACKET);
    let sound = capture(0xa1b2c3d4, 101, false, &[(&packet, 28), (&packet, 28)]);
    let record = 16 + packet.len();
    for length in 0..sound.len() {
        let found = packets(&sound[..length]);
        match length.checked_sub(24) {
            None => assert!(found.unwrap_err().contains("no pcap")),
            Some(rest) => {
                let mut expected = vec![Captured::Packet(&packet); rest / record];
                expected.extend((rest % record != 0).then_some(Captured::Cut));
                assert_eq!(found, Ok(expected));
            }
        }
    }
    let mut lying = sound.clone();
    lying[32..36].copy_from_slice(&[0xff; 4]);
    assert_eq!(packets(&lying), Ok(vec![Captured::Cut]));
    let pcapng = packets(&bytes("0a0d0d0a1c0000004d3c2b1a")).unwrap_err();
    assert!(pcapng.contains("tcpdump -r") && pcapng.contains("editcap -F pcap"), "{pcapng}");
    assert!(packets(&capture(0xa1b2c3d4, 105, true, &[])).unwrap_err().contains("105"));
    assert!(packets(&[7; 100]).unwrap_err().contains("no pcap"));
}

#[test]
fn written_captures_are_read() {
    let mut out = Vec::new();
    pcap::write_header(&mut out).unwrap();
    assert_eq!(packets(&out), Ok(vec![]));
    let sent = [bytes(DRIVERS_PACKET), vec![0x60; 1500], vec![]];
    for (i, packet) in sent.iter().enumerate() {
        pcap::write_packet(&mut out, Duration::from_millis(1500 * i as u64), packet).unwrap();
    }
    assert_eq!(packets(&out), Ok(sent.iter().map(|packet| Captured::Packet(packet)).collect()));
    // 1.5 seconds, in the second record.
    assert_eq!(out[24 + 16 + 28..][..8], bytes("00000001 0007a120"));
}

#[test]
fn any_bytes_get_an_answer() {
    let mut random = Random(3);
    let plan = bytes(DRIVERS);
    let templates =
        make("1 0=45\n2 ip4.ttl=63 checksum=tcp\n3 ip6.hops=63 checksum=udp\n4 120=0102030405060708").unwrap();
    for i in 0..3000 {
        let length = random.below(300);
        let noise = random.bytes(length);
        let _ = (packets(&noise), explain(&noise, &noise), explain(&plan, &noise), show(&noise));
        // Noise in a sound capture and a sound plan.
        let frames: Vec<Vec<u8>> = (0..3)
            .map(|_| {
                let length = random.below(80);
                let mut frame = random.bytes(length);
                frame.iter_mut().take(1).for_each(|first| *first = [0x45, 0x60, 0x4f][i % 3]);
                frame
            })
            .collect();
        let mut capture = capture(0xa1b2c3d4, [1, 101, 113, 276][i % 4], i % 8 < 4, &whole(&frames));
        assert!(explain(&templates, &capture).is_ok());
        let at = random.below(capture.len());
        capture[at] = random.below(256) as u8;
        let _ = explain(&templates, &capture);
    }
}

// ---- explain

/// The folded sum of 16-bit words, an odd last byte padded with 0.
fn sum(bytes: &[u8]) -> u16 {
    let mut sum: u32 =
        bytes.chunks(2).map(|pair| 256 * u32::from(pair[0]) + u32::from(*pair.get(1).unwrap_or(&0))).sum();
    while sum > 0xffff {
        sum = (sum & 0xffff) + (sum >> 16);
    }
    sum as u16
}

/// A sound IPv4 packet from 192.0.2.3 to 198.51.100.2.
fn packet4(ttl: u8, protocol: u8, body: &[u8]) -> Vec<u8> {
    let mut packet = [&bytes("4500 0000 0001 4000 0000 0000 c0000203 c6336402")[..], body].concat();
    packet[8..10].copy_from_slice(&[ttl, protocol]);
    sealed(packet)
}

/// The packet with the length and the header checksum that are its own.
fn sealed(mut packet: Vec<u8>) -> Vec<u8> {
    let length = packet.len() as u16;
    packet[2..4].copy_from_slice(&length.to_be_bytes());
    packet[10..12].fill(0);
    let header = !sum(&packet[..4 * usize::from(packet[0] & 15)]);
    packet[10..12].copy_from_slice(&header.to_be_bytes());
    packet
}

/// A UDP header and its payload, with the checksum that fits.
fn udp(sport: u16, dport: u16, payload: &[u8]) -> Vec<u8> {
    let length = 8 + payload.len() as u16;
    let mut body = [&sport.to_be_bytes()[..], &dport.to_be_bytes(), &length.to_be_bytes(), &[0; 2], payload].concat();
    let pseudo = [&bytes("c0000203 c6336402 0011")[..], &length.to_be_bytes(), &body].concat();
    body[6..8].copy_from_slice(&(!sum(&pseudo)).to_be_bytes());
    body
}

fn packet6(flow: u32, hops: u8, next: u8, body: &[u8]) -> Vec<u8> {
    let mut packet = (0x6000_0000 | flow).to_be_bytes().to_vec();
    packet.extend((body.len() as u16).to_be_bytes());
    packet.extend([next, hops]);
    packet.extend(bytes("20010db8000000000000000000000001 20010db8000000000000000000000002"));
    packet.extend(body);
    packet
}

fn raw(packets: &[Vec<u8>]) -> Vec<u8> {
    let mut out = Vec::new();
    pcap::write_header(&mut out).unwrap();
    for packet in packets {
        pcap::write_packet(&mut out, Duration::ZERO, packet).unwrap();
    }
    out
}

fn told(plan: &str, packets: &[Vec<u8>]) -> String {
    explain(&make(plan).unwrap(), &raw(packets)).unwrap()
}

#[test]
fn the_drivers_packet_goes_short() {
    let expected = format!(
        "1 packet: 1 short, 0 full, 0 refused\n29 bytes if all went in full, 17 as sent: 41.4% saved\n\n{DRIVERS_LINE}  \
         fits 1 packet, carries 1, saves 12 bytes: 12.0 a packet\n"
    );
    assert_eq!(explain(&bytes(DRIVERS), &raw(&[bytes(DRIVERS_PACKET)])).unwrap(), expected);
    // Checksums 07 EE and 0: in full.
    for (found, note) in [("07ee", "not 0 in 1 packet (damaged"), ("0000", "0 in 1 packet")] {
        let packet = bytes(&DRIVERS_PACKET.replace("07ed", found));
        let told = explain(&bytes(DRIVERS), &raw(&[packet])).unwrap();
        assert!(told.starts_with(
            "1 packet: 0 short, 1 full, 0 refused\n29 bytes if all went in full, 29 as sent: 0.0% saved\n"
        ));
        assert!(told.contains("fits 0 packets, carries 0, saves 0 bytes: 0.0 a packet\n  misses 1 packet\n"), "{told}");
        assert!(told.contains(&format!("    udp.checksum: does not match; {note}")), "{told}");
    }
}

#[test]
fn misses_are_named() {
    let good = udp(1000, 2000, b"hello");
    let plan = "1 ip4.version_ihl=0x45 ip4.ttl=64 ip4.src=192.0.2.3 udp.dport=2000 checksum=udp";
    let mut packets = vec![packet4(64, 17, &good); 120];
    packets.extend(vec![packet4(128, 17, &good); 2]);
    packets.extend(vec![packet4(65, 17, &good); 7]);
    packets.extend(vec![packet4(65, 17, &udp(1000, 53, b"x")); 3]);
    packets.push(packet4(65, 17, &udp(1000, 54, b"x")));
    packets.extend(vec![packet4(65, 6, &[0; 20]); 2]);
    packets.push(packet4(65, 17, &good[..3]));
    packets.push(packet6(0, 64, 58, b"ping"));
    packets.push(packet4(1, 17, &good));
    packets.push(vec![0x45; 10]);
    packets.push(vec![0x45; 1501]);
    let told = told(plan, &packets);
    let lines: Vec<&str> = told.lines().collect();
    let expected = [
        "140 packets: 7 short, 130 full, 3 refused",
        "refused 10: bad packet form: 1 packet",
        "refused 11: hop count spent: 1 packet",
        "refused 15: packet too long: 1 packet",
        "", // the bytes, below
        "",
        "1 ip4.version_ihl=0x45 ip4.ttl=64 ip4.src=192.0.2.3 udp.dport=2000 checksum=udp",
        "  fits 7 packets, carries 7, saves 56 bytes: 8.0 a packet",
        "  misses 130 packets",
        "    ip4.ttl: 64 in the template; 63 in 120 packets (compared after sending lowers it: for packets that come with 64, write 63), 127 in 2 packets",
        "    udp.dport: 2000 in the template; 53 in 3 packets, 54 in 1 packet",
        "    not IPv4 UDP; IPv4 TCP in 2 packets, IPv6 next header 58 in 1 packet",
        "    too short for a template that reaches 28 bytes; 23 bytes in 1 packet",
    ];
    for (i, line) in expected.iter().enumerate() {
        assert!(line.is_empty() || lines[i] == *line, "{}\nis not\n{line}", lines[i]);
    }
    let full: usize = packets
        .iter()
        .filter(|packet| packet.len() < 1501 && packet.len() > 10 && packet[8] != 1)
        .map(|packet| packet.len() + 1)
        .sum();
    let share = 5600.0 / full as f64;
    assert_eq!(lines[4], format!("{full} bytes if all went in full, {} as sent: {share:.1}% saved", full - 56));
    assert_eq!(lines.len(), expected.len());
}

#[test]
fn packets_of_another_kind() {
    let plain = packet4(64, 17, &udp(1000, 2000, b"hello"));
    let (mut first, mut later, mut options) = (plain.clone(), plain.clone(), plain.clone());
    first[6] = 0x20;
    later[7] = 1;
    options[0] = 0x46;
    let packets = [plain, sealed(first), sealed(later), sealed(options), packet4(64, 1, &[8; 8])];
    let told = told("1 ip4.dst=198.51.100.9 checksum=udp", &packets);
    assert!(told.contains("    ip4.dst: 198.51.100.9 in the template; 198.51.100.2 in 2 packets\n"), "{told}");
    let kinds = "IPv4 later fragment in 1 packet, IPv4 protocol 1 in 1 packet, IPv4 with options in 1 packet";
    assert!(told.contains(&format!("    not IPv4 UDP; {kinds}\n")), "{told}");
}

#[test]
fn the_lowest_context_id_carries() {
    let plan = "1 12=c0000203\n2 12=c0000203c6336402\n0x3fffffffffffffff 0=45";
    let told = told(plan, &vec![packet4(64, 17, &udp(1, 2, b"")); 10]);
    assert!(told.contains("1 12=c0000203\n  fits 10 packets, carries 10, saves 40 bytes: 4.0 a packet\n"), "{told}");
    assert!(
        told.contains("2 12=c0000203c6336402\n  fits 10 packets, carries 0, saves 0 bytes: 0.0 a packet\n"),
        "{told}"
    );
    // A long Context ID and one static byte: such a datagram is longer than the full form.
    let told = self::told("0x3fffffffffffffff 0=45", &[packet4(64, 17, &udp(1, 2, b""))]);
    assert!(told.contains("carries 1, saves -6 bytes: -6.0 a packet\n") && told.contains("-20.7% saved"), "{told}");
}

#[test]
fn flow_labels_parts_and_unknown_headers() {
    let plan = "1 ip6.version_class_flow=0x60000000 ip6.next=17";
    let body = [0; 8];
    let packets = [packet6(5, 64, 17, &body), packet6(0xa0000, 64, 17, &body), packet6(0x10_0000, 64, 17, &body)];
    let told = told(plan, &packets);
    assert!(told.contains("    ip6.flow: 0x0000 in the template; 0x0005 in 1 packet (the flow label)\n"), "{told}");
    assert!(
        told.contains(
            "    ip6.class_flow: 0x00 in the template; 0x0a in 1 packet (the flow label), 0x10 in 1 packet (the traffic class)\n"
        ),
        "{told}"
    );
    let four = packet4(64, 17, &udp(1, 2, b"abc"));
    let told = self::told(
        "1 13=0102\n2 30=63\n3 30=64 checksum=32,20\n4 0=450000 checksum=26,20",
        std::slice::from_ref(&four),
    );
    assert!(told.contains("    ip4.src, bytes 13 to 14: 0x0102 in the template; 0x0002 in 1 packet\n"), "{told}");
    assert!(told.contains("2 30=63\n  fits 1 packet, carries 1"), "{told}");
    assert!(told.contains("    too short for a template that reaches 34 bytes; 31 bytes in 1 packet\n"), "{told}");
    let told = self::told("1 30=64", std::slice::from_ref(&four));
    assert!(told.contains("    byte 30: 0x64 in the template; 0x63 in 1 packet\n"), "{told}");
    let told = self::told("1 checksum=28,22", &[four]);
    assert!(told.contains("    checksum at byte 28: does not match; not 0 in 1 packet"), "{told}");
}

#[test]
fn reasons_and_values_are_limited() {
    // Each of twelve bytes of a segment differs first in as many packets as its place says.
    let base = packet4(64, 59, &[7; 32]);
    let mut packets = Vec::new();
    for place in 1..=12 {
        for value in 0..place {
            let mut body = [7; 32];
            body[place] = 100 + value as u8;
            packets.push(packet4(64, 59, &body));
        }
    }
    let told = told(&format!("1 20={}", hex(&base[20..])), &packets);
    assert_eq!(told.lines().filter(|line| line.starts_with("    byte ")).count(), 10, "{told}");
    assert!(told.contains("    2 more reasons with 3 packets\n"), "{told}");
    assert!(told.contains("byte 32: 0x07 in the template; 0x64 in 1 packet, 0x65 in 1 packet, 0x66 in 1 packet, 9 other values in 9 packets\n"));
}

#[test]
fn what_was_skipped_is_said() {
    let packet = bytes(DRIVERS_PACKET);
    let frames = [ethernet("0800", &packet, 18), ethernet("0806", &[0; 28], 0), ethernet("0806", &[0; 28], 0)];
    let mut frames = whole(&frames);
    frames.push((&packet, 2000));
    let mut cut = capture(0xa1b2c3d4, 1, false, &frames);
    cut.push(0);
    let told = explain(&bytes(DRIVERS), &cut).unwrap();
    assert!(told.starts_with("1 packet: 1 short, 0 full, 0 refused\n"));
    assert!(
        told.contains(
            "skipped: 2 frames without an IP packet\nskipped: 1 frame not captured whole\nthe capture is cut: "
        ),
        "{told}"
    );
    assert!(explain(&bytes("56414e"), &cut).unwrap_err().contains("refused 22"));
    assert!(explain(&bytes(DRIVERS), &[]).unwrap_err().contains("no pcap"));
    let none = explain(&make("").unwrap(), &raw(&[])).unwrap();
    assert_eq!(none, "0 packets: 0 short, 0 full, 0 refused\n0 bytes if all went in full, 0 as sent: 0.0% saved\n");
}

/// The example of docs/PLANS.md, word for word.
#[test]
fn the_example_of_the_page() {
    let page = include_str!("../../../docs/PLANS.md");
    // The indented lines behind a line of text.
    let block = |after: &str| {
        let (_, rest) = page.split_once(after).unwrap_or_else(|| panic!("no {after}"));
        let lines = rest.lines().skip(2).take_while(|line| line.is_empty() || line.starts_with("    "));
        let text: Vec<&str> = lines.map(|line| line.strip_prefix("    ").unwrap_or("")).collect();
        text.join("\n").trim_end().to_string() + "\n"
    };
    let file = make(&block("A text:")).unwrap();
    assert_eq!(hex(&file), block("Its file, in hex:").split_whitespace().collect::<String>());
    assert_eq!(show(&file).unwrap(), block("The file, shown:"));
    let mut packets = vec![packet4(64, 17, &udp(1000, 2000, &[1; 40])); 100];
    packets.extend((0..20).map(|i| packet4(64, 17, &udp(1000, 53 + i % 2, &[2; 30]))));
    packets.extend(vec![packet4(64, 6, &[0; 20]); 5]);
    packets.extend((1..=3).map(|flow| packet6(flow, 64, 58, &[128, 0, 0, 0])));
    packets.push(packet4(1, 17, &udp(1000, 2000, b"")));
    assert_eq!(explain(&file, &raw(&packets)).unwrap(), block("Explained with a capture:"));
    let mended = told(&block("A text:").replace("ttl=64", "ttl=63"), &packets);
    assert!(mended.contains("  fits 125 packets, carries 25, "), "{mended}");
    for field in IP4.iter().chain(&IP6).chain(&UDP).chain(&TCP) {
        assert!(page.contains(&format!("`{}`", field.name)), "{} is not on the page", field.name);
    }
}
