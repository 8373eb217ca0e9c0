//! Configurations: what is read, and what is refused on which line.

use std::fs;
use std::path::{Path, PathBuf};
use whapirohi_box::config::{describe, parse, read, Apply, Config, Stream};
use whapirohi_box::{text, Fault};
use whapirohi_tunnel::{Entry, Range};

/// The lines that must be there: three of them.
const LEAST: &str = "tun van0\nudp 192.0.2.1:4433 198.51.100.7:4433\nlisten 192.0.2.1:4434\n";

const WHOLE: &str = "\
# The van's end.
tun van0
mtu 1400

udp\t[2001:db8::1]:4433  [2001:db8::2]:4433   # over the phone
connect [2001:db8::2]:4434
assign 192.0.2.3 192.0.2.64/26
assign 2001:db8:5::/64
route 198.51.100.2 udp tcp
route 2001:db8:7::1-2001:db8:7::ff
route 198.51.100.0/30
request 4 6
request 203.0.113.0/24 0.0.0.0/28
apply ip
";

fn with(line: &str) -> Result<Config, Fault> {
    parse(&format!("{LEAST}{line}\n"), Path::new(""))
}

/// The reason why a line that stands behind the three is refused.
fn reason(line: &str) -> String {
    match with(line) {
        Err(fault) if fault.line == 4 => fault.reason,
        other => panic!("`{line}` gave {other:?}"),
    }
}

fn refused(line: &str, word: &str) {
    let reason = reason(line);
    assert!(reason.contains(word), "`{line}`: {reason}");
}

fn fault(text: &str) -> Fault {
    parse(text, Path::new("")).unwrap_err()
}

fn entry(request_id: u64, text: &str) -> Entry {
    let (address, prefix_length) = text::prefix(text).unwrap();
    Entry { request_id, address, prefix_length }
}

fn range(span: &str, protocol: u8) -> Range {
    Range { protocol, span: text::span(span).unwrap() }
}

fn advertised(text: &str) -> Vec<String> {
    with(text).unwrap().routes.iter().map(text::range).collect()
}

/// A directory of this test's own.
fn directory(name: &str) -> PathBuf {
    let path = std::env::temp_dir().join(format!("whapirohi-config-{name}-{}", std::process::id()));
    fs::create_dir_all(&path).unwrap();
    path
}

/// The drivers' plan, and one without templates.
const DRIVERS: &str = "56414e000101 02 01 0c0c c0000203c633640203e807d0 01 1a14";
const EMPTY: &str = "56414e000100";

fn plan(hex: &str) -> Vec<u8> {
    text::unhex(&hex.replace(' ', "")).unwrap()
}

#[test]
fn a_whole_configuration() {
    let expected = Config {
        tun: "van0".to_string(),
        mtu: Some(1400),
        local: "[2001:db8::1]:4433".parse().unwrap(),
        peer: "[2001:db8::2]:4433".parse().unwrap(),
        stream: Stream::Connect("[2001:db8::2]:4434".parse().unwrap()),
        plan: None,
        assign: vec![entry(0, "192.0.2.3"), entry(0, "192.0.2.64/26"), entry(0, "2001:db8:5::/64")],
        routes: vec![
            range("198.51.100.0/30", 0),
            range("198.51.100.2", 6),
            range("198.51.100.2", 17),
            range("2001:db8:7::1-2001:db8:7::ff", 0),
        ],
        request: vec![entry(1, "0.0.0.0"), entry(2, "::"), entry(3, "203.0.113.0/24"), entry(4, "0.0.0.0/28")],
        apply: Apply::Ip,
    };
    assert_eq!(parse(WHOLE, Path::new("")), Ok(expected.clone()));
    assert_eq!(parse(&WHOLE.replace('\n', "\r\n"), Path::new("")), Ok(expected.clone()));
    assert_eq!(parse(WHOLE.trim_end(), Path::new("")), Ok(expected));
}

#[test]
fn the_least_configuration() {
    let config = parse(LEAST, Path::new("")).unwrap();
    assert_eq!((config.mtu, config.plan, config.apply), (None, None, Apply::None));
    assert_eq!(config.stream, Stream::Listen("192.0.2.1:4434".parse().unwrap()));
    assert_eq!((config.assign, config.routes, config.request), (vec![], vec![], vec![]));
}

#[test]
fn what_is_missing_is_named() {
    for (word, line) in ["tun", "udp", "listen"].iter().zip(LEAST.lines()) {
        let found = fault(&LEAST.replace(line, ""));
        assert_eq!(found.line, 0);
        assert!(found.reason.contains(&format!("no `{word}`")), "{found:?}");
    }
    assert_eq!(fault("").line, 0);
}

#[test]
fn unknown_words_and_counts() {
    assert_eq!(fault("\n  tunn van0\n").line, 2);
    assert!(fault("tunn van0").reason.starts_with("unknown word `tunn`; the words are tun, mtu, udp, listen,"));
    refused("Apply ip", "unknown word `Apply`");
    refused("request 5", "write 4, 6 or a prefix");
    assert!(fault("connect [fe80::1%eth0]:4434").reason.contains("the number of a device"));
    refused("apply\u{a0}ip", "unknown word");
    for (line, usage) in [
        ("mtu", "write mtu BYTES"),
        ("mtu 1400 1400", "write mtu BYTES"),
        ("plan # later", "write plan FILE"),
        ("plan a b", "write plan FILE"),
        ("assign", "write assign PREFIX"),
        ("route", "write route START-END"),
        ("request", "write request 4"),
        ("apply", "write apply none or apply ip"),
        ("apply all", "write apply none or apply ip"),
        ("apply ip ip", "write apply none or apply ip"),
    ] {
        refused(line, usage);
    }
    for line in
        ["tun", "tun a b", "udp 192.0.2.1:1", "udp 192.0.2.1:1 192.0.2.2:1 192.0.2.3:1", "listen", "connect a b"]
    {
        let found = fault(line);
        assert_eq!((found.line, found.reason.starts_with("write ")), (1, true), "{line}: {found:?}");
    }
}

#[test]
fn a_word_that_stands_twice_names_the_earlier_line() {
    refused("tun van1", "`tun` stands on line 1");
    refused("udp 192.0.2.1:4433 198.51.100.7:4433", "`udp` stands on line 2");
    refused("listen 192.0.2.1:4434", "`listen` stands on line 3");
    refused("connect 198.51.100.7:4434", "`listen` stands on line 3");
    for line in ["mtu 1400", "apply ip"] {
        let found = with(&format!("{line}\n\n{line}")).unwrap_err();
        assert_eq!(found.line, 6);
        assert!(found.reason.contains("on line 4"), "{found:?}");
    }
    let found = fault("connect 192.0.2.1:1\nlisten 192.0.2.1:1");
    assert_eq!(found.line, 2);
    assert!(found.reason.contains("`connect` stands on line 1"), "{found:?}");
}

#[test]
fn names_of_devices() {
    for name in ["v", "van-0_a.b", "fifteen-letters", "...", "-"] {
        assert_eq!(parse(&LEAST.replace("van0", name), Path::new("")).unwrap().tun, name);
    }
    for name in [".", "..", "sixteen-letters-", "van%d", "van/0", "van:0", "wän", "van\r0", "van\u{0}"] {
        let found = fault(&LEAST.replace("van0", name));
        assert_eq!((found.line, found.reason.contains("name of a device")), (1, true), "{found:?}");
    }
}

#[test]
fn the_mtu_has_bounds() {
    for bytes in [68, 1280, 1500] {
        assert_eq!(with(&format!("mtu {bytes}")).unwrap().mtu, Some(bytes));
    }
    for text in ["67", "1501", "0", "-1", "+1400", "01400", "1400B", "99999999999999999999999"] {
        refused(&format!("mtu {text}"), "from 68 to 1500");
    }
}

#[test]
fn sockets() {
    let udp = |local: &str, peer: &str| parse(&format!("tun v\nlisten 192.0.2.1:1\nudp {local} {peer}"), Path::new(""));
    assert!(udp("0.0.0.0:4433", "198.51.100.7:65535").is_ok());
    assert!(udp("[::]:4433", "[2001:db8::1]:1").is_ok());
    for (local, peer, word) in [
        ("192.0.2.1:0", "192.0.2.2:1", "port 0"),
        ("192.0.2.1:1", "192.0.2.2:0", "port 0"),
        ("192.0.2.1", "192.0.2.2:1", "an address and a port"),
        ("192.0.2.1:1", "192.0.2.2:65536", "an address and a port"),
        ("192.0.2.1:01", "192.0.2.2:1", "an address and a port"),
        ("192.0.2.1:+1", "192.0.2.2:1", "an address and a port"),
        ("192.0.2.1:1", "clinic.example:1", "an address and a port"),
        ("2001:db8::1:4433", "[2001:db8::2]:1", "an address and a port"),
        ("192.0.2.1:1", "[2001:db8::1]:1", "different versions"),
        ("192.0.2.1:1", "0.0.0.0:1", "peer's own address"),
        ("[2001:db8::1]:1", "[::]:1", "peer's own address"),
        ("192.0.2.1:1", "224.0.0.1:1", "multicast"),
        ("224.0.0.1:1", "192.0.2.1:1", "multicast"),
        ("[2001:db8::1]:1", "[ff02::1]:1", "multicast"),
    ] {
        let found = udp(local, peer).unwrap_err();
        assert_eq!((found.line, found.reason.contains(word)), (3, true), "{local} {peer}: {found:?}");
    }
    for (line, word) in [
        ("listen 192.0.2.1:0", "port 0"),
        ("listen 4434", "an address and a port"),
        ("connect 0.0.0.0:4434", "peer's own address"),
        ("connect [ff02::1]:4434", "multicast"),
    ] {
        let found = fault(line);
        assert_eq!((found.line, found.reason.contains(word)), (1, true), "{line}: {found:?}");
    }
    assert!(parse(&LEAST.replace("listen 192.0.2.1", "listen 0.0.0.0"), Path::new("")).is_ok());
}

#[test]
fn plans() {
    let directory = directory("plans");
    fs::write(directory.join("good"), plan(DRIVERS)).unwrap();
    fs::write(directory.join("cut"), &plan(DRIVERS)[..20]).unwrap();
    fs::write(directory.join("text"), "a plan").unwrap();
    let named = |name: &str| parse(&format!("{LEAST}plan {name}\n"), &directory);
    assert_eq!(named("good").unwrap().plan, Some((directory.join("good"), plan(DRIVERS))));
    let absolute = directory.join("good");
    assert_eq!(named(&absolute.display().to_string()).unwrap().plan, Some((absolute, plan(DRIVERS))));
    for (name, word) in [
        ("cut", "refused 22: plan cut, or bytes left over"),
        ("text", "refused 20: not a plan file"),
        ("none", "No such file"),
        (".", "directory"),
    ] {
        let found = named(name).unwrap_err();
        assert_eq!((found.line, found.reason.contains(word)), (4, true), "{name}: {found:?}");
    }
    let found = named("good\nplan good").unwrap_err();
    assert_eq!((found.line, found.reason.contains("`plan` stands on line 4")), (5, true), "{found:?}");
    fs::remove_dir_all(directory).unwrap();
}

#[test]
fn assigned_prefixes() {
    refused("assign 192.0.2.1/24", "192.0.2.1/24: bits beyond the prefix; 192.0.2.0/24 is meant?");
    refused("assign 192.0.2.1 2001:db8::1/64", "2001:db8::/64 is meant?");
    refused("assign 192.0.2.0/33", "from 0 to 32");
    refused("assign 192.0.2.256", "is no address");
    refused("assign 192.0.2.1,192.0.2.2", "is no address");
    refused("assign 192.0.2.1-192.0.2.2", "is no address");
    for text in ["0.0.0.0", "0.0.0.0/32", "::", "::/128"] {
        refused(&format!("assign {text}"), "declined");
    }
    refused("assign 192.0.2.1 192.0.2.1/32", "192.0.2.1/32 is assigned on line 4 already");
    let found = with("assign 2001:db8::/32\n# again\nassign 2001:DB8:0::/32").unwrap_err();
    assert_eq!((found.line, found.reason.contains("on line 4 already")), (6, true), "{found:?}");
    let config = with("assign 0.0.0.0/0 0.0.0.0/31 192.0.2.0/24 192.0.2.0/25 ::/0").unwrap();
    assert_eq!(config.assign, ["0.0.0.0/0", "0.0.0.0/31", "192.0.2.0/24", "192.0.2.0/25", "::/0"].map(|p| entry(0, p)));
}

#[test]
fn routes_are_sorted() {
    let lines =
        "route ::2 udp\nroute 192.0.2.9 udp any\nroute ::1 6 17\nroute 192.0.2.1-192.0.2.8 udp\nroute 192.0.2.8 255";
    let expected = [
        "192.0.2.9/32",
        "192.0.2.1-192.0.2.8 udp",
        "192.0.2.9/32 udp",
        "192.0.2.8/32 255",
        "::1/128 tcp",
        "::1/128 udp",
        "::2/128 udp",
    ];
    assert_eq!(advertised(lines), expected);
    let names: Vec<u8> = with("route ::/0 icmp6 udp tcp icmp any").unwrap().routes.iter().map(|r| r.protocol).collect();
    assert_eq!(names, [0, 1, 6, 17, 58]);
}

#[test]
fn bad_routes() {
    refused("route 192.0.2.9-192.0.2.1", "192.0.2.1-192.0.2.9 is meant?");
    refused("route 192.0.2.9-::1", "different versions");
    refused("route 192.0.2.9/24", "192.0.2.0/24 is meant?");
    refused("route 192.0.2.1 - 192.0.2.9", "`-` is no protocol");
    refused("route udp 192.0.2.1", "`udp` is no address");
    refused("route 192.0.2.1 256", "`256` is no protocol");
    refused("route 192.0.2.1 UDP", "icmp, tcp, udp");
}

#[test]
fn overlapping_routes_name_both_lines() {
    let found = with("route 192.0.2.9-192.0.2.20 udp\nroute ::/0\nroute 192.0.2.2-192.0.2.9 tcp udp").unwrap_err();
    assert_eq!(found.line, 6);
    assert!(found
        .reason
        .starts_with("192.0.2.2-192.0.2.9 udp on line 6 and 192.0.2.9-192.0.2.20 udp on line 4 overlap"));
    // A small one within a large one, with another between them in the order.
    let found = with("route 192.0.2.0/24\nroute 192.0.2.7\nroute 192.0.2.200").unwrap_err();
    assert_eq!(
        (found.line, found.reason.contains("on line 4 and 192.0.2.7/32 on line 5 overlap")),
        (5, true),
        "{found:?}"
    );
    refused("route ::1 udp 17", "on line 4 overlap");
    refused("route ::1 any 0", "on line 4 overlap");
    // Neighbours, other protocols and the other version do not overlap.
    let apart = "route 192.0.2.0/25\nroute 192.0.2.128/25\nroute 192.0.2.0/24 udp\nroute ::/0";
    assert_eq!(advertised(apart), ["192.0.2.0/25", "192.0.2.128/25", "192.0.2.0/24 udp", "::/0"]);
}

#[test]
fn requests() {
    let config = with("request 6\nrequest 4 4 2001:db8::/56\nrequest ::/56").unwrap();
    let expected = [(1, "::/128"), (2, "0.0.0.0/32"), (3, "0.0.0.0/32"), (4, "2001:db8::/56"), (5, "::/56")];
    assert_eq!(config.request, expected.map(|(id, prefix)| entry(id, prefix)));
    refused("request 5", "`5` is no address");
    refused("request 4 192.0.2.1/24", "192.0.2.0/24 is meant?");
}

#[test]
fn limits_of_lists() {
    let addresses = |count: u32| (1..=count).map(|n| format!(" 192.0.2.{n}")).collect::<String>();
    let ranges = |count: usize| (0..count).map(|n| format!("route 10.0.{n}.0/24\n")).collect::<String>();
    assert_eq!(with(&format!("assign{}", addresses(32))).unwrap().assign.len(), 32);
    refused(&format!("assign{}", addresses(33)), "more than 32");
    assert_eq!(with(&format!("request{}", addresses(32))).unwrap().request.len(), 32);
    refused(&format!("request{}", addresses(33)), "more than 32");
    assert_eq!(with(&ranges(256)).unwrap().routes.len(), 256);
    let found = with(&format!("{}route ::1", ranges(256))).unwrap_err();
    assert_eq!((found.line, found.reason.contains("more than 256")), (3 + 257, true), "{found:?}");
    let protocols = |count: usize| (0..count).map(|n| format!(" {n}")).collect::<String>();
    assert_eq!(with(&format!("route ::1{}", protocols(256))).unwrap().routes.len(), 256);
    let found = with(&format!("route ::1{}\nroute ::2", protocols(256))).unwrap_err();
    assert_eq!((found.line, found.reason.contains("more than 256")), (5, true), "{found:?}");
}

#[test]
fn long_lines() {
    let line = |length: usize| format!("apply ip #{}", "x".repeat(length - 10));
    assert_eq!(line(4096).len(), 4096);
    assert_eq!(with(&line(4096)).unwrap().apply, Apply::Ip);
    refused(&line(4097), "4097 bytes");
}

#[test]
fn files() {
    let directory = directory("files");
    let path = directory.join("van.conf");
    fs::write(directory.join("van.plan"), plan(DRIVERS)).unwrap();
    fs::write(&path, format!("{LEAST}plan van.plan\n")).unwrap();
    assert_eq!(read(&path).unwrap().plan, Some((directory.join("van.plan"), plan(DRIVERS))));
    fs::write(&path, b"tun v\xff\n").unwrap();
    let found = read(&path).unwrap_err();
    assert_eq!((found.line, found.reason.contains("valid UTF-8")), (0, true), "{found:?}");
    let found = read(&directory.join("none")).unwrap_err();
    assert_eq!((found.line, found.reason.contains("No such file")), (0, true), "{found:?}");
    fs::remove_dir_all(directory).unwrap();
}

#[test]
fn described() {
    let mut config = parse(WHOLE, Path::new("")).unwrap();
    config.plan = Some((PathBuf::from("van.plan"), plan(DRIVERS)));
    let expected = "\
device van0, mtu 1400
udp from [2001:db8::1]:4433 to [2001:db8::2]:4433
stream connects to [2001:db8::2]:4434
plan van.plan, 25 bytes
  Context ID 2: 1 segment, 12 static bytes, checksum at 26 over the bytes from 20
assigns 192.0.2.3/32
assigns 192.0.2.64/26
assigns 2001:db8:5::/64
advertises 198.51.100.0/30
advertises 198.51.100.2/32 tcp
advertises 198.51.100.2/32 udp
advertises 2001:db8:7::1-2001:db8:7::ff
requests any IPv4 address, as number 1
requests any IPv6 address, as number 2
requests 203.0.113.0/24, as number 3
requests any IPv4 prefix of length 28, as number 4
apply runs the ip commands for the addresses and routes that come
";
    assert_eq!(describe(&config), expected);
}

#[test]
fn described_with_little() {
    let expected = "\
device van0, mtu from the link
udp from 192.0.2.1:4433 to 198.51.100.7:4433
stream listens on 192.0.2.1:4434
plan none, no templates
assigns nothing
advertises nothing
requests nothing
apply prints the ip commands for the addresses and routes that come, and runs none
";
    let mut config = parse(LEAST, Path::new("")).unwrap();
    assert_eq!(describe(&config), expected);
    config.mtu = Some(1279);
    config.plan = Some((PathBuf::from("p"), plan(EMPTY)));
    assert!(describe(&config).contains("mtu 1279, too small for IPv6"));
    assert!(describe(&config).contains("plan p, 6 bytes\n  no templates\n"));
    // A slip, or a peer with two addresses.
    assert_eq!(config.doubt(), None);
    config.stream = Stream::Connect("198.51.100.7:4434".parse().unwrap());
    assert_eq!(config.doubt(), None);
    config.stream = Stream::Connect("198.51.100.8:4434".parse().unwrap());
    let doubt = "connect goes to 198.51.100.8, and udp to 198.51.100.7: is that meant?";
    assert!(describe(&config).contains(&format!("\n{doubt}\n")));
}

/// Whatever a file says, it is a configuration or a fault on one of its lines; and what is taken is described.
#[test]
fn damaged_configurations_get_an_answer() {
    let mut seed = 20261117_u64;
    let mut random = |below: usize| {
        seed ^= seed << 13;
        seed ^= seed >> 7;
        seed ^= seed << 17;
        (seed >> 33) as usize % below
    };
    let signs: Vec<char> = " \t\n#.:/-%[]0123456789abcdefxé".chars().collect();
    let (mut taken, mut refused) = (0, 0);
    for _ in 0..20_000 {
        let mut text: Vec<char> = WHOLE.chars().collect();
        for _ in 0..=random(3) {
            let at = random(text.len());
            match random(3) {
                0 => drop(text.remove(at)),
                1 => text.insert(at, signs[random(signs.len())]),
                _ => text[at] = signs[random(signs.len())],
            }
        }
        let text: String = text.into_iter().collect();
        match parse(&text, Path::new("")) {
            Ok(config) => {
                assert!(describe(&config).lines().count() >= 8);
                taken += 1;
            }
            Err(fault) => {
                assert!(fault.line <= text.lines().count() && !fault.reason.is_empty(), "{text}");
                refused += 1;
            }
        }
    }
    assert!(taken > 1000 && refused > 1000, "{taken} taken, {refused} refused");
}
