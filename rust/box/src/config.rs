//! The configuration: one text file, a line each.

use crate::{text, Fault};
use std::fs;
use std::io::Read;
use std::net::{Ipv4Addr, Ipv6Addr, SocketAddr};
use std::path::{Path, PathBuf};
use whapirohi_tunnel::{address_words, number, route_words, templates, write_request};
use whapirohi_tunnel::{Checksum, Entry, Range, Refusal, State, Template};
use whapirohi_tunnel::{CAPSULE_ROOM, MAX_ADDRESSES, MAX_PACKET, MAX_RANGES, PLAN_ROOM};

/// Where the stream of capsules comes from.
#[derive(Clone, Copy, Debug, PartialEq, Eq)]
pub enum Stream {
    Listen(SocketAddr),
    Connect(SocketAddr),
}

/// What is done with the addresses and routes that came: the commands are printed, or run.
#[derive(Clone, Copy, Debug, PartialEq, Eq)]
pub enum Apply {
    None,
    Ip,
}

/// One end, as configured.
#[derive(Clone, Debug, PartialEq, Eq)]
pub struct Config {
    pub tun: String,
    pub mtu: Option<usize>,
    pub local: SocketAddr,
    pub peer: SocketAddr,
    pub stream: Stream,
    /// The plan's file and its bytes; without one, the plan of no templates.
    pub plan: Option<(PathBuf, Vec<u8>)>,
    /// What the peer is assigned, with Request ID 0.
    pub assign: Vec<Entry>,
    /// What the peer may reach, in the order of a capsule.
    pub routes: Vec<Range>,
    /// What is asked of the peer, with Request IDs from 1 on.
    pub request: Vec<Entry>,
    pub apply: Apply,
}

impl Config {
    /// What may be a slip, though it can be meant: a peer with two addresses.
    pub fn doubt(&self) -> Option<String> {
        match self.stream {
            Stream::Connect(address) if address.ip().to_canonical() != self.peer.ip().to_canonical() => {
                Some(format!("connect goes to {}, and udp to {}: is that meant?", address.ip(), self.peer.ip()))
            }
            _ => None,
        }
    }
}

/// The words that start a line, and how a line of each is written.
const WORDS: [(&str, &str); 10] = [
    ("tun", "tun NAME"),
    ("mtu", "mtu BYTES"),
    ("udp", "udp LOCAL PEER"),
    ("listen", "listen ADDRESS:PORT"),
    ("connect", "connect ADDRESS:PORT"),
    ("plan", "plan FILE"),
    ("assign", "assign PREFIX.."),
    ("route", "route START-END [PROTOCOL].. or route PREFIX [PROTOCOL].."),
    ("request", "request 4, request 6 or request PREFIX.."),
    ("apply", "apply none or apply ip"),
];

/// The most bytes of a line.
const LINE_LIMIT: usize = 4096;

/// The least that IPv4 asks of a link (RFC 791), the least that IPv6 asks (RFC 8200), and the longest packet that the library takes.
const MTU_LEAST: usize = 68;
pub const MTU_LEAST_IPV6: usize = 1280;
const MTU_MOST: usize = MAX_PACKET;

/// The bytes of a device's name, without the 0 that ends it.
const NAME_LIMIT: usize = 15;

/// Reads a configuration and the plan that it names; a plan's path is taken from the configuration's directory.
pub fn read(path: &Path) -> Result<Config, Fault> {
    let text = fs::read_to_string(path).map_err(|error| Fault { line: 0, reason: error.to_string() })?;
    parse(&text, path.parent().unwrap_or(Path::new("")))
}

/// The configuration of a text; the plan that it names is read, its path taken from the directory.
pub fn parse(text: &str, directory: &Path) -> Result<Config, Fault> {
    let mut draft = Draft::default();
    for (index, text) in text.lines().enumerate() {
        let line = index + 1;
        draft.take(line, text, directory).map_err(|reason| Fault { line, reason })?;
    }
    let config = draft.finish()?;
    judge(&config).map_err(|refusal| Fault { line: 0, reason: format!("the library does not take it: {refusal}") })?;
    Ok(config)
}

/// What the lines said so far. Items of lists stand with their lines.
#[derive(Default)]
struct Draft {
    /// The words that may stand once, and where they stood.
    seen: Vec<(&'static str, usize)>,
    tun: Option<String>,
    mtu: Option<usize>,
    udp: Option<(SocketAddr, SocketAddr)>,
    stream: Option<Stream>,
    plan: Option<(PathBuf, Vec<u8>)>,
    assign: Vec<(usize, Entry)>,
    routes: Vec<(usize, Range)>,
    request: Vec<Entry>,
    apply: Option<Apply>,
}

impl Draft {
    fn take(&mut self, line: usize, text: &str, directory: &Path) -> Result<(), String> {
        if text.len() > LINE_LIMIT {
            return Err(format!("the line has {} bytes; at most {LINE_LIMIT} are read", text.len()));
        }
        let (text, _comment) = text.split_once('#').unwrap_or((text, ""));
        let words: Vec<&str> = text.split([' ', '\t']).filter(|word| !word.is_empty()).collect();
        let Some((first, values)) = words.split_first() else {
            return Ok(());
        };
        let Some((word, usage)) = WORDS.iter().find(|(word, _)| word == first) else {
            return Err(format!("unknown word `{first}`; the words are {}", WORDS.map(|(word, _)| word).join(", ")));
        };
        self.once(word, line)?;
        match (*word, values) {
            ("tun", [name]) => self.tun = Some(device(name)?),
            ("mtu", [bytes]) => self.mtu = Some(mtu(bytes)?),
            ("udp", [local, peer]) => self.udp = Some(udp(local, peer)?),
            ("listen", [address]) => self.stream = Some(Stream::Listen(socket(address)?)),
            ("connect", [address]) => self.stream = Some(Stream::Connect(remote(address)?)),
            ("plan", [file]) => self.plan = Some(plan(directory.join(file))?),
            ("assign", [_, ..]) => values.iter().try_for_each(|prefix| self.assign(line, prefix))?,
            ("route", [span, protocols @ ..]) => self.route(line, span, protocols)?,
            ("request", [_, ..]) => values.iter().try_for_each(|wish| self.request(wish))?,
            ("apply", ["none"]) => self.apply = Some(Apply::None),
            ("apply", ["ip"]) => self.apply = Some(Apply::Ip),
            _ => return Err(format!("write {usage}")),
        }
        Ok(())
    }

    /// A word that may stand once has not stood yet; nor has `listen` with `connect`.
    fn once(&mut self, word: &'static str, line: usize) -> Result<(), String> {
        let stream = |word| matches!(word, "listen" | "connect");
        if matches!(word, "assign" | "route" | "request") {
            return Ok(());
        }
        match self.seen.iter().find(|(other, _)| *other == word || stream(*other) && stream(word)) {
            Some((other, earlier)) => Err(format!("`{other}` stands on line {earlier} already; keep one of the two")),
            None => {
                self.seen.push((word, line));
                Ok(())
            }
        }
    }

    fn assign(&mut self, line: usize, text: &str) -> Result<(), String> {
        let (address, prefix_length) = text::prefix(text)?;
        let entry = Entry { request_id: 0, address, prefix_length };
        if entry.is_declined() {
            return Err(format!("{address}/{prefix_length} stands for a declined request; assign another prefix"));
        }
        if let Some((earlier, _)) = self.assign.iter().find(|(_, other)| *other == entry) {
            return Err(format!("{address}/{prefix_length} is assigned on line {earlier} already"));
        }
        if self.assign.len() == MAX_ADDRESSES {
            return Err(format!("more than {MAX_ADDRESSES} prefixes assigned"));
        }
        self.assign.push((line, entry));
        Ok(())
    }

    fn route(&mut self, line: usize, span: &str, protocols: &[&str]) -> Result<(), String> {
        let span = text::span(span)?;
        for protocol in if protocols.is_empty() { &["any"] } else { protocols } {
            let range = Range { protocol: text::protocol(protocol)?, span };
            if self.routes.len() == MAX_RANGES {
                return Err(format!("more than {MAX_RANGES} ranges; each protocol of a line is one"));
            }
            self.routes.push((line, range));
        }
        Ok(())
    }

    /// RFC 9484, section 4.7.2: the all-zero address asks for any, and the prefix length still counts.
    fn request(&mut self, text: &str) -> Result<(), String> {
        let (address, prefix_length) = match text {
            "4" => (Ipv4Addr::UNSPECIFIED.into(), 32),
            "6" => (Ipv6Addr::UNSPECIFIED.into(), 128),
            _ => text::prefix(text).map_err(|why| format!("{why}; write 4, 6 or a prefix"))?,
        };
        if self.request.len() == MAX_ADDRESSES {
            return Err(format!("more than {MAX_ADDRESSES} requests"));
        }
        self.request.push(Entry { request_id: self.request.len() as u64 + 1, address, prefix_length });
        Ok(())
    }

    fn finish(self) -> Result<Config, Fault> {
        let missing = |reason: &str| Fault { line: 0, reason: reason.to_string() };
        let tun = self.tun.ok_or_else(|| missing("no `tun` line; write tun NAME"))?;
        let (local, peer) = self.udp.ok_or_else(|| missing("no `udp` line; write udp LOCAL PEER"))?;
        let stream = self.stream.ok_or_else(|| missing("no `listen` or `connect` line; write one of them"))?;
        Ok(Config {
            tun,
            mtu: self.mtu,
            local,
            peer,
            stream,
            plan: self.plan,
            assign: self.assign.into_iter().map(|(_, entry)| entry).collect(),
            routes: in_order(self.routes)?,
            request: self.request,
            apply: self.apply.unwrap_or(Apply::None),
        })
    }
}

/// RFC 9484, section 4.7.3: by version, then protocol, then address; ranges of one version and protocol lie apart.
fn in_order(mut routes: Vec<(usize, Range)>) -> Result<Vec<Range>, Fault> {
    let group = |range: &Range| (range.span.start().is_ipv6(), range.protocol);
    routes.sort_by_key(|(_, range)| (group(range), range.span.start()));
    for pair in routes.windows(2) {
        let [(line_a, a), (line_b, b)] = [pair[0], pair[1]];
        if group(&a) == group(&b) && a.span.end() >= b.span.start() {
            let (a, b) = (text::range(&a), text::range(&b));
            let reason = format!(
                "{a} on line {line_a} and {b} on line {line_b} overlap; of one protocol, an address may stand once"
            );
            return Err(Fault { line: line_a.max(line_b), reason });
        }
    }
    Ok(routes.into_iter().map(|(_, range)| range).collect())
}

fn device(name: &str) -> Result<String, String> {
    let plain = |byte: u8| byte.is_ascii_alphanumeric() || b"-_.".contains(&byte);
    match name {
        // The last two stand for all devices in the kernel's settings.
        "." | ".." | "all" | "default" => Err(format!("`{name}` cannot be the name of a device")),
        _ if name.len() <= NAME_LIMIT && name.bytes().all(plain) => Ok(name.to_string()),
        _ => {
            Err(format!("`{name}`: the name of a device has at most {NAME_LIMIT} of letters, digits, `-`, `_` and `.`"))
        }
    }
}

fn mtu(text: &str) -> Result<usize, String> {
    let fits = |bytes: &usize| (MTU_LEAST..=MTU_MOST).contains(bytes);
    text::decimal(text)
        .filter(fits)
        .ok_or_else(|| format!("`{text}`: the mtu is a number from {MTU_LEAST} to {MTU_MOST}"))
}

fn udp(local: &str, peer: &str) -> Result<(SocketAddr, SocketAddr), String> {
    let (local, peer) = (socket(local)?, remote(peer)?);
    if local.is_ipv4() != peer.is_ipv4() {
        return Err(format!("{local} and {peer} are of different versions"));
    }
    Ok((local, peer))
}

/// An address and a port of this host.
fn socket(text: &str) -> Result<SocketAddr, String> {
    let address: Option<SocketAddr> = text.parse().ok();
    // The standard parser takes leading zeros in a port.
    let port = text.rsplit_once(':').and_then(|(_, port)| text::decimal::<u16>(port));
    match (address, port) {
        (Some(_), Some(0)) => Err(format!("`{text}`: port 0 is no port to meet at; write one from 1 to 65535")),
        (Some(address), Some(_)) if address.ip().is_multicast() => {
            Err(format!("{}: a multicast address", address.ip()))
        }
        (Some(address), Some(_)) => Ok(address),
        _ if text.contains('%') => {
            Err(format!("`{text}`: behind % stands the number of a device, as `ip link` shows it: [fe80::1%2]:4433"))
        }
        _ => Err(format!("`{text}`: write an address and a port such as 192.0.2.1:4433 or [2001:db8::1]:4433")),
    }
}

/// An address and a port of the peer.
fn remote(text: &str) -> Result<SocketAddr, String> {
    match socket(text)? {
        address if address.ip().is_unspecified() => Err(format!("{address}: the peer's own address is needed here")),
        address => Ok(address),
    }
}

fn plan(path: PathBuf) -> Result<(PathBuf, Vec<u8>), String> {
    let mut bytes = Vec::new();
    // A plan has fewer bytes than this, so that what is read tells whether the file is one.
    let file = fs::File::open(&path).and_then(|file| file.take(PLAN_ROOM as u64).read_to_end(&mut bytes));
    file.map_err(|error| format!("{}: {error}", path.display()))?;
    match State::new().load_plan(&bytes) {
        0 => Ok((path, bytes)),
        number::PLAN_MARK => Err(format!(
            "{}: {}; a text is made into one by `whapirohi plan make`",
            path.display(),
            Refusal(number::PLAN_MARK)
        )),
        number => Err(format!("{}: {}", path.display(), Refusal(number))),
    }
}

/// Whether the library takes the lists: it should, since the lines were looked at one by one.
fn judge(config: &Config) -> Result<(), Refusal> {
    let mut state = State::new();
    let mut out = [0; CAPSULE_ROOM];
    state.write_assign(&address_words(&config.assign)?, &mut out).written()?;
    state.write_routes(&route_words(&config.routes)?, &mut out).written()?;
    if !config.request.is_empty() {
        write_request(&address_words(&config.request)?, &mut out).written()?;
    }
    Ok(())
}

/// What a configuration comes to, in plain lines.
pub fn describe(config: &Config) -> String {
    let mtu = match config.mtu {
        None => "mtu from the link".to_string(),
        Some(bytes) if bytes < MTU_LEAST_IPV6 => {
            format!("mtu {bytes}, too small for IPv6, which needs {MTU_LEAST_IPV6}")
        }
        Some(bytes) => format!("mtu {bytes}"),
    };
    let stream = match config.stream {
        Stream::Listen(address) => format!("listens on {address}"),
        Stream::Connect(address) => format!("connects to {address}"),
    };
    let apply = match config.apply {
        Apply::None => "prints the ip commands for the addresses and routes that come, and runs none",
        Apply::Ip => "runs the ip commands for the addresses and routes that come",
    };
    let mut lines = vec![
        format!("device {}, {mtu}", config.tun),
        format!("udp from {} to {}", config.local, config.peer),
        format!("stream {stream}"),
    ];
    lines.extend(config.doubt());
    lines.extend(describe_plan(config));
    lines.extend(list(
        "assigns",
        config.assign.iter().map(|entry| format!("{}/{}", entry.address, entry.prefix_length)),
    ));
    lines.extend(list("advertises", config.routes.iter().map(text::range)));
    lines.extend(list("requests", config.request.iter().map(wish)));
    lines.push(format!("apply {apply}"));
    lines.join("\n") + "\n"
}

fn list(verb: &str, items: impl Iterator<Item = String>) -> Vec<String> {
    let lines: Vec<String> = items.map(|item| format!("{verb} {item}")).collect();
    if lines.is_empty() {
        vec![format!("{verb} nothing")]
    } else {
        lines
    }
}

fn wish(entry: &Entry) -> String {
    let Entry { request_id, address, prefix_length } = entry;
    let version = if address.is_ipv4() { 4 } else { 6 };
    match address.is_unspecified() {
        true if entry.is_declined() => format!("any IPv{version} address, as number {request_id}"),
        true => format!("any IPv{version} prefix of length {prefix_length}, as number {request_id}"),
        false => format!("{address}/{prefix_length}, as number {request_id}"),
    }
}

fn describe_plan(config: &Config) -> Vec<String> {
    let Some((path, bytes)) = &config.plan else {
        return vec!["plan none, no templates".to_string()];
    };
    let mut lines = vec![format!("plan {}, {} bytes", path.display(), bytes.len())];
    let mut state = State::new();
    match state.load_plan(bytes) {
        0 => lines.extend(templates(&state.plan).unwrap_or_default().iter().map(describe_template)),
        number => lines.push(format!("  {}", Refusal(number))),
    }
    if lines.len() == 1 {
        lines.push("  no templates".to_string());
    }
    lines
}

fn describe_template(template: &Template) -> String {
    let segments = match template.segments.len() {
        1 => "1 segment".to_string(),
        count => format!("{count} segments"),
    };
    let bytes: usize = template.segments.iter().map(|segment| segment.bytes.len()).sum();
    let checksum = match template.checksum {
        Some(Checksum { field, start }) => format!("checksum at {field} over the bytes from {start}"),
        None => "no checksum".to_string(),
    };
    format!("  Context ID {}: {segments}, {bytes} static bytes, {checksum}", template.context_id)
}
