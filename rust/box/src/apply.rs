//! From the lists that a state holds to the addresses and routes of the device, by `ip` commands.

use crate::text;
use std::collections::HashSet;
use std::io::Write;
use std::net::IpAddr;
use std::process::{Command, Stdio};
use whapirohi_tunnel::{Entry, Range, Span};

/// The prefixes that are ours, and those that are reached through the device.
#[derive(Clone, Debug, Default, PartialEq, Eq)]
pub struct Wanted {
    pub addresses: Vec<(IpAddr, u8)>,
    pub routes: Vec<(IpAddr, u8)>,
}

/// The metric of our routes: above what the kernel and the usual tools give, so that a route of the same prefix that is there already stays,
/// and is the one taken. A longer prefix that the peer advertises still goes before it.
const METRIC: &str = "9484";

/// What the lists come to. Routes are all addresses advertised, whatever the protocol, and all that the peer was given, but those spared: the
/// packets of the tunnel's own link must not go into the tunnel, nor must this machine take them for its own.
pub fn wanted(received: &[Entry], routes: &[Range], given: &[Entry], spared: &[IpAddr]) -> Wanted {
    // An IPv4 address in an IPv6 socket is sent to as IPv4.
    let spared: Vec<IpAddr> = spared.iter().map(IpAddr::to_canonical).collect();
    let mut addresses = Vec::new();
    for entry in received.iter().filter(|entry| !entry.is_declined()) {
        let prefix = (entry.address, entry.prefix_length);
        if !spared.contains(&host(prefix)) {
            push_new(&mut addresses, prefix);
        }
    }
    let given = given.iter().filter(|entry| !entry.is_declined());
    let given = given.map(|entry| text::span_of(entry.address, entry.prefix_length));
    let mut blocks = union(routes.iter().map(|range| range.span).chain(given));
    for address in spared {
        let (bits, number) = text::number(address);
        blocks = blocks.into_iter().flat_map(|block| block.without(bits, number)).flatten().collect();
    }
    let routes = blocks.iter().flat_map(|block| text::prefixes(text::span_between(block.bits, block.start, block.end)));
    Wanted { addresses, routes: routes.collect() }
}

/// The `ip` commands that bring the device from old to new; the device is up. Each can be run again without harm, but for those that delete.
pub fn commands(device: &str, old: &Wanted, new: &Wanted) -> Vec<Vec<String>> {
    let (old_hosts, new_hosts) = (hosts(old), hosts(new));
    let (old_routes, new_routes) = (lanes(old), lanes(new));
    let (before, after): (HashSet<_>, HashSet<_>) = (old_routes.iter().collect(), new_routes.iter().collect());
    // With the last IPv4 address of a device, Linux drops its IPv4 routes: so new addresses are put before old ones go, and where none is
    // left the routes are put again.
    let dropped = old_hosts.iter().any(IpAddr::is_ipv4) && !new_hosts.iter().any(IpAddr::is_ipv4);

    let gone_routes = old_routes.iter().filter(|route| !after.contains(route));
    let more_hosts = new_hosts.iter().filter(|host| !old_hosts.contains(host));
    let gone_hosts = old_hosts.iter().filter(|host| !new_hosts.contains(host));
    let more_routes = new_routes.iter().filter(|route| !before.contains(route) || dropped && route.0.is_ipv4());

    let mut commands = Vec::new();
    commands.extend(gone_routes.map(|route| route_command("del", device, route)));
    commands.extend(more_hosts.map(|host| address_command("replace", device, host)));
    commands.extend(gone_hosts.map(|host| address_command("del", device, host)));
    commands.extend(more_routes.map(|route| route_command("replace", device, route)));
    commands
}

/// Runs `ip` commands, all by one process; where one fails the others still run. What `ip` said, a line each.
pub fn run(commands: &[Vec<String>]) -> Vec<String> {
    if commands.is_empty() {
        return Vec::new();
    }
    let lines: String = commands.iter().map(|command| command[1..].join(" ") + "\n").collect();
    let ip = Command::new("ip").args(["-force", "-batch", "-"]).stdin(Stdio::piped()).stderr(Stdio::piped()).spawn();
    let said = ip.and_then(|mut ip| {
        let stdin = ip.stdin.take();
        // Written beside the reading, so that neither waits for the other.
        std::thread::scope(|scope| {
            scope.spawn(|| stdin.map(|mut stdin| stdin.write_all(lines.as_bytes())));
            ip.wait_with_output()
        })
    });
    match said {
        Ok(output) => String::from_utf8_lossy(&output.stderr).lines().map(|line| explain(line, commands)).collect(),
        Err(error) => vec![format!("ip: {error}")],
    }
}

/// `ip` names a command that failed by its line.
fn explain(line: &str, commands: &[Vec<String>]) -> String {
    let number = line.strip_prefix("Command failed -:").and_then(|number| number.parse::<usize>().ok());
    match number.and_then(|number| commands.get(number.checked_sub(1)?)) {
        Some(command) => format!("failed: {}", command.join(" ")),
        None => format!("ip: {line}"),
    }
}

/// Addresses of one version without a gap, as numbers.
#[derive(Clone, Copy, PartialEq, Eq, PartialOrd, Ord)]
struct Block {
    bits: u8,
    start: u128,
    end: u128,
}

impl Block {
    /// What is left on both sides of an address.
    fn without(self, bits: u8, number: u128) -> [Option<Block>; 2] {
        if self.bits != bits || number < self.start || number > self.end {
            return [Some(self), None];
        }
        let below = (self.start < number).then(|| Block { end: number - 1, ..self });
        let above = (number < self.end).then(|| Block { start: number + 1, ..self });
        [below, above]
    }
}

/// The addresses of all spans, in order; what overlaps or touches becomes one block.
fn union(spans: impl Iterator<Item = Span>) -> Vec<Block> {
    let block = |span: Span| {
        let (bits, start) = text::number(span.start());
        Block { bits, start, end: text::number(span.end()).1 }
    };
    let mut sorted: Vec<Block> = spans.map(block).collect();
    sorted.sort();
    let mut merged: Vec<Block> = Vec::new();
    for block in sorted {
        match merged.last_mut() {
            Some(last) if last.bits == block.bits && block.start.saturating_sub(1) <= last.end => {
                last.end = last.end.max(block.end);
            }
            _ => merged.push(block),
        }
    }
    merged
}

/// The addresses that are put on the device, each by itself. Any address of an assigned prefix is ours, and who in the network behind us has
/// which is not for the tunnel to say; so the device takes the first one that a host may have, with its full length: with the prefix's own
/// length the kernel would send all packets for that network into the tunnel. A prefix of length 0 is no network of ours and puts none.
fn hosts(wanted: &Wanted) -> Vec<IpAddr> {
    let mut hosts = Vec::new();
    for prefix in wanted.addresses.iter().filter(|(_, length)| *length > 0) {
        push_new(&mut hosts, host(*prefix));
    }
    hosts
}

/// The first address of a prefix that a host may have: the prefix plus 1, below which lies the network's own address (IPv4) or the routers'
/// (IPv6, RFC 4291), but for prefixes of two (RFC 3021, RFC 6164) and single addresses.
fn host((address, length): (IpAddr, u8)) -> IpAddr {
    let (bits, number) = text::number(address);
    text::address_of(bits, if length + 1 < bits { number | 1 } else { number })
}

/// The routes that are put on the device. All of a version goes as its two halves: they are taken before a default route that is there
/// already, which stays as it is.
fn lanes(wanted: &Wanted) -> Vec<(IpAddr, u8)> {
    let lanes = |(address, length): &(IpAddr, u8)| match text::number(*address) {
        (bits, _) if *length == 0 => vec![(*address, 1), (text::address_of(bits, 1 << (bits - 1)), 1)],
        _ => vec![(*address, *length)],
    };
    wanted.routes.iter().flat_map(lanes).collect()
}

fn route_command(verb: &str, device: &str, (address, length): &(IpAddr, u8)) -> Vec<String> {
    ip(&["route", verb, &format!("{address}/{length}"), "dev", device, "metric", METRIC])
}

fn address_command(verb: &str, device: &str, address: &IpAddr) -> Vec<String> {
    let (bits, _) = text::number(*address);
    let mut command = ip(&["address", verb, &format!("{address}/{bits}"), "dev", device]);
    if address.is_ipv6() && verb != "del" {
        // Of use at once: no one else is on the device who could have it.
        command.push("nodad".to_string());
    }
    command
}

fn ip(words: &[&str]) -> Vec<String> {
    ["ip"].iter().chain(words).map(|word| word.to_string()).collect()
}

fn push_new<T: PartialEq>(list: &mut Vec<T>, item: T) {
    if !list.contains(&item) {
        list.push(item);
    }
}
