//! What a plan does to the packets of a capture: which template carries them, what it saves, and why others miss it.
//!
//! Which packets pass and which template fits is asked of the library, with lists that grant everything; only the reason for a miss is
//! looked for here.

use crate::fields::{later_fragment, Headers, Ip, Transport};
use crate::pcap::{self, Captured};
use crate::plan_text;
use crate::text::hex;
use std::collections::BTreeMap;
use std::net::{Ipv4Addr, Ipv6Addr};
use whapirohi_tunnel::{address_words, plan_words, read_number, route_words, Checksum, SEND_ROOM};
use whapirohi_tunnel::{Entry, Range, Refusal, Segment, Span, State, Template};

/// The most reasons told of a template, and the most values told of a reason.
const MAX_REASONS: usize = 10;
const MAX_VALUES: usize = 3;

/// The report on a plan file and a capture.
pub fn explain(plan: &[u8], capture: &[u8]) -> Result<String, String> {
    let templates = plan_text::read(plan).map_err(|refusal| format!("the plan is {refusal}"))?;
    let captured = pcap::packets(capture)?;
    let mut report = Report::new(&templates).map_err(|refusal| refusal.to_string())?;
    for record in &captured {
        if let Captured::Packet(packet) = record {
            report.add(packet).map_err(|refusal| refusal.to_string())?;
        }
    }
    let mut out = report.totals();
    let skipped = |kind| captured.iter().filter(|record| **record == kind).count();
    for (kind, words) in [(Captured::NotIp, "without an IP packet"), (Captured::Shortened, "not captured whole")] {
        if skipped(kind) > 0 {
            out += &format!("skipped: {} {words}\n", counted(skipped(kind), "frame"));
        }
    }
    if skipped(Captured::Cut) > 0 {
        out += "the capture is cut: its last record is not all there\n";
    }
    for subject in &report.subjects {
        out += &subject.told();
    }
    Ok(out)
}

/// A template and what became of the packets.
struct Subject<'a> {
    template: &'a Template,
    /// A box that has this template alone.
    alone: State,
    fits: usize,
    carries: usize,
    saved: i64,
    misses: BTreeMap<String, BTreeMap<Found, usize>>,
}

/// What was found where a template misses a packet, and a note on it.
#[derive(PartialEq, Eq, PartialOrd, Ord)]
struct Found {
    value: String,
    note: String,
}

/// The boxes that are asked, and the tallies.
struct Report<'a> {
    whole: State,
    full: State,
    subjects: Vec<Subject<'a>>,
    packets: usize,
    short: usize,
    refused: BTreeMap<u64, usize>,
    bytes_full: usize,
    bytes_sent: usize,
}

impl<'a> Report<'a> {
    fn new(templates: &'a [Template]) -> Result<Report<'a>, Refusal> {
        let subject = |template| {
            let alone = granting(std::slice::from_ref(template))?;
            Ok(Subject { template, alone, fits: 0, carries: 0, saved: 0, misses: BTreeMap::new() })
        };
        Ok(Report {
            whole: granting(templates)?,
            full: granting(&[])?,
            subjects: templates.iter().map(subject).collect::<Result<_, _>>()?,
            packets: 0,
            short: 0,
            refused: BTreeMap::new(),
            bytes_full: 0,
            bytes_sent: 0,
        })
    }

    fn add(&mut self, packet: &[u8]) -> Result<(), Refusal> {
        self.packets += 1;
        let full = match send(&self.full, packet) {
            Ok((_, full)) => full,
            Err(Refusal(number)) => {
                *self.refused.entry(number).or_default() += 1;
                return Ok(());
            }
        };
        let (id, sent) = send(&self.whole, packet)?;
        self.short += usize::from(id != 0);
        self.bytes_full += full.len();
        self.bytes_sent += sent.len();
        for subject in &mut self.subjects {
            let (fit, _) = send(&subject.alone, packet)?;
            if fit == 0 {
                // The full form is 0 and the packet, with its hop count lowered.
                let (reason, found) = miss(subject.template, &full[1..]);
                *subject.misses.entry(reason).or_default().entry(found).or_default() += 1;
                continue;
            }
            subject.fits += 1;
            if fit == id {
                subject.carries += 1;
                subject.saved += full.len() as i64 - sent.len() as i64;
            }
        }
        Ok(())
    }

    fn totals(&self) -> String {
        let refused: usize = self.refused.values().sum();
        let full = self.packets - refused - self.short;
        let (packets, short) = (counted(self.packets, "packet"), self.short);
        let mut out = format!("{packets}: {short} short, {full} full, {refused} refused\n");
        for (number, count) in &self.refused {
            out += &format!("{}: {}\n", Refusal(*number), counted(*count, "packet"));
        }
        let (before, after) = (self.bytes_full, self.bytes_sent);
        let share = if before == 0 { 0.0 } else { 100.0 * (before as f64 - after as f64) / before as f64 };
        out + &format!("{before} bytes if all went in full, {after} as sent: {share:.1}% saved\n")
    }
}

/// A box that grants every packet, with a plan.
fn granting(plan: &[Template]) -> Result<State, Refusal> {
    let any = |address| Entry { request_id: 0, address, prefix_length: 0 };
    let all = |span| Range { protocol: 0, span };
    let mut state = State::new();
    state.received_addresses = address_words(&[any(Ipv4Addr::UNSPECIFIED.into()), any(Ipv6Addr::UNSPECIFIED.into())])?;
    state.received_routes = route_words(&[
        all(Span::V4(Ipv4Addr::UNSPECIFIED, Ipv4Addr::BROADCAST)),
        all(Span::V6(Ipv6Addr::UNSPECIFIED, Ipv6Addr::from(u128::MAX))),
    ])?;
    state.plan = plan_words(plan)?;
    Ok(state)
}

/// The Context ID under which a packet goes, and its datagram.
fn send(state: &State, packet: &[u8]) -> Result<(u64, Vec<u8>), Refusal> {
    let mut out = [0; SEND_ROOM];
    let length = state.send(packet, &mut out).written()?;
    Ok((read_number(&out[..length]).value, out[..length].to_vec()))
}

/// Why a template misses a packet, and what was found there.
fn miss(template: &Template, packet: &[u8]) -> (String, Found) {
    let found = |value: String| Found { value, note: String::new() };
    let headers = Headers::of_packet(packet);
    if let Some(wanted) = Headers::of_template(template).filter(|wanted| !agrees(*wanted, headers)) {
        return (format!("not {}", kind(wanted)), found(kind_of(packet, headers)));
    }
    let ends = template.segments.iter().map(|segment| segment.offset + segment.bytes.len());
    let reach = ends.chain(template.checksum.map(|checksum| checksum.field + 2)).max().unwrap_or(0);
    if packet.len() < reach {
        return (format!("too short for a template that reaches {reach} bytes"), found(counted(packet.len(), "byte")));
    }
    for segment in &template.segments {
        if let Some(i) = segment.bytes.iter().zip(&packet[segment.offset..]).position(|(ours, theirs)| ours != theirs) {
            return differing(segment, segment.offset + i, packet, headers);
        }
    }
    match template.checksum {
        Some(checksum) => wrong_sum(checksum, packet, headers),
        None => ("no difference was found".into(), found("the library misses it".into())),
    }
}

/// The field of the first differing byte: its value in the template, and in the packet.
fn differing(segment: &Segment, at: usize, packet: &[u8], headers: Option<Headers>) -> (String, Found) {
    let end = segment.offset + segment.bytes.len();
    // Of fields that share bytes the last is the finest.
    let field = headers.and_then(|headers| {
        headers.fields().filter(|(place, field)| (*place..place + field.length).contains(&at)).last()
    });
    let (start, length) = field.map_or((at, 1), |(place, field)| (place, field.length));
    let part = start.max(segment.offset)..(start + length).min(end);
    let ours = &segment.bytes[part.start - segment.offset..part.end - segment.offset];
    let theirs = &packet[part.clone()];
    let Some((_, field)) = field.filter(|_| part.len() == length) else {
        let name = field.map_or(String::new(), |(_, field)| format!("{}, ", field.name));
        let places =
            if part.len() == 1 { format!("byte {at}") } else { format!("bytes {} to {}", part.start, part.end - 1) };
        let reason = format!("{name}{places}: 0x{} in the template", hex(ours));
        return (reason, Found { value: format!("0x{}", hex(theirs)), note: String::new() });
    };
    let note = match (field.name, ours[0], theirs[0]) {
        // The slip to expect: the hop count as it was before.
        ("ip4.ttl" | "ip6.hops", came, hops) if hops.checked_add(1) == Some(came) => {
            format!(" (compared after sending lowers it: for packets that come with {came}, write {hops})")
        }
        ("ip6.class_flow", ours, theirs) if ours >> 4 != theirs >> 4 => " (the traffic class)".into(),
        ("ip6.class_flow" | "ip6.flow", ..) => " (the flow label)".into(),
        _ => String::new(),
    };
    (format!("{}: {} in the template", field.name, field.show(ours)), Found { value: field.show(theirs), note })
}

/// A checksum that is not the completion.
fn wrong_sum(checksum: Checksum, packet: &[u8], headers: Option<Headers>) -> (String, Found) {
    let field = headers.and_then(|headers| headers.fields().find(|(place, _)| *place == checksum.field));
    let name = field.map_or(format!("checksum at byte {}", checksum.field), |(_, field)| field.name.into());
    let (value, note) = match packet[checksum.field..][..2] {
        [0, 0] => ("0", ""),
        _ => ("not 0", " (damaged, or captured before the network card filled it in)"),
    };
    (format!("{name}: does not match"), Found { value: value.into(), note: note.into() })
}

/// Whether a packet has the headers that a template is for.
fn agrees(wanted: Headers, headers: Option<Headers>) -> bool {
    headers.is_some_and(|headers| {
        headers.ip == wanted.ip && (wanted.transport.is_none() || wanted.transport == headers.transport)
    })
}

fn kind(headers: Headers) -> String {
    let ip = match headers.ip {
        Ip::V4 => "IPv4",
        Ip::V6 => "IPv6",
    };
    match headers.transport {
        Some(Transport::Udp) => format!("{ip} UDP"),
        Some(Transport::Tcp) => format!("{ip} TCP"),
        None => ip.into(),
    }
}

/// The kind of a packet, with what its transport is or why it is not told.
fn kind_of(packet: &[u8], headers: Option<Headers>) -> String {
    let Some(headers) = headers else { return "another version".into() };
    let protocol = packet.get(headers.ip.protocol_at()).copied().unwrap_or(0);
    match headers {
        Headers { transport: Some(_), .. } => kind(headers),
        Headers { ip: Ip::V4, .. } if later_fragment(packet) => "IPv4 later fragment".into(),
        Headers { ip: Ip::V4, .. } if packet[0] != 0x45 => "IPv4 with options".into(),
        Headers { ip: Ip::V4, .. } => format!("IPv4 protocol {protocol}"),
        Headers { ip: Ip::V6, .. } => format!("IPv6 next header {protocol}"),
    }
}

impl Subject<'_> {
    fn told(&self) -> String {
        let mut out = format!("\n{}\n", plan_text::line(self.template));
        let each = if self.carries == 0 { 0.0 } else { self.saved as f64 / self.carries as f64 };
        let (fits, carries, saved) = (counted(self.fits, "packet"), self.carries, self.saved);
        out += &format!("  fits {fits}, carries {carries}, saves {saved} bytes: {each:.1} a packet\n");
        let mut reasons: Vec<_> =
            self.misses.iter().map(|(reason, found)| (found.values().sum::<usize>(), reason, found)).collect();
        reasons.sort_by_key(|(count, ..)| std::cmp::Reverse(*count));
        let missed: usize = reasons.iter().map(|(count, ..)| count).sum();
        if missed > 0 {
            out += &format!("  misses {}\n", counted(missed, "packet"));
        }
        let (first, more) = reasons.split_at(reasons.len().min(MAX_REASONS));
        for (_, reason, found) in first {
            out += &format!("    {reason}; {}\n", values(found));
        }
        if !more.is_empty() {
            let packets = more.iter().map(|(count, ..)| count).sum();
            out += &format!("    {} with {}\n", counted(more.len(), "more reason"), counted(packets, "packet"));
        }
        out
    }
}

/// The most frequent values, each with its note, and how many there are besides.
fn values(found: &BTreeMap<Found, usize>) -> String {
    let mut found: Vec<_> = found.iter().map(|(found, count)| (*count, found)).collect();
    found.sort_by_key(|(count, _)| std::cmp::Reverse(*count));
    let (first, more) = found.split_at(found.len().min(MAX_VALUES));
    let told =
        |(count, found): &(usize, &Found)| format!("{} in {}{}", found.value, counted(*count, "packet"), found.note);
    let mut parts: Vec<String> = first.iter().map(told).collect();
    if !more.is_empty() {
        let packets = more.iter().map(|(count, _)| count).sum();
        parts.push(format!("{} in {}", counted(more.len(), "other value"), counted(packets, "packet")));
    }
    parts.join(", ")
}

/// A count and what is counted, in the plural where it is not 1.
fn counted(count: usize, what: &str) -> String {
    format!("{count} {what}{}", if count == 1 { "" } else { "s" })
}
