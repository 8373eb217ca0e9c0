//! Plans as text, a template a line, and back: docs/PLANS.md.
//!
//! `make` undoes `show` for every sound plan, byte for byte. Whether a plan is sound is the library's to say.

use crate::fields::{self, Headers, Ip, Layer};
use crate::text::{hex, unhex};
use crate::Fault;
use whapirohi_tunnel::{number, plan_words, templates, Checksum, Refusal, Segment, State, Template};
use whapirohi_tunnel::{MAX_SEGMENTS, MAX_TEMPLATES, PLAN_ROOM, STATIC_LIMIT};

/// The plan file of a text.
pub fn make(text: &str) -> Result<Vec<u8>, Fault> {
    let mut plan = Vec::new();
    let mut file = write(&plan).map_err(|refusal| Fault { line: 0, reason: refusal.to_string() })?;
    for (i, line) in text.lines().enumerate() {
        let fault = |reason| Fault { line: i + 1, reason };
        let words: Vec<&str> = line.split('#').next().unwrap_or_default().split_whitespace().collect();
        if let Some((id, words)) = words.split_first() {
            plan.push(template(id, words).map_err(fault)?);
            // The templates before this one are sound together, so a refusal is about this one.
            file = write(&plan).map_err(|refusal| fault(format!("{refusal}: {}", hint(&plan))))?;
        }
    }
    Ok(file)
}

/// The text of a plan file.
pub fn show(file: &[u8]) -> Result<String, Refusal> {
    let plan = read(file)?;
    if plan.is_empty() {
        return Ok("# no templates\n".into());
    }
    Ok(plan.iter().map(|template| line(template) + "\n").collect())
}

/// The templates of a plan file.
pub fn read(file: &[u8]) -> Result<Vec<Template>, Refusal> {
    let mut state = State::new();
    match state.load_plan(file) {
        number::DONE => templates(&state.plan).ok_or(Refusal(number::BROKEN_STATE)),
        refused => Err(Refusal(refused)),
    }
}

/// The file of a plan.
fn write(plan: &[Template]) -> Result<Vec<u8>, Refusal> {
    let mut state = State::new();
    state.plan = plan_words(plan)?;
    let mut out = [0; PLAN_ROOM];
    let length = state.write_plan(&mut out).written()?;
    Ok(out[..length].to_vec())
}

/// The line of a template, without its end.
pub fn line(template: &Template) -> String {
    let headers = Headers::of_template(template).filter(|headers| names_ip(template, *headers));
    let mut words = vec![template.context_id.to_string()];
    let mut before = None;
    for segment in &template.segments {
        if before == Some(segment.offset) {
            words.push("|".into());
        }
        before = Some(end(segment));
        show_segment(segment, headers, &mut words);
    }
    if let Some(checksum) = template.checksum {
        words.push(match headers.and_then(|headers| headers.transport) {
            Some(transport) => format!("checksum={}", transport.name()),
            None => format!("checksum={},{}", checksum.field, checksum.start),
        });
    }
    words.join(" ")
}

/// Whether a field of the IP header gets a name in the line of a template: without one, no other name could be read again.
fn names_ip(template: &Template, headers: Headers) -> bool {
    Headers { transport: None, ..headers }.fields().any(|(at, field)| {
        template.segments.iter().any(|segment| segment.offset <= at && at + field.length <= end(segment))
    })
}

/// A word for each whole field of a segment, and for the bytes between them.
fn show_segment(segment: &Segment, headers: Option<Headers>, words: &mut Vec<String>) {
    let bytes = |from: usize, to: usize| &segment.bytes[from - segment.offset..to - segment.offset];
    let mut unnamed = segment.offset;
    let mut at = segment.offset;
    while at < end(segment) {
        let mut fields = headers.into_iter().flat_map(Headers::fields);
        match fields.find(|(place, field)| *place == at && at + field.length <= end(segment)) {
            Some((_, field)) => {
                if unnamed < at {
                    words.push(format!("{unnamed}={}", hex(bytes(unnamed, at))));
                }
                words.push(format!("{}={}", field.name, field.show(bytes(at, at + field.length))));
                at += field.length;
                unnamed = at;
            }
            None => at += 1,
        }
    }
    if unnamed < at {
        words.push(format!("{unnamed}={}", hex(bytes(unnamed, at))));
    }
}

fn end(segment: &Segment) -> usize {
    segment.offset + segment.bytes.len()
}

/// A word that gives bytes, and whether a `|` before it starts a segment there.
struct Piece<'a> {
    word: &'a str,
    segment: Segment,
    apart: bool,
}

/// The template of a line's words.
fn template(id: &str, words: &[&str]) -> Result<Template, String> {
    let context_id = fields::number(id).ok_or_else(|| format!("{id}: a line starts with a Context ID, a number"))?;
    let ip = one_of(words, Layer::ip)?;
    one_of(words, Layer::transport)?;
    let mut pieces = Vec::new();
    let mut checksum = None;
    let mut apart = false;
    for &word in words {
        if word == "|" || word.starts_with("checksum=") {
            if apart {
                return Err(format!("{word}: behind a | come bytes"));
            }
            match word.strip_prefix("checksum=") {
                None => apart = true,
                Some(_) if checksum.is_some() => return Err(format!("{word}: a second checksum")),
                Some(value) => checksum = Some(pair(word, value, ip)?),
            }
        } else {
            pieces.push(Piece { word, segment: segment(word, ip)?, apart });
            apart = false;
        }
    }
    if apart {
        return Err("|: behind a | come bytes".into());
    }
    Ok(Template { context_id, segments: join(pieces)?, checksum })
}

/// The one IP version, or transport, that the names in a line are of.
fn one_of<T: PartialEq>(words: &[&str], part: impl Fn(Layer) -> Option<T>) -> Result<Option<T>, String> {
    let mut found: Option<(&str, T)> = None;
    for word in words {
        let name = match word.split_once('=') {
            Some(("checksum", name)) => name,
            Some((name, _)) => name.split_once('.').map_or("", |(header, _)| header),
            None => continue,
        };
        if let Some(this) = Layer::named(name).and_then(&part) {
            match &found {
                Some((other, one)) if *one != this => {
                    return Err(format!("{other} and {word}: no packet has both headers"))
                }
                _ => found = Some((word, this)),
            }
        }
    }
    Ok(found.map(|(_, one)| one))
}

/// The bytes of `OFFSET=HEXBYTES` or `NAME=VALUE`, and their place.
fn segment(word: &str, ip: Option<Ip>) -> Result<Segment, String> {
    let (name, value) =
        word.split_once('=').ok_or_else(|| format!("{word}: not OFFSET=BYTES, NAME=VALUE, checksum=.. or |"))?;
    if name.starts_with(|c: char| c.is_ascii_digit()) {
        let offset = place(name).ok_or_else(|| format!("{word}: {name} is no offset"))?;
        let bytes = unhex(value).filter(|bytes| !bytes.is_empty());
        return Ok(Segment { offset, bytes: bytes.ok_or_else(|| format!("{word}: bytes are pairs of hex digits"))? });
    }
    let (layer, field) = fields::find(name).ok_or_else(|| format!("{word}: there is no field {name}"))?;
    let base = match layer {
        Layer::Ip(_) => 0,
        Layer::Transport(_) => version(word, ip)?.length(),
    };
    let bytes = field.read(value).ok_or_else(|| format!("{word}: {name} takes {}", field.wants()))?;
    Ok(Segment { offset: base + field.offset, bytes })
}

/// The pair of `udp`, `tcp` or `FIELD,START`.
fn pair(word: &str, value: &str, ip: Option<Ip>) -> Result<Checksum, String> {
    if let Some(transport) = Layer::named(value).and_then(Layer::transport) {
        return Ok(transport.checksum(version(word, ip)?));
    }
    let numbers = value.split_once(',').and_then(|(field, start)| Some((place(field)?, place(start)?)));
    let (field, start) = numbers.ok_or_else(|| format!("{word}: a checksum is udp, tcp or FIELD,START"))?;
    Ok(Checksum { field, start })
}

/// The IP version, for a word that needs it to know its place.
fn version(word: &str, ip: Option<Ip>) -> Result<Ip, String> {
    ip.ok_or_else(|| format!("{word}: its place depends on the IP version; add an ip4 or ip6 field, or write offsets"))
}

/// A place in a packet, in decimal.
fn place(text: &str) -> Option<usize> {
    text.chars().all(|c| c.is_ascii_digit()).then(|| text.parse::<u16>().ok())?.map(usize::from)
}

/// The segments of a line: words that touch make one, unless a `|` keeps them apart.
fn join(mut pieces: Vec<Piece>) -> Result<Vec<Segment>, String> {
    pieces.sort_by_key(|piece| piece.segment.offset);
    let mut segments: Vec<Segment> = Vec::new();
    let mut before = "";
    for Piece { word, segment, apart } in pieces {
        match segments.last_mut() {
            Some(last) if end(last) > segment.offset => return Err(format!("{before} and {word}: they overlap")),
            Some(last) if end(last) == segment.offset && !apart => last.bytes.extend(segment.bytes),
            _ => segments.push(segment),
        }
        before = word;
    }
    Ok(segments)
}

/// The likely cause, in plain words, for which the library refused the last template.
fn hint(plan: &[Template]) -> String {
    let Some((last, before)) = plan.split_last() else { return String::new() };
    let in_segment = |at: usize| last.segments.iter().any(|segment| (segment.offset..end(segment)).contains(&at));
    if before.len() >= MAX_TEMPLATES {
        format!("a plan has at most {MAX_TEMPLATES} templates")
    } else if last.context_id == 0 {
        "Context ID 0 is that of packets in full".into()
    } else if last.context_id >= 1 << 62 {
        "a Context ID is below 2^62".into()
    } else if before.last().is_some_and(|template| template.context_id >= last.context_id) {
        "Context IDs ascend from line to line".into()
    } else if last.segments.len() > MAX_SEGMENTS {
        format!("a template has at most {MAX_SEGMENTS} segments; words that touch make one")
    } else if last.segments.iter().any(|segment| end(segment) > STATIC_LIMIT) {
        format!("static bytes end at or before byte {STATIC_LIMIT}")
    } else {
        match last.checksum {
            None => "a template has bytes, or a checksum, or both".into(),
            Some(Checksum { field, .. }) if in_segment(field) || in_segment(field + 1) => {
                "the checksum's own bytes are not static: leave them out".into()
            }
            Some(_) => "for checksum=FIELD,START: 20 <= START <= FIELD <= 126, and FIELD - START is even".into(),
        }
    }
}
