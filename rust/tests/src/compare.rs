//! One call made of the subject and of the model, and all that either may alter compared; and how often each answer occurred.

use crate::capsules::Measure;
use crate::subject::{Lent, Model, Subject};
use crate::words::empty_state;
use std::collections::BTreeMap;
use std::fmt::Write;
use whapirohi_reference::capsule::MAX_VALUE;
use whapirohi_reference::list::{MAX_ADDRESSES, MAX_RANGES};
use whapirohi_reference::number;
use whapirohi_tunnel::{AddressWords, Answer, Capsule, Number, Piece, RouteWords, State, CAPSULE_ROOM, FEED_ROOM};

/// Every answer that an entry point can give; each must occur in a run.
pub const ANSWERS: &[(&str, &[&str])] = &[
    ("start", &["0"]),
    ("read_number", &["0", "1"]),
    ("write_number", &["0", "3", "16"]),
    ("write_datagram", &["0", "2", "16"]),
    ("write_request", &["0", "3", "6", "7", "16"]),
    ("write_assign", &["0", "3", "7", "9", "16"]),
    ("write_routes", &["0", "4", "5", "7", "9", "16"]),
    (
        "read_capsule",
        &["0 datagram", "0 assign", "0 request", "0 routes", "0 skipped", "1", "2", "3", "4", "5", "6", "7", "9"],
    ),
    (
        "feed",
        &[
            "0 datagram",
            "0 assign",
            "0 request",
            "0 routes",
            "0 skipped",
            "0 clean",
            "1",
            "2",
            "3",
            "4",
            "5",
            "6",
            "7",
            "9",
            "16",
        ],
    ),
    ("load_plan", &["0", "20", "21", "22", "23", "24", "25"]),
    ("write_plan", &["0", "16", "23", "25"]),
    ("send", &["0 short", "0 full", "9", "10", "11", "12", "15", "16"]),
    (
        "receive",
        &["0 short", "0 full", "9", "10 short", "10 full", "12", "13", "14 cut", "14 few", "15 short", "15 full", "16"],
    ),
];

/// What a case left behind, on the subject's side.
pub struct Written {
    pub answer: Answer,
    pub out: Vec<u8>,
    differs: bool,
}

impl Written {
    /// What was written; none of a refusal, nor where the model would have answered otherwise.
    pub fn bytes(&self) -> Option<&[u8]> {
        let done = self.answer.number == 0 && !self.differs;
        done.then(|| &self.out[..self.answer.length as usize])
    }
}

pub struct Run<'a> {
    subject: &'a dyn Subject,
    pub cases: u64,
    pub faults: u64,
    /// The first faults, in words.
    pub told: Vec<String>,
    pub answers: BTreeMap<(&'static str, &'static str), u64>,
    pub occasions: BTreeMap<&'static str, u64>,
    /// Sizes one below their limits, at them and one above.
    pub limits: BTreeMap<(&'static str, u64), u64>,
}

/// What the sizes of a capsule that is read are counted as.
struct Sizes {
    datagram: &'static str,
    list: &'static str,
    assign: &'static str,
    request: &'static str,
    routes: &'static str,
    ipv6_routes: &'static str,
}

const READ: Sizes = Sizes {
    datagram: "datagram read",
    list: "value of a list, read",
    assign: "assign read",
    request: "request read",
    routes: "routes read",
    ipv6_routes: "IPv6 routes read",
};

const IN_PIECES: Sizes = Sizes {
    datagram: "datagram in pieces",
    list: "value of a list, in pieces",
    assign: "assign in pieces",
    request: "request in pieces",
    routes: "routes in pieces",
    ipv6_routes: "IPv6 routes in pieces",
};

const TOLD: usize = 5;

impl<'a> Run<'a> {
    pub fn new(subject: &'a dyn Subject) -> Run<'a> {
        Run {
            subject,
            cases: 0,
            faults: 0,
            told: Vec::new(),
            answers: BTreeMap::new(),
            occasions: BTreeMap::new(),
            limits: BTreeMap::new(),
        }
    }

    pub fn occasion(&mut self, name: &'static str) {
        *self.occasions.entry(name).or_default() += 1;
    }

    /// Counts a size that is one below its limit, at it or one above.
    pub fn limit(&mut self, name: &'static str, size: u64, limit: usize) {
        let place = size.wrapping_add(1).wrapping_sub(limit as u64);
        if place < 3 {
            *self.limits.entry((name, place)).or_default() += 1;
        }
    }

    /// Counts the sizes of a capsule that was answered with a number.
    fn sizes(&mut self, sizes: &Sizes, number: u64, capsule: &[u8]) {
        let Some(Measure { kind, length, elements, ipv6 }) = Measure::of(capsule) else { return };
        let (name, limit) = match kind {
            0 => return self.limit(sizes.datagram, length, MAX_VALUE),
            1 => (sizes.assign, MAX_ADDRESSES),
            2 => (sizes.request, MAX_ADDRESSES),
            3 => (sizes.routes, MAX_RANGES),
            _ => return,
        };
        self.limit(sizes.list, length, MAX_VALUE);
        // With another number it has some other fault.
        if matches!(number, 0 | 7) {
            self.limit(name, elements as u64, limit);
            if kind == 3 && ipv6 {
                self.limit(sizes.ipv6_routes, elements as u64, limit);
            }
        }
    }

    /// Something that must hold and is not a comparison of one call.
    pub fn expect(&mut self, holds: bool, what: impl FnOnce() -> String) {
        if !holds {
            self.fault(what());
        }
    }

    fn fault(&mut self, text: String) {
        self.faults += 1;
        if self.told.len() < TOLD {
            self.told.push(format!("case {}: {text}", self.cases));
        }
    }

    fn count(&mut self, entry: &'static str, label: &'static str) {
        self.cases += 1;
        *self.answers.entry((entry, label)).or_default() += 1;
    }

    pub fn start(&mut self, state: &State) {
        self.count("start", "0");
        let mut got = state.clone();
        self.subject.start(&mut got);
        self.expect(got == empty_state(), || "start: not an empty state".into());
    }

    pub fn read_number(&mut self, bytes: &[u8]) -> Number {
        let wanted = Model.read_number(bytes);
        let got = self.subject.read_number(bytes);
        self.count("read_number", label(wanted.number));
        self.expect(got == wanted, || format!("read_number {}\n  wanted {wanted:?}\n  got    {got:?}", hex(bytes)));
        got
    }

    pub fn write_number(&mut self, value: u64, out: &[u8]) -> Written {
        let inputs = || format!("value {value}");
        self.writing("write_number", &empty_state(), out, label_of, inputs, |s, _, out| s.write_number(value, out))
    }

    pub fn write_datagram(&mut self, value: &[u8], out: &[u8]) -> Written {
        let inputs = || format!("value {}", hex(value));
        let written = self
            .writing("write_datagram", &empty_state(), out, label_of, inputs, |s, _, out| s.write_datagram(value, out));
        self.wrote("datagram written", written, &[0, 2], value.len() as u64, MAX_VALUE)
    }

    pub fn write_request(&mut self, list: &AddressWords, out: &[u8]) -> Written {
        let inputs = || format!("list {}", shown(list));
        let written = self
            .writing("write_request", &empty_state(), out, label_of, inputs, |s, _, out| s.write_request(list, out));
        self.wrote("request written", written, &[0, 7], list[0], MAX_ADDRESSES)
    }

    pub fn write_assign(&mut self, state: &State, list: &AddressWords, out: &[u8]) -> Written {
        let inputs = || format!("list {}", shown(list));
        let written = self
            .writing("write_assign", state, out, label_of, inputs, |s, state, out| s.write_assign(state, list, out));
        self.wrote("assign written", written, &[0, 7], list[0], MAX_ADDRESSES)
    }

    pub fn write_routes(&mut self, state: &State, list: &RouteWords, out: &[u8]) -> Written {
        let inputs = || format!("list {}", shown(list));
        let written = self
            .writing("write_routes", state, out, label_of, inputs, |s, state, out| s.write_routes(state, list, out));
        self.wrote("routes written", written, &[0, 7], list[0], MAX_RANGES)
    }

    /// Counts the size of what was written, and of the output, where the answer is about that size.
    fn wrote(&mut self, name: &'static str, written: Written, numbers: &[u64], size: u64, limit: usize) -> Written {
        self.limit("output for a capsule", written.out.len() as u64, CAPSULE_ROOM);
        if numbers.contains(&written.answer.number) {
            self.limit(name, size, limit);
        }
        written
    }

    pub fn write_plan(&mut self, state: &State, out: &[u8]) -> Written {
        self.writing("write_plan", state, out, label_of, String::new, |s, state, out| s.write_plan(state, out))
    }

    pub fn send(&mut self, state: &State, packet: &[u8], out: &[u8]) -> Written {
        let label = |answer: &Answer, out: &[u8]| match answer.number {
            0 if out[0] == 0 => "0 full",
            0 => "0 short",
            number => label(number),
        };
        let inputs = || format!("packet {}", hex(packet));
        self.writing("send", state, out, label, inputs, |s, state, out| s.send(state, packet, out))
    }

    pub fn receive(&mut self, state: &State, datagram: &[u8], out: &[u8]) -> Written {
        let id = number::parse(datagram).map(|(id, _)| id);
        let label = |answer: &Answer, _: &[u8]| match (answer.number, id) {
            (0, Some(0)) => "0 full",
            (0, _) => "0 short",
            (10, Some(0)) => "10 full",
            (10, _) => "10 short",
            (14, None) => "14 cut",
            (14, _) => "14 few",
            (15, Some(0)) => "15 full",
            (15, _) => "15 short",
            (number, _) => label(number),
        };
        let inputs = || format!("datagram {}", hex(datagram));
        self.writing("receive", state, out, label, inputs, |s, state, out| s.receive(state, datagram, out))
    }

    fn writing(
        &mut self,
        entry: &'static str,
        state: &State,
        out: &[u8],
        label: impl FnOnce(&Answer, &[u8]) -> &'static str,
        inputs: impl FnOnce() -> String,
        call: impl Fn(&dyn Subject, &mut State, &mut [u8]) -> Answer,
    ) -> Written {
        let (mut wanted_state, mut wanted_out) = (state.clone(), out.to_vec());
        let wanted = call(&Model, &mut wanted_state, &mut wanted_out);
        let (mut got_state, mut got_out) = (state.clone(), out.to_vec());
        let got = call(self.subject, &mut got_state, &mut got_out);
        self.count(entry, label(&wanted, &wanted_out));
        let untouched = wanted.number == 0 || wanted_out == out && wanted_state == *state;
        let differs = got != wanted || got_out != wanted_out || got_state != wanted_state;
        if differs || !untouched {
            self.fault(format!(
                "{entry}, output of {} bytes, {}\n{}  wanted {wanted:?} {}\n  got    {got:?} {}{}{}",
                out.len(),
                inputs(),
                shown_state(state),
                written(&wanted, &wanted_out),
                written(&got, &got_out),
                if got_out == wanted_out { "" } else { "\n  the outputs differ" },
                if got_state == wanted_state { "" } else { "\n  the states differ" },
            ));
        }
        Written { answer: got, out: got_out, differs }
    }

    pub fn load_plan(&mut self, state: &State, file: &[u8]) -> (u64, State) {
        let mut wanted_state = state.clone();
        let wanted = Model.load_plan(&mut wanted_state, file);
        let mut got_state = state.clone();
        let got = self.subject.load_plan(&mut got_state, file);
        self.count("load_plan", label(wanted));
        let untouched = wanted == 0 || wanted_state == *state;
        self.expect(got == wanted && got_state == wanted_state && untouched, || {
            let states = if got_state == wanted_state { "" } else { "\n  the states differ" };
            format!("load_plan {}\n  wanted {wanted}\n  got    {got}{states}", hex(file))
        });
        (got, got_state)
    }

    /// The capsule, and the state and the requested entries afterwards.
    pub fn read_capsule(
        &mut self,
        state: &State,
        bytes: &[u8],
        at: usize,
        requested: &AddressWords,
    ) -> (Capsule, State, AddressWords) {
        let (mut wanted_state, mut wanted_requested) = (state.clone(), *requested);
        let wanted = Model.read_capsule(&mut wanted_state, bytes, at, &mut wanted_requested);
        let (mut got_state, mut got_requested) = (state.clone(), *requested);
        let got = self.subject.read_capsule(&mut got_state, bytes, at, &mut got_requested);
        self.count("read_capsule", capsule_label(wanted.number, wanted.kind));
        if matches!(wanted.number, 0 | 2..=7) {
            self.sizes(&READ, wanted.number, &bytes[at..]);
        }
        let untouched = wanted.number == 0 || wanted_state == *state && wanted_requested == *requested;
        if got != wanted || got_state != wanted_state || got_requested != wanted_requested || !untouched {
            self.fault(format!(
                "read_capsule at {at} of {}\n{}  wanted {wanted:?}\n  got    {got:?}{}{}",
                hex(bytes),
                shown_state(state),
                if got_state == wanted_state { "" } else { "\n  the states differ" },
                if got_requested == wanted_requested { "" } else { "\n  the requested entries differ" },
            ));
        }
        (got, got_state, got_requested)
    }

    /// The answer, and what was lent afterwards; none where the model would have answered or left otherwise.
    pub fn feed(&mut self, lent: &Lent, bytes: &[u8]) -> Option<(Piece, Lent)> {
        let (mut wanted_lent, mut got_lent) = (lent.clone(), lent.clone());
        let wanted = Model.feed(&mut wanted_lent, bytes);
        let got = self.subject.feed(&mut got_lent, bytes);
        let clean = wanted.number == 0 && wanted.handed == 0;
        self.count("feed", if clean { "0 clean" } else { capsule_label(wanted.number, wanted.kind) });
        self.limit("output for a piece", lent.out.len() as u64, FEED_ROOM);
        if lent.state.to_skip == 0 && lent.state.remembered == 0 && matches!(wanted.number, 0 | 2..=7) {
            let kept = &lent.kept[..lent.state.kept_count as usize];
            self.sizes(&IN_PIECES, wanted.number, &[kept, bytes].concat());
        }
        let lawful = match wanted.number {
            0 if clean => bytes.is_empty() && wanted_lent == *lent,
            0 => wanted.taken <= bytes.len() as u64,
            1 => wanted.taken == bytes.len() as u64,
            9 | 16 => wanted_lent == *lent,
            number => {
                let state = State { remembered: number, ..lent.state.clone() };
                wanted.taken == 0 && wanted_lent == Lent { state, ..lent.clone() }
            }
        };
        let same = got == wanted && got_lent == wanted_lent;
        if !(same && lawful) {
            let part = |name: &'static str, same: bool| if same { "" } else { name };
            self.fault(format!(
                "feed, output of {} bytes, bytes {}\n{}  kept {}\n  wanted {wanted:?}\n  got    {got:?}{}{}{}{}{}",
                lent.out.len(),
                hex(bytes),
                shown_state(&lent.state),
                hex(&lent.kept[..lent.kept.len().min(lent.state.kept_count as usize)]),
                part("\n  the states differ", got_lent.state == wanted_lent.state),
                part("\n  the kept bytes differ", got_lent.kept == wanted_lent.kept),
                part("\n  the outputs differ", got_lent.out == wanted_lent.out),
                part("\n  the requested entries differ", got_lent.requested == wanted_lent.requested),
                part("\n  the model breaks a law", lawful),
            ));
        }
        same.then_some((got, got_lent))
    }

    /// The table of answers, and the lines of those that never occurred.
    pub fn table(&self) -> (String, Vec<String>) {
        let mut table = String::new();
        let mut missing = Vec::new();
        for (entry, labels) in ANSWERS {
            write!(table, "  {entry:<15}").unwrap();
            for &label in *labels {
                let count = self.answers.get(&(*entry, label)).copied().unwrap_or(0);
                write!(table, " {label}: {count};").unwrap();
                if count == 0 {
                    missing.push(format!("{entry} never answered {label}"));
                }
            }
            table.push('\n');
        }
        for (entry, label) in self.answers.keys() {
            if !ANSWERS.iter().any(|(e, labels)| e == entry && labels.contains(label)) {
                missing.push(format!("{entry} answered {label}, which it cannot"));
            }
        }
        (table, missing)
    }
}

fn label_of(answer: &Answer, _: &[u8]) -> &'static str {
    label(answer.number)
}

fn capsule_label(number: u64, kind: u64) -> &'static str {
    match (number, kind) {
        (0, 0) => "0 datagram",
        (0, 1) => "0 assign",
        (0, 2) => "0 request",
        (0, 3) => "0 routes",
        (0, _) => "0 skipped",
        (number, _) => label(number),
    }
}

fn label(number: u64) -> &'static str {
    const LABELS: [&str; 26] = [
        "0", "1", "2", "3", "4", "5", "6", "7", "8", "9", "10", "11", "12", "13", "14", "15", "16", "17", "18", "19",
        "20", "21", "22", "23", "24", "25",
    ];
    LABELS.get(number as usize).copied().unwrap_or("other")
}

pub fn hex(bytes: &[u8]) -> String {
    let mut text = format!("({} bytes) ", bytes.len());
    for byte in bytes.iter().take(MAX_VALUE + 100) {
        write!(text, "{byte:02x}").unwrap();
    }
    text
}

fn written(answer: &Answer, out: &[u8]) -> String {
    if answer.number == 0 {
        hex(&out[..out.len().min(answer.length as usize)])
    } else {
        String::new()
    }
}

/// Words up to the last that is not 0.
fn shown(words: &[u64]) -> String {
    let used = words.iter().rposition(|w| *w != 0).map_or(0, |n| n + 1);
    let words: Vec<String> = words[..used].iter().map(|w| format!("{w:x}")).collect();
    words.join(" ")
}

fn shown_state(state: &State) -> String {
    let mut text = String::new();
    for (name, words) in [
        ("received_addresses", &state.received_addresses[..]),
        ("received_routes", &state.received_routes),
        ("given_addresses", &state.given_addresses),
        ("given_routes", &state.given_routes),
        ("plan", &state.plan),
        ("store", &[state.kept_count, state.to_skip, state.remembered]),
    ] {
        let words = shown(words);
        if !words.is_empty() {
            writeln!(text, "  {name}: {words}").unwrap();
        }
    }
    text
}
