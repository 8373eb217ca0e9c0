//! Requests with more entries than a list holds: IDs are compared among all of them.

use crate::capsules::{head, put_number, LEAST_ENTRY};
use crate::compare::Run;
use crate::families::{lists_state, requested};
use crate::random::Random;
use crate::subject::Lent;
use crate::words::empty_state;
use whapirohi_reference::capsule::MAX_VALUE;
use whapirohi_reference::list::MAX_ADDRESSES;
use whapirohi_tunnel::{FEED_ROOM, KEPT_SIZE};

/// IDs of one byte that are not 0.
const SHORT_IDS: usize = 63;

/// The most entries that a value can hold, and the most whose IDs all differ: those of one byte, the rest of two.
const MOST_ENTRIES: usize = MAX_VALUE / LEAST_ENTRY;
const MOST_DIFFERENT: usize = SHORT_IDS + (MAX_VALUE - SHORT_IDS * LEAST_ENTRY) / (LEAST_ENTRY + 1);

/// The bytes that these take.
const DIFFERENT_BYTES: usize = MOST_DIFFERENT * (LEAST_ENTRY + 1) - SHORT_IDS;

#[derive(Clone, Copy)]
enum Entry {
    Sound,
    /// The ID in a longer form.
    Longer,
    Bad,
    /// The end of the value stands in it.
    Cut,
}

/// The IDs of a request and what else its entries are.
struct Request(Vec<(u64, Entry)>);

impl Request {
    fn value(&self, random: &mut Random) -> Vec<u8> {
        let mut value = Vec::with_capacity(MAX_VALUE);
        for &(id, entry) in &self.0 {
            put_number(&mut value, id, usize::from(matches!(entry, Entry::Longer)));
            value.push(4);
            value.extend((random.word() as u32).to_be_bytes());
            match entry {
                Entry::Cut => break,
                Entry::Bad => value.push(33),
                _ => value.push(32),
            }
        }
        value
    }

    /// Entry `second` gets the ID of entry `first`.
    fn repeat(&mut self, first: usize, second: usize) {
        self.0[second].0 = self.0[first].0;
    }
}

pub fn requests(run: &mut Run, random: &mut Random, cases: u64) {
    let mut distance = 0;
    while run.cases < cases {
        // The longest request, its IDs in any order, one of them repeated: at another distance each time.
        distance = distance % (MOST_DIFFERENT - 1) + 1;
        let mut request = different(random, MOST_DIFFERENT, 0);
        let first = random.below(MOST_DIFFERENT - distance);
        request.repeat(first, first + distance);
        read(run, random, &request, 6);
        if distance == MOST_DIFFERENT - 1 {
            run.occasion("request: an ID repeated at every distance");
        }
        let (request, number) = faulty(run, random);
        read(run, random, &request, number);
    }
}

/// So many different IDs, none of them 0, in any order: 0 the least ones, 1 of 4 bytes, 2 of all sizes.
fn different(random: &mut Random, count: usize, kind: usize) -> Request {
    let step = match kind {
        0 => 1,
        1 => random.between(1 << 14, (1 << 30) / count) as u64,
        _ => random.between(1, (1 << 61) / count) as u64 >> random.below(48),
    };
    let mut entries: Vec<(u64, Entry)> = (1..=count as u64).map(|n| (n * step.max(1), Entry::Sound)).collect();
    match random.below(4) {
        0 => {}
        1 => entries.reverse(),
        _ => (1..count).for_each(|n| entries.swap(n, random.below(n + 1))),
    }
    Request(entries)
}

/// A request that is too long, with one or two other faults or none, and what it is answered.
fn faulty(run: &mut Run, random: &mut Random) -> (Request, u64) {
    let kind = random.below(3);
    let most = [MOST_DIFFERENT, MAX_VALUE / (LEAST_ENTRY + 3), MAX_VALUE / (LEAST_ENTRY + 7)][kind];
    let count = match random.below(4) {
        0 => most,
        1 => ((MAX_ADDRESSES << random.below(7)) + random.below(3)).min(most),
        2 => random.between(MAX_ADDRESSES + 1, MAX_ADDRESSES + 8),
        _ => random.between(MAX_ADDRESSES + 1, most),
    };
    let count = count.max(MAX_ADDRESSES + 2);
    let mut request = different(random, count, kind);
    let last = count - 1;
    let second = random.between(1, last - 1);
    let first = random.below(second);
    let (name, number) = match random.below(15) {
        0 | 1 => ("request: all IDs differ", 7),
        2 => {
            request = different(random, MOST_DIFFERENT, 0);
            ("request: all IDs differ, as many as a value can hold", 7)
        }
        3 => {
            let ids = random.between(1, SHORT_IDS);
            request = Request((0..MOST_ENTRIES).map(|_| (random.between(1, ids) as u64, Entry::Sound)).collect());
            ("request: as many entries as a value can hold", 6)
        }
        4 => {
            request.repeat(0, last);
            ("request: the first ID and the last are equal", 6)
        }
        5 => {
            request.repeat(second - 1, second);
            ("request: neighbours are equal", 6)
        }
        6 => {
            let first = random.between(MAX_ADDRESSES, last - 1);
            request.repeat(first, random.between(first + 1, last));
            ("request: IDs past the limit of a list are equal", 6)
        }
        7 => {
            request.repeat(first, second);
            request.0[second].1 = Entry::Longer;
            ("request: equal IDs in two forms", 6)
        }
        8 => {
            request.0[last].0 = 0;
            ("request: the last ID is 0", 6)
        }
        9 => {
            request.0[random.between(second, last)].1 = Entry::Bad;
            ("request: a bad entry", 3)
        }
        10 => {
            request.repeat(first, second);
            request.0[random.between(second + 1, last)].1 = Entry::Bad;
            ("request: a bad entry behind a repeated ID", 6)
        }
        11 => {
            request.repeat(first, second);
            request.0[random.between(0, second)].1 = Entry::Bad;
            ("request: a bad entry before a repeated ID, or with it", 3)
        }
        12 => {
            // Some IDs of one byte in two, until the value has as many bytes as it may, one less or one more.
            request = different(random, MOST_DIFFERENT, 0);
            let longer = MAX_VALUE - DIFFERENT_BYTES + random.below(3) - 1;
            let short = request.0.iter_mut().filter(|(id, _)| *id <= SHORT_IDS as u64);
            short.take(longer).for_each(|(_, entry)| *entry = Entry::Longer);
            ("request: a value about its limit", if DIFFERENT_BYTES + longer > MAX_VALUE { 2 } else { 7 })
        }
        13 => {
            request.0[last].1 = Entry::Cut;
            ("request: the last entry is cut", 3)
        }
        _ => {
            request.repeat(first, second);
            request.0[last].1 = Entry::Cut;
            ("request: the last entry is cut, behind a repeated ID", 6)
        }
    };
    run.occasion(name);
    (request, number)
}

/// Reads a request from one buffer or in two pieces; seldom its entries as assigned ones.
fn read(run: &mut Run, random: &mut Random, request: &Request, number: u64) {
    let value = request.value(random);
    run.expect(value.len() <= MAX_VALUE || number == 2, || format!("a value of {} bytes", value.len()));
    let bytes = [head(random, 2, value.len() as u64), value.clone()].concat();
    let state = if random.once_in(8) { lists_state(random) } else { empty_state() };
    let requested = requested(random);
    let answer = |broken: bool| if broken { 9 } else { number };
    if random.once_in(6) {
        // Within the value the refusal of its length would have come before.
        let cut = if number == 2 { random.below(2) } else { random.below(bytes.len()) };
        let lent = Lent { state, kept: [0; KEPT_SIZE], out: vec![0; FEED_ROOM], requested };
        let Some((piece, lent)) = run.feed(&lent, &bytes[..cut]) else { return };
        let Some((last, _)) = run.feed(&lent, &bytes[cut..]) else { return };
        run.expect(last.number == answer(piece.number == 9), || format!("a request in two pieces: {last:?}"));
        return;
    }
    let (capsule, _, _) = run.read_capsule(&state, &bytes, 0, &requested);
    run.expect(capsule.number == answer(capsule.number == 9), || format!("a request: {capsule:?}"));
    if number == 7 && random.once_in(3) {
        let bytes = [head(random, 1, value.len() as u64), value].concat();
        let (capsule, _, _) = run.read_capsule(&state, &bytes, 0, &requested);
        run.expect(capsule.number == answer(capsule.number == 9), || format!("assigned: {capsule:?}"));
    }
}
