//! Streams of capsules cut into pieces, and stores: sound, or breaking one of their rules.

use crate::capsules::{about_limit, capsule, head, number_form, sound_capsule, sound_value};
use crate::compare::Run;
use crate::families::{lists_state, requested};
use crate::random::Random;
use crate::subject::Lent;
use crate::words::{grants_of, plan_of};
use whapirohi_reference::capsule::MAX_VALUE;
use whapirohi_reference::number;
use whapirohi_tunnel::{AddressWords, Piece, State, FEED_ROOM, KEPT_SIZE, MAX_TEMPLATES};

pub fn capsules_in_pieces(run: &mut Run, random: &mut Random, cases: u64) {
    while run.cases < cases {
        let mut lent = lent(random);
        if random.once_in(3) {
            for _ in 0..8 {
                one_call_from_a_store(run, random, &lent);
            }
        }
        let bytes = stream(random);
        let wanted = whole(run, &lent, &bytes);
        let Some(got) = in_pieces(run, random, &mut lent, &bytes) else { continue };
        let Some(wanted) = wanted else { continue };
        run.occasion(match wanted.end {
            End::Clean => "pieces as the whole buffer, clean end",
            End::Open => "pieces as the whole buffer, open end",
            End::Refused(_) => "pieces as the whole buffer, refused",
        });
        run.expect(got == wanted, || format!("a stream of {} bytes in pieces is not that of the buffer", bytes.len()));
    }
}

/// Words of the store that mean nothing to any call but `feed`.
pub fn litter_store(random: &mut Random, state: &mut State) {
    if random.once_in(3) {
        (state.kept_count, state.to_skip, state.remembered) = (random.edge(), random.edge(), random.edge());
    }
}

/// An empty store; anything in the bytes that mean nothing.
fn lent(random: &mut Random) -> Lent {
    let mut kept = [0; KEPT_SIZE];
    kept.copy_from_slice(&random.bytes(KEPT_SIZE));
    Lent { state: lists_state(random), kept, out: random.output(FEED_ROOM), requested: requested(random) }
}

/// Some capsules, most of them sound.
fn stream(random: &mut Random) -> Vec<u8> {
    let faults = random.pick(&[1, 3, 20]);
    let count = random.between(1, 6);
    let mut bytes = if random.once_in(12) { about_limit(random) } else { Vec::new() };
    for _ in 0..count {
        bytes.extend(if random.once_in(faults) { capsule(random) } else { sound_capsule(random) });
    }
    if random.once_in(4) {
        bytes.truncate(random.below(bytes.len() + 1));
    }
    bytes
}

/// What a stream brings, in order, what it leaves of the state but the store, and how it ends.
#[derive(PartialEq)]
struct Told {
    capsules: Vec<Handed>,
    state: State,
    end: End,
}

#[derive(PartialEq)]
enum Handed {
    Datagram(Vec<u8>),
    Request(Box<AddressWords>),
    Other(u64),
}

#[derive(PartialEq)]
enum End {
    Clean,
    Open,
    Refused(u64),
}

fn handed(kind: u64, value: &[u8], requested: &AddressWords) -> Handed {
    match kind {
        0 => Handed::Datagram(value.to_vec()),
        2 => Handed::Request(Box::new(*requested)),
        kind => Handed::Other(kind),
    }
}

/// The whole buffer from place to place, by `read_capsule`; none without room, or where the state breaks its rules.
fn whole(run: &mut Run, lent: &Lent, bytes: &[u8]) -> Option<Told> {
    if lent.out.len() < FEED_ROOM || !grants_of(&lent.state).sound() || !plan_of(&lent.state.plan).sound() {
        return None;
    }
    let mut told = Told { capsules: Vec::new(), state: lent.state.clone(), end: End::Clean };
    let mut at = 0;
    loop {
        let (read, state, requested) = run.read_capsule(&told.state, bytes, at, &lent.requested);
        match read.number {
            0 if read.next as usize > at => {
                let value = bytes.get(read.start as usize..)?.get(..read.length as usize)?;
                told.capsules.push(handed(read.kind, value, &requested));
                told.state = state;
                at = read.next as usize;
            }
            1 if at == bytes.len() => return Some(told),
            1 => return Some(Told { end: End::Open, ..told }),
            number => return Some(Told { end: End::Refused(number), ..told }),
        }
    }
}

/// The sizes of pieces, as the link cuts them.
fn sizes(random: &mut Random, length: usize) -> Vec<usize> {
    match random.below(if length < 700 { 5 } else { 4 }) {
        0 => vec![1400],
        1 => vec![random.between(2, 900) + length / 50],
        2 => vec![random.below(length + 1), length],
        3 => {
            let most = random.pick(&[4, 40, 2000]) + length / 50;
            (0..40).map(|_| if random.once_in(6) { 0 } else { random.below(most + 1) }).chain([1]).collect()
        }
        _ => vec![1],
    }
}

/// Bytes come in pieces; what a call leaves is handed in again, alone or with the next piece. None where a call differs from the model's.
fn in_pieces(run: &mut Run, random: &mut Random, lent: &mut Lent, bytes: &[u8]) -> Option<Told> {
    let sizes = sizes(random, bytes.len());
    if sizes == [1] {
        run.occasion("one byte at a time");
    }
    let mut sizes = sizes.into_iter().cycle();
    let mut capsules = Vec::new();
    let (mut at, mut arrived) = (0, 0);
    let mut more = true;
    let end = loop {
        if more {
            arrived = bytes.len().min(arrived + sizes.next().unwrap());
        }
        if random.once_in(30) {
            interrupted(run, random, lent, &bytes[at..arrived])?;
        }
        let (piece, after) = run.feed(lent, &bytes[at..arrived])?;
        occasions(run, lent, &after, &piece, arrived - at);
        at += piece.taken as usize;
        *lent = after;
        more = true;
        match piece.number {
            0 if piece.handed == 1 => {
                capsules.push(handed(piece.kind, &lent.out[..piece.length as usize], &lent.requested));
                more = random.once_in(3);
            }
            0 if arrived == bytes.len() => break End::Clean,
            1 if arrived == bytes.len() => break End::Open,
            0 | 1 => {}
            number => break End::Refused(number),
        }
    };
    match end {
        End::Refused(number) => repeated(run, random, lent, number)?,
        _ => {
            let (piece, _) = run.feed(lent, &[])?;
            run.expect(piece.number == u64::from(end == End::Open), || {
                "the end of a stream changes by no bytes".into()
            });
        }
    }
    let state = State { kept_count: 0, to_skip: 0, remembered: 0, ..lent.state.clone() };
    Some(Told { capsules, state, end })
}

/// A call with too little room, or with a plan that breaks its rules: it is answered, and the stream goes on as if it had not been made.
fn interrupted(run: &mut Run, random: &mut Random, lent: &Lent, bytes: &[u8]) -> Option<()> {
    let mut short = lent.clone();
    let number = if random.once_in(2) {
        short.out.truncate(FEED_ROOM - 1);
        run.occasion("16 in the middle of a stream");
        16
    } else {
        short.state.plan[0] = MAX_TEMPLATES as u64 + 1;
        run.occasion("9 in the middle of a stream");
        9
    };
    let (piece, after) = run.feed(&short, bytes)?;
    let answered = if lent.out.len() < FEED_ROOM { 16 } else { number };
    run.expect(piece.number == answered && after == short, || format!("{answered} in the middle: {piece:?}"));
    Some(())
}

/// Calls after a refusal: 9 and 16 are not remembered, every other number is.
fn repeated(run: &mut Run, random: &mut Random, lent: &Lent, number: u64) -> Option<()> {
    for _ in 0..3 {
        let bytes = if random.once_in(3) { Vec::new() } else { sound_capsule(random) };
        let (piece, after) = run.feed(lent, &bytes)?;
        let remembered = if matches!(number, 9 | 16) { 0 } else { number };
        if remembered > 0 {
            run.occasion("refusal repeated");
        }
        run.expect(piece.number == number && after.state.remembered == remembered && after == *lent, || {
            format!("after {number}: {piece:?}")
        });
    }
    Some(())
}

fn occasions(run: &mut Run, before: &Lent, after: &Lent, piece: &Piece, given: usize) {
    let count = after.state.kept_count as usize;
    match piece.number {
        0 if before.state.kept_count > 0 && piece.kind == 0 => run.occasion("datagram that ends in a later piece"),
        0 if before.state.kept_count > 0 && piece.kind < 4 => run.occasion("list that ends in a later piece"),
        1 if given == 0 => run.occasion("empty piece while a capsule is open"),
        1 if after.state.to_skip >= 1 << 61 => run.occasion("cut in a skipped value of 2^61 bytes or more"),
        1 if after.state.to_skip > 0 => run.occasion("cut in a skipped value"),
        1 => run.occasion(match number::parse(&after.kept[..count]) {
            None => "cut in a type",
            Some((_, size)) if number::parse(&after.kept[size..count]).is_none() => "cut in a length",
            Some(_) => "cut in a value",
        }),
        _ => {}
    }
}

/// A call whose store no call before need have left; its bytes may end the capsule.
fn one_call_from_a_store(run: &mut Run, random: &mut Random, lent: &Lent) {
    let mut lent = lent.clone();
    let (name, missing) = store(random, &mut lent);
    run.occasion(name);
    run.limit("bytes kept", lent.state.kept_count, KEPT_SIZE);
    let length = match random.below(6) {
        0 => 0,
        1 => 1,
        2 => missing.len().saturating_sub(1),
        3 => missing.len(),
        4 => missing.len() + 1,
        _ => missing.len() + random.below(300),
    };
    let mut bytes = missing;
    let more = random.bytes(length.saturating_sub(bytes.len()));
    bytes.extend(more);
    bytes.truncate(length);
    let _ = run.feed(&lent, &bytes);
}

/// Puts a store: what it is, and bytes that are still to come.
fn store(random: &mut Random, lent: &mut Lent) -> (&'static str, Vec<u8>) {
    let Lent { state, kept, .. } = lent;
    let mut keep = |state: &mut State, bytes: &[u8]| {
        kept[..bytes.len()].copy_from_slice(bytes);
        state.kept_count = bytes.len() as u64;
    };
    // An open capsule of a known type: cut in its value, in its length, or in its type.
    let kind = random.below(4) as u64;
    let longest = random.once_in(8);
    let value = if longest { random.bytes(MAX_VALUE) } else { sound_value(random, kind) };
    let front = if longest {
        [number_form(kind, 3), number_form(value.len() as u64, 3)].concat()
    } else {
        head(random, kind, value.len() as u64)
    };
    let capsule = [&front[..], &value].concat();
    let cut = match random.below(4) {
        0 => random.below(front.len()),
        1 => capsule.len() - 1,
        _ => random.below(capsule.len()),
    };
    let (open, missing) = capsule.split_at(cut);
    keep(state, open);
    if random.once_in(4) {
        state.remembered = random.between(2, 7) as u64;
    }
    let name = match random.below(11) {
        0 => {
            const SIZE: u64 = KEPT_SIZE as u64;
            state.kept_count = random.pick(&[SIZE + 1, SIZE + 2, 1 << 32, (1 << 32) + 5, 1 << 63, u64::MAX]);
            "store: more kept than there is room for"
        }
        1 => {
            state.remembered = random.pick(&[1, 8, 9, 10, 16, 25, 258, (1 << 32) + 3, u64::MAX]);
            "store: remembers what is not remembered"
        }
        2 => {
            keep(state, &[]);
            state.to_skip = random.pick(&[1 << 62, (1 << 62) + 1, 1 << 63, u64::MAX]);
            "store: skips 2^62 bytes or more"
        }
        3 => {
            keep(state, &capsule[..cut.max(1)]);
            state.to_skip = random.edge_number().max(1);
            "store: keeps bytes and skips"
        }
        4 => {
            let more = random.below((KEPT_SIZE - capsule.len()).min(3) + 1);
            let more = random.bytes(more);
            keep(state, &[&capsule[..], &more].concat());
            "store: keeps a whole capsule"
        }
        5 => {
            let (kind, length) = (random.edge_number().max(4), random.edge_number());
            let more = random.below(20);
            keep(state, &[head(random, kind, length), random.bytes(more)].concat());
            "store: keeps a type that is skipped"
        }
        6 => {
            let length = random.edge_number().max(MAX_VALUE as u64 + 1);
            let more = random.below(20);
            keep(state, &[head(random, kind, length), random.bytes(more)].concat());
            "store: keeps a length that is refused"
        }
        7 => {
            keep(state, &[]);
            let length = random.below(60);
            state.to_skip = if random.once_in(3) { random.edge_number() } else { length as u64 };
            return ("store: sound", random.bytes(length));
        }
        8 => {
            // The front of a type that is skipped.
            let (kind, length) = (random.edge_number().max(4), random.below(60));
            let front = head(random, kind, length as u64);
            let (open, missing) = front.split_at(random.below(front.len()));
            keep(state, open);
            return ("store: sound", [missing, &random.bytes(length)].concat());
        }
        _ => "store: sound",
    };
    (name, missing.to_vec())
}
