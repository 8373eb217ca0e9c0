//! Capsules in pieces: the law of cutting, and each rule of what a call takes, keeps and remembers.

use whapirohi_reference::list::MAX_ADDRESSES;
use whapirohi_reference::stream::{FEED_ROOM, KEPT_LIMIT};
use whapirohi_reference::*;

const UNUSED: u8 = 0xAA;

/// One end of a tunnel that is fed with a stream.
#[derive(Clone, Debug, Default, PartialEq)]
struct End {
    stream: Stream,
    grants: Grants,
}

/// What a stream has brought, in order.
#[derive(Clone, Debug, PartialEq)]
enum Told {
    Datagram(Vec<u8>),
    Requested(Vec<AddressEntry>),
    Assigned,
    Advertised,
    Skipped,
}

/// An event, of a DATAGRAM by its bytes.
fn told(event: Event, value: &[u8]) -> Told {
    match event {
        Event::Datagram { .. } => Told::Datagram(value.to_vec()),
        Event::Requested(list) => Told::Requested(list.stored().to_vec()),
        Event::Assigned => Told::Assigned,
        Event::Advertised => Told::Advertised,
        Event::Skipped => Told::Skipped,
    }
}

impl End {
    /// One call; of the output nothing but a DATAGRAM's value may change.
    fn call(&mut self, bytes: &[u8]) -> (Result<Piece, Refusal>, Vec<u8>) {
        let mut out = [UNUSED; FEED_ROOM + 1];
        let piece = self.stream.feed(&mut self.grants, &Plan::default(), bytes, &mut out);
        let length = match piece {
            Ok(Piece::Ended(Event::Datagram { start, length }, _)) => {
                assert_eq!(start, 0);
                length
            }
            _ => 0,
        };
        assert!(out[length..].iter().all(|b| *b == UNUSED));
        assert!(self.stream.sound() && self.stream.kept.len() < KEPT_LIMIT);
        (piece, out[..length].to_vec())
    }

    fn feed(&mut self, bytes: &[u8]) -> Result<Piece, Refusal> {
        self.call(bytes).0
    }

    /// A whole piece, what is left of it handed in again; the answer is that of the last call.
    fn run(&mut self, mut bytes: &[u8], all: &mut Vec<Told>) -> Result<Piece, Refusal> {
        loop {
            let (piece, value) = self.call(bytes);
            let Ok(Piece::Ended(event, taken)) = piece else { return piece };
            all.push(told(event, &value));
            bytes = &bytes[taken..];
        }
    }
}

/// The whole buffer from place to place: what it brings, the lists, and how it ends.
fn whole(bytes: &[u8]) -> (Vec<Told>, Grants, Result<Piece, Refusal>) {
    let (mut all, mut grants, mut at) = (Vec::new(), Grants::default(), 0);
    loop {
        let (event, next) = match grants.read_capsule(&Plan::default(), bytes, at) {
            Ok(read) => read,
            Err(Refusal::NotAllThere) if at == bytes.len() => return (all, grants, Ok(Piece::Clean)),
            Err(Refusal::NotAllThere) => return (all, grants, Ok(Piece::Wait)),
            Err(refusal) => return (all, grants, Err(refusal)),
        };
        let value = match event {
            Event::Datagram { start, length } => &bytes[start..][..length],
            _ => &[],
        };
        all.push(told(event, value));
        at = next;
    }
}

fn hex(text: &str) -> Vec<u8> {
    let digits: Vec<u32> = text.chars().filter_map(|c| c.to_digit(16)).collect();
    digits.chunks(2).map(|pair| (pair[0] * 16 + pair[1]) as u8).collect()
}

/// Every kind, types and lengths in short and in long forms.
const STREAM: &str = "01 07 00 04 C0 00 02 03 20  00 03 AA BB CC  C000000000000003 400A 04 C6 33 64 02 C6 33 64 02 11 \
                      7BBD 80000002 DD EE  4002 C000000000000007 05 04 00 00 00 00 20  21 00  00 00  01 00";

/// Fed in these pieces, the stream brings what the whole buffer does and ends as it does.
fn same_as_whole(bytes: &[u8], pieces: &[&[u8]]) {
    assert_eq!(pieces.concat(), bytes);
    let (mut end, mut all, mut last) = (End::default(), Vec::new(), Ok(Piece::Clean));
    for piece in pieces {
        last = end.run(piece, &mut all);
        assert_eq!(end.feed(&[]), last);
    }
    assert_eq!((all, end.grants, last), whole(bytes));
}

#[test]
fn limits_of_the_paper() {
    assert_eq!((KEPT_LIMIT, FEED_ROOM), (16400, 16384));
}

#[test]
fn cut_at_every_two_places() {
    let bytes = hex(STREAM);
    let (all, _, last) = whole(&bytes);
    assert_eq!((all.len(), last), (8, Ok(Piece::Clean)));
    for first in 0..=bytes.len() {
        for second in first..=bytes.len() {
            same_as_whole(&bytes, &[&bytes[..first], &bytes[first..second], &bytes[second..]]);
        }
    }
}

#[test]
fn one_byte_at_a_time() {
    let bytes = hex(STREAM);
    for end in 0..=bytes.len() {
        let pieces: Vec<&[u8]> = bytes[..end].chunks(1).collect();
        same_as_whole(&bytes[..end], &pieces);
    }
}

#[test]
fn refusals_under_every_cut() {
    for refused in ["00 80004001", "01 03 00 05 00", "01 08 00 04 C0 00 02 03 20 00", "02 00", "03 01 04"] {
        let bytes = hex(&format!("01 00 {refused} 00 01 FF"));
        assert!(whole(&bytes).2.is_err());
        for first in 0..=bytes.len() {
            same_as_whole(&bytes, &[&bytes[..first], &bytes[first..]]);
        }
        same_as_whole(&bytes, &bytes.chunks(1).collect::<Vec<_>>());
    }
}

#[test]
fn no_byte_past_the_end_is_taken() {
    let mut end = End::default();
    assert_eq!(end.feed(&hex("00 02 AA")), Ok(Piece::Wait));
    let (piece, value) = end.call(&hex("BB 00 01 CC"));
    assert_eq!(piece, Ok(Piece::Ended(Event::Datagram { start: 0, length: 2 }, 1)));
    assert_eq!(value, [0xAA, 0xBB]);
    assert_eq!(end.stream, Stream::default());
    assert_eq!(end.feed(&hex("7BBD 02 DD EE 01 00")), Ok(Piece::Ended(Event::Skipped, 5)));
    assert_eq!(end.feed(&hex("01 00 01 00")), Ok(Piece::Ended(Event::Assigned, 2)));
}

#[test]
fn empty_pieces() {
    let mut end = End::default();
    assert_eq!(end.feed(&[]), Ok(Piece::Clean));
    for piece in ["40", "21 05", "DD DD"] {
        assert_eq!(end.feed(&hex(piece)), Ok(Piece::Wait));
        let before = end.clone();
        assert_eq!(end.feed(&[]), Ok(Piece::Wait));
        assert_eq!(end, before);
    }
    assert_eq!(end.feed(&hex("DD DD DD")), Ok(Piece::Ended(Event::Skipped, 3)));
    assert_eq!(end.feed(&[]), Ok(Piece::Clean));
}

#[test]
fn skipped_values_are_counted_and_not_kept() {
    let mut end = End::default();
    assert_eq!(end.feed(&hex("C000000000000021 FFFFFFFFFFFFFF")), Ok(Piece::Wait));
    assert_eq!(end.stream.kept.len(), 15);
    assert_eq!(end.feed(&hex("FF DD DD")), Ok(Piece::Wait));
    assert_eq!(end.stream, Stream { kept: vec![], to_skip: (1 << 62) - 3, refused: None });
    assert_eq!(end.feed(&[0; 100_000]), Ok(Piece::Wait));
    assert_eq!(end.stream, Stream { kept: vec![], to_skip: (1 << 62) - 100_003, refused: None });
    end.stream.to_skip = 3;
    assert_eq!(end.feed(&[0; 5]), Ok(Piece::Ended(Event::Skipped, 3)));
    assert_eq!(end.stream, Stream::default());
}

#[test]
fn the_longest_capsule_is_kept() {
    let mut bytes = hex("C000000000000000 C000000000004000");
    bytes.resize(KEPT_LIMIT, 7);
    let mut end = End::default();
    for n in 0..KEPT_LIMIT - 1 {
        assert_eq!(end.feed(&bytes[n..=n]), Ok(Piece::Wait));
    }
    assert_eq!(end.stream.kept.len(), KEPT_LIMIT - 1);
    let (piece, value) = end.call(&[7, 8, 9]);
    assert_eq!(piece, Ok(Piece::Ended(Event::Datagram { start: 0, length: FEED_ROOM }, 1)));
    assert_eq!(value, [7; FEED_ROOM]);
}

#[test]
fn too_long_at_once_and_other_faults_at_the_end() {
    let mut end = End::default();
    assert_eq!(end.feed(&hex("03 800040")), Ok(Piece::Wait));
    assert_eq!(end.feed(&hex("01")), Err(Refusal::ValueTooLong));
    assert_eq!(end.stream, Stream { kept: hex("03 800040"), to_skip: 0, refused: Some(Refusal::ValueTooLong) });

    // The first of two entries is faulty, and is not looked at until the second is there.
    let mut end = End::default();
    assert_eq!(end.feed(&hex("01 0E 00 07 C0 00 02 03 20 00 04 C0 00 02 03")), Ok(Piece::Wait));
    assert_eq!(end.feed(&hex("20 01 00")), Err(Refusal::BadAddress));
}

#[test]
fn a_refusal_is_remembered_and_changes_nothing_else() {
    let entry = hex("00 04 C0 00 02 03 20");
    let many = [&[1, 0x40, 7 * (MAX_ADDRESSES as u8 + 1)][..], &entry.repeat(MAX_ADDRESSES + 1)].concat();
    let mut end = End::default();
    assert_eq!(end.feed(&[&[1, 7][..], &entry].concat()), Ok(Piece::Ended(Event::Assigned, 9)));
    let (front, last) = many.split_at(many.len() - 1);
    assert_eq!(end.feed(front), Ok(Piece::Wait));
    let before = end.clone();
    assert_eq!(end.feed(last), Err(Refusal::ListTooLong));
    let refused = Stream { refused: Some(Refusal::ListTooLong), ..before.stream };
    let after = End { stream: refused, ..before };
    assert_eq!(end, after);
    for bytes in ["", "20", "01 00", "00 80004001"] {
        assert_eq!(end.feed(&hex(bytes)), Err(Refusal::ListTooLong));
        assert_eq!(end, after);
    }
}

#[test]
fn no_room_and_a_broken_state_are_not_remembered() {
    let plan = Plan::default();
    let mut end = End::default();
    assert_eq!(end.feed(&hex("00 02 AA")), Ok(Piece::Wait));
    let before = end.clone();
    let mut broken = end.grants;
    broken.given_addresses.count = MAX_ADDRESSES + 1;
    let mut room = [0; FEED_ROOM];
    for _ in 0..2 {
        let answer = end.stream.feed(&mut end.grants, &plan, &[0xBB], &mut room[1..]);
        assert_eq!(answer, Err(Refusal::NoRoom));
        assert_eq!(end.stream.feed(&mut broken, &plan, &[0xBB], &mut room[1..]), Err(Refusal::NoRoom));
        assert_eq!(end.stream.feed(&mut broken, &plan, &[0xBB], &mut room), Err(Refusal::BrokenState));
        assert_eq!(end, before);
    }
    end.stream.refused = Some(Refusal::BadRange);
    assert_eq!(end.stream.feed(&mut broken, &plan, &[0xBB], &mut room), Err(Refusal::BrokenState));
    assert_eq!(end.feed(&[0xBB]), Err(Refusal::BadRange));
    end.stream.refused = None;
    assert_eq!(end.feed(&[0xBB]), Ok(Piece::Ended(Event::Datagram { start: 0, length: 2 }, 1)));
}

#[test]
fn a_stream_that_no_call_leaves_is_9() {
    let stream = |kept: &str, to_skip, refused| Stream { kept: hex(kept), to_skip, refused };
    let sound = [
        stream("", 0, None),
        stream("40", 0, None),
        stream("21", 0, None),
        stream("7BBD C00000", 0, None),
        stream("03 80004000 04", 0, Some(Refusal::RangesOutOfOrder)),
        stream("", 1, None),
        stream("", (1 << 62) - 1, Some(Refusal::ValueTooLong)),
    ];
    assert!(sound.iter().all(Stream::sound));
    let long = Stream { kept: [&hex("00 80004000")[..], &[0; KEPT_LIMIT]].concat(), ..Stream::default() };
    let broken = [
        stream("00 00", 0, None),
        stream("21 00", 0, None),
        stream("21 05 DD", 0, None),
        stream("00 02 AA BB", 0, None),
        stream("00 80004001", 0, None),
        stream("40", 1, None),
        stream("", 1 << 62, None),
        stream("", 0, Some(Refusal::NotAllThere)),
        stream("", 0, Some(Refusal::BrokenState)),
        stream("", 0, Some(Refusal::NoRoom)),
        long,
    ];
    for mut stream in broken {
        let before = stream.clone();
        let answer = stream.feed(&mut Grants::default(), &Plan::default(), &[0], &mut [0; FEED_ROOM]);
        assert_eq!((answer, &stream), (Err(Refusal::BrokenState), &before));
    }
}
