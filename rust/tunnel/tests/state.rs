//! The state that Rust lends is the state that the library expects, and the drivers' packet goes there and back.
#![cfg(feature = "link")]

use whapirohi_tunnel::{kept_size, state_size, Piece, State};
use whapirohi_tunnel::{ADDRESS_WORDS, CAPSULE_ROOM, FEED_ROOM, KEPT_SIZE, RECEIVE_ROOM, ROUTE_WORDS, SEND_ROOM};

#[test]
fn size_of_the_state() {
    assert_eq!(state_size(), size_of::<State>() as u64);
    assert_eq!(state_size(), 32128);
    assert_eq!(kept_size(), KEPT_SIZE as u64);
    assert_eq!(kept_size(), 16400);
}

#[test]
fn a_stream_in_pieces() {
    let mut state = State::new();
    let (mut kept, mut out, mut requested) = ([0; KEPT_SIZE], [0; FEED_ROOM], [0; ADDRESS_WORDS]);
    let mut feed = |bytes: &[u8]| state.feed(&mut kept, bytes, &mut out, &mut requested);
    let wait = Piece { number: 1, handed: 0, kind: 0, length: 0, taken: 0 };
    assert_eq!(feed(b"\x00\x03\xAA"), Piece { taken: 3, ..wait });
    let ended = Piece { number: 0, handed: 1, kind: 0, length: 3, taken: 2 };
    assert_eq!(feed(b"\xBB\xCC\x01\x07\x00\x04\xC0"), ended);
    assert_eq!(feed(b"\x01\x07\x00\x04\xC0"), Piece { taken: 5, ..wait });
    assert_eq!(feed(b"\x00\x02\x03\x20"), Piece { kind: 1, length: 0, taken: 4, ..ended });
    assert_eq!(feed(b""), Piece { number: 0, ..wait });
    assert_eq!(feed(b"\x00\x80\x00\x40\x01"), Piece { number: 2, ..wait });
    assert_eq!(feed(b"\x01\x00"), Piece { number: 2, ..wait });
    assert_eq!(out[..4], [0xAA, 0xBB, 0xCC, 0]);
    assert_eq!(state.received_addresses[..5], [1, 0, 4 + 256 * 32, 0, 0xC000_0203]);
    assert_eq!((state.kept_count, state.to_skip, state.remembered), (0, 0, 2));
}

#[test]
fn drivers_packet_there_and_back() {
    let mut van = State::new();
    let mut clinic = State::new();
    let plan = b"VAN\x00\x01\x01\x02\x01\x0C\x0C\xC0\x00\x02\x03\xC6\x33\x64\x02\x03\xE8\x07\xD0\x01\x1A\x14";
    assert_eq!((van.load_plan(plan), clinic.load_plan(plan)), (0, 0));

    // 192.0.2.3/32, and UDP to 198.51.100.2.
    let mut addresses = [0; ADDRESS_WORDS];
    addresses[..5].copy_from_slice(&[1, 0, 4 + 256 * 32, 0, 0xC000_0203]);
    let mut routes = [0; ROUTE_WORDS];
    routes[..6].copy_from_slice(&[1, 4 + 256 * 17, 0, 0xC633_6402, 0, 0xC633_6402]);
    let mut capsules = [[0; CAPSULE_ROOM]; 2];
    let assigned = clinic.write_assign(&addresses, &mut capsules[0]).written().unwrap();
    let advertised = clinic.write_routes(&routes, &mut capsules[1]).written().unwrap();
    let stream = [&capsules[0][..assigned], &capsules[1][..advertised]].concat();
    let mut requested = [0; ADDRESS_WORDS];
    let first = van.read_capsule(&stream, 0, &mut requested);
    assert_eq!((first.number, first.kind, first.next), (0, 1, assigned as u64));
    let second = van.read_capsule(&stream, assigned, &mut requested);
    assert_eq!((second.number, second.kind, second.next), (0, 3, stream.len() as u64));

    let packet = b"\x45\x00\x00\x1C\x00\x00\x00\x00\x40\x11\x8E\x98\xC0\x00\x02\x03\xC6\x33\x64\x02\x03\xE8\x07\xD0\x00\x08\x07\xED";
    let mut datagram = [0; SEND_ROOM];
    let sent = van.send(packet, &mut datagram).written().unwrap();
    assert_eq!(datagram[..sent], *b"\x02\x45\x00\x00\x1C\x00\x00\x00\x00\x3F\x11\x8F\x98\x00\x08\xEC\x52");
    let mut out = [0; RECEIVE_ROOM];
    let received = clinic.receive(&datagram[..sent], &mut out).written().unwrap();
    let mut lowered = *packet;
    lowered[8..12].copy_from_slice(b"\x3F\x11\x8F\x98");
    assert_eq!(out[..received], lowered);
}
