//! What is tested: the calls of the header, over words.

use crate::words::{address_list, address_words, grants_of, plan_of, plan_words, route_list, route_words, stream_of};
use whapirohi_reference as reference;
use whapirohi_reference::{Event, Grants, Refusal};
use whapirohi_tunnel::{AddressWords, Answer, Capsule, KeptBytes, Number, Piece, RouteWords, State};

pub trait Subject {
    fn start(&self, state: &mut State);
    fn load_plan(&self, state: &mut State, file: &[u8]) -> u64;
    fn write_plan(&self, state: &State, out: &mut [u8]) -> Answer;
    fn read_capsule(&self, state: &mut State, bytes: &[u8], at: usize, requested: &mut AddressWords) -> Capsule;
    fn feed(&self, lent: &mut Lent, bytes: &[u8]) -> Piece;
    fn write_assign(&self, state: &mut State, list: &AddressWords, out: &mut [u8]) -> Answer;
    fn write_routes(&self, state: &mut State, list: &RouteWords, out: &mut [u8]) -> Answer;
    fn send(&self, state: &State, packet: &[u8], out: &mut [u8]) -> Answer;
    fn receive(&self, state: &State, datagram: &[u8], out: &mut [u8]) -> Answer;
    fn read_number(&self, bytes: &[u8]) -> Number;
    fn write_number(&self, value: u64, out: &mut [u8]) -> Answer;
    fn write_datagram(&self, value: &[u8], out: &mut [u8]) -> Answer;
    fn write_request(&self, list: &AddressWords, out: &mut [u8]) -> Answer;
}

/// All that is lent to `feed` beside the bytes of the stream.
#[derive(Clone, PartialEq)]
pub struct Lent {
    pub state: State,
    pub kept: KeptBytes,
    pub out: Vec<u8>,
    pub requested: AddressWords,
}

/// The proved library.
#[cfg(feature = "library")]
pub struct Library;

#[cfg(feature = "library")]
impl Subject for Library {
    fn start(&self, state: &mut State) {
        state.start()
    }

    fn load_plan(&self, state: &mut State, file: &[u8]) -> u64 {
        state.load_plan(file)
    }

    fn write_plan(&self, state: &State, out: &mut [u8]) -> Answer {
        state.write_plan(out)
    }

    fn read_capsule(&self, state: &mut State, bytes: &[u8], at: usize, requested: &mut AddressWords) -> Capsule {
        state.read_capsule(bytes, at, requested)
    }

    fn feed(&self, lent: &mut Lent, bytes: &[u8]) -> Piece {
        lent.state.feed(&mut lent.kept, bytes, &mut lent.out, &mut lent.requested)
    }

    fn write_assign(&self, state: &mut State, list: &AddressWords, out: &mut [u8]) -> Answer {
        state.write_assign(list, out)
    }

    fn write_routes(&self, state: &mut State, list: &RouteWords, out: &mut [u8]) -> Answer {
        state.write_routes(list, out)
    }

    fn send(&self, state: &State, packet: &[u8], out: &mut [u8]) -> Answer {
        state.send(packet, out)
    }

    fn receive(&self, state: &State, datagram: &[u8], out: &mut [u8]) -> Answer {
        state.receive(datagram, out)
    }

    fn read_number(&self, bytes: &[u8]) -> Number {
        whapirohi_tunnel::read_number(bytes)
    }

    fn write_number(&self, value: u64, out: &mut [u8]) -> Answer {
        whapirohi_tunnel::write_number(value, out)
    }

    fn write_datagram(&self, value: &[u8], out: &mut [u8]) -> Answer {
        whapirohi_tunnel::write_datagram(value, out)
    }

    fn write_request(&self, list: &AddressWords, out: &mut [u8]) -> Answer {
        whapirohi_tunnel::write_request(list, out)
    }
}

/// The reference behind the same words: what the header promises, worked out by the reference.
pub struct Model;

impl Subject for Model {
    fn start(&self, state: &mut State) {
        *state = crate::words::empty_state();
    }

    fn load_plan(&self, state: &mut State, file: &[u8]) -> u64 {
        match reference::read_plan(file) {
            Ok(plan) => {
                state.plan = plan_words(&plan);
                0
            }
            Err(refusal) => refusal.number().into(),
        }
    }

    fn write_plan(&self, state: &State, out: &mut [u8]) -> Answer {
        answer(reference::write_plan(&plan_of(&state.plan), out))
    }

    fn read_capsule(&self, state: &mut State, bytes: &[u8], at: usize, requested: &mut AddressWords) -> Capsule {
        let mut grants = grants_of(state);
        let (event, next) = match grants.read_capsule(&plan_of(&state.plan), bytes, at) {
            Ok(read) => read,
            Err(refusal) => {
                return Capsule { number: refusal.number().into(), kind: 0, start: 0, length: 0, next: at as u64 };
            }
        };
        let (kind, start, length) = handed(state, &grants, &event, requested);
        Capsule { number: 0, kind, start: start as u64, length: length as u64, next: next as u64 }
    }

    fn feed(&self, lent: &mut Lent, bytes: &[u8]) -> Piece {
        let Lent { state, kept, out, requested } = lent;
        let (mut grants, mut stream) = (grants_of(state), stream_of(state, kept));
        let remembered = stream.refused;
        let nothing = Piece { number: 0, handed: 0, kind: 0, length: 0, taken: 0 };
        let piece = match stream.feed(&mut grants, &plan_of(&state.plan), bytes, out) {
            Ok(reference::Piece::Ended(event, taken)) => {
                let (kind, _, length) = handed(state, &grants, &event, requested);
                Piece { handed: 1, kind, length: length as u64, taken: taken as u64, ..nothing }
            }
            Ok(reference::Piece::Wait) => Piece { number: 1, taken: bytes.len() as u64, ..nothing },
            Ok(reference::Piece::Clean) => nothing,
            Err(refusal) => {
                let number = refusal.number().into();
                if stream.refused != remembered {
                    state.remembered = number;
                }
                return Piece { number, ..nothing };
            }
        };
        kept[..stream.kept.len()].copy_from_slice(&stream.kept);
        state.kept_count = stream.kept.len() as u64;
        state.to_skip = stream.to_skip;
        piece
    }

    /// A list that was written is kept word for word as it was handed in.
    fn write_assign(&self, state: &mut State, list: &AddressWords, out: &mut [u8]) -> Answer {
        let answer = answer(grants_of(state).write_assign(&plan_of(&state.plan), &address_list(list), out));
        if answer.number == 0 {
            state.given_addresses = *list;
        }
        answer
    }

    fn write_routes(&self, state: &mut State, list: &RouteWords, out: &mut [u8]) -> Answer {
        let answer = answer(grants_of(state).write_routes(&plan_of(&state.plan), &route_list(list), out));
        if answer.number == 0 {
            state.given_routes = *list;
        }
        answer
    }

    fn send(&self, state: &State, packet: &[u8], out: &mut [u8]) -> Answer {
        answer(reference::send(&grants_of(state), &plan_of(&state.plan), packet, out))
    }

    fn receive(&self, state: &State, datagram: &[u8], out: &mut [u8]) -> Answer {
        answer(reference::receive(&grants_of(state), &plan_of(&state.plan), datagram, out))
    }

    fn read_number(&self, bytes: &[u8]) -> Number {
        match reference::read_number(bytes) {
            Ok((value, size)) => Number { number: 0, value, size: size as u64 },
            Err(refusal) => Number { number: refusal.number().into(), value: 0, size: 0 },
        }
    }

    fn write_number(&self, value: u64, out: &mut [u8]) -> Answer {
        answer(reference::write_number(value, out))
    }

    fn write_datagram(&self, value: &[u8], out: &mut [u8]) -> Answer {
        answer(reference::write_datagram(value, out))
    }

    fn write_request(&self, list: &AddressWords, out: &mut [u8]) -> Answer {
        answer(reference::write_request(&address_list(list), out))
    }
}

/// Puts what a capsule altered or hands back into words; its kind, and the place and length of a DATAGRAM's value.
fn handed(state: &mut State, grants: &Grants, event: &Event, requested: &mut AddressWords) -> (u64, usize, usize) {
    match event {
        Event::Datagram { start, length } => (0, *start, *length),
        Event::Assigned => {
            state.received_addresses = address_words(&grants.received_addresses);
            (1, 0, 0)
        }
        Event::Requested(list) => {
            *requested = address_words(list);
            (2, 0, 0)
        }
        Event::Advertised => {
            state.received_routes = route_words(&grants.received_routes);
            (3, 0, 0)
        }
        Event::Skipped => (4, 0, 0),
    }
}

fn answer(result: Result<usize, Refusal>) -> Answer {
    match result {
        Ok(length) => Answer { number: 0, length: length as u64 },
        Err(refusal) => Answer { number: refusal.number().into(), length: 0 },
    }
}
