//! The calls into the static library: all that is unsafe of this crate.
//!
//! What the library asks of a caller holds of every call here: references and slices are not null (a slice of length 0 has a dangling
//! pointer, which is not null) and point to as many bytes or words as is said with them, and what is lent `&mut` overlaps with nothing.
#![allow(unsafe_code)]

use crate::{AddressWords, Answer, Capsule, KeptBytes, Number, Piece, RouteWords, State};

extern "C" {
    fn whapirohi_state_size() -> u64;
    fn whapirohi_kept_size() -> u64;
    fn whapirohi_start(state: *mut State);
    fn whapirohi_load_plan(state: *mut State, file: *const u8, length: usize) -> u64;
    fn whapirohi_write_plan(state: *const State, out: *mut u8, room: usize) -> Answer;
    fn whapirohi_read_capsule(
        state: *mut State,
        bytes: *const u8,
        length: usize,
        at: usize,
        requested: *mut u64,
    ) -> Capsule;
    fn whapirohi_feed(
        state: *mut State,
        kept: *mut u8,
        bytes: *const u8,
        length: usize,
        out: *mut u8,
        room: usize,
        requested: *mut u64,
    ) -> Piece;
    fn whapirohi_write_assign(state: *mut State, list: *const u64, out: *mut u8, room: usize) -> Answer;
    fn whapirohi_write_routes(state: *mut State, list: *const u64, out: *mut u8, room: usize) -> Answer;
    fn whapirohi_send(state: *const State, packet: *const u8, length: usize, out: *mut u8, room: usize) -> Answer;
    fn whapirohi_receive(state: *const State, datagram: *const u8, length: usize, out: *mut u8, room: usize) -> Answer;
    fn whapirohi_read_number(bytes: *const u8, length: usize) -> Number;
    fn whapirohi_write_number(value: u64, out: *mut u8, room: usize) -> Answer;
    fn whapirohi_write_datagram(value: *const u8, length: usize, out: *mut u8, room: usize) -> Answer;
    fn whapirohi_write_request(list: *const u64, out: *mut u8, room: usize) -> Answer;
}

/// Bytes of a state, as the library knows it.
pub fn state_size() -> u64 {
    // SAFETY: takes no pointer.
    unsafe { whapirohi_state_size() }
}

/// Bytes that are kept of an unfinished capsule, as the library knows them.
pub fn kept_size() -> u64 {
    // SAFETY: takes no pointer.
    unsafe { whapirohi_kept_size() }
}

/// A number by itself: 1 where it is cut.
pub fn read_number(bytes: &[u8]) -> Number {
    // SAFETY: `bytes` is lent with its length.
    unsafe { whapirohi_read_number(bytes.as_ptr(), bytes.len()) }
}

/// A number by itself, in its shortest form: 16, 3.
pub fn write_number(value: u64, out: &mut [u8]) -> Answer {
    // SAFETY: `out` is lent with its length.
    unsafe { whapirohi_write_number(value, out.as_mut_ptr(), out.len()) }
}

/// A DATAGRAM capsule: 16, 2.
pub fn write_datagram(value: &[u8], out: &mut [u8]) -> Answer {
    // SAFETY: both slices are lent with their lengths.
    unsafe { whapirohi_write_datagram(value.as_ptr(), value.len(), out.as_mut_ptr(), out.len()) }
}

/// An ADDRESS_REQUEST capsule: 16, then entry by entry 3 and 6, then 7.
pub fn write_request(list: &AddressWords, out: &mut [u8]) -> Answer {
    // SAFETY: `list` has the words of an address list, `out` is lent with its length.
    unsafe { whapirohi_write_request(list.as_ptr(), out.as_mut_ptr(), out.len()) }
}

impl State {
    /// Empty lists, a plan of no templates and an empty store.
    pub fn new() -> State {
        let mut state = State {
            received_addresses: [0; crate::ADDRESS_WORDS],
            received_routes: [0; crate::ROUTE_WORDS],
            given_addresses: [0; crate::ADDRESS_WORDS],
            given_routes: [0; crate::ROUTE_WORDS],
            plan: [0; crate::PLAN_WORDS],
            kept_count: 0,
            to_skip: 0,
            remembered: 0,
        };
        state.start();
        state
    }

    /// Empties the lists, the plan and the store.
    pub fn start(&mut self) {
        // SAFETY: the state is lent whole, `&mut`.
        unsafe { whapirohi_start(self) }
    }

    /// A plan file: 20 to 25, or 0 and the plan is replaced.
    pub fn load_plan(&mut self, file: &[u8]) -> u64 {
        // SAFETY: the state is lent whole, `&mut`; `file` is lent with its length.
        unsafe { whapirohi_load_plan(self, file.as_ptr(), file.len()) }
    }

    /// The file of the plan: 16, 25, 23.
    pub fn write_plan(&self, out: &mut [u8]) -> Answer {
        // SAFETY: the state is lent whole; `out` is lent with its length.
        unsafe { whapirohi_write_plan(self, out.as_mut_ptr(), out.len()) }
    }

    /// One capsule at a place: 9, then 1 to 7. Type 1 or 3 replaces the received list; type 2 writes its entries to `requested`.
    pub fn read_capsule(&mut self, bytes: &[u8], at: usize, requested: &mut AddressWords) -> Capsule {
        // SAFETY: the state is lent whole, `&mut`; `bytes` is lent with its length, and `requested` has the words of a list.
        unsafe { whapirohi_read_capsule(self, bytes.as_ptr(), bytes.len(), at, requested.as_mut_ptr()) }
    }

    /// The next bytes of a stream, as far as one capsule goes: 16, 9, a refusal that is remembered, then 1 to 7. A list and `requested` as by
    /// `read_capsule`; the value of a DATAGRAM goes to the front of `out`. `kept` is lent to each call as the last one left it.
    pub fn feed(&mut self, kept: &mut KeptBytes, bytes: &[u8], out: &mut [u8], requested: &mut AddressWords) -> Piece {
        // SAFETY: the state is lent whole, `&mut`, and `kept` has its bytes; both slices are lent with their lengths, and `requested` has the
        // words of a list.
        unsafe {
            whapirohi_feed(
                self,
                kept.as_mut_ptr(),
                bytes.as_ptr(),
                bytes.len(),
                out.as_mut_ptr(),
                out.len(),
                requested.as_mut_ptr(),
            )
        }
    }

    /// An ADDRESS_ASSIGN capsule: 16, 9, then 3, 7. On success the list becomes the given one.
    pub fn write_assign(&mut self, list: &AddressWords, out: &mut [u8]) -> Answer {
        // SAFETY: the state is lent whole, `&mut`; `list` has its words, `out` is lent with its length.
        unsafe { whapirohi_write_assign(self, list.as_ptr(), out.as_mut_ptr(), out.len()) }
    }

    /// A ROUTE_ADVERTISEMENT capsule: 16, 9, then range by range 4 and 5, then 7. On success the list becomes the given one.
    pub fn write_routes(&mut self, list: &RouteWords, out: &mut [u8]) -> Answer {
        // SAFETY: the state is lent whole, `&mut`; `list` has its words, `out` is lent with its length.
        unsafe { whapirohi_write_routes(self, list.as_ptr(), out.as_mut_ptr(), out.len()) }
    }

    /// The datagram of a packet: 16, 9, 15, 10, 11, 12.
    pub fn send(&self, packet: &[u8], out: &mut [u8]) -> Answer {
        // SAFETY: the state is lent whole; both slices are lent with their lengths.
        unsafe { whapirohi_send(self, packet.as_ptr(), packet.len(), out.as_mut_ptr(), out.len()) }
    }

    /// The packet of a datagram: 16, 9, 14, 13, 14, 15, 10, 12.
    pub fn receive(&self, datagram: &[u8], out: &mut [u8]) -> Answer {
        // SAFETY: the state is lent whole; both slices are lent with their lengths.
        unsafe { whapirohi_receive(self, datagram.as_ptr(), datagram.len(), out.as_mut_ptr(), out.len()) }
    }
}

impl Default for State {
    fn default() -> Self {
        State::new()
    }
}
