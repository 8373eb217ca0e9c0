//! The proved van tunnel box for Rust hosts.
//!
//! The host owns a [`State`], and the [`KeptBytes`] of a stream that comes in pieces, and lends them to each call; the library keeps nothing
//! between calls and allocates nothing. Every call answers, whatever it is handed: number 0, or the number of the refusal, which alters
//! nothing; only `State::feed` keeps bytes with number 1 and remembers the first of 2 to 7. The C header `include/whapirohi.h` says the same
//! for C hosts.
#![deny(unsafe_code)]

#[cfg(feature = "link")]
mod library;
#[cfg(feature = "link")]
pub use library::{kept_size, read_number, state_size, write_datagram, write_number, write_request};

mod names;
mod values;
pub use names::{kind, number, reason, REASONS};
pub use values::{address_words, entries, plan_words, ranges, route_words, templates};
pub use values::{Checksum, Entry, Range, Segment, Span, Template};

/// The limits of lists and plans.
pub const MAX_ADDRESSES: usize = 32;
pub const MAX_RANGES: usize = 256;
pub const MAX_TEMPLATES: usize = 8;
pub const MAX_SEGMENTS: usize = 8;
pub const STATIC_LIMIT: usize = 128;

/// Words of a list of addresses: the count, then 4 words for each entry.
pub const ADDRESS_WORDS: usize = 1 + 4 * MAX_ADDRESSES;
/// Words of a list of ranges: the count, then 5 words for each range.
pub const ROUTE_WORDS: usize = 1 + 5 * MAX_RANGES;
/// Words of a template: a head of 5, 2 for each segment, 1 for each static byte.
pub const TEMPLATE_WORDS: usize = 5 + 2 * MAX_SEGMENTS + STATIC_LIMIT;
/// Words of a plan: the count, then those of each template.
pub const PLAN_WORDS: usize = 1 + MAX_TEMPLATES * TEMPLATE_WORDS;

/// The most bytes of a packet, and of a capsule's value.
pub const MAX_PACKET: usize = 1500;
pub const MAX_VALUE: usize = 16384;

/// The room for a capsule's type and length, as they are written and at their longest.
pub const HEADER_ROOM: usize = 8;
pub const HEADER_LIMIT: usize = 16;

/// The bytes of an unfinished capsule that are kept between calls.
pub const KEPT_SIZE: usize = MAX_VALUE + HEADER_LIMIT;

/// The least lent outputs.
pub const NUMBER_ROOM: usize = 8;
pub const PLAN_ROOM: usize = 1400;
pub const RECEIVE_ROOM: usize = MAX_PACKET;
pub const SEND_ROOM: usize = NUMBER_ROOM + MAX_PACKET;
pub const CAPSULE_ROOM: usize = MAX_VALUE + HEADER_ROOM;
pub const FEED_ROOM: usize = MAX_VALUE;

pub type AddressWords = [u64; ADDRESS_WORDS];
pub type RouteWords = [u64; ROUTE_WORDS];
pub type PlanWords = [u64; PLAN_WORDS];
pub type KeptBytes = [u8; KEPT_SIZE];

/// The lists, the plan in force and the store of a stream, in words: the header's `whapirohi_state`. The store: how many bytes at the front of
/// the [`KeptBytes`] are kept, how many of a skipped value are still to come, and the refusal that is repeated, or 0.
#[derive(Clone, Debug, PartialEq, Eq)]
#[repr(C)]
pub struct State {
    pub received_addresses: AddressWords,
    pub received_routes: RouteWords,
    pub given_addresses: AddressWords,
    pub given_routes: RouteWords,
    pub plan: PlanWords,
    pub kept_count: u64,
    pub to_skip: u64,
    pub remembered: u64,
}

const _: () = assert!(size_of::<State>() == 8 * (2 * ADDRESS_WORDS + 2 * ROUTE_WORDS + PLAN_WORDS + 3));

/// The answer of a call that writes: the number, and how many bytes stand at the front of the output (0 with a refusal).
#[derive(Clone, Copy, Debug, PartialEq, Eq)]
#[repr(C)]
pub struct Answer {
    pub number: u64,
    pub length: u64,
}

/// A number that was read: its value and how many bytes it took (both 0 with a refusal).
#[derive(Clone, Copy, Debug, PartialEq, Eq)]
#[repr(C)]
pub struct Number {
    pub number: u64,
    pub value: u64,
    pub size: u64,
}

/// A capsule that was read. `kind`: one of [`kind`]. `start` and `length`: where the value of a DATAGRAM stands in the bytes. `next`: where the
/// next capsule starts; with a refusal the place as it was.
#[derive(Clone, Copy, Debug, PartialEq, Eq)]
#[repr(C)]
pub struct Capsule {
    pub number: u64,
    pub kind: u64,
    pub start: u64,
    pub length: u64,
    pub next: u64,
}

/// What the bytes of a stream came to. `handed` 1: a capsule came to its end; its `kind` as in [`Capsule`], and the `length` of a DATAGRAM's
/// value, which stands at the front of the output. Number 0 and `handed` 0: no capsule is open and no byte was given. Number 1: a capsule is
/// open, wait. `taken`: how many of the bytes were taken, 0 with any other number; the rest is handed in again.
#[derive(Clone, Copy, Debug, PartialEq, Eq)]
#[repr(C)]
pub struct Piece {
    pub number: u64,
    pub handed: u64,
    pub kind: u64,
    pub length: u64,
    pub taken: u64,
}

/// The number of a refusal.
#[derive(Clone, Copy, Debug, PartialEq, Eq)]
pub struct Refusal(pub u64);

impl std::fmt::Display for Refusal {
    fn fmt(&self, f: &mut std::fmt::Formatter<'_>) -> std::fmt::Result {
        write!(f, "refused {}: {}", self.0, reason(self.0))
    }
}

impl std::error::Error for Refusal {}

impl Answer {
    /// How many bytes were written.
    pub fn written(self) -> Result<usize, Refusal> {
        match self.number {
            number::DONE => Ok(self.length as usize),
            number => Err(Refusal(number)),
        }
    }
}
