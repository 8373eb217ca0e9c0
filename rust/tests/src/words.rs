//! The words of a state, as `include/whapirohi.h` lays them out, and the reference's types.
//!
//! Bits of a word above the version and the prefix or protocol, and above a static byte, mean nothing; a template's third word, its flag, is
//! 0 or 1. Unused words mean nothing and are 0 where words are made here. The store is empty there.

use whapirohi_reference::{
    AddressEntry, AddressList, Checksum, ContextId, Grants, List, Plan, Refusal, RequestId, RouteList, RouteRange,
    Segment, Stream, Template,
};
use whapirohi_tunnel::{AddressWords, KeptBytes, PlanWords, RouteWords, State};
use whapirohi_tunnel::{ADDRESS_WORDS, KEPT_SIZE, PLAN_WORDS, ROUTE_WORDS, TEMPLATE_WORDS};
use whapirohi_tunnel::{MAX_ADDRESSES, MAX_RANGES, MAX_SEGMENTS, MAX_TEMPLATES};

pub const ENTRY_WORDS: usize = 4;
pub const RANGE_WORDS: usize = 5;

/// Where the words of a template hold what.
pub const SEGMENT_COUNT: usize = 1;
pub const FLAG: usize = 2;
pub const FIELD: usize = 3;
pub const START: usize = 4;
pub const SEGMENTS: usize = 5;
pub const BYTES: usize = SEGMENTS + 2 * MAX_SEGMENTS;

pub fn empty_state() -> State {
    State {
        received_addresses: [0; ADDRESS_WORDS],
        received_routes: [0; ROUTE_WORDS],
        given_addresses: [0; ADDRESS_WORDS],
        given_routes: [0; ROUTE_WORDS],
        plan: [0; PLAN_WORDS],
        kept_count: 0,
        to_skip: 0,
        remembered: 0,
    }
}

pub fn state_of(grants: &Grants, plan: &Plan) -> State {
    State {
        received_addresses: address_words(&grants.received_addresses),
        received_routes: route_words(&grants.received_routes),
        given_addresses: address_words(&grants.given_addresses),
        given_routes: route_words(&grants.given_routes),
        plan: plan_words(plan),
        ..empty_state()
    }
}

/// The state of the other end: its received lists are this one's given lists and the other way round.
pub fn mirrored(state: &State) -> State {
    State {
        received_addresses: state.given_addresses,
        received_routes: state.given_routes,
        given_addresses: state.received_addresses,
        given_routes: state.received_routes,
        ..state.clone()
    }
}

pub fn grants_of(state: &State) -> Grants {
    let mut grants = Grants::default();
    put_addresses(&state.received_addresses, &mut grants.received_addresses);
    put_routes(&state.received_routes, &mut grants.received_routes);
    put_addresses(&state.given_addresses, &mut grants.given_addresses);
    put_routes(&state.given_routes, &mut grants.given_routes);
    grants
}

/// The refusals that a store may remember.
const REMEMBERED: [Refusal; 6] = [
    Refusal::ValueTooLong,
    Refusal::BadAddress,
    Refusal::BadRange,
    Refusal::RangesOutOfOrder,
    Refusal::BadRequestId,
    Refusal::ListTooLong,
];

/// The store. A count or a number that the reference has no place for becomes one that breaks the same rule.
pub fn stream_of(state: &State, kept: &KeptBytes) -> Stream {
    let count = state.kept_count.min(KEPT_SIZE as u64 + 1) as usize;
    let mut kept = kept[..count.min(KEPT_SIZE)].to_vec();
    kept.resize(count, 0);
    let refused = (state.remembered != 0).then(|| {
        let refusal = REMEMBERED.into_iter().find(|refusal| u64::from(refusal.number()) == state.remembered);
        refusal.unwrap_or(Refusal::BrokenState)
    });
    Stream { kept, to_skip: state.to_skip, refused }
}

pub fn address_list(words: &AddressWords) -> AddressList {
    let mut list = AddressList::default();
    put_addresses(words, &mut list);
    list
}

fn put_addresses(words: &AddressWords, list: &mut AddressList) {
    list.count = words[0] as usize;
    let stored = list.count.min(MAX_ADDRESSES);
    for (entry, w) in list.items[..stored].iter_mut().zip(words[1..].chunks_exact(ENTRY_WORDS)) {
        let [version, prefix, ..] = w[1].to_le_bytes();
        *entry = AddressEntry { request_id: RequestId(w[0]), version, prefix, address: wide(w[2], w[3]) };
    }
}

pub fn address_words(list: &AddressList) -> AddressWords {
    let mut words = [0; ADDRESS_WORDS];
    words[0] = list.count as u64;
    for (entry, w) in list.stored().iter().zip(words[1..].chunks_exact_mut(ENTRY_WORDS)) {
        let (high, low) = halves(entry.address);
        w.copy_from_slice(&[entry.request_id.0, u64::from(entry.version) + 256 * u64::from(entry.prefix), high, low]);
    }
    words
}

pub fn route_list(words: &RouteWords) -> RouteList {
    let mut list = RouteList::default();
    put_routes(words, &mut list);
    list
}

fn put_routes(words: &RouteWords, list: &mut RouteList) {
    list.count = words[0] as usize;
    let stored = list.count.min(MAX_RANGES);
    for (range, w) in list.items[..stored].iter_mut().zip(words[1..].chunks_exact(RANGE_WORDS)) {
        let [version, protocol, ..] = w[0].to_le_bytes();
        *range = RouteRange { version, protocol, start: wide(w[1], w[2]), end: wide(w[3], w[4]) };
    }
}

pub fn route_words(list: &RouteList) -> RouteWords {
    let mut words = [0; ROUTE_WORDS];
    words[0] = list.count as u64;
    for (range, w) in list.stored().iter().zip(words[1..].chunks_exact_mut(RANGE_WORDS)) {
        let (start_high, start_low) = halves(range.start);
        let (end_high, end_low) = halves(range.end);
        let kind = u64::from(range.version) + 256 * u64::from(range.protocol);
        w.copy_from_slice(&[kind, start_high, start_low, end_high, end_low]);
    }
    words
}

pub fn plan_of(words: &PlanWords) -> Plan {
    let mut plan = Plan { templates: List { count: words[0] as usize, ..List::default() } };
    let stored = plan.templates.count.min(MAX_TEMPLATES);
    for (template, w) in plan.templates.items[..stored].iter_mut().zip(words[1..].chunks_exact(TEMPLATE_WORDS)) {
        *template = template_of(w);
    }
    plan
}

fn template_of(w: &[u64]) -> Template {
    let mut template = Template { id: ContextId(w[0]), ..Template::default() };
    template.segments.count = w[SEGMENT_COUNT] as usize;
    for (segment, s) in template.segments.items.iter_mut().zip(w[SEGMENTS..BYTES].chunks_exact(2)) {
        *segment = Segment { offset: s[0] as usize, length: s[1] as usize };
    }
    for (byte, b) in template.bytes.iter_mut().zip(&w[BYTES..]) {
        *byte = *b as u8;
    }
    // The paper's flag is 0 or 1. The reference has no place for another, so that it gets a checksum that breaks its rule: both are 9, or 23.
    template.checksum = match w[FLAG] {
        0 => None,
        1 => Some(Checksum { field: w[FIELD] as usize, start: w[START] as usize }),
        _ => Some(Checksum { field: 0, start: 0 }),
    };
    template
}

pub fn plan_words(plan: &Plan) -> PlanWords {
    let mut words = [0; PLAN_WORDS];
    words[0] = plan.templates.count as u64;
    for (template, w) in plan.templates.stored().iter().zip(words[1..].chunks_exact_mut(TEMPLATE_WORDS)) {
        w[0] = template.id.0;
        w[SEGMENT_COUNT] = template.segments.count as u64;
        if let Some(checksum) = template.checksum {
            w[FLAG] = 1;
            w[FIELD] = checksum.field as u64;
            w[START] = checksum.start as u64;
        }
        for (n, segment) in template.segments.stored().iter().enumerate() {
            w[SEGMENTS + 2 * n] = segment.offset as u64;
            w[SEGMENTS + 2 * n + 1] = segment.length as u64;
            for p in segment.offset..segment.end() {
                w[BYTES + p] = u64::from(template.bytes[p]);
            }
        }
    }
    words
}

fn wide(high: u64, low: u64) -> u128 {
    u128::from(high) << 64 | u128::from(low)
}

fn halves(address: u128) -> (u64, u64) {
    ((address >> 64) as u64, address as u64)
}
