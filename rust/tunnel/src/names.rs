//! The names of the numbers that the box gives back, and of the kinds of capsules: those of the C header. docs/NUMBERS.md says when each
//! number is given.

/// The numbers, by name; 8 and 17 to 19 are not used.
pub mod number {
    pub const DONE: u64 = 0;
    pub const INCOMPLETE: u64 = 1;
    pub const TOO_LONG: u64 = 2;
    pub const BAD_ADDRESS: u64 = 3;
    pub const BAD_RANGE: u64 = 4;
    pub const RANGES_OUT_OF_ORDER: u64 = 5;
    pub const BAD_REQUEST_ID: u64 = 6;
    pub const TOO_MANY: u64 = 7;
    pub const BROKEN_STATE: u64 = 9;
    pub const BAD_FORM: u64 = 10;
    pub const HOP_LIMIT: u64 = 11;
    pub const NOT_GRANTED: u64 = 12;
    pub const UNKNOWN_CONTEXT: u64 = 13;
    pub const CUT_DATAGRAM: u64 = 14;
    pub const PACKET_TOO_LONG: u64 = 15;
    pub const NO_ROOM: u64 = 16;
    pub const PLAN_MARK: u64 = 20;
    pub const PLAN_VERSION: u64 = 21;
    pub const PLAN_CUT: u64 = 22;
    pub const PLAN_RULE: u64 = 23;
    pub const PLAN_NOT_SHORTEST: u64 = 24;
    pub const PLAN_CONTEXT: u64 = 25;
}

/// The kinds of capsules, by name: the four types that the box knows, and any other type, which is skipped.
pub mod kind {
    pub const DATAGRAM: u64 = 0;
    pub const ADDRESS_ASSIGN: u64 = 1;
    pub const ADDRESS_REQUEST: u64 = 2;
    pub const ROUTE_ADVERTISEMENT: u64 = 3;
    pub const OTHER: u64 = 4;
}

/// Every number that the box gives back, with its reason.
pub const REASONS: [(u64, &str); 22] = [
    (number::DONE, "done"),
    (number::INCOMPLETE, "not all there"),
    (number::TOO_LONG, "capsule value too long"),
    (number::BAD_ADDRESS, "bad address entry"),
    (number::BAD_RANGE, "bad route range"),
    (number::RANGES_OUT_OF_ORDER, "ranges out of order"),
    (number::BAD_REQUEST_ID, "bad Request ID"),
    (number::TOO_MANY, "list too long"),
    (number::BROKEN_STATE, "broken state"),
    (number::BAD_FORM, "bad packet form"),
    (number::HOP_LIMIT, "hop count spent"),
    (number::NOT_GRANTED, "not granted"),
    (number::UNKNOWN_CONTEXT, "unknown Context ID"),
    (number::CUT_DATAGRAM, "datagram cut"),
    (number::PACKET_TOO_LONG, "packet too long"),
    (number::NO_ROOM, "no room in the output"),
    (number::PLAN_MARK, "not a plan file"),
    (number::PLAN_VERSION, "unknown plan version"),
    (number::PLAN_CUT, "plan cut, or bytes left over"),
    (number::PLAN_RULE, "plan breaks a rule of segments or checksums"),
    (number::PLAN_NOT_SHORTEST, "plan number not in its shortest form"),
    (number::PLAN_CONTEXT, "plan breaks a rule of Context IDs"),
];

/// A number in words; `"unknown number"` where the box never gives it.
pub fn reason(number: u64) -> &'static str {
    REASONS.iter().find(|(n, _)| *n == number).map_or("unknown number", |(_, words)| words)
}
