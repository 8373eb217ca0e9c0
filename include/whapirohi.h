/*
 * The van tunnel box for C and Rust hosts.
 *
 * The host owns the state, and the kept bytes of a stream that comes in pieces, and lends them to each call; the library keeps nothing between
 * calls and allocates nothing. Every call answers, whatever bytes it is handed: 0, or the number of the refusal. A refusal alters nothing that
 * was lent, but for whapirohi_feed: its number 1 means wait and keeps the bytes given, and the first of its refusals 2 to 7 is remembered in
 * the state.
 *
 * What the caller owes, as for any C function over pointers: each pointer is not null and points to as many bytes or words as its parameter
 * says (a pointer with a length of 0 is not null either); memory that a call writes to overlaps with nothing else that is lent to it.
 */
#ifndef WHAPIROHI_H
#define WHAPIROHI_H

#include <stddef.h>
#include <stdint.h>

#ifdef __cplusplus
extern "C" {
#endif

/* The numbers that the calls give back; whapirohi_reason has each in words, docs/NUMBERS.md when it is given. 8 and 17 to 19 are not used. */
enum {
    WHAPIROHI_DONE = 0,
    WHAPIROHI_INCOMPLETE = 1,
    WHAPIROHI_TOO_LONG = 2,
    WHAPIROHI_BAD_ADDRESS = 3,
    WHAPIROHI_BAD_RANGE = 4,
    WHAPIROHI_RANGES_OUT_OF_ORDER = 5,
    WHAPIROHI_BAD_REQUEST_ID = 6,
    WHAPIROHI_TOO_MANY = 7,
    WHAPIROHI_BROKEN_STATE = 9,
    WHAPIROHI_BAD_FORM = 10,
    WHAPIROHI_HOP_LIMIT = 11,
    WHAPIROHI_NOT_GRANTED = 12,
    WHAPIROHI_UNKNOWN_CONTEXT = 13,
    WHAPIROHI_CUT_DATAGRAM = 14,
    WHAPIROHI_PACKET_TOO_LONG = 15,
    WHAPIROHI_NO_ROOM = 16,
    WHAPIROHI_PLAN_MARK = 20,
    WHAPIROHI_PLAN_VERSION = 21,
    WHAPIROHI_PLAN_CUT = 22,
    WHAPIROHI_PLAN_RULE = 23,
    WHAPIROHI_PLAN_NOT_SHORTEST = 24,
    WHAPIROHI_PLAN_CONTEXT = 25
};

/* The kinds of capsules: the four types that the box knows, and any other type, which is skipped. */
enum {
    WHAPIROHI_DATAGRAM = 0,
    WHAPIROHI_ADDRESS_ASSIGN = 1,
    WHAPIROHI_ADDRESS_REQUEST = 2,
    WHAPIROHI_ROUTE_ADVERTISEMENT = 3,
    WHAPIROHI_OTHER = 4
};

/* Words of a list: the count, then 4 words an entry (Request ID; version + 256 * prefix length; high half, low half of the address) or
 * 5 words a range (version + 256 * protocol; start, high and low half; end, high and low half). An IPv4 address stands in the low half.
 * Bits above those two bytes, and words past the count, mean nothing; they are 0 in a list that the box makes.
 * The builders and readers at the end of this file write and read these words. */
enum {
    WHAPIROHI_MAX_ADDRESSES = 32,
    WHAPIROHI_MAX_RANGES = 256,
    WHAPIROHI_ENTRY_WORDS = 4,
    WHAPIROHI_RANGE_WORDS = 5,
    WHAPIROHI_ADDRESS_WORDS = 1 + WHAPIROHI_ENTRY_WORDS * WHAPIROHI_MAX_ADDRESSES,
    WHAPIROHI_ROUTE_WORDS = 1 + WHAPIROHI_RANGE_WORDS * WHAPIROHI_MAX_RANGES
};

/* The limits of a plan, and its words: see the state below. */
enum {
    WHAPIROHI_MAX_TEMPLATES = 8,
    WHAPIROHI_MAX_SEGMENTS = 8,
    WHAPIROHI_STATIC_LIMIT = 128,
    WHAPIROHI_SEGMENTS_AT = 5,
    WHAPIROHI_STATIC_AT = WHAPIROHI_SEGMENTS_AT + 2 * WHAPIROHI_MAX_SEGMENTS,
    WHAPIROHI_TEMPLATE_WORDS = WHAPIROHI_STATIC_AT + WHAPIROHI_STATIC_LIMIT,
    WHAPIROHI_PLAN_WORDS = 1 + WHAPIROHI_MAX_TEMPLATES * WHAPIROHI_TEMPLATE_WORDS
};

/* The most bytes of a packet and of a capsule's value, and the room for a capsule's type and length. */
enum { WHAPIROHI_MAX_PACKET = 1500, WHAPIROHI_MAX_VALUE = 16384, WHAPIROHI_HEADER_ROOM = 8 };

/* The bytes of an unfinished capsule that whapirohi_feed keeps between calls: a value, and type and length in their longest forms. */
enum { WHAPIROHI_KEPT_SIZE = WHAPIROHI_MAX_VALUE + 16 };

/* The least lent outputs. */
enum {
    WHAPIROHI_NUMBER_ROOM = 8,
    WHAPIROHI_PLAN_ROOM = 1400,
    WHAPIROHI_RECEIVE_ROOM = WHAPIROHI_MAX_PACKET,
    WHAPIROHI_SEND_ROOM = WHAPIROHI_NUMBER_ROOM + WHAPIROHI_MAX_PACKET,
    WHAPIROHI_CAPSULE_ROOM = WHAPIROHI_MAX_VALUE + WHAPIROHI_HEADER_ROOM,
    WHAPIROHI_FEED_ROOM = WHAPIROHI_MAX_VALUE
};

/* The state is one array of words in these parts, in this order.
 * The plan in words: the count of templates, then WHAPIROHI_TEMPLATE_WORDS a template: Context ID, count of segments, 1 with a checksum and 0 without,
 * field, start, WHAPIROHI_MAX_SEGMENTS segments of two words (offset, length), and WHAPIROHI_STATIC_LIMIT words with a static byte each: that of
 * position p of a packet is word p.
 * A third word that is neither breaks the plan's rules. Bits above a static byte, templates and segments past their counts, bytes outside all segments, and
 * field and start without a checksum mean nothing; they are 0 in a plan that the box reads.
 * The store of a stream, which whapirohi_feed alone looks at: kept_count bytes at the front of the kept bytes are the front of a capsule that is not
 * all there (type or length cut; or a type from 0 to 3 with a length up to WHAPIROHI_MAX_VALUE, and its value cut); to_skip is how many bytes of
 * a skipped value are still to come, below 2^62, and where it is not 0 kept_count is 0; remembered is the refusal that every call repeats, 2
 * to 7, or 0. Kept bytes past the count mean nothing. */
typedef struct whapirohi_state {
    uint64_t received_addresses[WHAPIROHI_ADDRESS_WORDS];
    uint64_t received_routes[WHAPIROHI_ROUTE_WORDS];
    uint64_t given_addresses[WHAPIROHI_ADDRESS_WORDS];
    uint64_t given_routes[WHAPIROHI_ROUTE_WORDS];
    uint64_t plan[WHAPIROHI_PLAN_WORDS];
    uint64_t kept_count;
    uint64_t to_skip;
    uint64_t remembered;
} whapirohi_state;

/* number: 0, or the refusal. length: how many bytes were written to the front of the output; 0 with a refusal. */
typedef struct whapirohi_answer {
    uint64_t number;
    uint64_t length;
} whapirohi_answer;

/* A number that was read: its value and how many bytes it took; both 0 with a refusal. */
typedef struct whapirohi_number {
    uint64_t number;
    uint64_t value;
    uint64_t size;
} whapirohi_number;

/* kind: WHAPIROHI_DATAGRAM, .. to WHAPIROHI_OTHER.
 * start, length: where the value of a DATAGRAM stands in the bytes; 0 for every other kind. next: where the next capsule starts; with a
 * refusal the place as it was. With a refusal kind, start and length are 0. */
typedef struct whapirohi_capsule {
    uint64_t number;
    uint64_t kind;
    uint64_t start;
    uint64_t length;
    uint64_t next;
} whapirohi_capsule;

/* What the bytes of a stream came to.
 * number 0, handed 1: one capsule came to its end. kind as in whapirohi_capsule; the value of a DATAGRAM stands in the first length bytes of
 * the output, and length is 0 for every other kind.
 * number 0, handed 0: no capsule is open and no byte was given. number 1: a capsule is open and all bytes were taken; wait for more.
 * Any other number: a refusal. Without a capsule handed, kind and length are 0.
 * taken: how many of the bytes given were taken, none past the end of a capsule, and none with a refusal. */
typedef struct whapirohi_piece {
    uint64_t number;
    uint64_t handed;
    uint64_t kind;
    uint64_t length;
    uint64_t taken;
} whapirohi_piece;

/* ---- the calls over the state. A call that looks at the lists looks at all lists and the plan first: 9 where any part of them breaks its rules. */

uint64_t whapirohi_state_size(void); /* sizeof (whapirohi_state) in bytes */
uint64_t whapirohi_kept_size(void);  /* WHAPIROHI_KEPT_SIZE */

/* No grants, no templates, no stream begun: every word 0. The kept bytes may then hold anything. */
void whapirohi_start(whapirohi_state *state);

/* 20 to 25, or 0: then the plan is replaced. The lists, and what the plan was, are not looked at. */
uint64_t whapirohi_load_plan(whapirohi_state *state, const uint8_t *file, size_t length);

/* The file of the plan: 16, 25, 23. The lists are not looked at. */
whapirohi_answer whapirohi_write_plan(const whapirohi_state *state, uint8_t *out, size_t room);

/* One capsule at a place: 9, 1 to 7. Type 1 or 3 replaces the received list; type 2 writes its entries to requested, which has the words of a
 * list of addresses. */
whapirohi_capsule whapirohi_read_capsule(whapirohi_state *state, const uint8_t *bytes, size_t length, size_t at, uint64_t *requested);

/* The next bytes of a stream that is cut anywhere, as far as one capsule goes; what is not taken is handed in again, with what came since.
 * kept has WHAPIROHI_KEPT_SIZE bytes, out at least WHAPIROHI_FEED_ROOM; kept is lent to each call as the last one left it.
 * 16; 9 where lists, plan or store break their rules; the refusal that is remembered; 2 as soon as type and length are there; 3 to 7 once the
 * value is. 2 to 7 are remembered and repeated until whapirohi_start, 9 and 16 are not. Lists and requested as by whapirohi_read_capsule. */
whapirohi_piece whapirohi_feed(whapirohi_state *state, uint8_t *kept, const uint8_t *bytes, size_t length, uint8_t *out, size_t room,
                               uint64_t *requested);

/* 16, 9, 3, 7; 16, 9, 4, 5, 7: on success the list becomes the given one. */
whapirohi_answer whapirohi_write_assign(whapirohi_state *state, const uint64_t *list, uint8_t *out, size_t room);
whapirohi_answer whapirohi_write_routes(whapirohi_state *state, const uint64_t *list, uint8_t *out, size_t room);

/* 16, 9, 15, 10, 11, 12 */
whapirohi_answer whapirohi_send(const whapirohi_state *state, const uint8_t *packet, size_t length, uint8_t *out, size_t room);

/* 16, 9, 14, 13, 14, 15, 10, 12 */
whapirohi_answer whapirohi_receive(const whapirohi_state *state, const uint8_t *datagram, size_t length, uint8_t *out, size_t room);

/* ---- the calls that need no state */

whapirohi_number whapirohi_read_number(const uint8_t *bytes, size_t length);              /* 1 */
whapirohi_answer whapirohi_write_number(uint64_t value, uint8_t *out, size_t room);       /* 16, 3 */
whapirohi_answer whapirohi_write_datagram(const uint8_t *value, size_t length, uint8_t *out, size_t room); /* 16, 2 */
whapirohi_answer whapirohi_write_request(const uint64_t *list, uint8_t *out, size_t room); /* 16, 3, 6, 7 */

/* ---- a number in words */

static inline const char *whapirohi_reason(uint64_t number)
{
    switch (number) {
    case WHAPIROHI_DONE: return "done";
    case WHAPIROHI_INCOMPLETE: return "not all there";
    case WHAPIROHI_TOO_LONG: return "capsule value too long";
    case WHAPIROHI_BAD_ADDRESS: return "bad address entry";
    case WHAPIROHI_BAD_RANGE: return "bad route range";
    case WHAPIROHI_RANGES_OUT_OF_ORDER: return "ranges out of order";
    case WHAPIROHI_BAD_REQUEST_ID: return "bad Request ID";
    case WHAPIROHI_TOO_MANY: return "list too long";
    case WHAPIROHI_BROKEN_STATE: return "broken state";
    case WHAPIROHI_BAD_FORM: return "bad packet form";
    case WHAPIROHI_HOP_LIMIT: return "hop count spent";
    case WHAPIROHI_NOT_GRANTED: return "not granted";
    case WHAPIROHI_UNKNOWN_CONTEXT: return "unknown Context ID";
    case WHAPIROHI_CUT_DATAGRAM: return "datagram cut";
    case WHAPIROHI_PACKET_TOO_LONG: return "packet too long";
    case WHAPIROHI_NO_ROOM: return "no room in the output";
    case WHAPIROHI_PLAN_MARK: return "not a plan file";
    case WHAPIROHI_PLAN_VERSION: return "unknown plan version";
    case WHAPIROHI_PLAN_CUT: return "plan cut, or bytes left over";
    case WHAPIROHI_PLAN_RULE: return "plan breaks a rule of segments or checksums";
    case WHAPIROHI_PLAN_NOT_SHORTEST: return "plan number not in its shortest form";
    case WHAPIROHI_PLAN_CONTEXT: return "plan breaks a rule of Context IDs";
    default: return "unknown number";
    }
}

/* ---- builders and readers: lists and plans as values, with no call into the library.
 * A list or plan of none is all 0. A builder adds one element behind the others. It refuses only what has no words, and then alters nothing;
 * whether a list or a plan is sound is for the calls above to say.
 * A reader gives element i, counted from 0, and never reads outside the list or plan, whatever its words are: WHAPIROHI_INCOMPLETE where there is
 * no element i, another refusal where the words are no such element, or the count is past the limit. With a refusal the struct is unaltered. */

/* version: 4 or 6. address: in network order; an IPv4 address in the first 4 bytes, and the others are 0 where it is read. */
typedef struct whapirohi_entry {
    uint64_t request_id;
    unsigned version;
    uint8_t address[16];
    unsigned prefix_length;
} whapirohi_entry;

/* version, start, end: as in an entry. protocol: 0 is any. */
typedef struct whapirohi_range {
    unsigned version;
    unsigned protocol;
    uint8_t start[16];
    uint8_t end[16];
} whapirohi_range;

/* Static bytes, and where in a packet they start. */
typedef struct whapirohi_segment {
    uint64_t offset;
    uint64_t length;
    uint8_t bytes[WHAPIROHI_STATIC_LIMIT];
} whapirohi_segment;

/* field, start: where a checksum stands and from where it counts; they mean nothing where has_checksum is 0. */
typedef struct whapirohi_template {
    uint64_t context_id;
    uint64_t segment_count;
    whapirohi_segment segments[WHAPIROHI_MAX_SEGMENTS];
    int has_checksum;
    uint64_t field;
    uint64_t start;
} whapirohi_template;

/* Inner: the two halves of an address. */
static inline void whapirohi_put_halves(uint64_t *halves, unsigned version, const uint8_t *address)
{
    halves[0] = halves[1] = 0;
    for (unsigned i = 0; i < (version == 4 ? 4u : 16u); i++) {
        halves[0] = halves[0] << 8 | halves[1] >> 56;
        halves[1] = halves[1] << 8 | address[i];
    }
}

/* Inner: whether there are addresses of this version with these halves. */
static inline int whapirohi_has_halves(const uint64_t *halves, unsigned version)
{
    return version == 6 || (version == 4 && halves[0] == 0 && halves[1] >> 32 == 0);
}

/* Inner: the address of two halves. */
static inline void whapirohi_get_halves(const uint64_t *halves, unsigned version, uint8_t *address)
{
    unsigned size = version == 4 ? 4 : 16;
    for (unsigned i = 0; i < 16; i++) {
        unsigned back = size - 1 - i; /* how many bytes of the address are behind this one */
        address[i] = i < size ? halves[1 - back / 8] >> 8 * (back % 8) & 0xFF : 0;
    }
}

/* 7 where the list is full; 3 for another version than 4 and 6, and a prefix length over 255. */
static inline uint64_t whapirohi_add_address(uint64_t *list, const whapirohi_entry *entry)
{
    if (list[0] >= WHAPIROHI_MAX_ADDRESSES) {
        return WHAPIROHI_TOO_MANY;
    }
    if ((entry->version != 4 && entry->version != 6) || entry->prefix_length > 0xFF) {
        return WHAPIROHI_BAD_ADDRESS;
    }
    uint64_t *words = list + 1 + WHAPIROHI_ENTRY_WORDS * list[0];
    words[0] = entry->request_id;
    words[1] = entry->version + 256 * entry->prefix_length;
    whapirohi_put_halves(words + 2, entry->version, entry->address);
    list[0]++;
    return WHAPIROHI_DONE;
}

/* 7, 1; 3 for another version, and more bits than an IPv4 address has. */
static inline uint64_t whapirohi_address_at(const uint64_t *list, size_t i, whapirohi_entry *entry)
{
    if (list[0] > WHAPIROHI_MAX_ADDRESSES) {
        return WHAPIROHI_TOO_MANY;
    }
    if (i >= list[0]) {
        return WHAPIROHI_INCOMPLETE;
    }
    const uint64_t *words = list + 1 + WHAPIROHI_ENTRY_WORDS * i;
    unsigned version = words[1] & 0xFF;
    if (!whapirohi_has_halves(words + 2, version)) {
        return WHAPIROHI_BAD_ADDRESS;
    }
    entry->request_id = words[0];
    entry->version = version;
    entry->prefix_length = words[1] >> 8 & 0xFF;
    whapirohi_get_halves(words + 2, version, entry->address);
    return WHAPIROHI_DONE;
}

/* 7 where the list is full; 4 for another version than 4 and 6, and a protocol over 255. */
static inline uint64_t whapirohi_add_range(uint64_t *list, const whapirohi_range *range)
{
    if (list[0] >= WHAPIROHI_MAX_RANGES) {
        return WHAPIROHI_TOO_MANY;
    }
    if ((range->version != 4 && range->version != 6) || range->protocol > 0xFF) {
        return WHAPIROHI_BAD_RANGE;
    }
    uint64_t *words = list + 1 + WHAPIROHI_RANGE_WORDS * list[0];
    words[0] = range->version + 256 * range->protocol;
    whapirohi_put_halves(words + 1, range->version, range->start);
    whapirohi_put_halves(words + 3, range->version, range->end);
    list[0]++;
    return WHAPIROHI_DONE;
}

/* 7, 1; 4 for another version, and more bits than an IPv4 address has. */
static inline uint64_t whapirohi_range_at(const uint64_t *list, size_t i, whapirohi_range *range)
{
    if (list[0] > WHAPIROHI_MAX_RANGES) {
        return WHAPIROHI_TOO_MANY;
    }
    if (i >= list[0]) {
        return WHAPIROHI_INCOMPLETE;
    }
    const uint64_t *words = list + 1 + WHAPIROHI_RANGE_WORDS * i;
    unsigned version = words[0] & 0xFF;
    if (!whapirohi_has_halves(words + 1, version) || !whapirohi_has_halves(words + 3, version)) {
        return WHAPIROHI_BAD_RANGE;
    }
    range->version = version;
    range->protocol = words[0] >> 8 & 0xFF;
    whapirohi_get_halves(words + 1, version, range->start);
    whapirohi_get_halves(words + 3, version, range->end);
    return WHAPIROHI_DONE;
}

/* Inner: whether a segment ends within the static bytes. */
static inline int whapirohi_within(uint64_t offset, uint64_t length)
{
    return offset <= WHAPIROHI_STATIC_LIMIT && length <= WHAPIROHI_STATIC_LIMIT - offset;
}

/* 25 where the plan is full; 23 for more segments than fit, and one that ends past the static bytes. */
static inline uint64_t whapirohi_add_template(uint64_t *plan, const whapirohi_template *added)
{
    if (plan[0] >= WHAPIROHI_MAX_TEMPLATES) {
        return WHAPIROHI_PLAN_CONTEXT;
    }
    if (added->segment_count > WHAPIROHI_MAX_SEGMENTS) {
        return WHAPIROHI_PLAN_RULE;
    }
    for (size_t i = 0; i < added->segment_count; i++) {
        if (!whapirohi_within(added->segments[i].offset, added->segments[i].length)) {
            return WHAPIROHI_PLAN_RULE;
        }
    }
    uint64_t *words = plan + 1 + WHAPIROHI_TEMPLATE_WORDS * plan[0];
    for (size_t i = 0; i < WHAPIROHI_TEMPLATE_WORDS; i++) {
        words[i] = 0;
    }
    words[0] = added->context_id;
    words[1] = added->segment_count;
    if (added->has_checksum) {
        words[2] = 1;
        words[3] = added->field;
        words[4] = added->start;
    }
    for (size_t i = 0; i < added->segment_count; i++) {
        const whapirohi_segment *segment = &added->segments[i];
        words[WHAPIROHI_SEGMENTS_AT + 2 * i] = segment->offset;
        words[WHAPIROHI_SEGMENTS_AT + 2 * i + 1] = segment->length;
        for (size_t j = 0; j < segment->length; j++) {
            words[WHAPIROHI_STATIC_AT + segment->offset + j] = segment->bytes[j];
        }
    }
    plan[0]++;
    return WHAPIROHI_DONE;
}

/* 25, 1; 23 for more segments than fit, one that ends past the static bytes, and a third word that is neither 0 nor 1. What is read of segments past
 * their count, of bytes past a length, and of field and start without a checksum is 0. */
static inline uint64_t whapirohi_template_at(const uint64_t *plan, size_t i, whapirohi_template *found)
{
    if (plan[0] > WHAPIROHI_MAX_TEMPLATES) {
        return WHAPIROHI_PLAN_CONTEXT;
    }
    if (i >= plan[0]) {
        return WHAPIROHI_INCOMPLETE;
    }
    const uint64_t *words = plan + 1 + WHAPIROHI_TEMPLATE_WORDS * i;
    const uint64_t *segments = words + WHAPIROHI_SEGMENTS_AT, *bytes = words + WHAPIROHI_STATIC_AT;
    if (words[1] > WHAPIROHI_MAX_SEGMENTS || words[2] > 1) {
        return WHAPIROHI_PLAN_RULE;
    }
    for (size_t k = 0; k < words[1]; k++) {
        if (!whapirohi_within(segments[2 * k], segments[2 * k + 1])) {
            return WHAPIROHI_PLAN_RULE;
        }
    }
    found->context_id = words[0];
    found->segment_count = words[1];
    found->has_checksum = words[2] == 1;
    found->field = found->has_checksum ? words[3] : 0;
    found->start = found->has_checksum ? words[4] : 0;
    for (size_t k = 0; k < WHAPIROHI_MAX_SEGMENTS; k++) {
        whapirohi_segment *segment = &found->segments[k];
        segment->offset = k < words[1] ? segments[2 * k] : 0;
        segment->length = k < words[1] ? segments[2 * k + 1] : 0;
        for (size_t j = 0; j < WHAPIROHI_STATIC_LIMIT; j++) {
            segment->bytes[j] = j < segment->length ? bytes[segment->offset + j] & 0xFF : 0;
        }
    }
    return WHAPIROHI_DONE;
}

#ifdef __cplusplus
}
#endif

#endif
