/*
 * A host in C: two ends of a tunnel, one packet sent short and received, and a stream in pieces. Every function of the header is called.
 *
 *   scripts/prove tunnel_c_c
 *   cc -std=c99 -Wall -Wextra -Iinclude examples/embed.c target/staticlib/libtunnel_c.a -o target/embed-host && target/embed-host
 */
#include "whapirohi.h"

#include <stdio.h>
#include <string.h>

/* Context ID 2: from byte 12 on the addresses and ports of the packet below, and the checksum of UDP, which is at 26 and counts from 20 */
static const whapirohi_template TEMPLATE = {
    2, 1, {{12, 12, {192, 0, 2, 3, 198, 51, 100, 2, 0x03, 0xE8, 0x07, 0xD0}}}, 1, 26, 20};

/* 192.0.2.3/32; UDP to 198.51.100.2, and anything to 2001:db8:1::/48 */
static const whapirohi_entry TABLET = {0, 4, {192, 0, 2, 3}, 32};
static const whapirohi_range FILES = {4, 17, {198, 51, 100, 2}, {198, 51, 100, 2}};
static const whapirohi_range WARDS = {
    6, 0, {0x20, 1, 0x0D, 0xB8, 0, 1}, {0x20, 1, 0x0D, 0xB8, 0, 1, 255, 255, 255, 255, 255, 255, 255, 255, 255, 255}};

/* Requests: any IPv4 address, and 2001:db8:0:ff00::/56 */
static const whapirohi_entry ANY = {1, 4, {0}, 32}, SITE = {2, 6, {0x20, 1, 0x0D, 0xB8, 0, 0, 0xFF}, 56};

/* UDP from 192.0.2.3, port 1000, to 198.51.100.2, port 2000 */
static const uint8_t PACKET[] = {0x45, 0x00, 0x00, 0x1C, 0x00, 0x00, 0x00, 0x00, 0x40, 0x11, 0x8E, 0x98, 0xC0, 0x00,
                                 0x02, 0x03, 0xC6, 0x33, 0x64, 0x02, 0x03, 0xE8, 0x07, 0xD0, 0x00, 0x08, 0x07, 0xED};

/* The type and length of a DATAGRAM that is a byte too long; the length in the form of 4 bytes */
enum { REFUSED_LENGTH = WHAPIROHI_MAX_VALUE + 1 };
static const uint8_t TOO_LONG[] = {0x00, 0x80 | REFUSED_LENGTH >> 24, REFUSED_LENGTH >> 16 & 0xFF, REFUSED_LENGTH >> 8 & 0xFF, REFUSED_LENGTH & 0xFF};

static void tell(const char *what, uint64_t number)
{
    printf("%s: %s\n", what, whapirohi_reason(number));
}

static void show(const char *what, whapirohi_answer a, const uint8_t *bytes)
{
    printf("%s: %s, %llu bytes", what, whapirohi_reason(a.number), (unsigned long long)a.length);
    for (uint64_t i = 0; i < a.length; i++) {
        printf(" %02x", bytes[i]);
    }
    printf("\n");
}

static void show_address(const uint8_t *address, unsigned version)
{
    for (int i = 0; i < (version == 4 ? 4 : 16); i++) {
        printf("%02x", address[i]);
    }
}

static void show_entries(const char *whose, const uint64_t *list)
{
    whapirohi_entry e;
    for (size_t i = 0; whapirohi_address_at(list, i, &e) == WHAPIROHI_DONE; i++) {
        printf("%s address: ID %llu, IPv%u ", whose, (unsigned long long)e.request_id, e.version);
        show_address(e.address, e.version);
        printf("/%u\n", e.prefix_length);
    }
}

static void show_ranges(const char *whose, const uint64_t *list)
{
    whapirohi_range r;
    for (size_t i = 0; whapirohi_range_at(list, i, &r) == WHAPIROHI_DONE; i++) {
        printf("%s range: IPv%u ", whose, r.version);
        show_address(r.start, r.version);
        printf(" to ");
        show_address(r.end, r.version);
        printf(", protocol %u\n", r.protocol);
    }
}

static void show_templates(const char *whose, const uint64_t *plan)
{
    whapirohi_template t;
    for (size_t i = 0; whapirohi_template_at(plan, i, &t) == WHAPIROHI_DONE; i++) {
        printf("%s template: ID %llu", whose, (unsigned long long)t.context_id);
        for (size_t k = 0; k < t.segment_count; k++) {
            printf(", from %llu", (unsigned long long)t.segments[k].offset);
            for (size_t j = 0; j < t.segments[k].length; j++) {
                printf(" %02x", t.segments[k].bytes[j]);
            }
        }
        if (t.has_checksum) {
            printf(", checksum at %llu from %llu", (unsigned long long)t.field, (unsigned long long)t.start);
        }
        printf("\n");
    }
}

/* A piece of a stream, capsule by capsule: what a call leaves is handed in again. */
static void feed(whapirohi_state *state, const uint8_t *bytes, size_t length)
{
    static uint8_t kept[WHAPIROHI_KEPT_SIZE], value[WHAPIROHI_FEED_ROOM];
    static uint64_t requested[WHAPIROHI_ADDRESS_WORDS];
    whapirohi_piece p;

    do {
        p = whapirohi_feed(state, kept, bytes, length, value, sizeof value, requested);
        printf("piece of %zu: %s, handed %llu, kind %llu, taken %llu\n", length, whapirohi_reason(p.number), (unsigned long long)p.handed,
               (unsigned long long)p.kind, (unsigned long long)p.taken);
        if (p.handed == 1 && p.kind == WHAPIROHI_DATAGRAM) {
            show("value", (whapirohi_answer){p.number, p.length}, value);
        }
        bytes += p.taken;
        length -= p.taken;
    } while (p.handed == 1);
}

int main(void)
{
    static whapirohi_state van, clinic, cut;
    static uint64_t addresses[WHAPIROHI_ADDRESS_WORDS], routes[WHAPIROHI_ROUTE_WORDS], requested[WHAPIROHI_ADDRESS_WORDS];
    static uint8_t plan[WHAPIROHI_PLAN_ROOM], stream[2 * WHAPIROHI_CAPSULE_ROOM], datagram[WHAPIROHI_SEND_ROOM], packet[WHAPIROHI_RECEIVE_ROOM];

    if (whapirohi_state_size() != sizeof(whapirohi_state) || whapirohi_kept_size() != WHAPIROHI_KEPT_SIZE) {
        printf("the header is not that of the library\n");
        return 1;
    }
    whapirohi_start(&van);
    whapirohi_start(&clinic);

    /* The van's plan is built, and its file loaded at the clinic. */
    tell("template", whapirohi_add_template(van.plan, &TEMPLATE));
    whapirohi_answer file = whapirohi_write_plan(&van, plan, sizeof plan);
    show("plan", file, plan);
    tell("loaded", whapirohi_load_plan(&clinic, plan, file.length));
    show_templates("clinic's", clinic.plan);

    /* The clinic assigns an address and advertises two ranges. */
    tell("address", whapirohi_add_address(addresses, &TABLET));
    tell("range", whapirohi_add_range(routes, &FILES));
    tell("range", whapirohi_add_range(routes, &WARDS));
    whapirohi_answer assigned = whapirohi_write_assign(&clinic, addresses, stream, WHAPIROHI_CAPSULE_ROOM);
    show("assign", assigned, stream);
    uint8_t *rest = stream + assigned.length;
    whapirohi_answer advertised = whapirohi_write_routes(&clinic, routes, rest, WHAPIROHI_CAPSULE_ROOM);
    show("routes", advertised, rest);

    /* The van reads both from the stream, one after the other. */
    size_t size = assigned.length + advertised.length, at = 0;
    for (;;) {
        whapirohi_capsule c = whapirohi_read_capsule(&van, stream, size, at, requested);
        printf("capsule at %zu: %s, kind %llu\n", at, whapirohi_reason(c.number), (unsigned long long)c.kind);
        if (c.number != WHAPIROHI_DONE) {
            break;
        }
        at = c.next;
    }
    show_entries("van's", van.received_addresses);
    show_ranges("van's", van.received_routes);

    /* Another van gets the same stream in pieces of 8 bytes, and holds the same lists. */
    whapirohi_start(&cut);
    for (at = 0; at < size; at += 8) {
        feed(&cut, stream + at, size - at < 8 ? size - at : 8);
    }
    printf("lists: %s\n", memcmp(cut.received_addresses, van.received_addresses, sizeof van.received_addresses) == 0 &&
                                  memcmp(cut.received_routes, van.received_routes, sizeof van.received_routes) == 0
                              ? "the same"
                              : "others");

    whapirohi_answer sent = whapirohi_send(&van, PACKET, sizeof PACKET, datagram, sizeof datagram);
    show("sent", sent, datagram);
    show("received", whapirohi_receive(&clinic, datagram, sent.length, packet, sizeof packet), packet);

    /* The van asks for an address and a prefix; the clinic is handed the entries. */
    static uint64_t wishes[WHAPIROHI_ADDRESS_WORDS];
    tell("address", whapirohi_add_address(wishes, &ANY));
    tell("address", whapirohi_add_address(wishes, &SITE));
    whapirohi_answer asked = whapirohi_write_request(wishes, stream, sizeof stream);
    show("request", asked, stream);
    whapirohi_capsule c = whapirohi_read_capsule(&clinic, stream, asked.length, 0, requested);
    printf("requested: %s, kind %llu\n", whapirohi_reason(c.number), (unsigned long long)c.kind);
    show_entries("requested", requested);

    /* A datagram on the stream, cut in its value; then a length that is refused, and is still refused when the next capsule comes. */
    whapirohi_answer framed = whapirohi_write_datagram(datagram, sent.length, stream, sizeof stream);
    show("datagram", framed, stream);
    feed(&cut, stream, 10);
    feed(&cut, stream + 10, framed.length - 10);
    feed(&cut, TOO_LONG, sizeof TOO_LONG);
    feed(&cut, stream, framed.length);

    /* A number by itself. */
    whapirohi_answer number = whapirohi_write_number(15293, stream, sizeof stream);
    show("number", number, stream);
    whapirohi_number read = whapirohi_read_number(stream, number.length);
    printf("read: %s, %llu in %llu\n", whapirohi_reason(read.number), (unsigned long long)read.value, (unsigned long long)read.size);

    /* A state that was written over is refused, and read as no list. */
    whapirohi_range r;
    memset(&van.received_routes, 0xFF, sizeof van.received_routes);
    show("broken", whapirohi_send(&van, PACKET, sizeof PACKET, datagram, sizeof datagram), datagram);
    tell("range", whapirohi_range_at(van.received_routes, 0, &r));

    /* What has no words is not added. */
    whapirohi_entry e = TABLET;
    e.version = 5;
    tell("version 5", whapirohi_add_address(addresses, &e));
    while (whapirohi_add_address(addresses, &TABLET) == WHAPIROHI_DONE) {
    }
    printf("full: %llu addresses\n", (unsigned long long)addresses[0]);
    tell("one more", whapirohi_add_address(addresses, &TABLET));
    whapirohi_template t = TEMPLATE;
    t.segments[0].offset = WHAPIROHI_STATIC_LIMIT - t.segments[0].length + 1;
    tell("too far", whapirohi_add_template(clinic.plan, &t));
    return 0;
}
