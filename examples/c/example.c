/* Reads a service discovery payload, then refused ones, and joins two segments of a message. Compiled and run by examples/c/run. */
#include "viaductle.h"

#include <inttypes.h>
#include <stdbool.h>
#include <stdio.h>

/* An offer of service 0x1234 whose first run holds one IPv4 endpoint. */
static const uint8_t payload[] = {
    0x80, 0x00, 0x00, 0x00, 0x00, 0x00, 0x00, 0x10,                                                 /* flags, entries length */
    0x01, 0x00, 0x00, 0x10, 0x12, 0x34, 0x56, 0x78, 0x01, 0x00, 0x0e, 0x10, 0x01, 0x00, 0x00, 0x00, /* the entry */
    0x00, 0x00, 0x00, 0x0c,                                                                         /* options length */
    0x00, 0x09, 0x04, 0x00, 0xc0, 0xa8, 0x01, 0x01, 0x00, 0x06, 0x1f, 0x90,                         /* the option */
};

/* An option of unknown type 0x77 that may not be discarded, and no entry. */
static const uint8_t unknown[] = {0, 0, 0, 0, 0, 0, 0, 0, 0, 0, 0, 4, 0x00, 0x01, 0x77, 0x00};

/* An IPv4 endpoint and an IPv4 multicast address, both with TCP, and no entry. */
static const uint8_t multicast[] = {
    0, 0, 0, 0, 0, 0, 0, 0, 0, 0, 0, 24,
    0x00, 0x09, 0x04, 0x00, 0xc0, 0xa8, 0x01, 0x01, 0x00, 0x06, 0x1f, 0x90,
    0x00, 0x09, 0x14, 0x00, 0xef, 0x00, 0x00, 0x01, 0x00, 0x06, 0x77, 0x1a, /* the strict setting refuses its protocol, byte 21 of the options */
};

/* A good option, and one with a configuration string whose second item has no key; no entry. */
static const uint8_t no_key[] = {
    0, 0, 0, 0, 0, 0, 0, 0, 0, 0, 0, 13,
    0x00, 0x01, 0x77, 0x80,                         /* the good option */
    0x00, 0x06, 0x01, 0x00, 1, 'a', 1, '=', 0,      /* the other: the item at fault begins at byte 10 of the options */
};

/* The number, its name, its values up to the last that is not 0, and where it went wrong. The places of a payload count from its options. */
static void show_refusal(const char *what, viaductle_answer answer) {
    uint64_t place;
    size_t count = VIADUCTLE_VALUES;
    while (count > 0 && answer.values[count - 1] == 0)
        count--;
    printf("%s: refused, %" PRIu64 ": %s", what, answer.number, viaductle_name(answer.number));
    if (answer.number == VIADUCTLE_CONFIGURATION_STRING)
        printf(", %s", viaductle_string_name(answer.values[0]));
    for (size_t i = 0; i < count; i++)
        printf("%s%" PRIu64, i == 0 ? "; " : ", ", answer.values[i]);
    if (viaductle_place(answer.number, answer.values, &place))
        printf("; at byte %" PRIu64 " of the options", place);
    printf("\n");
}

/* The option that was found among these: its address, protocol and port. The reading has judged it, so no setting is needed. */
static void show_option(const uint8_t *options, viaductle_answer found) {
    const uint8_t *bytes = options + found.values[1];
    viaductle_option option = viaductle_read_option(bytes, found.values[2], 0);
    printf("    option of type 0x%02" PRIx64 ":", option.type);
    for (uint64_t i = 0; i < option.address_len; i++)
        printf("%s%u", i == 0 ? " " : ".", (unsigned)bytes[option.address_at + i]);
    printf(", protocol 0x%02" PRIx64 ", port %" PRIu64 "\n", option.protocol, option.port);
}

static void show_payload(const uint8_t *bytes, size_t len, uint32_t settings) {
    uint16_t table[VIADUCTLE_SLOTS];
    viaductle_answer read = viaductle_read(bytes, len, table, VIADUCTLE_SLOTS, settings);
    if (read.number != VIADUCTLE_ACCEPTED) {
        show_refusal("payload", read);
        return; /* nothing behind this line may be asked of refused bytes; their parts are empty */
    }
    printf("payload: flags 0x%02" PRIx64 ", %" PRIu64 " entries, %" PRIu64 " options\n", read.values[0], read.values[1], read.values[2]);
    viaductle_places parts = viaductle_parts(bytes, len, read);
    const uint8_t *entries = bytes + parts.entries_at, *options = bytes + parts.options_at;
    for (size_t at = 0;; at += 16) {
        viaductle_entry entry = viaductle_next_entry(entries, parts.entries_len, at);
        if (entry.number != VIADUCTLE_ACCEPTED) /* 20: the end */
            break;
        printf("  entry of type 0x%02" PRIx64 ": service 0x%04" PRIx64 ", TTL %" PRIu64 "\n", entry.type, entry.service, entry.ttl);
        for (size_t next = entry.start1, left = entry.count1; left > 0; next++, left--) {
            viaductle_answer found =
                viaductle_next_of_run(options, parts.options_len, table, VIADUCTLE_SLOTS, read.values[2], next, left);
            if (found.number != VIADUCTLE_ACCEPTED)
                break;
            show_option(options, found);
        }
    }
}

/* A segment of 16 payload bytes at `offset`, each of them `fill`. */
static void make_segment(uint8_t segment[36], uint32_t offset, bool more, uint8_t fill) {
    static const uint8_t header[16] = {0x12, 0x34, 0x80, 0x01, 0, 0, 0, 28, 0, 0, 0, 1, 1, 1, 0x22, 0};
    uint32_t tp = offset | (more ? 1 : 0);
    for (size_t i = 0; i < 16; i++)
        segment[i] = header[i];
    for (size_t i = 0; i < 4; i++)
        segment[16 + i] = (uint8_t)(tp >> (24 - 8 * i));
    for (size_t i = 20; i < 36; i++)
        segment[i] = fill;
}

static void join_segments(void) {
    static uint8_t buffer[VIADUCTLE_BUFFER_LEN(1024)];
    uint32_t state[VIADUCTLE_WORDS];
    uint8_t segment[36];
    viaductle_answer begun = viaductle_begin(state, VIADUCTLE_WORDS, 1024);
    if (begun.number != VIADUCTLE_ACCEPTED) {
        show_refusal("stream", begun);
        return;
    }
    for (uint32_t offset = 16;; offset -= 16) { /* the last one comes first */
        make_segment(segment, offset, offset == 0, offset == 0 ? 'a' : 'b');
        viaductle_answer taken = viaductle_take(state, VIADUCTLE_WORDS, buffer, sizeof buffer);
        show_refusal("message", taken); /* 37: not complete */
        viaductle_answer joined = viaductle_consume(state, VIADUCTLE_WORDS, segment, sizeof segment, buffer, sizeof buffer);
        if (joined.number != VIADUCTLE_ACCEPTED)
            show_refusal("segment", joined);
        if (offset == 0)
            break;
    }
    for (uint32_t from = 0;;) { /* what has arrived, and which segment of it came last */
        viaductle_answer range = viaductle_range(state, VIADUCTLE_WORDS, from);
        if (range.number != VIADUCTLE_ACCEPTED)
            break;
        printf("arrived: %" PRIu64 " to %" PRIu64 ", number %" PRIu64 "\n", range.values[0], range.values[1], range.values[2]);
        from = (uint32_t)range.values[1] + 1;
    }
    viaductle_answer taken = viaductle_take(state, VIADUCTLE_WORDS, buffer, sizeof buffer);
    if (taken.number != VIADUCTLE_ACCEPTED) {
        show_refusal("message", taken);
        return;
    }
    printf("message: %" PRIu64 " bytes, type 0x%02x, length field %u, payload %.32s\n", taken.values[0], buffer[14], buffer[7], (const char *)buffer + 16);
}

int main(void) {
    show_payload(payload, sizeof payload, 0);
    show_payload(payload, sizeof payload - 1, 0);
    show_payload(unknown, sizeof unknown, 0);
    show_payload(unknown, sizeof unknown, VIADUCTLE_DISCARD);
    show_payload(multicast, sizeof multicast, 0);
    show_payload(multicast, sizeof multicast, VIADUCTLE_STRICT | VIADUCTLE_DISCARD);
    show_payload(no_key, sizeof no_key, 0);
    join_segments();
    return 0;
}
