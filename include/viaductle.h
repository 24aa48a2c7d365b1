/* Viaductle: SOME/IP service discovery payloads read, SOME/IP-TP segments joined. Every function that the library has is proved to give the
 * answer that the rules say, for every input. The rules, their numbers and values are in docs/RULES.md; what is proved of these functions is
 * stated in crates/hub/specs.
 *
 * Link libviaductle.a (x86-64, System V), which `tools/library` writes to target/staticlib, with viaductle.pc for pkg-config; libhub.a there is
 * the same archive. It calls memcpy, memmove and memset, as compiled code does, and nothing else: no heap, no threads, no global state. examples/c has
 * a program, and `examples/c/run` compiles and runs it.
 *
 * What a caller must see to, since C cannot say it:
 *   - A pointer and a length are one array that is there, the length in elements. The pointer is aligned and never null, also where the
 *     length is 0 (any array's address will do).
 *   - An array that is written (`table`, `state`, `buffer`) shares no byte with another argument.
 * Nothing else is asked: any bytes, any table, any count, any state, any answer handed in gets an answer, and no call reads or writes outside
 * what it was lent. */
#ifndef VIADUCTLE_H
#define VIADUCTLE_H

#include <stddef.h>
#include <stdint.h>

#ifdef __cplusplus
extern "C" {
#endif

/* The version of this header and of the library that belongs to it. */
#define VIADUCTLE_VERSION_MAJOR 0
#define VIADUCTLE_VERSION_MINOR 1
#define VIADUCTLE_VERSION_PATCH 0
#define VIADUCTLE_VERSION "0.1.0"

/* ---- answers */

/* As many values as an answer has at most. */
#define VIADUCTLE_VALUES 5

/* 0 for accepted, or the number of the first refusal; and the values that come with it, in order; those that are not used hold 0. */
typedef struct {
    uint64_t number;
    uint64_t values[VIADUCTLE_VALUES];
} viaductle_answer;

/* The numbers, each with its values. */
enum viaductle_number {
    VIADUCTLE_ACCEPTED = 0,
    VIADUCTLE_UNEXPECTED_END_OF_SLICE = 1,   /* length needed */
    VIADUCTLE_ENTRIES_LENGTH_TOO_LARGE = 2,  /* length */
    VIADUCTLE_ENTRIES_LENGTH_UNEVEN = 3,     /* length: not a multiple of 16 */
    VIADUCTLE_OPTIONS_LENGTH_TOO_LARGE = 4,  /* length: above 1,388 */
    VIADUCTLE_PAYLOAD_TOO_LARGE = 5,         /* length: above 1,400 */
    VIADUCTLE_PAYLOAD_LENGTH_MISMATCH = 6,   /* expected, actual */
    VIADUCTLE_OPTION_LENGTH = 7,             /* needed, had, source (0 the slice, 1 the option's length), place */
    VIADUCTLE_OPTION_LENGTH_ZERO = 8,        /* place */
    VIADUCTLE_CONFIGURATION_STRING = 9,      /* which error (below), its numbers, place */
    VIADUCTLE_UNKNOWN_OPTION = 10,           /* type (unknown, and not to be discarded), place */
    VIADUCTLE_UNKNOWN_ENTRY = 11,            /* type */
    VIADUCTLE_RUN_OUT_OF_BOUNDS = 12,        /* run (1 or 2), start, count, options */
    VIADUCTLE_INDEX_TOO_LARGE = 13,          /* length: above 1,388 */
    VIADUCTLE_MESSAGE_ID = 14,               /* message id: not 0xFFFF8100 */
    VIADUCTLE_CLIENT_ID = 15,                /* client: not 0 */
    VIADUCTLE_SESSION_ZERO = 16,             /* none */
    VIADUCTLE_INTERFACE_VERSION = 17,        /* version: not 1 */
    VIADUCTLE_MESSAGE_TYPE = 18,             /* type: not 0x02 */
    VIADUCTLE_RETURN_CODE = 19,              /* code: not 0 */
    VIADUCTLE_NOTHING_THERE = 20,            /* none: no option, entry or range at this place */
    VIADUCTLE_TABLE_MISFIT = 21,             /* none: the table does not fit these bytes */
    VIADUCTLE_FEW_SLOTS = 22,                /* slots: fewer than 347 were lent */
    VIADUCTLE_WRONG_PROTOCOL = 23,           /* protocol (strict setting), place */
    VIADUCTLE_NOT_A_SEGMENT = 30,            /* none */
    VIADUCTLE_SEGMENT_TOO_BIG = 31,          /* offset, length, limit */
    VIADUCTLE_UNALIGNED = 32,                /* offset, length: more follows, and the length is not a multiple of 16 */
    VIADUCTLE_CONFLICTING_END = 33,          /* previous end (or the greatest end held), new end */
    VIADUCTLE_BUFFER_TOO_SHORT = 34,         /* length needed */
    VIADUCTLE_RANGES_FULL = 35,              /* none: more than VIADUCTLE_MAX_RANGES after joining */
    VIADUCTLE_LIMIT_TOO_LARGE = 36,          /* limit: above 65,520 */
    VIADUCTLE_NOT_COMPLETE = 37,             /* none */
    VIADUCTLE_MALFORMED_STATE = 38,          /* none */
    VIADUCTLE_COUNT_FULL = 39                /* none: VIADUCTLE_LAST_NUMBER segments were accepted, and the stream was not cleared */
};

/* 9's first value, and the numbers behind it. `item` is where the item's length byte stands in the string, counted from the string's first byte
 * whichever function tells it. */
enum viaductle_string_error {
    VIADUCTLE_MISSING_TERMINATOR = 1,               /* place */
    VIADUCTLE_ITEM_LENGTH_EXCEEDS_REMAINING = 2,    /* item, item length, bytes remaining, place */
    VIADUCTLE_TRAILING_DATA_AFTER_TERMINATOR = 3,   /* where the terminator stands in the string, place */
    VIADUCTLE_EMPTY_KEY = 4,                        /* item, place */
    VIADUCTLE_INVALID_KEY_BYTE = 5,                 /* item, which byte of the item from 0, its value, place */
    VIADUCTLE_KEY_CONTAINS_ONLY_WHITESPACE = 6      /* item, place */
};

/* The place, which is the last value of 7, 8, 9, 10 and 23, is the byte at which it went wrong, counted from 0:
 *   7 and 8: the option's first byte;
 *   9: the first byte of the item at fault, which is its length byte; the terminator, where bytes follow it; the string's end, one past its last
 *      byte, where it has no terminator;
 *   10: the byte with the discardable bit, which is the option's fourth;
 *   23: the byte with the transport protocol, which is the option's byte 9 with an IPv4 address, and its byte 21 with an IPv6 one.
 * It is counted from
 *   the first byte of the options part by `viaductle_read`, `viaductle_read_message` and `viaductle_index`. In a payload that is its byte 12 plus
 *      the entries length, and in a message 16 bytes more;
 *   the option's own first byte by `viaductle_next_option` and `viaductle_read_option`: 0 for 7 and 8, 9 or 21 for 23, and for 9, whose string
 *      begins at the option's byte 4, at least 4;
 *   the string's first byte by `viaductle_string` and `viaductle_next_item`. */

/* A number in words, for a log; of 9, `viaductle_string_name` of values[0] says more, and `viaductle_place` tells the place where there is one.
 * None of the three is in the library. */
static inline const char *viaductle_name(uint64_t number) {
    switch (number) {
    case VIADUCTLE_ACCEPTED: return "accepted";
    case VIADUCTLE_UNEXPECTED_END_OF_SLICE: return "bytes end too soon";
    case VIADUCTLE_ENTRIES_LENGTH_TOO_LARGE: return "entries length too large";
    case VIADUCTLE_ENTRIES_LENGTH_UNEVEN: return "entries length no multiple of 16";
    case VIADUCTLE_OPTIONS_LENGTH_TOO_LARGE: return "options length too large";
    case VIADUCTLE_PAYLOAD_TOO_LARGE: return "payload too large";
    case VIADUCTLE_PAYLOAD_LENGTH_MISMATCH: return "payload length mismatch";
    case VIADUCTLE_OPTION_LENGTH: return "option length does not fit";
    case VIADUCTLE_OPTION_LENGTH_ZERO: return "option of length 0";
    case VIADUCTLE_CONFIGURATION_STRING: return "configuration string wrong";
    case VIADUCTLE_UNKNOWN_OPTION: return "unknown option that may not be discarded";
    case VIADUCTLE_UNKNOWN_ENTRY: return "unknown entry type";
    case VIADUCTLE_RUN_OUT_OF_BOUNDS: return "run leaves the list of options";
    case VIADUCTLE_INDEX_TOO_LARGE: return "too many bytes of options for an index";
    case VIADUCTLE_MESSAGE_ID: return "not a service discovery message";
    case VIADUCTLE_CLIENT_ID: return "client id is not 0";
    case VIADUCTLE_SESSION_ZERO: return "session id is 0";
    case VIADUCTLE_INTERFACE_VERSION: return "interface version is not 1";
    case VIADUCTLE_MESSAGE_TYPE: return "message type is not a notification";
    case VIADUCTLE_RETURN_CODE: return "return code is not 0";
    case VIADUCTLE_NOTHING_THERE: return "nothing there";
    case VIADUCTLE_TABLE_MISFIT: return "table does not fit these bytes";
    case VIADUCTLE_FEW_SLOTS: return "table has too few slots";
    case VIADUCTLE_WRONG_PROTOCOL: return "transport protocol that the strict setting refuses";
    case VIADUCTLE_NOT_A_SEGMENT: return "not a TP segment";
    case VIADUCTLE_SEGMENT_TOO_BIG: return "segment passes the payload limit";
    case VIADUCTLE_UNALIGNED: return "more follows, and segment length no multiple of 16";
    case VIADUCTLE_CONFLICTING_END: return "two ends of one report";
    case VIADUCTLE_BUFFER_TOO_SHORT: return "buffer too short";
    case VIADUCTLE_RANGES_FULL: return "too many gaps, no room for another range";
    case VIADUCTLE_LIMIT_TOO_LARGE: return "payload limit too large";
    case VIADUCTLE_NOT_COMPLETE: return "report not complete";
    case VIADUCTLE_MALFORMED_STATE: return "malformed stream state";
    case VIADUCTLE_COUNT_FULL: return "no number left for a segment, clear the stream";
    default: return "number unknown to this header";
    }
}

static inline const char *viaductle_string_name(uint64_t error) {
    switch (error) {
    case VIADUCTLE_MISSING_TERMINATOR: return "no closing zero byte";
    case VIADUCTLE_ITEM_LENGTH_EXCEEDS_REMAINING: return "item longer than the string";
    case VIADUCTLE_TRAILING_DATA_AFTER_TERMINATOR: return "bytes behind the closing zero byte";
    case VIADUCTLE_EMPTY_KEY: return "nothing before the '='";
    case VIADUCTLE_INVALID_KEY_BYTE: return "key byte outside 0x20 to 0x7e";
    case VIADUCTLE_KEY_CONTAINS_ONLY_WHITESPACE: return "key of spaces only";
    default: return "error unknown to this header";
    }
}

/* 1, and the place that this refusal tells; or 0, and `*place` is as it was. */
static inline int viaductle_place(uint64_t number, const uint64_t values[VIADUCTLE_VALUES], uint64_t *place) {
    size_t last;
    switch (number) {
    case VIADUCTLE_OPTION_LENGTH: last = 3; break;
    case VIADUCTLE_OPTION_LENGTH_ZERO: last = 0; break;
    case VIADUCTLE_UNKNOWN_OPTION:
    case VIADUCTLE_WRONG_PROTOCOL: last = 1; break;
    case VIADUCTLE_CONFIGURATION_STRING:
        switch (values[0]) {
        case VIADUCTLE_MISSING_TERMINATOR: last = 1; break;
        case VIADUCTLE_TRAILING_DATA_AFTER_TERMINATOR:
        case VIADUCTLE_EMPTY_KEY:
        case VIADUCTLE_KEY_CONTAINS_ONLY_WHITESPACE: last = 2; break;
        case VIADUCTLE_ITEM_LENGTH_EXCEEDS_REMAINING:
        case VIADUCTLE_INVALID_KEY_BYTE: last = 4; break;
        default: return 0;
        }
        break;
    default: return 0;
    }
    *place = values[last];
    return 1;
}

/* ---- service discovery: whole payloads */

/* Slots of the table that reading fills with the options' byte offsets. */
#define VIADUCTLE_SLOTS 347

/* The bits of `settings`, 0 for none of them. Bits without a name are ignored.
 * They go to the calls that judge options: `viaductle_read` and `viaductle_read_message`; and `viaductle_index`, `viaductle_next_option` and
 * `viaductle_read_option`, which never give 10, so that VIADUCTLE_DISCARD changes nothing there. `viaductle_lookup` and `viaductle_next_of_run`
 * take none: what a reading accepted they find, whatever it was told, and its fields are then read with 0. */
#define VIADUCTLE_DISCARD 0x1u /* unknown options are accepted although they may not be discarded, so 10 is not given */
#define VIADUCTLE_STRICT 0x2u  /* endpoints and multicast carry protocol 0x06 (TCP) or 0x11 (UDP), multicast 0x11 alone; otherwise 23 is given */

/* A whole payload.
 *   0: values[0] = the three flags of byte 0 as sent (0x80 reboot, 0x40 unicast, 0x20 explicit initial data control), values[1] = how many
 *      entries, values[2] = how many options.
 *   22, 1 to 6, then the options from the front (7, 8, 9, 23), then 10, then the entries from the front (11, 12). The first refusal counts. Of
 *   one option 7 and 8 come before 9, which its string gives, or 23, which its protocol gives.
 * The table: after 0, slots 0 to values[2] - 1 hold the offsets and the rest of the 347 hold 0; after a refusal all 347 hold 0; after 22
 * nothing has changed. Slots past 347 are never touched. */
viaductle_answer viaductle_read(const uint8_t *payload, size_t len, uint16_t *table, size_t slots, uint32_t settings);

/* A message with its SOME/IP header of 16 bytes: 22, 1 with 16, 14 to 19, and then all later bytes as `viaductle_read` does. The length
 * field and the protocol version are not judged. */
viaductle_answer viaductle_read_message(const uint8_t *message, size_t len, uint16_t *table, size_t slots, uint32_t settings);

/* Where the two parts of a payload start, and how many bytes they have. */
typedef struct {
    uint64_t entries_at, entries_len;
    uint64_t options_at, options_len;
} viaductle_places;

/* The parts of a payload that was read with this answer; of an accepted message the payload is `message + 16, len - 16`. After a refusal all
 * four numbers are 0, so that both parts are empty, and so they are where these bytes' own sizes are refused (1 to 6).
 * The functions below take these parts: `payload + entries_at, entries_len` and `payload + options_at, options_len`. */
viaductle_places viaductle_parts(const uint8_t *payload, size_t len, viaductle_answer answer);

/* ---- service discovery: the options part */

/* The offsets of all options of an options part, unknown ones whether they may be discarded or not.
 *   0: values[0] = how many options.
 *   22, 13, then the options from the front (7, 8, 9, 23). The table is left as by `viaductle_read`. */
viaductle_answer viaductle_index(const uint8_t *options, size_t len, uint16_t *table, size_t slots, uint32_t settings);

/* The option of number `ordinal`, from 0, among `count`, by a table; `count` is how many options the reading told that filled the table (values[2]
 * of `viaductle_read`, values[0] of `viaductle_index`). Its string and its protocol are not judged again, and nothing is written.
 *   0: values[0] = its type, values[1] = where it starts in the options part, values[2] = how many bytes it takes (3 more than its length
 *      field). The bytes after its type are values[1] + 3 up to values[1] + values[2]; `viaductle_read_option` of `options + values[1]`, with
 *      0 for settings, gives its fields.
 *   20 at or past `count`; 21 past the table's 347 slots or those that were lent, or where no option stands at the slot's offset. */
viaductle_answer viaductle_lookup(const uint8_t *options, size_t len, const uint16_t *table, size_t slots, size_t count, size_t ordinal);

/* The option that starts at byte `at` of the options part, its string scanned and under VIADUCTLE_STRICT its protocol judged. To go through all:
 * begin at 0, and go on at values[1] + values[2].
 *   0: as `viaductle_lookup`. 20 with no bytes left, otherwise 7, 8, 9, 23, their place counted from `at`. */
viaductle_answer viaductle_next_option(const uint8_t *options, size_t len, size_t at, uint32_t settings);

/* The next option of a run, of which `left` are left, the next of number `next`. To go through a run of an entry: begin with its start and
 * count, and go on at `next + 1` with `left - 1`.
 *   0: as `viaductle_lookup`. 20 where `left` is 0, otherwise as `viaductle_lookup`. */
viaductle_answer viaductle_next_of_run(const uint8_t *options, size_t len, const uint16_t *table, size_t slots, size_t count, size_t next, size_t left);

/* A configuration string alone: 0, or 9. */
viaductle_answer viaductle_string(const uint8_t *string, size_t len);

/* The item whose length byte is byte `at` of a configuration string, its key judged. To go through all: begin at 0, and go on at values[0] +
 * values[1].
 *   0: values[0] = where its bytes start (at + 1), values[1] = how many they are. Its key is what stands before the first '=', or all of them.
 *   20 at the closing zero byte, whatever is behind it, and with no bytes left; otherwise 9, its item and its place counted from the string's
 *   first byte, not from `at`. */
viaductle_answer viaductle_next_item(const uint8_t *string, size_t len, size_t at);

/* One option with its fields: those that its kind has not hold 0, and so do all after a refusal. */
typedef struct {
    uint64_t number, values[VIADUCTLE_VALUES];       /* as in viaductle_answer; after 0 the values hold 0 */
    uint64_t type;
    uint64_t size;                                   /* bytes that it takes */
    uint64_t discardable;                            /* 1 or 0 */
    uint64_t priority, weight;                       /* load balancing (0x02) */
    uint64_t address_at, address_len;                /* endpoints and multicast: the address is bytes address_at up to + address_len */
    uint64_t protocol, port;                         /*   of the option, 4 (0x04, 0x14, 0x24) or 16 (0x06, 0x16, 0x26) of them; the
                                                      *   protocol as sent: 0x06 is TCP, 0x11 is UDP, and any other passes too
                                                      *   but under VIADUCTLE_STRICT */
    uint64_t string_at, string_len;                  /* configuration (0x01): the string */
} viaductle_option;

/* The option in front of these bytes, its string scanned and under VIADUCTLE_STRICT its protocol judged; later bytes are not read. 7, 8, 9, 23,
 * their place counted from its first byte. */
viaductle_option viaductle_read_option(const uint8_t *option, size_t len, uint32_t settings);

/* ---- service discovery: the entries part */

/* One entry with its fields: those that its kind has not hold 0, and so do all after a refusal. */
typedef struct {
    uint64_t number, values[VIADUCTLE_VALUES];       /* as in viaductle_answer; after 0 the values hold 0 */
    uint64_t type;                                   /* 0x00 find, 0x01 offer, 0x06 subscribe, 0x07 subscribe ack */
    uint64_t start1, start2, count1, count2;         /* the two runs of options */
    uint64_t service, instance, major, ttl;          /* TTL 0: an offer or a subscription is stopped, or (0x07) refused */
    uint64_t minor;                                  /* 0x00 and 0x01 */
    uint64_t initial_data, counter, eventgroup;      /* 0x06 and 0x07: a bit, four bits, the id */
    uint64_t reserved, spare;                        /*   byte 12 and three bits, as sent */
} viaductle_entry;

/* One entry alone; later bytes are not read. 1 with 16 below 16 bytes, then 11. */
viaductle_entry viaductle_read_entry(const uint8_t *entry, size_t len);

/* The entry that starts at byte `at` of the entries part. To go through all: begin at 0, and go on at `at + 16`.
 * 20 with no bytes left, otherwise 1 with 16, then 11. */
viaductle_entry viaductle_next_entry(const uint8_t *entries, size_t len, size_t at);

/* ---- TP: segments of one message joined in a buffer */

/* A stream is a state and a buffer, both the caller's: one for each sender, message id and request id, which are not judged here, and the same
 * buffer at each call (a longer one may follow, with the old bytes in front). `viaductle_begin`; `viaductle_consume` for each segment; once
 * `viaductle_complete` says 1, `viaductle_take`, and `viaductle_clear` for the next message.
 *
 * Segments come in any order. As long as each is answered by 0, none is empty and no two overlap, whether the message is complete and every byte of
 * it are the same whichever came first; where two overlap, the newest bytes win.
 *
 * No clock is asked. Each accepted segment has a number: the first since the stream was begun or cleared has 1, the next 2. Each range carries the
 * number of the latest one in it; `viaductle_count` and `viaductle_range` tell them. */

/* How many ranges a stream holds at most: parts of the report that have arrived, with gaps between them. */
#define VIADUCTLE_MAX_RANGES 64

/* The last number that a segment can have. */
#define VIADUCTLE_LAST_NUMBER 4294967295u

/* The state of a stream is an array of VIADUCTLE_WORDS words that the caller keeps: the limit, how many ranges are held, whether an end is known
 * (0 or 1), the end, how many segments were accepted, and for each of VIADUCTLE_MAX_RANGES ranges its start, its end and its number, of which as
 * many count as ranges are held. These stand in the order of the report; in any other order they get the same answers, and a call takes longer.
 * It can be copied, stored and sent; any words get an answer. Words past these are never touched. */
#define VIADUCTLE_FRONT_WORDS 5
#define VIADUCTLE_RANGE_WORDS 3
#define VIADUCTLE_WORDS (VIADUCTLE_FRONT_WORDS + VIADUCTLE_RANGE_WORDS * VIADUCTLE_MAX_RANGES)

/* The highest payload limit, and a buffer's bytes that are enough for any segment under a limit. */
#define VIADUCTLE_MAX_LIMIT 65520
#define VIADUCTLE_BUFFER_LEN(limit) (16 + (size_t)(limit))

/* A stream begins; all VIADUCTLE_WORDS words are written.
 *   0. 38 with fewer words, and nothing is written; 36, and the state then has limit 0 and holds nothing. */
viaductle_answer viaductle_begin(uint32_t *state, size_t words, uint32_t limit);

/* One segment comes: 16 header bytes, 4 TP bytes and its payload, as on the wire.
 *   0: its range is joined, with the next number, and its payload stands in the buffer at 16 plus its offset, over what was there; of the one with
 *      offset 0 the header stands at 0, without the TP bit (0x20) of its type.
 *   38, 30, 31, 32, 33, 34, 35, 39; then state and buffer are as they were. 33: values[1] is where this segment ends, and values[0] the end that is
 *      known, where it passes that or is a final one with another end; else how far the data held reaches, where a final one ends below that. */
viaductle_answer viaductle_consume(uint32_t *state, size_t words, const uint8_t *segment, size_t len, uint8_t *buffer, size_t room);

/* Whether all segments are there. 0: values[0] = 1 or 0. A malformed state, and one of fewer words, is not complete. */
viaductle_answer viaductle_complete(const uint32_t *state, size_t words);

/* The whole message. The state stays.
 *   0: values[0] = its length; it is the first values[0] bytes of the buffer, its length field written.
 *   38, 37, 34; then the buffer is as it was. */
viaductle_answer viaductle_take(const uint32_t *state, size_t words, uint8_t *buffer, size_t room);

/* Ranges, end and count are forgotten and the limit is kept; the words of places that hold no range any more stay as they are. No byte of the
 * buffer is touched.
 *   0, also where the ranges, their numbers or the end were malformed.
 *   38 where the words hold no stream, and then nothing is written: fewer than VIADUCTLE_WORDS, or neither 0 nor 1 where they tell whether an
 *   end is known. */
viaductle_answer viaductle_clear(uint32_t *state, size_t words);

/* How many segments were accepted since the stream was begun or cleared; refused ones count nowhere. 0: values[0] = the count. 38. */
viaductle_answer viaductle_count(const uint32_t *state, size_t words);

/* Of the ranges that begin at `from` or behind it the one that begins first. To go through all: begin at 0, and go on at values[1] + 1. Which was
 * held first is not seen.
 *   0: values[0] = where it begins, values[1] = where it ends (not included), values[2] = the number of the latest accepted segment in it, from 1 up
 *      to the count. No two ranges have the same; where there is one range, its number is the count.
 *   38, 20 where no range begins there or behind. */
viaductle_answer viaductle_range(const uint32_t *state, size_t words, uint32_t from);

#ifdef __cplusplus
}
#endif

#endif
