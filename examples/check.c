/*
 * Tries the C interface: round trips of headers, the refusals, what is told with each answer, the endings, why a region stops,
 * when a listing is whole, its limits and rooms, socket and die in its rows, each listing by both walks, the receiver, CPERs
 * and the regions in them, names and Intel's rules. Prints nothing and ends with status 0 when all is as include/crashlog.h
 * says.
 */
#include <stdio.h>
#include <stdlib.h>
#include <string.h>

#include "crashlog.h"

#define EXPECT(fact)                                                          \
    do {                                                                      \
        if (!(fact)) {                                                        \
            fprintf(stderr, "%s:%d: not so: %s\n", __FILE__, __LINE__, #fact); \
            exit(1);                                                          \
        }                                                                     \
    } while (0)

static int all(const uint8_t *bytes, size_t length, uint8_t value)
{
    for (size_t i = 0; i < length; i++)
        if (bytes[i] != value)
            return 0;
    return 1;
}

/*
 * What the last call told. Each of the functions below makes one call of what it is named after, after these were filled with
 * other bytes: what a call leaves unwritten is found by what it is expected to tell.
 */
static crashlog_listing listed;
static crashlog_judged judged;
static crashlog_part part;
static uint64_t count; /* bytes or rows */

static void forget(void)
{
    memset(&listed, 0xee, sizeof listed);
    memset(&judged, 0xee, sizeof judged);
    memset(&part, 0xee, sizeof part);
    memset(&count, 0xee, sizeof count);
}

/*
 * Two calls, one of each walk: the flat one, with a table of its own, gives what the nested one gives, and leaves what lies
 * past its rows.
 */
static uint32_t list(const uint8_t *region, uint64_t length, const uint32_t *rules, uint64_t rules_len, uint64_t limit,
                     uint32_t *spans, uint64_t spans_len)
{
    static uint32_t own[1501 * CRASHLOG_SPAN_WORDS];
    const size_t row_bytes = CRASHLOG_SPAN_WORDS * sizeof own[0], all_bytes = spans_len * sizeof own[0] + row_bytes;
    crashlog_listing flat;

    EXPECT(all_bytes <= sizeof own);
    memset(own, 0xaa, all_bytes);
    memset(&flat, 0xee, sizeof flat);
    uint32_t flat_answer = crashlog_list_flat(region, length, rules, rules_len, limit, spans ? own : NULL, spans_len, &flat);
    forget();
    uint32_t answer = crashlog_list(region, length, rules, rules_len, limit, spans, spans_len, &listed);
    EXPECT(flat_answer == answer && memcmp(&flat, &listed, sizeof flat) == 0);
    EXPECT(flat.rows == 0 || memcmp(own, spans, flat.rows * row_bytes) == 0);
    EXPECT(all((const uint8_t *)own + flat.rows * row_bytes, all_bytes - flat.rows * row_bytes, 0xaa));
    return answer;
}

static uint32_t decode(const uint8_t *bytes, uint64_t length, const uint32_t *rules, uint64_t rules_len,
                       crashlog_header *header)
{
    forget();
    return crashlog_decode(bytes, length, rules, rules_len, header, &judged);
}

static uint32_t encode(const crashlog_header *header, const uint32_t *rules, uint64_t rules_len, uint8_t *out, uint64_t room)
{
    forget();
    return crashlog_encode(header, rules, rules_len, out, room, &count);
}

static uint32_t sections(const uint8_t *cper, uint64_t length, uint32_t *table, uint64_t table_len)
{
    forget();
    return crashlog_sections(cper, length, table, table_len, &count);
}

static uint32_t section(const uint8_t *cper, uint64_t length, uint32_t row)
{
    forget();
    return crashlog_section(cper, length, row, &part);
}

static uint32_t normalise(const uint8_t *cper, uint64_t length, uint8_t *out, uint64_t room)
{
    forget();
    return crashlog_normalise(cper, length, out, room, &count);
}

/* All that a listing told. */
static int told_listing(uint64_t rows, uint64_t tries, uint64_t bad_type, uint64_t whole, uint64_t stop)
{
    return listed.rows == rows && listed.tries == tries && listed.bad_type == bad_type && listed.whole == whole &&
           listed.stop == stop;
}

/* All that a decode told, of a header that is no ending. */
static int told_header(uint64_t declared, uint64_t header_size, uint64_t flags, uint64_t bad_type)
{
    return judged.declared == declared && judged.header_size == header_size && judged.flags == flags &&
           judged.bad_type == bad_type && judged.ending == 0;
}

/* An ending, and nothing else. */
static int told_ending(uint64_t ending)
{
    return judged.declared == 0 && judged.header_size == 0 && judged.flags == 0 && judged.bad_type == 0 &&
           judged.ending == ending;
}

static int told_part(uint64_t offset, uint64_t length)
{
    return part.offset == offset && part.length == length;
}

/* The bytes of a header's fields, without the struct's padding. */
#define FIELD_BYTES (offsetof(crashlog_header, completion_statuses) + sizeof(uint32_t) * CRASHLOG_MOST_STATUSES)

static int same(const crashlog_header *a, const crashlog_header *b)
{
    return memcmp(a, b, FIELD_BYTES) == 0;
}

/* The same numbers in every run. */
static uint32_t state = 1;

static uint8_t next_byte(void)
{
    state = state * 1664525u + 1013904223u;
    return (uint8_t)(state >> 24);
}

/* Every record is a legacy server's, or a legacy GPU's. */
static const uint32_t server_rules[] = {0, 0, CRASHLOG_LEGACY_SERVER};
static const uint32_t gpu_rules[] = {0, 0, CRASHLOG_LEGACY_GPU};
static const uint32_t bad_rules[] = {0, 0, 16};

/* Sets the bits to 0 that no field of a layout reads. */
static void clear_unread(uint8_t *bytes, int layout)
{
    if (layout == 6) {
        bytes[26] &= 0x7f;
        bytes[27] &= 0x80;
    }
    if (layout == CRASHLOG_LAYOUT_LEGACY_SERVER || layout == CRASHLOG_LAYOUT_LEGACY_GPU) {
        bytes[18] = bytes[19] = bytes[25] = bytes[26] = bytes[27] = 0;
        if (layout == CRASHLOG_LAYOUT_LEGACY_GPU)
            bytes[24] = 0;
    }
}

/* Headers of a type, or of the layout that some rules choose, from any bytes: decoded, encoded, decoded again. */
static void round_trips(int type, int layout, const uint32_t *rules, uint64_t rules_len)
{
    uint8_t bytes[536], out[540];
    crashlog_header header, again;

    for (int n = 0; n < 2000; n++) {
        for (size_t i = 0; i < sizeof bytes; i++)
            bytes[i] = next_byte();
        bytes[0] |= 1;
        bytes[1] = (uint8_t)((bytes[1] & 0xf0) | type);
        memset(&header, 0xff, sizeof header);
        EXPECT(decode(bytes, sizeof bytes, rules, rules_len, &header) == CRASHLOG_DONE);
        EXPECT(judged.bad_type == 0 && judged.ending == 0 && judged.flags == (rules_len == 0 ? 0 : rules[2]));
        EXPECT(header.layout == layout && header.header_type == type && header.reserved == 0);
        uint64_t length = judged.header_size;

        memset(out, 0xaa, sizeof out);
        EXPECT(encode(&header, rules, rules_len, out, sizeof out) == CRASHLOG_DONE && count == length);
        clear_unread(bytes, layout);
        EXPECT(memcmp(out, bytes, length) == 0);
        EXPECT(all(out + length, sizeof out - length, 0xaa));

        memset(&again, 0, sizeof again);
        EXPECT(decode(out, length, rules, rules_len, &again) == CRASHLOG_DONE && judged.header_size == length);
        EXPECT(same(&header, &again));

        memset(out, 0xaa, sizeof out);
        EXPECT(encode(&header, rules, rules_len, out, length - 1) == CRASHLOG_OUTPUT_SHORT);
        EXPECT(count == 0 && all(out, sizeof out, 0xaa));
    }
}

static void decode_refusals(void)
{
    static const uint8_t cut[] = {0x01, 0x31, 0x12, 0x03, 0x02};
    static const uint8_t bad[] = {0x01, 0x37, 0x12, 0x03, 0x02, 0, 0, 0};
    crashlog_header header, before;

    memset(&header, 0x5a, sizeof header);
    before = header;
    EXPECT(decode(cut, sizeof cut, NULL, 0, &header) == CRASHLOG_BAD_HEADER && told_header(0, 0, 0, 0));
    EXPECT(decode(bad, sizeof bad, NULL, 0, &header) == CRASHLOG_BAD_TYPE && told_header(0, 0, 0, 7));
    EXPECT(decode(bad, 5, NULL, 0, &header) == CRASHLOG_BAD_HEADER && told_header(0, 0, 0, 0));
    EXPECT(decode(NULL, 0, bad_rules, 3, &header) == CRASHLOG_BAD_RULES && told_header(0, 0, 0, 0));
    EXPECT(decode(bad, sizeof bad, bad_rules, 2, &header) == CRASHLOG_BAD_RULES && told_header(0, 0, 0, 0));
    EXPECT(memcmp(&header, &before, sizeof header) == 0);
}

/* The three endings, under good and bad rules; and words that are nearly an ending. */
static void endings(void)
{
    static const uint8_t zero[] = {0, 0, 0, 0, 0x02, 0, 0, 0};
    static const uint8_t marked[] = {0xef, 0xbe, 0xad, 0xde, 0x02, 0, 0, 0};
    static const uint8_t unmarked[] = {0xef, 0xb0, 0xad, 0xde, 0x02, 0, 0, 0};
    static const uint8_t nonzero[] = {0, 0, 0, 0x80, 0x02, 0, 0, 0};
    crashlog_header header, before;

    memset(&header, 0x5a, sizeof header);
    before = header;
    EXPECT(decode(zero, sizeof zero, NULL, 0, &header) == CRASHLOG_ENDED && told_ending(CRASHLOG_STOP_ZERO_WORD));
    EXPECT(decode(zero, 4, server_rules, 3, &header) == CRASHLOG_ENDED && told_ending(CRASHLOG_STOP_ZERO_WORD));
    EXPECT(decode(marked, sizeof marked, NULL, 0, &header) == CRASHLOG_ENDED && told_ending(CRASHLOG_STOP_DEADBEEF_WORD));
    EXPECT(decode(marked, 4, server_rules, 3, &header) == CRASHLOG_ENDED && told_ending(CRASHLOG_STOP_DEADBEEF_WORD));
    for (uint64_t length = 0; length < 4; length++) {
        EXPECT(decode(zero, length, NULL, 0, &header) == CRASHLOG_ENDED && told_ending(CRASHLOG_STOP_FEW_BYTES));
        EXPECT(decode(marked, length, NULL, 0, &header) == CRASHLOG_ENDED && told_ending(CRASHLOG_STOP_FEW_BYTES));
    }
    EXPECT(decode(NULL, 0, NULL, 0, &header) == CRASHLOG_ENDED && told_ending(CRASHLOG_STOP_FEW_BYTES));
    EXPECT(decode(zero, sizeof zero, bad_rules, 3, &header) == CRASHLOG_BAD_RULES && told_header(0, 0, 0, 0));
    EXPECT(decode(marked, sizeof marked, bad_rules, 3, &header) == CRASHLOG_BAD_RULES && told_header(0, 0, 0, 0));
    EXPECT(memcmp(&header, &before, sizeof header) == 0);
    EXPECT(decode(unmarked, sizeof unmarked, NULL, 0, &header) == CRASHLOG_DONE && told_header(8, 8, 0, 0));
    EXPECT(decode(nonzero, sizeof nonzero, NULL, 0, &header) == CRASHLOG_DONE && told_header(8, 8, 0, 0));
}

/* The answer to one header, and that a refusal leaves the output as it was. */
static uint32_t encodes(const crashlog_header *header, const uint32_t *rules, uint64_t rules_len)
{
    uint8_t out[536];

    memset(out, 0xaa, sizeof out);
    uint32_t answer = encode(header, rules, rules_len, out, sizeof out);
    EXPECT(answer == CRASHLOG_DONE || (count == 0 && all(out, sizeof out, 0xaa)));
    return answer;
}

static void encode_refusals(void)
{
    crashlog_header good = {.revision = 1, .header_type = 3, .layout = 3, .record_type = 3};
    crashlog_header h;

    EXPECT(encodes(&good, NULL, 0) == CRASHLOG_DONE);
    EXPECT(encodes(&good, bad_rules, 3) == CRASHLOG_BAD_RULES);
    EXPECT((h = good, h.cldic = 2, encodes(&h, NULL, 0)) == CRASHLOG_BAD_FIELD);
    EXPECT((h = good, h.cldic = 2, encodes(&h, bad_rules, 3)) == CRASHLOG_BAD_RULES);
    EXPECT((h = good, h.consumed = 255, encodes(&h, NULL, 0)) == CRASHLOG_BAD_FIELD);
    EXPECT((h = good, h.collection_complete = 2, encodes(&h, NULL, 0)) == CRASHLOG_BAD_FIELD);
    EXPECT((h = good, h.layout = 9, encodes(&h, NULL, 0)) == CRASHLOG_BAD_FIELD);
    EXPECT((h = good, h.layout = 2, encodes(&h, NULL, 0)) == CRASHLOG_BAD_FIELD);
    EXPECT((h = good, h.revision = 256, encodes(&h, NULL, 0)) == CRASHLOG_BAD_FIELD);
    EXPECT((h = good, h.product_id = 4096, encodes(&h, NULL, 0)) == CRASHLOG_BAD_FIELD);
    EXPECT((h = good, h.record_type = 64, encodes(&h, NULL, 0)) == CRASHLOG_BAD_FIELD);
    EXPECT((h = good, h.completion_status = 0x80000000, encodes(&h, NULL, 0)) == CRASHLOG_BAD_FIELD);
    EXPECT(encodes(&good, gpu_rules, 3) == CRASHLOG_BAD_FIELD);
    /* what the layout lacks, and what is reserved, is not looked at */
    EXPECT((h = good, h.header_type = h.layout = 2, h.collection_complete = 2, encodes(&h, NULL, 0)) == CRASHLOG_DONE);
    EXPECT((h = good, h.whoami = 7, h.die_id = 7, h.reserved = 7, encodes(&h, NULL, 0)) == CRASHLOG_DONE);
    /* a count of status words */
    EXPECT((h = good, h.header_type = h.layout = 6, h.completion_status_size = 127, encodes(&h, NULL, 0)) == CRASHLOG_DONE);
    EXPECT((h.completion_status_size = 128, encodes(&h, NULL, 0)) == CRASHLOG_BAD_FIELD);
    /* a legacy header: its die is its revision's, and it has no extended size */
    EXPECT((h = good, h.layout = 7, h.revision = 0x83, h.die_id = 12, encodes(&h, server_rules, 3)) == CRASHLOG_DONE);
    EXPECT((h.extended_record_size = 1, encodes(&h, server_rules, 3)) == CRASHLOG_BAD_FIELD);
    EXPECT((h.extended_record_size = 0, h.die_id = 11, encodes(&h, server_rules, 3)) == CRASHLOG_BAD_FIELD);
    /* a word that would read as ended */
    EXPECT((memset(&h, 0, sizeof h), encodes(&h, NULL, 0)) == CRASHLOG_BAD_FIELD);
}

/* The die of a legacy server, by its revision; and the count of type 6. */
static void worked_headers(void)
{
    static const uint8_t revisions[] = {0x83, 0x03, 0x81, 0x02};
    static const uint8_t dies[] = {12, 12, 10, 8};
    uint8_t bytes[536] = {0, 0x31, 0x12, 0x03};
    crashlog_header header = {0};

    for (int i = 0; i < 4; i++) {
        bytes[0] = revisions[i];
        EXPECT(decode(bytes, 32, server_rules, 3, &header) == CRASHLOG_DONE);
        EXPECT(told_header(0, 32, CRASHLOG_LEGACY_SERVER, 0));
        EXPECT(header.die_id == dies[i] && header.layout == CRASHLOG_LAYOUT_LEGACY_SERVER);
    }
    bytes[1] = 0x36;
    bytes[4] = 5;
    bytes[26] = bytes[27] = 0xff;
    EXPECT(decode(bytes, 536, NULL, 0, &header) == CRASHLOG_DONE && told_header(20, 536, 0, 0));
    EXPECT(header.completion_status_size == 127 && header.collection_complete == 1);
    EXPECT(decode(bytes, 535, NULL, 0, &header) == CRASHLOG_BAD_HEADER && told_header(0, 0, 0, 0));
    bytes[26] = 0x80;
    EXPECT(decode(bytes, 536, NULL, 0, &header) == CRASHLOG_DONE && told_header(20, 28, 0, 0));
    EXPECT(header.completion_status_size == 0);
}

static void listings(void)
{
    static uint8_t region[CRASHLOG_MOST_BYTES + 1];
    const uint64_t one = CRASHLOG_SPAN_WORDS; /* room for a row */
    uint32_t spans[CRASHLOG_SPAN_WORDS + 1];

    memset(spans, 0xaa, sizeof spans);
    EXPECT(list(NULL, 0, NULL, 0, 0, NULL, 0) == CRASHLOG_EMPTY_REGION);
    EXPECT(told_listing(0, 0, 0, 0, CRASHLOG_STOP_END_OF_INPUT));
    EXPECT(list(region, sizeof region, bad_rules, 3, 9, spans, one) == CRASHLOG_TOO_LONG);
    EXPECT(told_listing(0, 0, 0, 0, CRASHLOG_STOP_UNTOLD));
    EXPECT(list(region, sizeof region - 1, bad_rules, 3, 9, spans, one) == CRASHLOG_BAD_RULES);
    EXPECT(told_listing(0, 0, 0, 0, CRASHLOG_STOP_UNTOLD));
    EXPECT(list(region, 8, NULL, 0, 0, spans, one) == CRASHLOG_TRIES_SPENT);
    EXPECT(told_listing(0, 0, 0, 0, CRASHLOG_STOP_UNTOLD));
    EXPECT(list(region, 8, NULL, 0, 9, spans, one) == CRASHLOG_EMPTY_REGION);
    EXPECT(told_listing(0, 1, 0, 0, CRASHLOG_STOP_ZERO_WORD));
    memcpy(region, "\x01\x37\x12\x03\x02", 5);
    EXPECT(list(region, 8, NULL, 0, 9, spans, one) == CRASHLOG_BAD_TYPE);
    EXPECT(told_listing(0, 1, 7, 0, CRASHLOG_STOP_BAD_HEADER));
    EXPECT(list(region, 5, NULL, 0, 9, spans, one) == CRASHLOG_BAD_HEADER);
    EXPECT(told_listing(0, 1, 0, 0, CRASHLOG_STOP_BAD_HEADER));
    region[1] = 0x31;
    EXPECT(list(region, 8, NULL, 0, 9, spans, one - 1) == CRASHLOG_SPANS_FULL);
    EXPECT(told_listing(0, 1, 0, 0, CRASHLOG_STOP_UNTOLD));
    EXPECT(all((const uint8_t *)spans, sizeof spans, 0xaa));
    EXPECT(list(region, 16, NULL, 0, 1, spans, one) == CRASHLOG_TRIES_SPENT);
    EXPECT(told_listing(1, 1, 0, 0, CRASHLOG_STOP_UNTOLD));
    memset(spans, 0xaa, sizeof spans);
    EXPECT(list(region, 8, NULL, 0, 9, spans, one) == CRASHLOG_DONE);
    EXPECT(told_listing(1, 1, 0, 1, CRASHLOG_STOP_END_OF_INPUT));
    EXPECT(spans[CRASHLOG_SPAN_LEVEL] == 0 && spans[CRASHLOG_SPAN_PARENT] == CRASHLOG_NO_PARENT);
    EXPECT(spans[CRASHLOG_SPAN_OFFSET] == 0 && spans[CRASHLOG_SPAN_HELD] == 8);
    EXPECT(spans[CRASHLOG_SPAN_DECLARED] == 8 && spans[CRASHLOG_SPAN_HEADER_SIZE] == 8);
    EXPECT(spans[CRASHLOG_SPAN_VERSION] == 0x03123101 && spans[CRASHLOG_SPAN_FLAGS] == 0);
    EXPECT(spans[CRASHLOG_SPAN_SOCKET] == 0 && spans[CRASHLOG_SPAN_DIE] == CRASHLOG_NO_DIE);
    EXPECT(spans[CRASHLOG_SPAN_WORDS] == 0xaaaaaaaa);
}

/*
 * What may stand where a region stops, why it then stops, whether a listing may be whole with it, and the answer where no
 * record stands before it.
 */
static const struct tail {
    uint8_t bytes[8];
    uint64_t length, stop, whole;
    uint32_t answer;
} tails[] = {
    {{0}, 0, CRASHLOG_STOP_END_OF_INPUT, 1, CRASHLOG_EMPTY_REGION},
    {{0}, 4, CRASHLOG_STOP_ZERO_WORD, 1, CRASHLOG_EMPTY_REGION},
    {{0xef, 0xbe, 0xad, 0xde}, 4, CRASHLOG_STOP_DEADBEEF_WORD, 1, CRASHLOG_EMPTY_REGION},
    {{0}, 3, CRASHLOG_STOP_FEW_BYTES, 0, CRASHLOG_EMPTY_REGION},
    {{0xef, 0xbe, 0xad}, 3, CRASHLOG_STOP_FEW_BYTES, 0, CRASHLOG_EMPTY_REGION},
    {{0x01, 0x31, 0x12, 0x03, 0x02}, 5, CRASHLOG_STOP_BAD_HEADER, 0, CRASHLOG_BAD_HEADER},
    {{0x01, 0x37, 0x12, 0x03, 0x02}, 8, CRASHLOG_STOP_BAD_HEADER, 0, CRASHLOG_BAD_TYPE},
    {{0x01, 0x31, 0x12, 0x03}, 8, CRASHLOG_STOP_SIZE_ZERO, 0, CRASHLOG_EMPTY_REGION},
};

/* A tail alone, and after a record: whole, without room, and with one try too few. */
static void stops_at(const struct tail *tail)
{
    uint8_t region[16] = {0x01, 0x31, 0x12, 0x03, 0x02};
    uint32_t spans[CRASHLOG_SPAN_WORDS];
    const uint64_t one = CRASHLOG_SPAN_WORDS, length = 8 + tail->length;
    const uint64_t tries = tail->length > 0; /* of the tail */

    EXPECT(list(tail->bytes, tail->length, NULL, 0, 9, spans, one) == tail->answer);
    EXPECT(told_listing(0, tries, tail->answer == CRASHLOG_BAD_TYPE ? 7 : 0, 0, tail->stop));
    memcpy(region + 8, tail->bytes, tail->length);
    EXPECT(list(region, length, NULL, 0, 1 + tries, spans, one) == CRASHLOG_DONE);
    EXPECT(told_listing(1, 1 + tries, 0, tail->whole, tail->stop));
    EXPECT(list(region, length, NULL, 0, 9, spans, one - 1) == CRASHLOG_SPANS_FULL);
    EXPECT(told_listing(0, 1, 0, 0, CRASHLOG_STOP_UNTOLD));
    EXPECT(list(region, length, NULL, 0, tries, spans, one) == CRASHLOG_TRIES_SPENT);
    EXPECT(told_listing(tries, tries, 0, 0, CRASHLOG_STOP_UNTOLD));
}

/* A Box that holds a record and a tail, with a tail after it: of why the Box stops only `whole` tells. */
static void stops_apart(const struct tail *inner, const struct tail *outer)
{
    static const uint32_t rules[] = {0, 0, CRASHLOG_SIZES_IN_BYTES};
    uint8_t region[32] = {0x01, 0x31, 0x12, 0x3d, [8] = 0x01, 0x31, 0x12, 0x03, 0x08};
    uint32_t spans[2 * CRASHLOG_SPAN_WORDS];
    const uint64_t box = 16 + inner->length, tries = 2 + (inner->length > 0) + (outer->length > 0);

    region[4] = (uint8_t)box;
    memcpy(region + 16, inner->bytes, inner->length);
    memcpy(region + box, outer->bytes, outer->length);
    EXPECT(list(region, box + outer->length, rules, 3, 9, spans, 2 * CRASHLOG_SPAN_WORDS) == CRASHLOG_DONE);
    EXPECT(told_listing(2, tries, 0, inner->whole && outer->whole, outer->stop));
}

static void stops(void)
{
    const size_t all_tails = sizeof tails / sizeof tails[0];
    static const uint8_t cut[] = {0x01, 0x31, 0x12, 0x03, 0x03, 0, 0, 0}; /* declares 12 bytes */
    uint32_t spans[CRASHLOG_SPAN_WORDS];

    for (size_t i = 0; i < all_tails; i++) {
        stops_at(&tails[i]);
        for (size_t j = 0; j < all_tails; j++)
            stops_apart(&tails[i], &tails[j]);
    }
    EXPECT(list(cut, sizeof cut, NULL, 0, 9, spans, CRASHLOG_SPAN_WORDS) == CRASHLOG_DONE);
    EXPECT(told_listing(1, 1, 0, 0, CRASHLOG_STOP_END_OF_INPUT));
}

/* What a region may hold, in so many rows, and on how many levels, counted from the top, no listing with it is whole. */
static const struct content {
    uint8_t bytes[12];
    uint64_t length, rows, spoils;
} contents[] = {
    {{0x01, 0x31, 0x12, 0x03, 0x03}, 8, 1, 5},           /* a record that is cut short */
    {{0x01, 0x31, 0x12, 0x3d, 0x03}, 8, 1, 5},           /* a Box that is */
    {{0x01, 0x31, 0x12, 0x3d, 0x02}, 8, 1, 0},           /* a Box with nothing after its header */
    {{0x01, 0x31, 0x12, 0x3d, 0x01, [8] = 2}, 12, 2, 4}, /* a Box that declares 4 bytes: a record starts at its size */
    {{0x01, 0x31, 0x12, 0x03, 0x01, [8] = 2}, 12, 2, 0}, /* the same, and no Box */
};

/* Such a content in so many Boxes. */
static void whole_in(uint64_t boxes, const struct content *content)
{
    uint8_t region[4 * 8 + sizeof content->bytes];
    uint32_t spans[6 * CRASHLOG_SPAN_WORDS];
    const uint64_t length = 8 * boxes + content->length, rows = boxes + content->rows;

    for (uint64_t at = 0; at < 8 * boxes; at += 8)
        memcpy(region + at, (uint8_t[8]){0x01, 0x31, 0x12, 0x3d, (uint8_t)((length - at) / 4)}, 8);
    memcpy(region + 8 * boxes, content->bytes, content->length);
    EXPECT(list(region, length, NULL, 0, 9, spans, sizeof spans / sizeof spans[0]) == CRASHLOG_DONE);
    EXPECT(told_listing(rows, rows, 0, content->spoils <= boxes, CRASHLOG_STOP_END_OF_INPUT));
}

static void wholes(void)
{
    for (size_t i = 0; i < sizeof contents / sizeof contents[0]; i++)
        for (uint64_t boxes = 0; boxes <= 4; boxes++)
            whole_in(boxes, &contents[i]);
}

/* The room is in whole rows of ten numbers. */
static void rooms(void)
{
    static const uint64_t rooms[] = {0, 8, 9, 10, 11, 16, 19, 20, 29, 30, 31};
    uint8_t region[3 * 8]; /* three records */
    uint32_t spans[31];

    for (uint64_t at = 0; at < sizeof region; at += 8)
        memcpy(region + at, "\x01\x31\x12\x03\x02\0\0", 8);
    for (size_t i = 0; i < sizeof rooms / sizeof rooms[0]; i++) {
        const uint64_t rows = rooms[i] / 10, words = rows * CRASHLOG_SPAN_WORDS;
        const uint32_t answer = rows < 3 ? CRASHLOG_SPANS_FULL : CRASHLOG_DONE;

        memset(spans, 0xaa, sizeof spans);
        EXPECT(list(region, sizeof region, NULL, 0, 9, spans, rooms[i]) == answer && listed.rows == rows);
        for (uint64_t row = 0; row < rows; row++)
            EXPECT(spans[row * CRASHLOG_SPAN_WORDS + CRASHLOG_SPAN_OFFSET] == 8 * row);
        EXPECT(all((const uint8_t *)(spans + words), sizeof spans - words * sizeof spans[0], 0xaa));
    }
}

/* Boxes in each other, a try for each row, under each limit and in each room. */
static void cuts(void)
{
    const uint64_t rows = 5;
    uint8_t region[5 * 8];
    uint32_t spans[6 * CRASHLOG_SPAN_WORDS];

    for (uint64_t at = 0; at < sizeof region; at += 8)
        memcpy(region + at, (uint8_t[8]){0x01, 0x31, 0x12, 0x3d, (uint8_t)((sizeof region - at) / 4)}, 8);
    for (uint64_t limit = 0; limit <= rows + 1; limit++)
        for (uint64_t room = 0; room <= rows + 1; room++) {
            uint32_t answer = list(region, sizeof region, NULL, 0, limit, spans, room * CRASHLOG_SPAN_WORDS);
            if (room < limit && room < rows)
                EXPECT(answer == CRASHLOG_SPANS_FULL && told_listing(room, room + 1, 0, 0, CRASHLOG_STOP_UNTOLD));
            else if (limit < rows)
                EXPECT(answer == CRASHLOG_TRIES_SPENT && told_listing(limit, limit, 0, 0, CRASHLOG_STOP_UNTOLD));
            else
                EXPECT(answer == CRASHLOG_DONE && told_listing(rows, rows, 0, 1, CRASHLOG_STOP_END_OF_INPUT));
        }
}

/* A row's socket and die. */
static int comes_from(const uint32_t *span, uint32_t socket, uint32_t die)
{
    return span[CRASHLOG_SPAN_SOCKET] == socket && span[CRASHLOG_SPAN_DIE] == die;
}

/* A record that is an input of its own, with die 5 and socket 9 where type 6 has them, under a rule with some flags. */
static void one_origin(uint8_t revision, uint8_t type, uint32_t flags, uint32_t socket, uint32_t die)
{
    const uint32_t rules[] = {0, 0, flags};
    const uint8_t record[32] = {revision, (uint8_t)(0x30 | type), 0x12, 0x03, 8, [16] = 8, [24] = 5, 9};
    uint32_t spans[CRASHLOG_SPAN_WORDS];

    EXPECT(list(record, sizeof record, rules, 3, 9, spans, CRASHLOG_SPAN_WORDS) == CRASHLOG_DONE && listed.rows == 1);
    EXPECT(comes_from(spans, socket, die) && spans[CRASHLOG_SPAN_FLAGS] == flags);
}

/*
 * Records of any bytes in a Box, under a rule that applies to them and not to the Box: the socket and the die in each row are
 * those of the header that a decode reads where the row says.
 */
static void origins_agree(uint8_t type, uint32_t flags)
{
    const uint32_t rules[] = {0x00fff000, 0x00123000, flags};
    const uint8_t units = flags & CRASHLOG_SIZES_IN_BYTES ? 32 : 8;
    uint8_t region[8 + 4 * 32] = {0x01, 0x41, 0x12, 0x3d, sizeof region / 4};
    uint32_t spans[5 * CRASHLOG_SPAN_WORDS];
    crashlog_header header;

    for (uint8_t *record = region + 8; record < region + sizeof region; record += 32) {
        for (int i = 0; i < 32; i++)
            record[i] = next_byte();
        memcpy(record + 1, (uint8_t[7]){0x30 | type, 0x12, 0x03, units}, 7);
        memcpy(record + 16, (uint8_t[2]){units}, 2);
        record[26] &= 0x80; /* no status word in type 6 */
    }
    EXPECT(list(region, sizeof region, rules, 3, 9, spans, sizeof spans / sizeof spans[0]) == CRASHLOG_DONE);
    EXPECT(listed.rows == 5 && comes_from(spans, 0, CRASHLOG_NO_DIE));
    for (const uint32_t *span = spans + CRASHLOG_SPAN_WORDS; span < spans + 5 * CRASHLOG_SPAN_WORDS;
         span += CRASHLOG_SPAN_WORDS) {
        EXPECT(decode(region + span[CRASHLOG_SPAN_OFFSET], 32, rules, 3, &header) == CRASHLOG_DONE);
        int has_die = header.layout == 6 || header.layout == CRASHLOG_LAYOUT_LEGACY_SERVER;
        EXPECT(comes_from(span, header.socket_id, has_die ? header.die_id : CRASHLOG_NO_DIE));
    }
}

static void origins(void)
{
    for (uint8_t type = 0; type <= 5; type++)
        one_origin(1, type, 0, 0, CRASHLOG_NO_DIE);
    one_origin(1, 6, 0, 9, 5);
    for (uint8_t type = 0; type <= 15; type++) {
        one_origin(0x82, type, CRASHLOG_LEGACY_SERVER, 5, 11);
        one_origin(0x7e, type, CRASHLOG_LEGACY_SERVER | CRASHLOG_LEGACY_GPU, 5, 8);
        one_origin(0x82, type, CRASHLOG_LEGACY_GPU, 0, CRASHLOG_NO_DIE);
    }
    for (int n = 0; n < 100; n++)
        for (uint8_t type = 0; type <= 15; type++)
            for (uint32_t layout_flags = type <= 6 ? 0 : 1; layout_flags <= 3; layout_flags++) {
                origins_agree(type, layout_flags);
                origins_agree(type, layout_flags | CRASHLOG_SIZES_IN_BYTES);
            }
}

/* The receiver, and the table that is lent with it, with a row more than it needs. */
static crashlog_receiver receiver;
static uint32_t arrived[CRASHLOG_RECEIVER_SPAN_WORDS + CRASHLOG_SPAN_WORDS];

static const uint64_t enough = CRASHLOG_RECEIVER_SPAN_WORDS;

static uint32_t feed(const uint8_t *piece, uint64_t length, uint64_t spans_len)
{
    forget();
    return crashlog_receiver_feed(&receiver, piece, length, arrived, spans_len, &count);
}

static uint32_t finish(uint64_t spans_len)
{
    forget();
    return crashlog_receiver_finish(&receiver, arrived, spans_len, &listed);
}

static int table_untouched(void)
{
    return all((const uint8_t *)arrived, sizeof arrived, 0xaa);
}

/* A piece that is refused so: nothing has changed, but by TOO_LONG, which shuts the receiver. */
static void feed_refused(const uint8_t *piece, uint64_t length, uint64_t spans_len, uint32_t answer)
{
    crashlog_receiver before = receiver;

    memset(arrived, 0xaa, sizeof arrived);
    EXPECT(feed(piece, length, spans_len) == answer && count == 0 && table_untouched());
    if (answer == CRASHLOG_TOO_LONG)
        before.stage = receiver.stage;
    EXPECT(memcmp(&receiver, &before, sizeof before) == 0);
}

static void finish_refused(uint64_t spans_len, uint32_t answer)
{
    crashlog_receiver before = receiver;

    memset(arrived, 0xaa, sizeof arrived);
    EXPECT(finish(spans_len) == answer && told_listing(0, 0, 0, 0, CRASHLOG_STOP_UNTOLD) && table_untouched());
    EXPECT(memcmp(&receiver, &before, sizeof before) == 0);
}

/* A shut receiver refuses all, and for this before any other reason. */
static void refuses_all(void)
{
    static const uint8_t piece[CRASHLOG_MOST_PIECE + 1] = {1};

    feed_refused(NULL, 0, enough, CRASHLOG_NOT_RECEIVING);
    feed_refused(piece, 1, enough, CRASHLOG_NOT_RECEIVING);
    feed_refused(piece, sizeof piece, enough, CRASHLOG_NOT_RECEIVING);
    feed_refused(piece, 1, enough - 1, CRASHLOG_NOT_RECEIVING);
    finish_refused(enough, CRASHLOG_NOT_RECEIVING);
    finish_refused(0, CRASHLOG_NOT_RECEIVING);
}

/* Rules that are refused leave the receiver as it was. */
static void start_refused(void)
{
    static const uint32_t rules[3 * (CRASHLOG_MOST_RULES + 1)];
    crashlog_receiver before = receiver;

    EXPECT(crashlog_receiver_start(&receiver, bad_rules, 3) == CRASHLOG_BAD_RULES);
    EXPECT(crashlog_receiver_start(&receiver, rules, 2) == CRASHLOG_BAD_RULES);
    EXPECT(crashlog_receiver_start(&receiver, rules, 3 * (CRASHLOG_MOST_RULES + 1)) == CRASHLOG_BAD_RULES);
    EXPECT(memcmp(&receiver, &before, sizeof before) == 0);
}

/* Receivers that no start has left; the start then makes them all the same. */
static void unstarted(void)
{
    static const uint8_t fills[] = {0, 1, 2, 0x7f, 0x80, 0xff};
    uint32_t rules[3 * CRASHLOG_MOST_RULES] = {0};
    crashlog_receiver first;

    for (size_t i = 0; i < sizeof fills; i++) {
        memset(&receiver, fills[i], sizeof receiver);
        refuses_all();
        start_refused();
        refuses_all();
        EXPECT(crashlog_receiver_start(&receiver, rules, sizeof rules / sizeof rules[0]) == CRASHLOG_DONE);
        if (i == 0)
            first = receiver;
        EXPECT(memcmp(&receiver, &first, sizeof first) == 0);
    }
}

/* A receiver under way, which has taken one record of 8 bytes and 6 bytes of the next. */
static void start_midway(void)
{
    static const uint8_t pieces[] = {0x01, 0x31, 0x12, 0x03, 2, 0, 0, 0, 0x01, 0x31, 0x12, 0x03, 2, 0};

    EXPECT(crashlog_receiver_start(&receiver, NULL, 0) == CRASHLOG_DONE);
    EXPECT(feed(pieces, sizeof pieces, enough) == CRASHLOG_DONE && count == 1);
}

/* States that are as a call leaves them but for one thing. */
static void spoiled(void)
{
    start_midway(), receiver.stage = 0, refuses_all();
    start_midway(), receiver.stage = 2, refuses_all();
    start_midway(), receiver.stage = 0x01000000, refuses_all();
    start_midway(), receiver.whole = 2, refuses_all();
    start_midway(), receiver.rule_blocks = 9, refuses_all();
    start_midway(), receiver.rule_blocks = UINT64_MAX, refuses_all();
    start_midway(), receiver.taken = CRASHLOG_MOST_BYTES + 1, refuses_all();
    start_midway(), receiver.taken = UINT64_MAX, refuses_all();
    start_midway(), receiver.offset = 15, refuses_all();
    start_midway(), receiver.offset = UINT64_MAX, refuses_all();
    start_midway(), receiver.rows = 0, refuses_all();
    start_midway(), receiver.rows = 9, refuses_all();
    start_midway(), receiver.rows = UINT64_MAX, refuses_all();
    start_midway(), receiver.rule_blocks = 1, receiver.rules[64 + 64 + 7] = 16, refuses_all();
    start_midway(), receiver.offset = receiver.rows = receiver.whole = 0, receiver.taken = 6, refuses_all();
    start_midway(), receiver.taken = 16, refuses_all(); /* the second record is all in */
    start_midway(), receiver.kept[6] = receiver.kept[7] = 0, receiver.taken = 1000, refuses_all();
    /* what may be so stays in use */
    start_midway(), receiver.whole = 0, receiver.rows = 8, receiver.rule_blocks = 8;
    EXPECT(feed(NULL, 0, enough) == CRASHLOG_DONE && count == 0);
    EXPECT(finish(enough) == CRASHLOG_DONE && told_listing(0, 9, 0, 0, CRASHLOG_STOP_BAD_HEADER));
}

/* Each refusal of a receiver in use, and their order; what is refused is left out. */
static void in_use(void)
{
    static const uint8_t zeros[CRASHLOG_MOST_PIECE + 1];
    const uint8_t rest[] = {0, 0, 0};

    start_midway();
    start_refused();
    feed_refused(zeros, sizeof zeros, enough, CRASHLOG_BAD_PIECE);
    feed_refused(zeros, sizeof zeros, 0, CRASHLOG_BAD_PIECE);
    feed_refused(zeros, 1, enough - 1, CRASHLOG_BAD_PIECE);
    feed_refused(NULL, 0, enough - CRASHLOG_SPAN_WORDS, CRASHLOG_BAD_PIECE);
    feed_refused(NULL, 0, 0, CRASHLOG_BAD_PIECE);
    finish_refused(enough - 1, CRASHLOG_BAD_PIECE);
    finish_refused(0, CRASHLOG_BAD_PIECE);
    memset(arrived, 0xaa, sizeof arrived);
    EXPECT(feed(rest, 1, enough) == CRASHLOG_DONE && count == 0 && table_untouched());
    EXPECT(feed(rest, 1, enough + 9) == CRASHLOG_DONE && count == 1 && arrived[CRASHLOG_SPAN_OFFSET] == 8);
    EXPECT(finish(enough) == CRASHLOG_DONE && told_listing(0, 2, 0, 1, CRASHLOG_STOP_END_OF_INPUT));
    refuses_all();

    /* the longest region, and a byte more */
    start_midway();
    for (uint64_t taken = 14; taken < CRASHLOG_MOST_BYTES;) {
        uint64_t left = CRASHLOG_MOST_BYTES - taken, length = left < sizeof zeros - 1 ? left : sizeof zeros - 1;
        if (left < length + 64)
            feed_refused(zeros, 0, enough - 1, CRASHLOG_BAD_PIECE);
        EXPECT(feed(zeros, length, enough) == CRASHLOG_DONE);
        taken += length;
    }
    EXPECT(feed(NULL, 0, enough) == CRASHLOG_DONE && count == 0);
    feed_refused(zeros, sizeof zeros, enough, CRASHLOG_BAD_PIECE);
    feed_refused(zeros, 1, enough - 1, CRASHLOG_BAD_PIECE);
    crashlog_receiver full = receiver;
    EXPECT(finish(enough) == CRASHLOG_DONE && told_listing(0, 3, 0, 1, CRASHLOG_STOP_ZERO_WORD));
    refuses_all();
    receiver = full;
    feed_refused(zeros, 1, enough, CRASHLOG_TOO_LONG);
    refuses_all();
    start_refused();
    refuses_all();
    start_midway(); /* goes on as new */
}

/* What a receiver has told of a region. */
static uint32_t gathered[300 * CRASHLOG_SPAN_WORDS];
static uint64_t told_rows;

/* Takes the rows that a call told from the table; the row after them is untouched. */
static void gather(uint64_t rows)
{
    uint64_t numbers = rows * CRASHLOG_SPAN_WORDS, row_bytes = CRASHLOG_SPAN_WORDS * sizeof arrived[0];

    EXPECT((told_rows + rows) * CRASHLOG_SPAN_WORDS <= sizeof gathered / sizeof gathered[0]);
    memcpy(gathered + told_rows * CRASHLOG_SPAN_WORDS, arrived, rows * row_bytes);
    EXPECT(all((const uint8_t *)(arrived + numbers), row_bytes, 0xaa));
    memset(arrived, 0xaa, rows * row_bytes);
    told_rows += rows;
}

/* A record with all its bytes, of which a feed may tell. */
static int complete(const uint32_t *span)
{
    return span[CRASHLOG_SPAN_HELD] == span[CRASHLOG_SPAN_DECLARED];
}

static int is_box(const uint32_t *span)
{
    return (span[CRASHLOG_SPAN_VERSION] >> 24 & 0x3f) == 0x3d || span[CRASHLOG_SPAN_FLAGS] & CRASHLOG_LEGACY_SERVER_BOX;
}

/* Where a record and its header end. */
static uint64_t end_of(const uint32_t *span)
{
    uint32_t declared = span[CRASHLOG_SPAN_DECLARED], size = span[CRASHLOG_SPAN_HEADER_SIZE];

    return span[CRASHLOG_SPAN_OFFSET] + (uint64_t)(declared < size ? size : declared);
}

/* The rows on level 0 of the region's listing, and what else a finish must tell. */
static uint32_t expected[300 * CRASHLOG_SPAN_WORDS];
static crashlog_listing at_top;

static uint32_t list_top(const uint8_t *region, uint64_t length, const uint32_t *rules, uint64_t rules_len)
{
    static uint32_t spans[1500 * CRASHLOG_SPAN_WORDS];
    uint32_t answer = list(region, length, rules, rules_len, UINT64_MAX, spans, sizeof spans / sizeof spans[0]);

    at_top = listed;
    at_top.rows = 0;
    at_top.whole = answer == CRASHLOG_DONE && listed.stop <= CRASHLOG_STOP_DEADBEEF_WORD;
    for (uint64_t row = 0; row < listed.rows; row++) {
        const uint32_t *span = spans + row * CRASHLOG_SPAN_WORDS;
        if (span[CRASHLOG_SPAN_LEVEL] > 0)
            continue;
        EXPECT(at_top.rows < sizeof expected / sizeof expected[0] / CRASHLOG_SPAN_WORDS);
        memcpy(expected + at_top.rows++ * CRASHLOG_SPAN_WORDS, span, CRASHLOG_SPAN_WORDS * sizeof span[0]);
        if (!complete(span) || (is_box(span) && span[CRASHLOG_SPAN_HELD] < span[CRASHLOG_SPAN_HEADER_SIZE]))
            at_top.whole = 0;
    }
    at_top.tries = at_top.rows + (listed.stop != CRASHLOG_STOP_END_OF_INPUT);
    return answer;
}

/*
 * Receives a region in pieces of these lengths, again and again: each row is told with the piece that completes its record, a
 * last short one by the finish, and all is what the listing has on level 0.
 */
static void receives(const uint8_t *region, uint64_t length, const uint32_t *rules, uint64_t rules_len,
                     const uint8_t *lengths, size_t lengths_len)
{
    uint32_t answer = list_top(region, length, rules, rules_len);
    uint64_t taken = 0, due = 0, rows = 0;

    memset(&receiver, 0xee, sizeof receiver);
    memset(arrived, 0xaa, sizeof arrived);
    told_rows = 0;
    EXPECT(crashlog_receiver_start(&receiver, rules, rules_len) == CRASHLOG_DONE);
    for (size_t turn = 0; taken < length; turn++) {
        uint64_t piece = lengths[turn % lengths_len];
        if (piece > length - taken)
            piece = length - taken;
        EXPECT(feed(region + taken, piece, enough + turn % CRASHLOG_SPAN_WORDS) == CRASHLOG_DONE);
        taken += piece;
        for (; rows < at_top.rows && complete(expected + rows * CRASHLOG_SPAN_WORDS); rows++) {
            uint64_t end = end_of(expected + rows * CRASHLOG_SPAN_WORDS);
            due = due < end ? end : due; /* a record waits for those before it */
            if (taken < due)
                break;
        }
        gather(count);
        EXPECT(told_rows == rows);
    }
    EXPECT(finish(enough) == answer);
    EXPECT(told_listing(at_top.rows - rows, at_top.tries, at_top.bad_type, at_top.whole, at_top.stop));
    gather(listed.rows);
    EXPECT(told_rows == at_top.rows && memcmp(gathered, expected, told_rows * CRASHLOG_SPAN_WORDS * sizeof expected[0]) == 0);
    EXPECT(feed(NULL, 0, enough) == CRASHLOG_NOT_RECEIVING && finish(enough) == CRASHLOG_NOT_RECEIVING);
    EXPECT(table_untouched());
}

/* In single bytes; 64 at a time; cut at every byte of the first 64, and with empty pieces; and in some other ways. */
static void receives_in_all_ways(const uint8_t *region, uint64_t length, const uint32_t *rules, uint64_t rules_len)
{
    static const uint8_t ways[][8] = {{1, 1, 1, 1, 1, 1, 1, 1},         {64, 64, 64, 64, 64, 64, 64, 64},
                                      {0, 0, 64, 0, 1, 63, 0, 2},       {3, 3, 3, 3, 3, 3, 3, 3},
                                      {7, 1, 28, 4, 60, 5, 31, 13},     {63, 63, 63, 63, 63, 63, 63, 63}};

    for (size_t way = 0; way < sizeof ways / sizeof ways[0]; way++)
        receives(region, length, rules, rules_len, ways[way], sizeof ways[way]);
    for (uint8_t first = 1; first < 64 && first < length; first++)
        receives(region, length, rules, rules_len, (uint8_t[8]){first, 0, 64, 64, 64, 64, 64, 64}, 8);
}

/* A record of a type with a body of so many bytes, or of a size below its header. Gives its length. */
static uint64_t put_record(uint8_t *record, uint8_t type, uint8_t record_type, uint64_t length, uint64_t units)
{
    for (uint64_t i = 0; i < length; i++)
        record[i] = next_byte();
    record[0] |= 1;
    record[1] = (uint8_t)(0x30 | type), record[2] = 0x12, record[3] = record_type;
    record[4] = record[16] = (uint8_t)units, record[5] = record[17] = (uint8_t)(units >> 8), record[6] = record[7] = 0;
    return length;
}

/* Records of each layout one after the other, complete and below their header, Boxes among them, and each tail. */
static void received_records(void)
{
    static const uint32_t box_rules[] = {0x3f000000, 0x04000000, CRASHLOG_LEGACY_SERVER | CRASHLOG_LEGACY_SERVER_BOX};
    static const uint8_t types[] = {3, 0x3d, 4};
    uint8_t region[2048];

    for (uint8_t type = 0; type <= 7; type++)
        for (size_t tail = 0; tail < sizeof tails / sizeof tails[0]; tail++) {
            uint64_t length = put_record(region, 1, 3, 12, 3);
            length += put_record(region + length, type, types[tail % 3], 560, 140);
            length += put_record(region + length, type, types[tail / 3], 32, tail % 2 ? 8 : 1);
            memcpy(region + length, tails[tail].bytes, tails[tail].length);
            length += tails[tail].length;
            receives_in_all_ways(region, length, NULL, 0);
            receives_in_all_ways(region, length, box_rules, 3);
        }
}

/* A legacy server's record by the last row of a table, in which no other row applies. */
static void received_under_rules(void)
{
    uint32_t rules[3 * CRASHLOG_MOST_RULES];
    uint8_t region[80];

    put_record(region, 7, 3, sizeof region, 10);
    for (uint64_t rows = 1; rows <= CRASHLOG_MOST_RULES; rows++) {
        for (uint64_t row = 0; row < rows; row++)
            memcpy(rules + 3 * row, (uint32_t[3]){UINT32_MAX, 0, CRASHLOG_LEGACY_GPU}, 3 * sizeof rules[0]);
        memcpy(rules + 3 * (rows - 1), server_rules, sizeof server_rules);
        receives(region, sizeof region, rules, 3 * rows, (uint8_t[2]){31, 3}, 2);
        EXPECT(told_rows > 0 && gathered[CRASHLOG_SPAN_FLAGS] == CRASHLOG_LEGACY_SERVER);
    }
}

/* Type 6 with the most status words, which declares 2 bytes, as do most of the records that start in its header. */
static void received_at_once(void)
{
    static const uint32_t rules[] = {0, 0, CRASHLOG_SIZES_IN_BYTES};
    uint8_t region[600];

    for (size_t i = 0; i < sizeof region; i++)
        region[i] = (i + 1) % 2;
    region[1] = 6, region[26] = 0x7f;
    EXPECT(list_top(region, sizeof region, rules, 3) == CRASHLOG_DONE && at_top.rows > 200);
    receives_in_all_ways(region, sizeof region, rules, 3);
    EXPECT(crashlog_receiver_start(&receiver, rules, 3) == CRASHLOG_DONE);
    for (uint64_t taken = 0; taken < 535; taken += 5)
        EXPECT(feed(region + taken, 5, enough) == CRASHLOG_DONE && count == 0);
    EXPECT(feed(region + 535, 64, enough) == CRASHLOG_DONE && count > 200);
}

/* A number below a bound; once in a while any. */
static uint64_t mostly_below(uint64_t bound)
{
    uint64_t any = 0;

    for (int i = 0; i < 8; i++)
        any = any << 8 | next_byte();
    return next_byte() % 32 ? any % bound : any;
}

/* A receiver of any content, most of it such as a call leaves. */
static void put_state(void)
{
    const uint8_t type = next_byte() % 8, units = next_byte();

    receiver.stage = (uint32_t)(1 + mostly_below(1));
    receiver.whole = (uint32_t)mostly_below(2);
    receiver.rule_blocks = mostly_below(9);
    receiver.rows = mostly_below(6);
    receiver.offset = receiver.rows * mostly_below(CRASHLOG_MOST_BYTES / 5);
    receiver.taken = receiver.offset + mostly_below(700);
    for (size_t row = 0; row < CRASHLOG_MOST_RULES; row++) {
        receiver.rules[row] = (uint32_t)(next_byte() & 0x3f) << 24;
        receiver.rules[64 + row] = (uint32_t)(next_byte() & 0x3f) << 24;
        receiver.rules[128 + row] = next_byte() % 16;
    }
    if (next_byte() % 16 == 0)
        receiver.rules[128 + next_byte() % CRASHLOG_MOST_RULES] = (uint32_t)mostly_below(32);
    put_record(receiver.kept, type, next_byte() % 64, sizeof receiver.kept, units);
}

/* Whether a call could have left the receiver so: its numbers fit each other, its rules are valid, and no record of what it has
 * kept is all in. */
static int is_in_use(void)
{
    const uint64_t most_declared = 524280, held = receiver.taken - receiver.offset;
    uint32_t rules[3 * CRASHLOG_MOST_RULES];
    crashlog_header header;

    if (receiver.stage != 1 || receiver.whole > 1 || receiver.rule_blocks > 8 || receiver.taken > CRASHLOG_MOST_BYTES)
        return 0;
    if (receiver.offset > receiver.taken || receiver.rows > receiver.offset ||
        receiver.offset > receiver.rows * most_declared || (receiver.rows == 0 && receiver.whole == 0))
        return 0;
    for (size_t row = 0; row < CRASHLOG_MOST_RULES; row++)
        for (size_t column = 0; column < 3; column++)
            rules[3 * row + column] = receiver.rules[64 * column + row];
    uint32_t answer = decode(receiver.kept, held < 536 ? held : 536, rules, 24 * receiver.rule_blocks, &header);
    return answer != CRASHLOG_BAD_RULES && (answer != CRASHLOG_DONE || judged.declared == 0 || judged.declared > held);
}

/* Any content is refused with 13, or is gone on with. */
static void any_state(void)
{
    uint8_t piece[CRASHLOG_MOST_PIECE];
    crashlog_receiver before;
    int taken = 0;

    for (int n = 0; n < 20000; n++) {
        const uint64_t length = next_byte() % (CRASHLOG_MOST_PIECE + 1);
        for (size_t i = 0; i < sizeof piece; i++)
            piece[i] = next_byte() % 4 ? 0 : next_byte();
        put_state();
        before = receiver;
        const int used = is_in_use(), fits = before.taken + length <= CRASHLOG_MOST_BYTES;
        EXPECT(feed(piece, length, enough) == (!used ? CRASHLOG_NOT_RECEIVING : fits ? CRASHLOG_DONE : CRASHLOG_TOO_LONG));
        if (used && fits) {
            EXPECT(count < CRASHLOG_LEAST_ROOM && receiver.taken == before.taken + length && is_in_use());
            taken++;
        } else {
            EXPECT(count == 0 && memcmp(receiver.kept, before.kept, sizeof before.kept) == 0);
            EXPECT(receiver.taken == before.taken && receiver.stage == (used ? 0 : before.stage));
        }
        receiver = before;
        EXPECT((finish(enough) == CRASHLOG_NOT_RECEIVING) == !used && listed.rows <= 1);
        EXPECT(receiver.stage == (used ? 0 : before.stage));
    }
    EXPECT(taken > 5000);
}

static void receivers(void)
{
    unstarted();
    spoiled();
    in_use();
    any_state();
    for (size_t i = 0; i < sizeof tails / sizeof tails[0]; i++)
        receives_in_all_ways(tails[i].bytes, tails[i].length, NULL, 0);
    for (size_t i = 0; i < sizeof contents / sizeof contents[0]; i++)
        receives_in_all_ways(contents[i].bytes, contents[i].length, NULL, 0);
    received_records();
    received_under_rules();
    received_at_once();
}

/* Two sections, of which the second lies past the end of the input. */
static void cpers(void)
{
    static uint8_t cper[CRASHLOG_MOST_BYTES + 1];
    const uint64_t size = 128 + 2 * 72 + 5;
    uint8_t out[400];
    uint32_t table[2 * CRASHLOG_SECTION_WORDS];

    memcpy(cper, "CPER\0\0\xff\xff\xff\xff\x02", 11);
    cper[12] = 4; /* a severity that becomes 3 */
    cper[128] = (uint8_t)(128 + 2 * 72), cper[129] = 1, cper[132] = 5;
    cper[200] = 255, cper[201] = 255, cper[204] = 5;
    memcpy(cper + 128 + 2 * 72, "bytes", 5);

    memset(table, 0xaa, sizeof table);
    EXPECT(sections(cper, size, table, CRASHLOG_SECTION_WORDS - 1) == CRASHLOG_SECTIONS_FULL && count == 0);
    EXPECT(sections(cper, 127, table, 6) == CRASHLOG_NOT_CPER && count == 0);
    EXPECT(sections(cper, sizeof cper, table, 6) == CRASHLOG_TOO_LONG && count == 0);
    EXPECT(sections(NULL, 0, NULL, 0) == CRASHLOG_NOT_CPER && count == 0);
    EXPECT(all((const uint8_t *)table, sizeof table, 0xaa));
    EXPECT(sections(cper, size, table, 6) == CRASHLOG_DONE && count == 1);
    EXPECT(table[CRASHLOG_SECTION_INDEX] == 0 && table[CRASHLOG_SECTION_OFFSET] == 272);
    EXPECT(table[CRASHLOG_SECTION_LENGTH] == 5 && table[CRASHLOG_SECTION_WORDS] == 0xaaaaaaaa);

    EXPECT(section(cper, size, 0) == CRASHLOG_DONE && told_part(272, 5));
    EXPECT(section(cper, size, 1) == CRASHLOG_NONE && told_part(0, 0));
    EXPECT(section(cper, 127, 0) == CRASHLOG_NOT_CPER && told_part(0, 0));
    EXPECT(section(cper, sizeof cper, 0) == CRASHLOG_TOO_LONG && told_part(0, 0));

    memset(out, 0xaa, sizeof out);
    EXPECT(normalise(cper, size, out, 204) == CRASHLOG_OUTPUT_SHORT && count == 0);
    EXPECT(normalise(cper, 127, out, sizeof out) == CRASHLOG_NOT_CPER && count == 0);
    EXPECT(normalise(cper, sizeof cper, out, sizeof out) == CRASHLOG_TOO_LONG && count == 0);
    EXPECT(all(out, sizeof out, 0xaa));
    EXPECT(normalise(cper, size, out, sizeof out) == CRASHLOG_DONE && count == 205);
    EXPECT(out[10] == 1 && out[12] == 3 && out[20] == 205 && out[128] == 200 && memcmp(out + 200, "bytes", 5) == 0);
    EXPECT(all(out + 205, sizeof out - 205, 0xaa));
}

/* A CPER that is made section by section. */
static uint8_t file[CRASHLOG_MOST_BYTES + 1];
static uint64_t file_len;

static const uint8_t crash_log[16] = CRASHLOG_RECORD_ID;
static const uint8_t firmware_error[16] = {0x96, 0x2a, 0x21, 0x81, 0xed, 0x09, 0x96, 0x49,
                                           0x94, 0x71, 0x8d, 0x72, 0x9c, 0x8e, 0x69, 0xed};

static void put_number(uint8_t *to, uint64_t number, int bytes)
{
    for (int byte = 0; byte < bytes; byte++)
        to[byte] = (uint8_t)(number >> 8 * byte);
}

static uint8_t *descriptor(uint64_t index)
{
    return file + 128 + 72 * index;
}

static void put_descriptor(uint64_t index, uint64_t offset, uint64_t length)
{
    put_number(descriptor(index), offset, 4);
    put_number(descriptor(index) + 4, length, 4);
    memcpy(descriptor(index) + 16, firmware_error, sizeof firmware_error);
}

/* A CPER with that many descriptors, whose bodies are empty. */
static void new_cper(uint64_t sections)
{
    memset(file, 0, file_len);
    memcpy(file, "CPER\0\0\xff\xff\xff\xff", 10);
    put_number(file + 10, sections, 2);
    file_len = (uint64_t)(descriptor(sections) - file);
}

/* Puts a Crash Log's section at the end. Gives where its region starts. */
static uint64_t add_section(uint64_t index, const void *region, uint64_t length)
{
    const uint64_t offset = file_len;

    put_descriptor(index, offset, 32 + length);
    memset(file + offset, 0, 32);
    memcpy(file + offset + 16, crash_log, sizeof crash_log);
    memcpy(file + offset + 32, region, length);
    file_len += 32 + length;
    return offset + 32;
}

/* The table that it is listed in, with a row more than is lent. */
static uint32_t joined[10001 * CRASHLOG_SPAN_WORDS];

static uint32_t list_cper(const uint8_t *record_id, const uint32_t *rules, uint64_t rules_len, uint64_t limit,
                          uint64_t spans_len)
{
    const size_t row_bytes = CRASHLOG_SPAN_WORDS * sizeof joined[0], all_bytes = spans_len * sizeof joined[0] + row_bytes;

    EXPECT(all_bytes <= sizeof joined);
    memset(joined, 0xaa, all_bytes);
    forget();
    uint32_t *spans = spans_len > 0 ? joined : NULL;
    uint32_t answer = crashlog_list_cper(file, file_len, record_id, rules, rules_len, limit, spans, spans_len, &listed);
    EXPECT(listed.bad_type == 0 && listed.stop == CRASHLOG_STOP_UNTOLD && (listed.whole == 0 || answer == CRASHLOG_DONE));
    EXPECT(listed.rows * CRASHLOG_SPAN_WORDS <= spans_len);
    EXPECT(all((const uint8_t *)joined + listed.rows * row_bytes, all_bytes - listed.rows * row_bytes, 0xaa));
    return answer;
}

/* The Crash Logs in it, with room for ten rows, under no rules and any limit. */
static uint32_t list_crash_logs(void)
{
    return list_cper(crash_log, NULL, 0, UINT64_MAX, 10 * CRASHLOG_SPAN_WORDS);
}

static int told_joined(uint64_t rows, uint64_t tries, uint64_t whole)
{
    return told_listing(rows, tries, 0, whole, CRASHLOG_STOP_UNTOLD);
}

/* A row of a record with a type 1 header that holds what it declares. */
static int is_joined(uint64_t row, uint32_t level, uint32_t parent, uint64_t offset, uint32_t held, uint32_t version)
{
    const uint32_t numbers[] = {level, parent, (uint32_t)offset, held, held, 8, version, 0, CRASHLOG_NO_DIE, 0};

    return row < listed.rows && memcmp(joined + row * CRASHLOG_SPAN_WORDS, numbers, sizeof numbers) == 0;
}

static const uint8_t punit[] = {0x01, 0x31, 0x12, 0x03, 2, 0, 0, 0};
static const uint8_t punit_in_box[] = {0x01, 0x31, 0x12, 0x3d, 4, 0, 0, 0, 0x01, 0x31, 0x12, 0x03, 2, 0, 0, 0};

/* Each refusal before the walk, and their order; a CPER without a section, and one without a record. */
static void cper_refusals(void)
{
    static const uint32_t rules[3 * (CRASHLOG_MOST_RULES + 1)];

    new_cper(1);
    add_section(0, punit, sizeof punit);
    const uint64_t length = file_len;
    file[0] = 'c', file_len = sizeof file;
    EXPECT(list_cper(crash_log, bad_rules, 3, 0, 10) == CRASHLOG_TOO_LONG && told_joined(0, 0, 0));
    file_len = sizeof file - 1;
    EXPECT(list_cper(crash_log, bad_rules, 3, 0, 10) == CRASHLOG_BAD_RULES && told_joined(0, 0, 0));
    EXPECT(list_cper(crash_log, NULL, 0, 0, 10) == CRASHLOG_NOT_CPER && told_joined(0, 0, 0));
    file[0] = 'C', file_len = length;
    EXPECT(list_cper(crash_log, rules, 2, 9, 10) == CRASHLOG_BAD_RULES && told_joined(0, 0, 0));
    EXPECT(list_cper(crash_log, rules, sizeof rules / sizeof rules[0], 9, 10) == CRASHLOG_BAD_RULES);
    EXPECT(list_cper(crash_log, rules, sizeof rules / sizeof rules[0] - 3, 9, 10) == CRASHLOG_DONE);
    for (int at = 0; at < 10; at++) {
        file[at] ^= 1;
        EXPECT(list_crash_logs() == (at == 4 || at == 5 ? CRASHLOG_DONE : CRASHLOG_NOT_CPER));
        file[at] ^= 1;
    }
    for (file_len = 0; file_len < 128; file_len++)
        EXPECT(list_crash_logs() == CRASHLOG_NOT_CPER && told_joined(0, 0, 0));
    EXPECT(list_cper(crash_log, NULL, 0, 0, 0) == CRASHLOG_EMPTY_REGION && told_joined(0, 0, 0));
    for (; file_len < length; file_len++) /* the section is not kept */
        EXPECT(list_crash_logs() == CRASHLOG_EMPTY_REGION && told_joined(0, 0, 0));
    EXPECT(list_crash_logs() == CRASHLOG_DONE && told_joined(1, 1, 1));
    EXPECT(list_cper(crash_log, NULL, 0, 0, 10) == CRASHLOG_TRIES_SPENT && told_joined(0, 0, 0));
    EXPECT(list_cper(crash_log, NULL, 0, 9, 0) == CRASHLOG_SPANS_FULL && told_joined(0, 1, 0));
    file_len = CRASHLOG_MOST_BYTES;
    EXPECT(list_crash_logs() == CRASHLOG_DONE && told_joined(1, 1, 1));
}

/* A Box with a record in it, a region that is empty but for a zero word, and a Box and a record, under each limit and in each
 * room: so at each end of a section, one before it and one after. */
static void cper_cuts(void)
{
    static const int finds[] = {1, 1, 0, 1, 1, 1}; /* whether each try finds a record */
    const uint32_t top = CRASHLOG_NO_PARENT, box = 0x3d123101, other = 0x03123101;
    uint8_t last[sizeof punit_in_box + sizeof punit];

    new_cper(3);
    memcpy(last, punit_in_box, sizeof punit_in_box);
    memcpy(last + sizeof punit_in_box, punit, sizeof punit);
    const uint64_t first = add_section(0, punit_in_box, sizeof punit_in_box);
    add_section(1, "\0\0\0", 4);
    const uint64_t third = add_section(2, last, sizeof last);

    for (uint64_t limit = 0; limit <= 7; limit++)
        for (uint64_t room = 0; room <= 6; room++) {
            uint64_t rows = 0, tries = 0;
            uint32_t answer = CRASHLOG_DONE;
            for (size_t i = 0; i < sizeof finds / sizeof finds[0] && answer == CRASHLOG_DONE; i++) {
                if (tries == limit)
                    answer = CRASHLOG_TRIES_SPENT;
                else if (tries++, finds[i] && rows == room)
                    answer = CRASHLOG_SPANS_FULL;
                else
                    rows += (uint64_t)finds[i];
            }
            EXPECT(list_cper(crash_log, NULL, 0, limit, room * CRASHLOG_SPAN_WORDS + (limit + room) % 10) == answer);
            EXPECT(told_joined(rows, tries, answer == CRASHLOG_DONE));
            EXPECT(rows < 1 || is_joined(0, 0, top, first, 16, box));
            EXPECT(rows < 2 || is_joined(1, 1, 0, first + 8, 8, other));
            EXPECT(rows < 3 || is_joined(2, 0, top, third, 16, box));
            EXPECT(rows < 4 || is_joined(3, 1, 2, third + 8, 8, other));
            EXPECT(rows < 5 || is_joined(4, 0, top, third + 16, 8, other));
        }
}

/* Which sections are opened: those of at least 32 bytes, of the type, with all sixteen bytes of the identifier that is asked
 * for, and of any revision. What follows a body that is too short looks like the rest of it. */
static void cper_opened(void)
{
    const uint8_t other[16] = {1};

    for (uint64_t length = 0; length <= 32 + sizeof punit; length++) {
        new_cper(1);
        add_section(0, punit, sizeof punit);
        put_number(descriptor(0) + 4, length, 4);
        const uint32_t answer = length < 32 + sizeof punit ? CRASHLOG_EMPTY_REGION : CRASHLOG_DONE;
        EXPECT(list_crash_logs() == answer && told_joined(answer == CRASHLOG_DONE, length > 32, answer == CRASHLOG_DONE));
    }
    for (int at = 0; at < 16; at++) {
        uint8_t *body = file + file_len - 32 - sizeof punit;
        descriptor(0)[16 + at] ^= 0x80;
        EXPECT(list_crash_logs() == CRASHLOG_EMPTY_REGION && told_joined(0, 0, 0));
        descriptor(0)[16 + at] ^= 0x80;
        body[16 + at] ^= 1;
        EXPECT(list_crash_logs() == CRASHLOG_EMPTY_REGION && told_joined(0, 0, 0));
        EXPECT(list_cper(body + 16, NULL, 0, 9, 10) == CRASHLOG_DONE && told_joined(1, 1, 1));
        body[16 + at] ^= 1;
        body[at] = 0xff; /* no byte before the identifier is looked at */
        EXPECT(list_crash_logs() == CRASHLOG_DONE && told_joined(1, 1, 1));
    }
    EXPECT(list_cper(other, NULL, 0, 9, 10) == CRASHLOG_EMPTY_REGION && told_joined(0, 0, 0));
}

/* Regions without a record: before, after and between others, and alone. They give no answer of their own. */
static void cper_skipped(const struct tail *tail)
{
    const uint64_t tries = tail->length > 0;

    new_cper(1);
    add_section(0, tail->bytes, tail->length);
    EXPECT(list_crash_logs() == CRASHLOG_EMPTY_REGION && told_joined(0, tries, 0));
    for (uint64_t at = 0; at < 3; at++) {
        uint64_t offsets[3];
        new_cper(3);
        for (uint64_t index = 0; index < 3; index++)
            offsets[index] = index == at ? add_section(index, tail->bytes, tail->length)
                                         : add_section(index, punit, sizeof punit);
        EXPECT(list_crash_logs() == CRASHLOG_DONE && told_joined(2, 2 + tries, tail->whole));
        EXPECT(is_joined(0, 0, CRASHLOG_NO_PARENT, offsets[at == 0 ? 1 : 0], 8, 0x03123101));
        EXPECT(is_joined(1, 0, CRASHLOG_NO_PARENT, offsets[at == 2 ? 1 : 2], 8, 0x03123101));
    }
}

/* What spoils `whole` in one region spoils it in all, before and after others. */
static void cper_wholes(const struct content *content)
{
    for (uint64_t at = 0; at < 3; at++) {
        new_cper(3);
        for (uint64_t index = 0; index < 3; index++)
            if (index == at)
                add_section(index, content->bytes, content->length);
            else
                add_section(index, punit, sizeof punit);
        EXPECT(list_crash_logs() == CRASHLOG_DONE && told_joined(2 + content->rows, 2 + content->rows, content->spoils == 0));
    }
}

/* Bodies over each other, one of them in another's region, and one that ends before; in the order of their descriptors. */
static void cper_overlaps(void)
{
    const uint32_t top = CRASHLOG_NO_PARENT, box = 0x3d123101, other = 0x03123101;
    const uint32_t *span = joined + CRASHLOG_SPAN_WORDS; /* of the Box, cut short */
    uint8_t region[sizeof punit_in_box + 32 + sizeof punit];

    new_cper(4);
    const uint64_t inner = file_len + 32 + sizeof punit_in_box;
    memcpy(region, punit_in_box, sizeof punit_in_box);
    memset(region + sizeof punit_in_box, 0, 32);
    memcpy(region + sizeof punit_in_box + 16, crash_log, sizeof crash_log);
    memcpy(region + sizeof punit_in_box + 32, punit, sizeof punit);
    const uint64_t outer = add_section(3, region, sizeof region);
    put_descriptor(0, inner, 32 + sizeof punit);
    put_descriptor(1, outer - 32, 32 + 8);
    put_descriptor(2, inner, 32 + sizeof punit);
    EXPECT(list_crash_logs() == CRASHLOG_DONE && told_joined(5, 6, 0));
    EXPECT(is_joined(0, 0, top, inner + 32, 8, other));
    EXPECT(span[CRASHLOG_SPAN_OFFSET] == outer && span[CRASHLOG_SPAN_HELD] == 8 && span[CRASHLOG_SPAN_DECLARED] == 16);
    EXPECT(is_joined(2, 0, top, inner + 32, 8, other));
    EXPECT(is_joined(3, 0, top, outer, 16, box) && is_joined(4, 1, 3, outer + 8, 8, other));
}

/* The rules hold in every region: by one the first record of each counts its size in bytes, by the other it is a Box. */
static void cper_rules(void)
{
    static const uint32_t rules[] = {0x3f000000, 0x05000000, CRASHLOG_SIZES_IN_BYTES,
                                     0x3f000000, 0x05000000, CRASHLOG_LEGACY_SERVER_BOX};
    static const uint8_t region[] = {0x01, 0x31, 0x12, 0x05, 16, 0, 0, 0, 0x01, 0x31, 0x12, 0x03, 2, 0, 0, 0};
    uint64_t offsets[2];

    new_cper(2);
    for (uint64_t index = 0; index < 2; index++)
        offsets[index] = add_section(index, region, sizeof region);
    EXPECT(list_cper(crash_log, rules, 6, 4, 4 * CRASHLOG_SPAN_WORDS) == CRASHLOG_DONE && told_joined(4, 4, 1));
    for (uint32_t index = 0; index < 2; index++) {
        const uint32_t *span = joined + 2 * index * CRASHLOG_SPAN_WORDS;
        EXPECT(span[CRASHLOG_SPAN_FLAGS] == (CRASHLOG_SIZES_IN_BYTES | CRASHLOG_LEGACY_SERVER_BOX));
        EXPECT(span[CRASHLOG_SPAN_DECLARED] == 16 && span[CRASHLOG_SPAN_OFFSET] == offsets[index]);
        EXPECT(is_joined(2 * index + 1, 1, 2 * index, offsets[index] + 8, 8, 0x03123101));
    }
}

/* Ten thousand sections over one body, of a record and a zero word. No limit is cut to 32 bits. */
static void cper_many(void)
{
    const uint64_t sections = 10000, two_to_32 = 1ull << 32, words = sections * CRASHLOG_SPAN_WORDS;
    uint8_t region[sizeof punit + 4] = {0};

    new_cper(sections);
    memcpy(region, punit, sizeof punit);
    const uint64_t offset = add_section(0, region, sizeof region);
    for (uint64_t index = 1; index < sections; index++)
        put_descriptor(index, offset - 32, 32 + sizeof region);
    EXPECT(list_cper(crash_log, NULL, 0, two_to_32, words) == CRASHLOG_DONE && told_joined(sections, 2 * sections, 1));
    for (uint64_t row = 0; row < sections; row++)
        EXPECT(is_joined(row, 0, CRASHLOG_NO_PARENT, offset, 8, 0x03123101));
    EXPECT(list_cper(crash_log, NULL, 0, two_to_32 + 3, words) == CRASHLOG_DONE && told_joined(sections, 2 * sections, 1));
    EXPECT(list_cper(crash_log, NULL, 0, UINT64_MAX, words) == CRASHLOG_DONE && told_joined(sections, 2 * sections, 1));
    EXPECT(list_cper(crash_log, NULL, 0, 2 * sections, words) == CRASHLOG_DONE && told_joined(sections, 2 * sections, 1));
    EXPECT(list_cper(crash_log, NULL, 0, 2 * sections - 1, words) == CRASHLOG_TRIES_SPENT);
    EXPECT(told_joined(sections, 2 * sections - 1, 0));
    EXPECT(list_cper(crash_log, NULL, 0, UINT64_MAX, words - 1) == CRASHLOG_SPANS_FULL);
    EXPECT(told_joined(sections - 1, 2 * sections - 1, 0));
}

static void cper_regions(void)
{
    cper_refusals();
    cper_cuts();
    cper_opened();
    for (size_t i = 0; i < sizeof tails / sizeof tails[0]; i++)
        cper_skipped(&tails[i]);
    for (size_t i = 0; i < sizeof contents / sizeof contents[0]; i++)
        cper_wholes(&contents[i]);
    cper_overlaps();
    cper_rules();
    cper_many();
}

static void names(void)
{
    uint8_t out[16];

    memset(out, 0xaa, sizeof out);
    EXPECT(crashlog_name(0x1c, out, 13) == 14 && all(out, sizeof out, 0xaa));
    EXPECT(crashlog_name(0x1c, out, 14) == 14 && memcmp(out, "CRASHLOG_AGENT\xaa\xaa", 16) == 0);
    EXPECT(crashlog_name(0x3d, NULL, 0) == 3);
    EXPECT(crashlog_name(0x3d, out, sizeof out) == 3 && memcmp(out, "BOX", 3) == 0);
    EXPECT(crashlog_name(4294967295u, out, sizeof out) == 7 && memcmp(out, "UNKNOWN", 7) == 0);
}

/* Intel's rule table: written where it fits, accepted, and a header of each kind that it tells apart. */
static void intel_rules(void)
{
    const uint32_t words = CRASHLOG_INTEL_RULE_WORDS;
    uint32_t rules[CRASHLOG_INTEL_RULE_WORDS + 1], spans[CRASHLOG_SPAN_WORDS];
    uint8_t bytes[32] = {0x01, 0xf0, 0x02, 0x03, [16] = 8, [24] = 3}; /* type 0 of product 0x2f, 8 words, socket 3 */
    crashlog_header header = {0};

    memset(rules, 0xaa, sizeof rules);
    EXPECT(crashlog_intel_rules(NULL, 0) == words);
    EXPECT(crashlog_intel_rules(rules, words - 1) == words && all((const uint8_t *)rules, sizeof rules, 0xaa));
    EXPECT(crashlog_intel_rules(rules, words) == words && rules[0] == 0x00ffff00);
    EXPECT(rules[words - 1] == CRASHLOG_SIZES_IN_BYTES && rules[words] == 0xaaaaaaaa);
    EXPECT(crashlog_intel_rules(rules, words + 1) == words && rules[words] == 0xaaaaaaaa);

    EXPECT(decode(bytes, sizeof bytes, rules, words, &header) == CRASHLOG_DONE);
    EXPECT(told_header(32, 32, CRASHLOG_LEGACY_SERVER, 0));
    EXPECT(header.layout == CRASHLOG_LAYOUT_LEGACY_SERVER && header.product_id == 0x2f);
    bytes[3] = 0x04;
    EXPECT(list(bytes, sizeof bytes, rules, words, 9, spans, CRASHLOG_SPAN_WORDS) == CRASHLOG_DONE);
    EXPECT(spans[CRASHLOG_SPAN_FLAGS] == (CRASHLOG_LEGACY_SERVER | CRASHLOG_LEGACY_SERVER_BOX) && comes_from(spans, 3, 4));
    memcpy(bytes, "\x01\xe0\x05\x03", 4); /* type 0 of product 0x5e */
    EXPECT(decode(bytes, sizeof bytes, rules, words, &header) == CRASHLOG_DONE);
    EXPECT(told_header(32, 32, CRASHLOG_LEGACY_GPU, 0) && header.layout == CRASHLOG_LAYOUT_LEGACY_GPU);
    memcpy(bytes, "\x01\x51\x08\x04\x20\0\0\0", 8); /* type 1 of product 0x85, 32 bytes */
    EXPECT(decode(bytes, sizeof bytes, rules, words, &header) == CRASHLOG_DONE);
    EXPECT(told_header(32, 8, CRASHLOG_SIZES_IN_BYTES, 0) && header.layout == 1);
}

/* The flags that Intel's errata give a header. */
static uint32_t errata(uint32_t type, uint32_t product, uint32_t record)
{
    if (type == 0 && (product == 0x2f || product == 0x82 || product == 0x8e))
        return CRASHLOG_LEGACY_SERVER | (record == 4 ? CRASHLOG_LEGACY_SERVER_BOX : 0);
    if (type == 0 && (product == 0x5d || product == 0x5e || product == 0x5f || product == 0xb6))
        return CRASHLOG_LEGACY_GPU;
    if ((record == 4 && (product < 0x71 || product == 0x85)) || (record == 6 && product < 0x96))
        return CRASHLOG_SIZES_IN_BYTES;
    return 0;
}

/* Intel's rule table gives these flags to every header type, product and record type, and looks at nothing else. */
static void intel_errata(void)
{
    uint32_t rules[CRASHLOG_INTEL_RULE_WORDS];
    const uint32_t words = crashlog_intel_rules(rules, CRASHLOG_INTEL_RULE_WORDS);

    for (uint32_t at = 0; at < words; at += CRASHLOG_RULE_WORDS)
        EXPECT((rules[at] & ~0x3fffff00u) == 0);
    for (uint32_t fields = 0; fields < 1u << 22; fields++) {
        uint32_t flags = 0;
        for (uint32_t at = 0; at < words; at += CRASHLOG_RULE_WORDS)
            if ((fields << 8 & rules[at]) == rules[at + 1])
                flags |= rules[at + 2];
        EXPECT(flags == errata(fields & 15, fields >> 4 & 4095, fields >> 16));
    }
}

int main(void)
{
    for (int type = 0; type <= 6; type++)
        round_trips(type, type, NULL, 0);
    for (int type = 0; type <= 15; type++) {
        round_trips(type, CRASHLOG_LAYOUT_LEGACY_SERVER, server_rules, 3);
        round_trips(type, CRASHLOG_LAYOUT_LEGACY_GPU, gpu_rules, 3);
    }
    decode_refusals();
    endings();
    encode_refusals();
    worked_headers();
    listings();
    stops();
    wholes();
    rooms();
    cuts();
    origins();
    receivers();
    cpers();
    cper_regions();
    names();
    intel_rules();
    intel_errata();
    return 0;
}
