/* The peak stack of each function of crashlog.h. The stack below a call is painted; afterwards it is seen how far down the
 * paint is gone. A function's figure is the most over calls of all kinds: each header type and layout, Boxes deeper than they
 * are opened, pieces of each length, short and long bodies, refusals. Status 1 if list_flat, which is for small stacks, uses
 * too much. */
#include <stdio.h>

#include "crashlog.h"

#define DEPTH 65536
#define PAINT 0xa5
#define NESTED 6
#define TOO_MUCH_FOR_FLAT 600
#define CRASH_LOG_AT 200 /* in a CPER with one section */

static uint8_t bytes[CRASHLOG_MOST_BYTES + 1], out[CRASHLOG_MOST_BYTES];
static uint32_t rules[CRASHLOG_RULE_WORDS * CRASHLOG_MOST_RULES];
static uint32_t spans[NESTED * CRASHLOG_SPAN_WORDS], table[8 * CRASHLOG_SECTION_WORDS];
static uint32_t arrived[CRASHLOG_RECEIVER_SPAN_WORDS];
static crashlog_header header;
static crashlog_receiver receiver;
static const uint8_t record_id[] = CRASHLOG_RECORD_ID;

/* What the next call is made on, what it tells, and the most that a call has used. */
static uint64_t from, region_at, length, rules_len, room, limit, count;
static uint32_t number;
static crashlog_listing listed;
static crashlog_judged judged;
static crashlog_part part;
static size_t most;

static void nothing(void) {}
static void list(void) { crashlog_list(bytes, length, rules, rules_len, limit, spans, room, &listed); }
static void list_flat(void) { crashlog_list_flat(bytes, length, rules, rules_len, limit, spans, room, &listed); }
static void list_cper(void) { crashlog_list_cper(bytes, length, record_id, rules, rules_len, limit, spans, room, &listed); }
static void start(void) { crashlog_receiver_start(&receiver, rules, rules_len); }
static void feed(void) { crashlog_receiver_feed(&receiver, bytes + from, length, arrived, room, &count); }
static void finish(void) { crashlog_receiver_finish(&receiver, arrived, room, &listed); }
static void decode(void) { crashlog_decode(bytes, length, rules, rules_len, &header, &judged); }
static void encode(void) { crashlog_encode(&header, rules, rules_len, out, room, &count); }
static void sections(void) { crashlog_sections(bytes, length, table, room, &count); }
static void section(void) { crashlog_section(bytes, length, number, &part); }
static void normalise(void) { crashlog_normalise(bytes, length, out, sizeof out / 24 * room, &count); }
static void name(void) { crashlog_name(number, out, room); }
static void intel_rules(void) { crashlog_intel_rules(rules, room); }

/* How far down a call reaches. */
__attribute__((noinline)) static size_t reached(void (*call)(void))
{
    volatile uint8_t *here = __builtin_alloca(16);
    for (size_t at = 1; at <= DEPTH; at++)
        here[-(ptrdiff_t)at] = PAINT;
    call();
    size_t at = DEPTH;
    while (at > 0 && here[-(ptrdiff_t)at] == PAINT)
        at--;
    return at;
}

static void try(void (*call)(void))
{
    size_t used = reached(call) - reached(nothing);
    if (used > most)
        most = used;
}

/* Prints a function's figure, and gives it. */
static unsigned tell(const char *function)
{
    unsigned used = (unsigned)most;
    printf("| %s | %u |\n", function, used);
    most = 0;
    return used;
}

static void put16(size_t at, size_t x)
{
    bytes[at] = (uint8_t)x;
    bytes[at + 1] = (uint8_t)(x >> 8);
}

static void put32(size_t at, size_t x)
{
    put16(at, x);
    put16(at + 2, x >> 16);
}

/* The one rule gives each record these flags. */
static void set_flags(uint32_t flags)
{
    rules[0] = rules[1] = 0;
    rules[2] = flags;
    rules_len = CRASHLOG_RULE_WORDS;
}

/* A record's start, with its size where a legacy header has it too; nine status words in type 6. */
static void put_record(size_t at, uint32_t type, size_t size)
{
    put32(at, 0x3d123001 | type << 8);
    put32(at + 4, size / 4);
    put16(at + 16, size / 4);
    put16(at + 26, 9);
}

static void put_bytes(size_t at, const uint8_t *from, size_t size)
{
    for (size_t i = 0; i < size; i++)
        bytes[at + i] = from[i];
}

/* A CPER with one section, a Crash Log, that ends with the input. */
static void put_crash_log(void)
{
    static const uint8_t firmware_error[] = {0x96, 0x2a, 0x21, 0x81, 0xed, 0x09, 0x96, 0x49,
                                             0x94, 0x71, 0x8d, 0x72, 0x9c, 0x8e, 0x69, 0xed};
    put_bytes(0, (const uint8_t *)"CPER", 4);
    put32(6, 0xffffffff);
    put16(10, 1);
    put32(128, CRASH_LOG_AT);
    put32(132, length - CRASH_LOG_AT);
    put_bytes(144, firmware_error, sizeof firmware_error);
    put_bytes(CRASH_LOG_AT + 16, record_id, sizeof record_id);
}

/* Boxes in Boxes, each with the next one after its header; in a CPER where the region does not start with the input. */
static void try_nest(void (*call)(void), uint32_t type, uint32_t flags, size_t header_size)
{
    for (size_t i = 0; i < NESTED; i++)
        put_record(region_at + i * header_size, type, (NESTED - i) * header_size);
    set_flags(flags);
    length = region_at + NESTED * header_size;
    if (region_at > 0)
        put_crash_log();
    for (limit = 0; limit < NESTED; limit++)
        for (room = 0; room <= sizeof spans / sizeof spans[0]; room += CRASHLOG_SPAN_WORDS)
            try(call);
}

static void try_lists(void (*call)(void))
{
    static const uint8_t sizes[7] = {8, 8, 24, 28, 32, 32, 64};
    for (uint32_t type = 0; type < 7; type++)
        try_nest(call, type, 0, sizes[type]);
    try_nest(call, 0, CRASHLOG_LEGACY_SERVER | CRASHLOG_LEGACY_SERVER_BOX, 32);
    try_nest(call, 0, CRASHLOG_LEGACY_GPU, 32);
    try_nest(call, 7, 0, 8);
    try_nest(call, 1, 16, 8); /* no such flags */
    length = CRASHLOG_MOST_BYTES + 1;
    try(call);
}

/* Receives so many bytes of two records, of which the first is all in with a piece that starts in its body. */
static void receive(uint64_t end, void (*take)(void (*call)(void)))
{
    start();
    room = CRASHLOG_RECEIVER_SPAN_WORDS, length = CRASHLOG_MOST_PIECE;
    for (from = 0; from < end; from += CRASHLOG_MOST_PIECE)
        take(feed);
}

static void make(void (*call)(void))
{
    call();
}

/* Each header type with each layout that the rules can give it: all pieces and one that is too long; the finish in a header, in
 * a body and after both records, and once more. */
static void try_receptions(int finishes)
{
    static const uint64_t ends[] = {64, 576, 640, 1200};
    for (uint32_t type = 0; type < 8; type++)
        for (uint32_t flags = 0; flags < 3; flags++) {
            put_record(0, type, 600);
            put_record(600, type, 600);
            set_flags(flags);
            if (!finishes) {
                receive(1200, try);
                length = CRASHLOG_MOST_PIECE + 1;
                try(feed);
            }
            for (size_t i = 0; finishes && i < sizeof ends / sizeof ends[0]; i++) {
                receive(ends[i], make);
                try(finish);
                try(finish);
            }
        }
}

static void try_receivers(void)
{
    for (rules_len = 0; rules_len <= sizeof rules / sizeof rules[0]; rules_len += 8)
        try(start);
    tell("receiver_start");
    try_receptions(0);
    tell("receiver_feed");
    try_receptions(1);
    tell("receiver_finish");
}

/* Each header type with each layout that the rules can give it. */
static void try_headers(void (*call)(void))
{
    for (uint32_t type = 0; type < 16; type++)
        for (uint32_t flags = 0; flags < 3; flags++) {
            put_record(0, type, 600);
            set_flags(flags);
            length = 600;
            decode();
            for (room = 0; room <= 600; room += 300)
                try(call);
            length = 5;
            try(call);
            rules_len = 1;
            try(call);
        }
}

static void put_cper(void)
{
    static const size_t bodies[4] = {0, 5, 40, 20000};
    size_t at = 128 + 72 * 4;
    put_bytes(0, (const uint8_t *)"CPER", 4);
    put32(6, 0xffffffff);
    put16(10, 4);
    put32(16, 7);
    for (size_t i = 0; i < 4; i++) {
        put32(128 + 72 * i, at);
        put32(128 + 72 * i + 4, bodies[i]);
        put16(128 + 72 * i + 10, i);
        at += bodies[i];
    }
    length = at;
}

static void try_cper(void (*call)(void))
{
    put_cper();
    for (number = 0; number < 5; number++)
        for (room = 0; room <= 24; room += 3)
            try(call);
    length = 100;
    try(call);
    length = CRASHLOG_MOST_BYTES + 1;
    try(call);
}

int main(void)
{
    try_lists(list);
    tell("list");
    try_lists(list_flat);
    unsigned flat = tell("list_flat");
    region_at = CRASH_LOG_AT + 32;
    try_lists(list_cper);
    tell("list_cper");
    try_receivers();
    try_headers(decode);
    tell("decode");
    try_headers(encode);
    tell("encode");
    try_cper(sections);
    tell("sections");
    try_cper(section);
    tell("section");
    try_cper(normalise);
    tell("normalise");
    for (number = 0; number < 64; number++)
        for (room = 0; room <= 16; room += 8)
            try(name);
    tell("name");
    for (room = 0; room <= sizeof rules / sizeof rules[0]; room += 64)
        try(intel_rules);
    tell("intel_rules");
    if (flat < TOO_MUCH_FOR_FLAT)
        return 0;
    fprintf(stderr, "stack: list_flat uses %u bytes, and must use fewer than %d\n", flat, TOO_MUCH_FOR_FLAT);
    return 1;
}
