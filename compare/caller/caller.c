/*
 * caller.c: makes calls of the library for the harness, which may run on another processor than the library's.
 *
 * Standard input has batches: their size in bytes (4 bytes), then requests. A request is the number of the call (4 bytes) and a
 * case as the replay's data has it (src/replay.rs). For each the answer is 64 bytes and what the request says is written:
 *
 *     0   6 x u64  what the call tells: its answer, then the numbers of its struct in order, then zeros
 *     48  i64      the first byte of the lent buffer, or of the guard space around it, that was changed though it is none of
 *                  those written; no such byte: the lowest number
 *     56  u64      a sum: 1 if the input, the rules or the identifier were changed; 2 if a number beside the struct was; of a
 *                  reception, 4 if a call that is to be refused was not, or was and changed or told something, and 8 if the
 *                  rows told are more or fewer than the request says
 *
 * A listing has two such answers, each with what is written after it: of crashlog_list, then of crashlog_list_flat on the same.
 *
 * Input, pieces of it, rules and identifier end where memory ends, so that a read past them is a fault. All numbers are
 * little-endian.
 */
#include <string.h>
#include <sys/mman.h>
#include <unistd.h>

#include "crashlog.h"

enum { HEADERS, ENCODES, LISTINGS, TEXTS, TABLES, SECTIONS, NORMAL_FORMS, NAMES, INTEL_RULES, RECEPTIONS, CPER_LISTINGS };
enum { PAGE = 65536, GUARD = 64, FIXED = 80, FIELD_BYTES = 564, ID_BYTES = 16, MEGABYTE = 1 << 20, MOST_TOLD = 5 };

static uint8_t batch[32 * MEGABYTE], answers[96 * MEGABYTE];
static _Alignas(64) uint8_t area[64 * MEGABYTE];
static _Alignas(PAGE) uint8_t inputs[2 * MEGABYTE + PAGE], tables[PAGE + PAGE], pieces[PAGE + PAGE], ids[PAGE + PAGE];

typedef uint32_t list_function(const uint8_t *, uint64_t, const uint32_t *, uint64_t, uint64_t, uint32_t *, uint64_t,
                               crashlog_listing *);

/* A request taken apart, and which function makes its listing. */
struct request {
    uint32_t call, size, rules, room, length, stored, written;
    uint64_t number;
    const uint8_t *rule_bytes, *id, *input; /* as the request has them; an identifier where a CPER is listed */
    list_function *list;
};

static uint32_t number4(const uint8_t *at) { return at[0] | at[1] << 8 | at[2] << 16 | (uint32_t)at[3] << 24; }
static uint64_t number8(const uint8_t *at) { return number4(at) | (uint64_t)number4(at + 4) << 32; }

static uint8_t *put8(uint8_t *to, uint64_t number)
{
    for (int byte = 0; byte < 8; byte++)
        *to++ = (uint8_t)(number >> (8 * byte));
    return to;
}

/* Reads it all, or says that the input has ended. */
static int take(uint8_t *to, size_t count)
{
    while (count > 0) {
        long got = read(0, to, count);
        if (got <= 0)
            return 0;
        to += got;
        count -= (size_t)got;
    }
    return 1;
}

static void give(const uint8_t *from, size_t count)
{
    while (count > 0) {
        long put = write(1, from, count);
        if (put <= 0)
            _exit(2);
        from += put;
        count -= (size_t)put;
    }
}

static struct request request_at(const uint8_t *at)
{
    const uint8_t *body = at + 8, *rules = body + FIXED, *id = rules + 4 * number4(body + 4);
    const uint8_t *input = number4(at) == CPER_LISTINGS ? id + ID_BYTES : id;
    return (struct request){ number4(at), number4(at + 4), number4(body + 4), number4(body + 16), number4(body + 20),
                             number4(body + 24), number4(body + 28), number8(body + 8), rules, id, input, crashlog_list };
}

/* What lent buffers hold before a call, from some place on: these bytes again and again. No two neighbours are equal, and none
 * is 0. */
static uint8_t pattern[256];

static void set_pattern(void)
{
    for (size_t at = 0; at < sizeof pattern; at++)
        pattern[at] = (uint8_t)(at * 61 + 0x5a) | 1;
}

/* From one place up to another, or to where the pattern starts anew. */
static size_t block_of(size_t at, size_t upto)
{
    size_t block = sizeof pattern - at % sizeof pattern;
    return block < upto - at ? block : upto - at;
}

static void fill(uint8_t *bytes, size_t from, size_t upto)
{
    for (size_t at = from; at < upto; at += block_of(at, upto))
        memcpy(bytes + at, pattern + at % sizeof pattern, block_of(at, upto));
}

/* The first byte from one place up to another that is not the pattern's, or else the other place. */
static size_t first_changed(const uint8_t *bytes, size_t from, size_t upto)
{
    size_t at = from;
    while (at < upto && memcmp(bytes + at, pattern + at % sizeof pattern, block_of(at, upto)) == 0)
        at += block_of(at, upto);
    while (at < upto && bytes[at] == pattern[at % sizeof pattern])
        at++;
    return at;
}

static size_t lent_bytes(const struct request *asked)
{
    switch (asked->call) {
    case HEADERS: return sizeof(crashlog_header);
    case LISTINGS:
    case TABLES:
    case RECEPTIONS:
    case CPER_LISTINGS:
    case INTEL_RULES: return 4 * (size_t)asked->room;
    default: return asked->room;
    }
}

/* How many bytes of the buffer are written, as the request says; a header is written with the bytes at its end that hold no
 * field. The rows of a reception are taken out of the table, call by call. */
static size_t written_bytes(const struct request *asked)
{
    switch (asked->call) {
    case HEADERS: return asked->written > 0 ? sizeof(crashlog_header) : 0;
    case RECEPTIONS: return 0;
    default: return asked->written;
    }
}

/* The input, the rules and the identifier of a request, each ending where memory ends. */
static uint8_t *input_of(const struct request *asked) { return inputs + 2 * MEGABYTE - asked->length; }
static uint32_t *rules_of(const struct request *asked) { return (uint32_t *)(tables + PAGE) - asked->rules; }
static uint8_t *id_of(const struct request *asked) { return ids + PAGE - (asked->input - asked->id); }

static void set_input(const struct request *asked)
{
    for (uint32_t at = 0; at < asked->length; at++)
        input_of(asked)[at] = asked->input[at % asked->stored];
    memcpy(rules_of(asked), asked->rule_bytes, 4 * asked->rules);
    memcpy(id_of(asked), asked->id, (size_t)(asked->input - asked->id));
}

static int input_changed(const struct request *asked)
{
    for (uint32_t at = 0; at < asked->length; at++)
        if (input_of(asked)[at] != asked->input[at % asked->stored])
            return 1;
    return memcmp(rules_of(asked), asked->rule_bytes, 4 * asked->rules) != 0 ||
           memcmp(id_of(asked), asked->id, (size_t)(asked->input - asked->id)) != 0;
}

/* How many numbers a call tells besides its answer. */
static const int told_by[] = { [HEADERS] = 5, [ENCODES] = 1, [LISTINGS] = 5, [TABLES] = 1, [SECTIONS] = 2, [NORMAL_FORMS] = 1,
                               [NAMES] = 0, [INTEL_RULES] = 0, [RECEPTIONS] = 5, [CPER_LISTINGS] = 5 };

/* The struct of a call, with a number before it and at least one after it. */
static uint64_t numbers[1 + MOST_TOLD + 1];

static const uint64_t untold = 0x5ad35ad35ad35ad3;

static int beside_changed(const struct request *asked)
{
    for (int at = 0; at < 1 + MOST_TOLD + 1; at++)
        if ((at < 1 || at > told_by[asked->call]) && numbers[at] != untold)
            return 1;
    return 0;
}

/* A receiver, with guard space around it. */
static struct {
    uint8_t before[GUARD];
    crashlog_receiver receiver;
    uint8_t after[GUARD];
} place;

/* The rows that a reception tells, each after the bytes taken by then. */
static uint8_t received[48 * MEGABYTE];
static size_t received_bytes;
static int wrongly_refused;

enum { ROW_BYTES = 4 * CRASHLOG_SPAN_WORDS };

/* Takes the rows that a call told out of the table, and makes it as it was. */
static void take_rows(const struct request *asked, uint64_t rows, uint32_t taken)
{
    if (rows > asked->room / CRASHLOG_SPAN_WORDS || received_bytes + rows * (4 + ROW_BYTES) > sizeof received) {
        wrongly_refused = 1;
        return;
    }
    for (uint64_t row = 0; row < rows; row++) {
        memcpy(received + received_bytes, &taken, 4);
        memcpy(received + received_bytes + 4, area + GUARD + row * ROW_BYTES, ROW_BYTES);
        received_bytes += 4 + ROW_BYTES;
    }
    fill(area, GUARD, GUARD + rows * ROW_BYTES);
}

/* Whether the receiver is as it was. */
static int same(const crashlog_receiver *before) { return memcmp(&place.receiver, before, sizeof *before) == 0; }

/* A finish. Where it is refused, nothing changes and nothing is told. */
static uint32_t finish(const struct request *asked, crashlog_listing *told)
{
    static const crashlog_listing nothing;
    crashlog_receiver before = place.receiver;
    uint32_t answer = crashlog_receiver_finish(&place.receiver, (uint32_t *)(area + GUARD), asked->room, told);
    if (answer == CRASHLOG_BAD_PIECE || answer == CRASHLOG_NOT_RECEIVING)
        wrongly_refused |= !same(&before) || memcmp(told, &nothing, sizeof nothing) != 0;
    return answer;
}

/* Feeds a piece of the input. Where it is refused, nothing changes and nothing is told, but that the receiver may be shut. */
static uint32_t feed(const struct request *asked, uint32_t at, uint32_t length)
{
    crashlog_receiver before = place.receiver;
    uint64_t rows = untold;
    uint8_t *piece = memcpy(pieces + PAGE - length, input_of(asked) + at, length);
    uint32_t answer = crashlog_receiver_feed(&place.receiver, piece, length, (uint32_t *)(area + GUARD), asked->room, &rows);
    if (answer == CRASHLOG_DONE) {
        take_rows(asked, rows, at + length);
    } else {
        if (answer == CRASHLOG_TOO_LONG)
            before.stage = place.receiver.stage;
        wrongly_refused |= rows != 0 || !same(&before);
    }
    wrongly_refused |= memcmp(piece, input_of(asked) + at, length) != 0;
    return answer;
}

/* Whether a start in the midst of a region leaves what a first start left. */
static int starts_anew(const struct request *asked)
{
    const uint8_t piece[] = {1, 0, 0, 0, 1, 0, 0, 0, 1, 0};
    crashlog_receiver first = place.receiver;
    uint64_t rows;
    if (asked->room / CRASHLOG_SPAN_WORDS >= CRASHLOG_LEAST_ROOM) {
        crashlog_receiver_feed(&place.receiver, piece, sizeof piece, (uint32_t *)(area + GUARD), asked->room, &rows);
        fill(area, GUARD, GUARD + ROW_BYTES);
    }
    return crashlog_receiver_start(&place.receiver, rules_of(asked), asked->rules) == CRASHLOG_DONE && same(&first);
}

/* Makes the calls of a reception: src/replay.rs says which. Then no call is taken any more. */
static uint64_t receive(const struct request *asked, crashlog_listing *told)
{
    uint8_t *bytes = (uint8_t *)&place;
    const size_t after = GUARD + sizeof place.receiver;
    fill(bytes, 0, sizeof place);
    received_bytes = 0;
    wrongly_refused = 0;
    crashlog_receiver before = place.receiver;
    uint32_t refused = crashlog_receiver_start(&place.receiver, rules_of(asked), asked->rules), at = 0;
    if (refused != CRASHLOG_DONE)
        wrongly_refused |= !same(&before);
    else
        wrongly_refused |= !starts_anew(asked);
    for (int turn = 0; refused == CRASHLOG_DONE && at < asked->length; turn = (turn + 1) % 8) {
        uint32_t length = (uint8_t)(asked->number >> 8 * turn), left = asked->length - at;
        length = length < left ? length : left;
        uint32_t answer = feed(asked, at, length);
        if (answer == CRASHLOG_DONE)
            at += length;
        if (length > CRASHLOG_MOST_PIECE)
            wrongly_refused |= answer != CRASHLOG_BAD_PIECE;
        else
            refused = answer;
    }
    uint32_t answer = finish(asked, told);
    crashlog_listing again;
    take_rows(asked, told->rows, at);
    if (answer != CRASHLOG_BAD_PIECE)
        wrongly_refused |= feed(asked, 0, 0) != CRASHLOG_NOT_RECEIVING || finish(asked, &again) != CRASHLOG_NOT_RECEIVING;
    wrongly_refused |= first_changed(bytes, 0, GUARD) < GUARD || first_changed(bytes, after, sizeof place) < sizeof place;
    return answer + 256 * (uint64_t)refused;
}

/* Makes the call of a request. */
static uint64_t call(const struct request *asked, void *told)
{
    const uint8_t *input = input_of(asked);
    const uint32_t *rules = rules_of(asked);
    uint8_t *lent = area + GUARD;
    uint32_t *table = (uint32_t *)lent;
    switch (asked->call) {
    case HEADERS:
        return crashlog_decode(input, asked->length, rules, asked->rules, (crashlog_header *)lent, told);
    case ENCODES: {
        crashlog_header header = { 0 };
        memcpy(&header, input, FIELD_BYTES);
        return crashlog_encode(&header, rules, asked->rules, lent, asked->room, told);
    }
    case LISTINGS:
        return asked->list(input, asked->length, rules, asked->rules, asked->number, table, asked->room, told);
    case TABLES: return crashlog_sections(input, asked->length, table, asked->room, told);
    case SECTIONS: return crashlog_section(input, asked->length, (uint32_t)asked->number, told);
    case NORMAL_FORMS: return crashlog_normalise(input, asked->length, lent, asked->room, told);
    case NAMES: return crashlog_name((uint32_t)asked->number, lent, asked->room);
    case INTEL_RULES: return crashlog_intel_rules(table, asked->room);
    case RECEPTIONS: return receive(asked, told);
    case CPER_LISTINGS:
        return crashlog_list_cper(input, asked->length, id_of(asked), rules, asked->rules, asked->number, table, asked->room,
                                  told);
    default: _exit(3);
    }
}

/* Makes the call of a request; what came of it is put there. */
static uint8_t *answer(const struct request *asked, uint8_t *to)
{
    size_t all = GUARD + lent_bytes(asked) + GUARD, most = asked->call == RECEPTIONS ? sizeof received : all;
    if (all > sizeof area || asked->written > most || asked->length > 2 * MEGABYTE || 4 * asked->rules > PAGE)
        _exit(4);
    set_input(asked);
    fill(area, 0, all);
    for (int at = 0; at < 1 + MOST_TOLD + 1; at++)
        numbers[at] = untold;
    to = put8(to, call(asked, numbers + 1));
    size_t changed = first_changed(area, 0, GUARD);
    if (changed == GUARD)
        changed = first_changed(area, GUARD + written_bytes(asked), all);
    for (int field = 0; field < MOST_TOLD; field++)
        to = put8(to, field < told_by[asked->call] ? numbers[1 + field] : 0);
    to = put8(to, (uint64_t)(changed < all ? (int64_t)changed - GUARD : INT64_MIN));
    int wrong = input_changed(asked) + 2 * beside_changed(asked);
    if (asked->call == RECEPTIONS)
        wrong += 4 * wrongly_refused + 8 * (received_bytes != asked->written);
    to = put8(to, (uint64_t)wrong);
    memcpy(to, asked->call == RECEPTIONS ? received : area + GUARD, asked->written);
    return to + asked->written;
}

int main(void)
{
    uint8_t size[4];
    set_pattern();
    if (mprotect(inputs + 2 * MEGABYTE, PAGE, PROT_NONE) != 0 || mprotect(tables + PAGE, PAGE, PROT_NONE) != 0 ||
        mprotect(pieces + PAGE, PAGE, PROT_NONE) != 0 || mprotect(ids + PAGE, PAGE, PROT_NONE) != 0)
        return 1;
    while (take(size, sizeof size) && number4(size) <= sizeof batch && take(batch, number4(size))) {
        uint8_t *to = answers;
        for (const uint8_t *at = batch; at < batch + number4(size);) {
            struct request asked = request_at(at);
            to = answer(&asked, to);
            if (asked.call == LISTINGS) {
                asked.list = crashlog_list_flat;
                to = answer(&asked, to);
            }
            at += 8 + asked.size;
        }
        give(answers, (size_t)(to - answers));
    }
    return 0;
}
