/* What the walker, the receiver, the decoder and the encoder share: the rule table, what the start of a record tells, and its
 * row. */
#ifndef FRAME_H
#define FRAME_H

#include <stdbool.h>
#include "le.h"
#include "plain.h"

#define LEGACY (CRASHLOG_LEGACY_SERVER | CRASHLOG_LEGACY_GPU)
#define END_MARK 0xdeadbeefu
#define BOX 0x3d

struct frame {
    uint32_t size;     /* of the header */
    uint32_t declared; /* of the record */
    uint32_t socket;   /* 0 where the header has none */
    uint32_t die;      /* CRASHLOG_NO_DIE where the header has none */
};

static inline bool rules_valid(const uint32_t *rules, size_t rules_len)
{
    if (rules_len % CRASHLOG_RULE_WORDS != 0 || rules_len / CRASHLOG_RULE_WORDS > CRASHLOG_MOST_RULES)
        return false;
    for (size_t at = 0; at < rules_len; at += CRASHLOG_RULE_WORDS)
        if (rules[at + 2] > 15)
            return false;
    return true;
}

static inline uint32_t flags_of(const uint32_t *rules, size_t rules_len, uint32_t word)
{
    uint32_t flags = 0;
    for (size_t at = 0; at < rules_len; at += CRASHLOG_RULE_WORDS)
        if ((word & rules[at]) == rules[at + 1])
            flags |= rules[at + 2];
    return flags;
}

static inline uint32_t header_type(uint32_t word)
{
    return word >> 8 & 15;
}

static inline bool is_box(uint32_t word, uint32_t flags)
{
    return (word >> 24 & 63) == BOX || flags & CRASHLOG_LEGACY_SERVER_BOX;
}

static inline uint8_t server_die(uint32_t revision)
{
    uint8_t index = revision & 3;
    return revision & 0x80 ? index + 9 : index * 4;
}

/* The version word, or 0 where the records have ended. */
static inline uint32_t word_of(const uint8_t *bytes, size_t len)
{
    if (len < 4)
        return 0;
    uint32_t word = u32_at(bytes);
    return word == END_MARK ? 0 : word;
}

/* How the records have ended, where they have. */
static inline uint32_t ending_of(const uint8_t *bytes, size_t len)
{
    if (len < 4)
        return CRASHLOG_STOP_FEW_BYTES;
    return u32_at(bytes) == END_MARK ? CRASHLOG_STOP_DEADBEEF_WORD : CRASHLOG_STOP_ZERO_WORD;
}

/* Judges a header whose records have not ended: DONE, BAD_HEADER or BAD_TYPE. */
static inline uint32_t judge(const uint8_t *bytes, size_t len, uint32_t word, uint32_t flags, struct frame *frame)
{
    static const uint8_t sizes[16] = {8, 8, 24, 28, 32, 32, 28};
    unsigned shift = flags & CRASHLOG_SIZES_IN_BYTES ? 0 : 2;
    frame->socket = 0;
    frame->die = CRASHLOG_NO_DIE;
    if (flags & LEGACY) {
        if (len < 32)
            return CRASHLOG_BAD_HEADER;
        frame->size = 32;
        frame->declared = (uint32_t)u16_at(bytes + 16) << shift;
        if (flags & CRASHLOG_LEGACY_SERVER) {
            frame->socket = bytes[24];
            frame->die = server_die(word & 255);
        }
        return CRASHLOG_DONE;
    }
    if (len < 8)
        return CRASHLOG_BAD_HEADER;
    uint32_t size = sizes[header_type(word)];
    if (size == 0)
        return CRASHLOG_BAD_TYPE;
    if (header_type(word) == 6 && len >= 28) {
        frame->die = bytes[24];
        frame->socket = bytes[25];
        size += 4 * (u16_at(bytes + 26) & 127);
    }
    if (len < size)
        return CRASHLOG_BAD_HEADER;
    frame->size = size;
    frame->declared = ((uint32_t)u16_at(bytes + 4) + u16_at(bytes + 6)) << shift;
    return CRASHLOG_DONE;
}

static inline void put_span(uint32_t *span, uint32_t level, uint32_t parent, uint32_t offset, uint32_t held,
                            struct frame frame, uint32_t word, uint32_t flags)
{
    span[CRASHLOG_SPAN_LEVEL] = level;
    span[CRASHLOG_SPAN_PARENT] = parent;
    span[CRASHLOG_SPAN_OFFSET] = offset;
    span[CRASHLOG_SPAN_HELD] = held;
    span[CRASHLOG_SPAN_DECLARED] = frame.declared;
    span[CRASHLOG_SPAN_HEADER_SIZE] = frame.size;
    span[CRASHLOG_SPAN_VERSION] = word;
    span[CRASHLOG_SPAN_SOCKET] = frame.socket;
    span[CRASHLOG_SPAN_DIE] = frame.die;
    span[CRASHLOG_SPAN_FLAGS] = flags;
}

/* Whether a region of a whole listing may stop so: at its end, or at a word 0 or 0xdeadbeef. */
static inline bool clean(uint32_t stop)
{
    return stop <= CRASHLOG_STOP_DEADBEEF_WORD;
}

#endif
