/* The walk over a region and its Boxes. */
#ifndef WALK_H
#define WALK_H

#include "frame.h"

#define DEEPEST 4

/* What stops the whole walk, beside the CRASHLOG_STOP numbers, which stop one region. */
enum { FULL = CRASHLOG_STOP_SIZE_ZERO + 1, SPENT };

/* What the caller lends, and how far the walk has come. */
struct walk {
    const uint32_t *rules;
    size_t rules_len;
    uint64_t limit;
    uint64_t tries;
    uint32_t *spans;
    uint32_t room;
    uint32_t rows;
    bool whole;
};

/* Gives what stopped it. The flags of the last version word are remembered, as the library does it. */
static uint32_t walk_region(struct walk *walk, const uint8_t *bytes, size_t len, uint32_t base, uint32_t level,
                            uint32_t parent)
{
    uint32_t last = 0, flags = 0;
    struct frame frame;
    for (size_t at = 0; at < len; at += frame.declared) {
        if (walk->limit <= walk->tries)
            return SPENT;
        walk->tries++;
        const uint8_t *record = bytes + at;
        size_t left = len - at;
        uint32_t word = word_of(record, left);
        if (word == 0)
            return ending_of(record, left);
        if (word != last) {
            last = word;
            flags = flags_of(walk->rules, walk->rules_len, word);
        }
        if (judge(record, left, word, flags, &frame) != CRASHLOG_DONE)
            return CRASHLOG_STOP_BAD_HEADER;
        if (frame.declared == 0)
            return CRASHLOG_STOP_SIZE_ZERO;
        if (walk->room <= walk->rows)
            return FULL;
        uint32_t held = frame.declared < left ? frame.declared : (uint32_t)left;
        uint32_t offset = base + (uint32_t)at, row = walk->rows++;
        put_span(walk->spans + (size_t)row * CRASHLOG_SPAN_WORDS, level, parent, offset, held, frame, word, flags);
        if (held < frame.declared)
            walk->whole = false;
        if (is_box(word, flags) && level < DEEPEST) {
            if (frame.size < held) {
                uint32_t stop =
                    walk_region(walk, record + frame.size, held - frame.size, offset + frame.size, level + 1, row);
                if (stop >= FULL)
                    return stop;
                if (!clean(stop))
                    walk->whole = false;
            } else if (held < frame.size) {
                walk->whole = false;
            }
        }
    }
    return CRASHLOG_STOP_END_OF_INPUT;
}

/* A walk that has not begun. */
static inline struct walk walk_of(const uint32_t *rules, size_t rules_len, uint64_t limit, uint32_t *spans, uint64_t spans_len)
{
    uint64_t room = spans_len / CRASHLOG_SPAN_WORDS;
    return (struct walk){
        .rules = rules,
        .rules_len = rules_len,
        .limit = limit,
        .spans = spans,
        .room = room < CRASHLOG_NO_PARENT ? (uint32_t)room : CRASHLOG_NO_PARENT - 1,
        .whole = true,
    };
}

static inline uint32_t answer_of_cut(uint32_t stop)
{
    return stop == FULL ? CRASHLOG_SPANS_FULL : CRASHLOG_TRIES_SPENT;
}

#endif
