/* The receiver of a region that comes in pieces. */
#include "frame.h"

#define KEPT 536             /* bytes; no header is longer */
#define MOST_DECLARED 524280 /* bytes of a record */

enum { SHUT, IN_USE };

/* What stands where the walk waits: DONE for a record, BAD_HEADER, BAD_TYPE, or ENDED. A record may yet lack bytes. */
struct head {
    uint32_t answer, word, flags;
    struct frame frame;
};

static size_t at_most(size_t a, size_t limit)
{
    return a < limit ? a : limit;
}

/* The flags of a version word, from the copy of the rules by columns. */
static uint32_t flags_in(const crashlog_receiver *receiver, uint32_t word)
{
    const uint32_t *masks = receiver->rules, *wanted = masks + CRASHLOG_MOST_RULES, *given = wanted + CRASHLOG_MOST_RULES;
    uint32_t flags = 0;
    for (size_t row = 0; row < 8 * receiver->rule_blocks; row++)
        flags |= (word & masks[row]) == wanted[row] ? given[row] : 0;
    return flags;
}

/* Judges the header at the start of `len` bytes, of which the first KEPT are there. The flags of the word that `head` has are
 * remembered. */
static void judge_at(const crashlog_receiver *receiver, const uint8_t *bytes, size_t len, struct head *head)
{
    uint32_t word = word_of(bytes, len);
    if (word == 0) {
        head->answer = CRASHLOG_ENDED;
        return;
    }
    if (word != head->word) {
        head->word = word;
        head->flags = flags_in(receiver, word);
    }
    head->answer = judge(bytes, len, word, head->flags, &head->frame);
}

/* Whether a record stands there, and all of it is in `len` bytes. */
static bool all_in(const struct head *head, size_t len)
{
    return head->answer == CRASHLOG_DONE && head->frame.declared > 0 && head->frame.declared <= len;
}

/* Whether its numbers are such as a call leaves. */
static bool in_bounds(const crashlog_receiver *receiver)
{
    return receiver->stage == IN_USE && receiver->whole <= 1 && receiver->rule_blocks <= CRASHLOG_MOST_RULES / 8 &&
           receiver->taken <= CRASHLOG_MOST_BYTES && receiver->offset <= receiver->taken &&
           receiver->rows <= receiver->offset && receiver->offset <= receiver->rows * MOST_DECLARED &&
           (receiver->rows > 0 || receiver->whole == 1);
}

/* Whether its rules are valid. */
static bool flags_small(const crashlog_receiver *receiver)
{
    const uint32_t *given = receiver->rules + 2 * CRASHLOG_MOST_RULES;
    bool small = true;
    for (size_t row = 0; row < 8 * receiver->rule_blocks; row++)
        small &= given[row] <= 15;
    return small;
}

/* Judges the header that is waited for. Whether the receiver is one that a call left: in it no record is all in. */
static bool usable(const crashlog_receiver *receiver, struct head *head)
{
    *head = (struct head){0};
    if (!in_bounds(receiver) || !flags_small(receiver))
        return false;
    size_t held = receiver->taken - receiver->offset;
    judge_at(receiver, receiver->kept, held, head);
    return !all_in(head, held);
}

/* A Box that holds less than its header. */
static bool box_cut(const struct head *head)
{
    return is_box(head->word, head->flags) && head->frame.declared < head->frame.size;
}

uint32_t plain_receiver_start(crashlog_receiver *receiver, const uint32_t *rules, uint64_t rules_len)
{
    if (!rules_valid(rules, rules_len))
        return CRASHLOG_BAD_RULES;
    size_t rows = rules_len / CRASHLOG_RULE_WORDS;
    *receiver = (crashlog_receiver){.rule_blocks = (rows + 7) / 8, .whole = 1, .stage = IN_USE};
    for (size_t row = 0; row < rows; row++)
        for (size_t column = 0; column < CRASHLOG_RULE_WORDS; column++)
            receiver->rules[column * CRASHLOG_MOST_RULES + row] = rules[row * CRASHLOG_RULE_WORDS + column];
    return CRASHLOG_DONE;
}

/* Keeps of a piece, after `held` bytes, what there is space for. */
static void keep(crashlog_receiver *receiver, size_t held, const uint8_t *piece, size_t piece_len)
{
    if (held < KEPT)
        memcpy(receiver->kept + held, piece, at_most(piece_len, KEPT - held));
}

/* Walks what is held and the piece after it, and keeps what is left over. Gives the number of rows. A record that starts in
 * what is held is read from both joined; one that is longer than what is kept has its header there, and the next one starts in
 * the piece. */
static uint64_t walk_on(crashlog_receiver *receiver, const uint8_t *piece, size_t piece_len, struct head *head, uint32_t *spans)
{
    uint8_t joined[KEPT + CRASHLOG_MOST_PIECE];
    size_t held = receiver->taken - receiver->offset, len = held + piece_len, at = 0, rows = 0;
    const uint8_t *record = piece;

    if (held > 0) {
        memcpy(joined, receiver->kept, at_most(held, KEPT));
        memcpy(joined + at_most(held, KEPT), piece, piece_len);
        record = joined;
    }
    for (judge_at(receiver, record, len, head); all_in(head, len - at); judge_at(receiver, record, len - at, head)) {
        put_span(spans + rows++ * CRASHLOG_SPAN_WORDS, 0, CRASHLOG_NO_PARENT, (uint32_t)(receiver->offset + at),
                 head->frame.declared, head->frame, head->word, head->flags);
        if (box_cut(head))
            receiver->whole = 0;
        at += head->frame.declared;
        record = at < held ? joined + at : piece + (at - held);
    }
    receiver->offset += at;
    receiver->rows += rows;
    memcpy(receiver->kept, record, at_most(len - at, KEPT));
    return rows;
}

uint32_t plain_receiver_feed(crashlog_receiver *receiver, const uint8_t *piece, uint64_t piece_len,
                             uint32_t *spans, uint64_t spans_len, uint64_t *rows)
{
    struct head head;
    *rows = 0;
    if (!usable(receiver, &head))
        return CRASHLOG_NOT_RECEIVING;
    if (piece_len > CRASHLOG_MOST_PIECE || spans_len / CRASHLOG_SPAN_WORDS < CRASHLOG_LEAST_ROOM)
        return CRASHLOG_BAD_PIECE;
    if (receiver->taken + piece_len > CRASHLOG_MOST_BYTES) {
        receiver->stage = SHUT;
        return CRASHLOG_TOO_LONG;
    }
    size_t held = receiver->taken - receiver->offset;
    bool judged = head.answer == CRASHLOG_DONE || held >= KEPT; /* whatever follows */
    if (piece_len == 0)
        return CRASHLOG_DONE;
    if (judged && !all_in(&head, held + piece_len))
        keep(receiver, held, piece, piece_len);
    else
        *rows = walk_on(receiver, piece, piece_len, &head, spans);
    receiver->taken += piece_len;
    return CRASHLOG_DONE;
}

/* Why the walk stops where no more bytes come. */
static uint32_t stop_of(const crashlog_receiver *receiver, size_t held, const struct head *head)
{
    if (held == 0)
        return CRASHLOG_STOP_END_OF_INPUT;
    if (head->answer == CRASHLOG_ENDED)
        return ending_of(receiver->kept, held);
    if (head->answer != CRASHLOG_DONE)
        return CRASHLOG_STOP_BAD_HEADER;
    return head->frame.declared == 0 ? CRASHLOG_STOP_SIZE_ZERO : CRASHLOG_STOP_END_OF_INPUT;
}

uint32_t plain_receiver_finish(crashlog_receiver *receiver, uint32_t *spans, uint64_t spans_len, crashlog_listing *told)
{
    struct head head;
    *told = (crashlog_listing){0};
    if (!usable(receiver, &head))
        return CRASHLOG_NOT_RECEIVING;
    if (spans_len / CRASHLOG_SPAN_WORDS < CRASHLOG_LEAST_ROOM)
        return CRASHLOG_BAD_PIECE;
    receiver->stage = SHUT;
    size_t held = receiver->taken - receiver->offset;
    uint32_t stop = stop_of(receiver, held, &head);
    bool cut = held > 0 && stop == CRASHLOG_STOP_END_OF_INPUT; /* a record that lacks bytes */
    if (cut)
        put_span(spans, 0, CRASHLOG_NO_PARENT, (uint32_t)receiver->offset, (uint32_t)held, head.frame, head.word, head.flags);
    told->rows = cut;
    told->tries = receiver->rows + (held > 0);
    told->stop = stop;
    if (cut || receiver->rows > 0) {
        told->whole = !cut && receiver->whole && clean(stop);
        return CRASHLOG_DONE;
    }
    if (stop != CRASHLOG_STOP_BAD_HEADER)
        return CRASHLOG_EMPTY_REGION;
    if (head.answer == CRASHLOG_BAD_TYPE)
        told->bad_type = header_type(head.word);
    return head.answer;
}
