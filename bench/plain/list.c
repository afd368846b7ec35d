/* The listing of a region. */
#include "walk.h"

/* What is bad in the first header. */
static uint32_t first_answer(const uint8_t *region, size_t len, const uint32_t *rules, size_t rules_len)
{
    struct frame frame;
    uint32_t word = u32_at(region);
    return judge(region, len, word, flags_of(rules, rules_len, word), &frame);
}

uint32_t plain_list(const uint8_t *region, uint64_t region_len, const uint32_t *rules, uint64_t rules_len, uint64_t limit,
                    uint32_t *spans, uint64_t spans_len, crashlog_listing *told)
{
    *told = (crashlog_listing){0};
    if (region_len > CRASHLOG_MOST_BYTES)
        return CRASHLOG_TOO_LONG;
    if (!rules_valid(rules, rules_len))
        return CRASHLOG_BAD_RULES;
    struct walk walk = walk_of(rules, rules_len, limit, spans, spans_len);
    uint32_t stop = walk_region(&walk, region, region_len, 0, 0, CRASHLOG_NO_PARENT);
    told->rows = walk.rows;
    told->tries = walk.tries;
    if (stop >= FULL)
        return answer_of_cut(stop);
    told->stop = stop;
    if (walk.rows > 0) {
        told->whole = walk.whole && clean(stop);
        return CRASHLOG_DONE;
    }
    if (stop != CRASHLOG_STOP_BAD_HEADER)
        return CRASHLOG_EMPTY_REGION;
    uint32_t answer = first_answer(region, region_len, rules, rules_len);
    if (answer == CRASHLOG_BAD_TYPE)
        told->bad_type = header_type(u32_at(region));
    return answer;
}
