/* The listing of all regions of a CPER. */
#include "cper.h"
#include "walk.h"

#define SECTION_HEADER_SIZE 32

static const uint8_t firmware_error_record[16] = {0x96, 0x2a, 0x21, 0x81, 0xed, 0x09, 0x96, 0x49,
                                                  0x94, 0x71, 0x8d, 0x72, 0x9c, 0x8e, 0x69, 0xed};

uint32_t plain_list_cper(const uint8_t *cper, uint64_t cper_len, const uint8_t *record_id, const uint32_t *rules,
                         uint64_t rules_len, uint64_t limit, uint32_t *spans, uint64_t spans_len, crashlog_listing *told)
{
    *told = (crashlog_listing){0};
    if (cper_len > CRASHLOG_MOST_BYTES)
        return CRASHLOG_TOO_LONG;
    if (!rules_valid(rules, rules_len))
        return CRASHLOG_BAD_RULES;
    if (!is_cper(cper, cper_len))
        return CRASHLOG_NOT_CPER;
    struct walk walk = walk_of(rules, rules_len, limit, spans, spans_len);
    uint32_t stop = CRASHLOG_STOP_END_OF_INPUT;
    for (size_t index = 0, count = u16_at(cper + 10); index < count && stop < FULL; index++) {
        const uint8_t *descriptor = kept_descriptor(cper, cper_len, index);
        if (!descriptor || memcmp(descriptor + 16, firmware_error_record, 16) != 0)
            continue;
        uint32_t offset = u32_at(descriptor), length = u32_at(descriptor + 4), region = offset + SECTION_HEADER_SIZE;
        if (length < SECTION_HEADER_SIZE || memcmp(cper + offset + 16, record_id, 16) != 0)
            continue;
        stop = walk_region(&walk, cper + region, length - SECTION_HEADER_SIZE, region, 0, CRASHLOG_NO_PARENT);
        walk.whole &= clean(stop);
    }
    told->rows = walk.rows;
    told->tries = walk.tries;
    if (stop >= FULL)
        return answer_of_cut(stop);
    if (walk.rows == 0)
        return CRASHLOG_EMPTY_REGION;
    told->whole = walk.whole;
    return CRASHLOG_DONE;
}
