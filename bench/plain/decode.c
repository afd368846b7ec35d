/* One record header, read into a crashlog_header. */
#include "frame.h"

static void take_status(crashlog_header *header, uint32_t word)
{
    header->completion_status = word & 0x7fffffff;
    header->collection_complete = (uint8_t)(word >> 31);
}

static void take_stamp(crashlog_header *header, const uint8_t *bytes)
{
    header->timestamp = u64_at(bytes + 8);
    header->agent_version = u32_at(bytes + 16);
    header->reason = u32_at(bytes + 20);
}

static void take_legacy(crashlog_header *header, const uint8_t *bytes)
{
    header->reason = u32_at(bytes + 4);
    header->timestamp = u64_at(bytes + 8);
    header->agent_version = u32_at(bytes + 20);
    take_status(header, u32_at(bytes + 28));
}

static void take_type6(crashlog_header *header, const uint8_t *bytes)
{
    uint16_t half = u16_at(bytes + 26);
    header->die_id = bytes[24];
    header->socket_id = bytes[25];
    header->completion_status_size = half & 127;
    header->collection_complete = (uint8_t)(half >> 15);
    memcpy(header->completion_statuses, bytes + 28, 4 * (size_t)header->completion_status_size);
}

/* The fields that only some layouts have. */
static void take_fields(crashlog_header *header, const uint8_t *bytes)
{
    switch (header->layout) {
    case 2:
        take_stamp(header, bytes);
        break;
    case 3:
        take_stamp(header, bytes);
        take_status(header, u32_at(bytes + 24));
        break;
    case 4:
        take_stamp(header, bytes);
        header->whoami = u32_at(bytes + 24);
        header->misc = u32_at(bytes + 28);
        break;
    case 5:
        take_stamp(header, bytes);
        take_status(header, u32_at(bytes + 24));
        header->error_status = u32_at(bytes + 28);
        break;
    case 6:
        take_stamp(header, bytes);
        take_type6(header, bytes);
        break;
    case CRASHLOG_LAYOUT_LEGACY_SERVER:
        take_legacy(header, bytes);
        header->die_id = server_die(bytes[0]);
        header->socket_id = bytes[24];
        break;
    case CRASHLOG_LAYOUT_LEGACY_GPU:
        take_legacy(header, bytes);
        break;
    }
}

static uint8_t layout_of(uint32_t word, uint32_t flags)
{
    if (flags & CRASHLOG_LEGACY_SERVER)
        return CRASHLOG_LAYOUT_LEGACY_SERVER;
    if (flags & CRASHLOG_LEGACY_GPU)
        return CRASHLOG_LAYOUT_LEGACY_GPU;
    return (uint8_t)header_type(word);
}

uint32_t plain_decode(const uint8_t *bytes, uint64_t bytes_len, const uint32_t *rules, uint64_t rules_len,
                      crashlog_header *header, crashlog_judged *told)
{
    *told = (crashlog_judged){0};
    if (!rules_valid(rules, rules_len))
        return CRASHLOG_BAD_RULES;
    uint32_t word = word_of(bytes, bytes_len);
    if (word == 0) {
        told->ending = ending_of(bytes, bytes_len);
        return CRASHLOG_ENDED;
    }
    struct frame frame;
    uint32_t flags = flags_of(rules, rules_len, word);
    uint32_t answer = judge(bytes, bytes_len, word, flags, &frame);
    if (answer == CRASHLOG_BAD_TYPE)
        told->bad_type = header_type(word);
    if (answer != CRASHLOG_DONE)
        return answer;
    memset(header, 0, sizeof *header);
    header->revision = word & 255;
    header->header_type = (uint16_t)header_type(word);
    header->product_id = word >> 12 & 4095;
    header->record_type = word >> 24 & 63;
    header->cldic = word >> 30 & 1;
    header->consumed = (uint8_t)(word >> 31);
    header->layout = layout_of(word, flags);
    header->record_size = u16_at(bytes + (flags & LEGACY ? 16 : 4));
    header->extended_record_size = flags & LEGACY ? 0 : u16_at(bytes + 6);
    take_fields(header, bytes);
    told->declared = frame.declared;
    told->header_size = frame.size;
    told->flags = flags;
    return CRASHLOG_DONE;
}
