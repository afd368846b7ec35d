/* A crashlog_header, written as a record header. */
#include "frame.h"

static uint32_t version_word(const crashlog_header *header)
{
    return header->revision | (uint32_t)header->header_type << 8 | header->product_id << 12 |
           (uint32_t)header->record_type << 24 | (uint32_t)header->cldic << 30 | (uint32_t)header->consumed << 31;
}

static uint32_t status_word(const crashlog_header *header)
{
    return header->completion_status | (uint32_t)header->collection_complete << 31;
}

static bool version_fits(const crashlog_header *header)
{
    return header->revision < 256 && header->header_type < 16 && header->product_id < 4096 &&
           header->record_type < 64 && header->cldic <= 1 && header->consumed <= 1;
}

static bool status_fits(const crashlog_header *header)
{
    return header->completion_status >> 31 == 0 && header->collection_complete <= 1;
}

static bool fields_fit(const crashlog_header *header)
{
    switch (header->layout) {
    case 3:
    case 5:
        return status_fits(header);
    case 6:
        return header->completion_status_size <= CRASHLOG_MOST_STATUSES && header->collection_complete <= 1;
    case CRASHLOG_LAYOUT_LEGACY_SERVER:
        return status_fits(header) && header->extended_record_size == 0 &&
               header->die_id == server_die(header->revision);
    case CRASHLOG_LAYOUT_LEGACY_GPU:
        return status_fits(header) && header->extended_record_size == 0;
    default:
        return true;
    }
}

static bool layout_chosen(const crashlog_header *header, uint32_t flags)
{
    if (flags & CRASHLOG_LEGACY_SERVER)
        return header->layout == CRASHLOG_LAYOUT_LEGACY_SERVER;
    if (flags & CRASHLOG_LEGACY_GPU)
        return header->layout == CRASHLOG_LAYOUT_LEGACY_GPU;
    return header->layout == header->header_type && header->layout <= 6;
}

static size_t size_of(const crashlog_header *header)
{
    static const uint8_t sizes[9] = {8, 8, 24, 28, 32, 32, 28, 32, 32};
    size_t size = sizes[header->layout];
    return header->layout == 6 ? size + 4 * (size_t)header->completion_status_size : size;
}

static void put_legacy(uint8_t *out, const crashlog_header *header, uint8_t socket)
{
    put_u32(out + 4, header->reason);
    put_u64(out + 8, header->timestamp);
    put_u32(out + 16, header->record_size);
    put_u32(out + 20, header->agent_version);
    put_u32(out + 24, socket);
    put_u32(out + 28, status_word(header));
}

static void put_type6(uint8_t *out, const crashlog_header *header)
{
    out[24] = header->die_id;
    out[25] = header->socket_id;
    put_u16(out + 26, (uint16_t)(header->completion_status_size | header->collection_complete << 15));
    memcpy(out + 28, header->completion_statuses, 4 * (size_t)header->completion_status_size);
}

static void put_header(uint8_t *out, const crashlog_header *header, uint32_t word)
{
    put_u32(out, word);
    if (header->layout > 6) {
        put_legacy(out, header, header->layout == CRASHLOG_LAYOUT_LEGACY_SERVER ? header->socket_id : 0);
        return;
    }
    put_u16(out + 4, header->record_size);
    put_u16(out + 6, header->extended_record_size);
    if (header->layout < 2)
        return;
    put_u64(out + 8, header->timestamp);
    put_u32(out + 16, header->agent_version);
    put_u32(out + 20, header->reason);
    switch (header->layout) {
    case 3:
        put_u32(out + 24, status_word(header));
        break;
    case 4:
        put_u32(out + 24, header->whoami);
        put_u32(out + 28, header->misc);
        break;
    case 5:
        put_u32(out + 24, status_word(header));
        put_u32(out + 28, header->error_status);
        break;
    case 6:
        put_type6(out, header);
        break;
    }
}

uint32_t plain_encode(const crashlog_header *header, const uint32_t *rules, uint64_t rules_len,
                      uint8_t *out, uint64_t out_len, uint64_t *length)
{
    *length = 0;
    if (!rules_valid(rules, rules_len))
        return CRASHLOG_BAD_RULES;
    if (!version_fits(header))
        return CRASHLOG_BAD_FIELD;
    uint32_t word = version_word(header);
    if (word == 0 || word == END_MARK)
        return CRASHLOG_BAD_FIELD;
    if (!layout_chosen(header, flags_of(rules, rules_len, word)) || !fields_fit(header))
        return CRASHLOG_BAD_FIELD;
    size_t size = size_of(header);
    if (out_len < size)
        return CRASHLOG_OUTPUT_SHORT;
    put_header(out, header, word);
    *length = size;
    return CRASHLOG_DONE;
}
