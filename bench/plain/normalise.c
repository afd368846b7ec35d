/* A CPER's normal form. */
#include "cper.h"
#include "plain.h"

static uint32_t severity(uint32_t number)
{
    return number < 3 ? number : 3;
}

static void put_if(bool held, uint8_t *out, const uint8_t *field, size_t size)
{
    if (held)
        memcpy(out, field, size);
    else
        memset(out, 0, size);
}

static void put_header(uint8_t *out, const uint8_t *cper, uint16_t count, uint32_t length)
{
    uint32_t bits = u32_at(cper + 16) & 7;
    memcpy(out, "CPER", 4);
    memcpy(out + 4, cper + 4, 2);
    put_u32(out + 6, 0xffffffff);
    put_u16(out + 10, count);
    put_u32(out + 12, severity(u32_at(cper + 12)));
    put_u32(out + 16, bits);
    put_u32(out + 20, length);
    put_if(bits & 2, out + 24, cper + 24, 8);
    out[27] &= 1;
    put_if(bits & 1, out + 32, cper + 32, 16);
    put_if(bits & 4, out + 48, cper + 48, 16);
    memcpy(out + 64, cper + 64, 52);
    memset(out + 116, 0, 12);
}

static inline void put_descriptor(uint8_t *out, const uint8_t *descriptor, uint32_t offset)
{
    uint8_t bits = descriptor[10] & 3;
    put_u32(out, offset);
    memcpy(out + 4, descriptor + 4, 6);
    out[10] = bits;
    out[11] = 0;
    memcpy(out + 12, descriptor + 12, 20);
    put_if(bits & 1, out + 32, descriptor + 32, 16);
    put_u32(out + 48, severity(u32_at(descriptor + 48)));
    put_if(bits & 2, out + 52, descriptor + 52, 20);
}

uint32_t plain_normalise(const uint8_t *cper, uint64_t cper_len, uint8_t *out, uint64_t out_len, uint64_t *length)
{
    *length = 0;
    if (cper_len > CRASHLOG_MOST_BYTES)
        return CRASHLOG_TOO_LONG;
    if (!is_cper(cper, cper_len))
        return CRASHLOG_NOT_CPER;
    size_t count = u16_at(cper + 10), kept = 0;
    uint64_t bodies = 0;
    for (size_t index = 0; index < count; index++) {
        const uint8_t *descriptor = kept_descriptor(cper, cper_len, index);
        if (descriptor) {
            kept++;
            bodies += u32_at(descriptor + 4);
        }
    }
    size_t to = HEADER_SIZE + DESCRIPTOR_SIZE * kept;
    uint64_t all = to + bodies;
    if (out_len < all || all > UINT32_MAX)
        return CRASHLOG_OUTPUT_SHORT;
    put_header(out, cper, (uint16_t)kept, (uint32_t)all);
    uint8_t *slot = out + HEADER_SIZE;
    for (size_t index = 0; index < count; index++) {
        const uint8_t *descriptor = kept_descriptor(cper, cper_len, index);
        if (!descriptor)
            continue;
        uint32_t size = u32_at(descriptor + 4);
        put_descriptor(slot, descriptor, (uint32_t)to);
        memcpy(out + to, cper + u32_at(descriptor), size);
        slot += DESCRIPTOR_SIZE;
        to += size;
    }
    *length = all;
    return CRASHLOG_DONE;
}
