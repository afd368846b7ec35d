/* What the normaliser and the walker of a CPER's regions share: its header, and its kept sections. */
#ifndef CPER_H
#define CPER_H

#include <stdbool.h>
#include "le.h"

#define HEADER_SIZE 128
#define DESCRIPTOR_SIZE 72

static inline bool is_cper(const uint8_t *cper, size_t len)
{
    return len >= HEADER_SIZE && memcmp(cper, "CPER", 4) == 0 && u32_at(cper + 6) == 0xffffffff;
}

/* The descriptor with an index, or null where it or its body does not lie in the input. */
static inline const uint8_t *kept_descriptor(const uint8_t *cper, size_t len, size_t index)
{
    size_t at = HEADER_SIZE + DESCRIPTOR_SIZE * index;
    if (len < at + DESCRIPTOR_SIZE)
        return NULL;
    const uint8_t *descriptor = cper + at;
    if (len < (size_t)u32_at(descriptor) + u32_at(descriptor + 4))
        return NULL;
    return descriptor;
}

#endif
