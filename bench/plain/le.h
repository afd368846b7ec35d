/* Little-endian numbers, on a little-endian machine. */
#ifndef LE_H
#define LE_H

#include <stdint.h>
#include <string.h>

static inline uint16_t u16_at(const uint8_t *p) { uint16_t x; memcpy(&x, p, sizeof x); return x; }
static inline uint32_t u32_at(const uint8_t *p) { uint32_t x; memcpy(&x, p, sizeof x); return x; }
static inline uint64_t u64_at(const uint8_t *p) { uint64_t x; memcpy(&x, p, sizeof x); return x; }
static inline void put_u16(uint8_t *p, uint16_t x) { memcpy(p, &x, sizeof x); }
static inline void put_u32(uint8_t *p, uint32_t x) { memcpy(p, &x, sizeof x); }
static inline void put_u64(uint8_t *p, uint64_t x) { memcpy(p, &x, sizeof x); }

#endif
