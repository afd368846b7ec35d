/* How the example programs print the rows of a listing, what else it tells, and why its region stopped. */
#ifndef ROWS_H
#define ROWS_H

#include <inttypes.h>
#include <stdio.h>

#include "crashlog.h"

static void print_heading(void)
{
    printf("level offset held declared header version socket die name\n");
}

static void print_die(uint32_t die)
{
    if (die == CRASHLOG_NO_DIE)
        printf("-");
    else
        printf("%" PRIu32, die);
}

static void print_row(const uint32_t *span)
{
    uint8_t name[16];
    uint32_t record_type = span[CRASHLOG_SPAN_VERSION] >> 24 & 0x3f;
    uint32_t length = crashlog_name(record_type, name, sizeof name);

    printf("%" PRIu32 " %" PRIu32 " %" PRIu32 " %" PRIu32 " %" PRIu32 " %08" PRIx32 " %" PRIu32 " ",
           span[CRASHLOG_SPAN_LEVEL], span[CRASHLOG_SPAN_OFFSET], span[CRASHLOG_SPAN_HELD],
           span[CRASHLOG_SPAN_DECLARED], span[CRASHLOG_SPAN_HEADER_SIZE], span[CRASHLOG_SPAN_VERSION],
           span[CRASHLOG_SPAN_SOCKET]);
    print_die(span[CRASHLOG_SPAN_DIE]);
    printf(" %.*s\n", (int)length, (const char *)name);
}

static void print_rows(const uint32_t *spans, uint64_t rows)
{
    for (uint64_t row = 0; row < rows; row++)
        print_row(spans + row * CRASHLOG_SPAN_WORDS);
}

static inline const char *words_of(uint64_t stop)
{
    switch (stop) {
    case CRASHLOG_STOP_UNTOLD: return "untold";
    case CRASHLOG_STOP_END_OF_INPUT: return "end of input";
    case CRASHLOG_STOP_ZERO_WORD: return "zero word";
    case CRASHLOG_STOP_DEADBEEF_WORD: return "0xdeadbeef word";
    case CRASHLOG_STOP_FEW_BYTES: return "fewer than 4 bytes";
    case CRASHLOG_STOP_BAD_HEADER: return "bad header";
    case CRASHLOG_STOP_SIZE_ZERO: return "size zero";
    default: return "unknown";
    }
}

/* The last line of a listing with so many rows in all. */
static void print_told(uint32_t answer, uint64_t rows, const crashlog_listing *told)
{
    printf("rows %" PRIu64 " tries %" PRIu64 " whole %s answer %" PRIu32 "\n",
           rows, told->tries, told->whole ? "yes" : "no", answer);
}

/* Why its region stopped, where a program has but one. */
static inline void print_stop(const crashlog_listing *told)
{
    printf("stop: %s\n", words_of(told->stop));
}

#endif
