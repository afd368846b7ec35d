/*
 * Lists the records of a region that is in a file, and prints what the dump program prints, then why the region stopped.
 *
 *     tools/x86 cc -I include -o list examples/list.c target/staticlib/libcrashlog.a
 *     tools/x86 run ./list FILE [ROWS [TRIES]]
 *
 * ROWS is the room for rows and TRIES the limit on header tries; by default there is enough of both.
 */
#include <stdio.h>
#include <stdlib.h>

#include "crashlog.h"
#include "rows.h"

/* One byte over the limit, so that a file that is too long is told from one that just fits. */
static uint8_t region[CRASHLOG_MOST_BYTES + 1];

int main(int argc, char **argv)
{
    FILE *file = argc > 1 ? fopen(argv[1], "rb") : NULL;
    if (file == NULL) {
        fprintf(stderr, "usage: %s FILE [ROWS [TRIES]]\n", argv[0]);
        return 2;
    }
    size_t length = fread(region, 1, sizeof region, file);
    fclose(file);

    uint64_t tries = argc > 3 ? strtoull(argv[3], NULL, 10) : CRASHLOG_MOST_TRIES(length);
    uint64_t rows = argc > 2 ? strtoull(argv[2], NULL, 10) : CRASHLOG_MOST_TRIES(length);
    uint32_t *spans = calloc(rows + 1, CRASHLOG_SPAN_WORDS * sizeof *spans);
    if (spans == NULL)
        return 2;

    crashlog_listing told;
    uint32_t answer = crashlog_list(region, length, NULL, 0, tries, spans, rows * CRASHLOG_SPAN_WORDS, &told);

    print_heading();
    print_rows(spans, told.rows);
    print_told(answer, told.rows, &told);
    print_stop(&told);
    free(spans);
    return 0;
}
