/*
 * Lists the records of all Crash Logs in a CPER that is in a file, and prints what the dump program of CPERs prints.
 *
 *     tools/x86 cc -I include -o cper examples/cper.c target/staticlib/libcrashlog.a
 *     tools/x86 run ./cper FILE [ROWS [TRIES]]
 *
 * ROWS is the room for rows and TRIES the limit on header tries. A CPER whose sections lie over each other may need more of both
 * than there is reason to spend.
 */
#include <stdio.h>
#include <stdlib.h>

#include "crashlog.h"
#include "rows.h"

static const uint8_t record_id[] = CRASHLOG_RECORD_ID;

/* One byte over the limit, so that a file that is too long is told from one that just fits. */
static uint8_t cper[CRASHLOG_MOST_BYTES + 1];

int main(int argc, char **argv)
{
    FILE *file = argc > 1 ? fopen(argv[1], "rb") : NULL;
    if (file == NULL) {
        fprintf(stderr, "usage: %s FILE [ROWS [TRIES]]\n", argv[0]);
        return 2;
    }
    size_t length = fread(cper, 1, sizeof cper, file);
    fclose(file);

    uint64_t tries = argc > 3 ? strtoull(argv[3], NULL, 10) : 1310720;
    uint64_t rows = argc > 2 ? strtoull(argv[2], NULL, 10) : 4096;
    uint32_t *spans = calloc(rows + 1, CRASHLOG_SPAN_WORDS * sizeof *spans);
    if (spans == NULL)
        return 2;

    crashlog_listing told;
    uint32_t answer =
        crashlog_list_cper(cper, length, record_id, NULL, 0, tries, spans, rows * CRASHLOG_SPAN_WORDS, &told);

    print_heading();
    print_rows(spans, told.rows);
    print_told(answer, told.rows, &told);
    free(spans);
    return 0;
}
