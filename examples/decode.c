/*
 * Decodes the record header at the start of a file, and prints its fields.
 *
 *     tools/x86 cc -I include -o decode examples/decode.c target/staticlib/libcrashlog.a
 *     tools/x86 run ./decode FILE [MASK WANTED FLAGS]..
 *
 * Each MASK WANTED FLAGS is a row of the rule table; 0x1f is a number too.
 */
#include <inttypes.h>
#include <stdio.h>
#include <stdlib.h>

#include "crashlog.h"

static void print_fields(const crashlog_header *header)
{
    printf("revision %" PRIu32 " product %" PRIu32 " record type %d header type %d cldic %d consumed %d\n",
           header->revision, header->product_id, header->record_type, header->header_type, header->cldic,
           header->consumed);
    printf("record size %d extended record size %d\n", header->record_size, header->extended_record_size);
    if (header->layout >= 2)
        printf("timestamp %" PRIu64 " agent version %" PRIu32 " reason %" PRIu32 "\n",
               header->timestamp, header->agent_version, header->reason);
    switch (header->layout) {
    case 5:
        printf("error status %" PRIu32 "\n", header->error_status);
        /* fall through */
    case 3:
        printf("completion status %" PRIu32 " complete %d\n", header->completion_status, header->collection_complete);
        break;
    case 4:
        printf("whoami %" PRIu32 " misc %" PRIu32 "\n", header->whoami, header->misc);
        break;
    case 6:
        printf("die %d socket %d complete %d statuses", header->die_id, header->socket_id,
               header->collection_complete);
        for (int i = 0; i < header->completion_status_size; i++)
            printf(" %" PRIu32, header->completion_statuses[i]);
        printf("\n");
        break;
    case CRASHLOG_LAYOUT_LEGACY_SERVER:
        printf("die %d socket %d\n", header->die_id, header->socket_id);
        /* fall through */
    case CRASHLOG_LAYOUT_LEGACY_GPU:
        printf("completion status %" PRIu32 " complete %d\n", header->completion_status, header->collection_complete);
        break;
    }
}

static const char *words_of(uint64_t ending)
{
    switch (ending) {
    case CRASHLOG_STOP_ZERO_WORD: return "zero word";
    case CRASHLOG_STOP_DEADBEEF_WORD: return "0xdeadbeef word";
    case CRASHLOG_STOP_FEW_BYTES: return "fewer than 4 bytes";
    default: return "unknown";
    }
}

int main(int argc, char **argv)
{
    uint8_t bytes[536]; /* no header is longer */
    uint32_t rules[CRASHLOG_MOST_RULES * CRASHLOG_RULE_WORDS + 1];
    uint64_t rules_len = 0;
    crashlog_header header = {0};

    FILE *file = argc > 1 ? fopen(argv[1], "rb") : NULL;
    if (file == NULL) {
        fprintf(stderr, "usage: %s FILE [MASK WANTED FLAGS]..\n", argv[0]);
        return 2;
    }
    size_t length = fread(bytes, 1, sizeof bytes, file);
    fclose(file);
    for (int i = 2; i < argc && rules_len < sizeof rules / sizeof rules[0]; i++)
        rules[rules_len++] = (uint32_t)strtoul(argv[i], NULL, 0);

    crashlog_judged told;

    switch (crashlog_decode(bytes, length, rules, rules_len, &header, &told)) {
    case CRASHLOG_DONE:
        printf("layout %d flags %" PRIu64 " header %" PRIu64 " bytes, record %" PRIu64 " bytes\n",
               header.layout, told.flags, told.header_size, told.declared);
        print_fields(&header);
        break;
    case CRASHLOG_ENDED:
        printf("ended: %s\n", words_of(told.ending));
        break;
    case CRASHLOG_BAD_RULES:
        printf("bad rules\n");
        break;
    case CRASHLOG_BAD_HEADER:
        printf("bad header\n");
        break;
    case CRASHLOG_BAD_TYPE:
        printf("bad type %" PRIu64 "\n", told.bad_type);
        break;
    }
    return 0;
}
