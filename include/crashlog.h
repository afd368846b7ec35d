/*
 * crashlog.h: read Intel Crash Logs.
 *
 * Thirteen functions. crashlog_list walks a region and lists its records, with the records that lie inside Box records;
 * crashlog_list_flat does the same with a small stack, and crashlog_list_cper for all regions that lie in a CPER (UEFI's
 * Common Platform Error Record). crashlog_receiver_start, crashlog_receiver_feed and crashlog_receiver_finish list a region
 * while it comes in, piece by piece, without the records inside. crashlog_decode reads one record header, crashlog_encode
 * writes one. crashlog_sections, crashlog_section and crashlog_normalise read a CPER and write its normal form. crashlog_name
 * names a record type. crashlog_intel_rules writes Intel's errata as a rule table. Link with libcrashlog.a, which is for
 * x86-64 Linux.
 *
 * What holds of every function
 *
 * - It reads and writes only what the caller lends, for as long as the call lasts. It allocates nothing, keeps no pointer and
 *   no state but in a receiver that is lent to it, opens no file, never blocks, and always returns. Calls may run on several
 *   threads at once, as long as nothing that one of them writes is lent to another.
 * - It takes pointers, uint32_t and uint64_t, and returns a uint32_t: its answer, one of the numbers below (crashlog_name and
 *   crashlog_intel_rules: a length). What else it tells goes to the lent struct, or uint64_t, that is its last parameter
 *   (crashlog_receiver_start tells nothing else). Every call writes that whole, with any answer: 0 where there is nothing to
 *   tell.
 * - A length is a uint64_t and counts elements, not bytes: of bytes for uint8_t, of numbers for uint32_t. A pointer with
 *   length 0 may be null.
 * - These are the caller's to ensure, since no function can detect them: a pointer with a length above 0 is not null, and has
 *   that many elements; a pointer without a length is not null; a table of uint32_t is aligned to 4 bytes, a struct and a
 *   uint64_t to 8; and what is written, a receiver and what is told too, overlaps nothing else that the call is lent.
 * - Numbers in the input are little-endian, as the formats have them. Numbers in tables and structs are in the machine's own
 *   byte order: convert them before sending them to another machine.
 * - Any bytes are good input, in a receiver too. What is wrong with them is told by the answer.
 * - On a refusal nothing that was lent has changed but the last parameter, save with CRASHLOG_SPANS_FULL,
 *   CRASHLOG_TRIES_SPENT and CRASHLOG_SECTIONS_FULL, where the rows told are written, and with CRASHLOG_TOO_LONG from
 *   crashlog_receiver_feed, which shuts the receiver. Otherwise only the rows, bytes or header told, and the receiver, have
 *   changed besides it; what lies past them in the buffer is as it was.
 *
 * The archive needs two symbols from outside: memcpy and memset. A freestanding program supplies its own.
 *
 * A worked call
 *
 *     #include <inttypes.h>
 *     #include <stdio.h>
 *     #include "crashlog.h"
 *
 *     static uint32_t spans[512 * CRASHLOG_SPAN_WORDS];
 *
 *     void print_records(const uint8_t *region, uint64_t length)
 *     {
 *         crashlog_listing told;
 *         uint32_t answer = crashlog_list(region, length, NULL, 0, CRASHLOG_MOST_TRIES(length),
 *                                         spans, sizeof spans / sizeof spans[0], &told);
 *         for (uint64_t row = 0; row < told.rows; row++) {
 *             const uint32_t *span = spans + row * CRASHLOG_SPAN_WORDS;
 *             printf("%" PRIu32 " bytes at %" PRIu32 "\n", span[CRASHLOG_SPAN_HELD], span[CRASHLOG_SPAN_OFFSET]);
 *         }
 *         if (answer != CRASHLOG_DONE)
 *             printf("answer %" PRIu32 "\n", answer);
 *     }
 *
 * All Crash Logs in a CPER, with at most a million headers tried
 *
 *     void count_records(const uint8_t *cper, uint64_t length)
 *     {
 *         static const uint8_t record_id[] = CRASHLOG_RECORD_ID;
 *         crashlog_listing told;
 *         uint32_t answer = crashlog_list_cper(cper, length, record_id, NULL, 0, 1000000,
 *                                              spans, sizeof spans / sizeof spans[0], &told);
 *         printf("%" PRIu64 " records, answer %" PRIu32 "\n", told.rows, answer);
 *     }
 *
 * And while the region comes in, from a line that gives up to 64 bytes at a time and a negative number at its end
 *
 *     static crashlog_receiver receiver;
 *     static uint32_t arrived[CRASHLOG_RECEIVER_SPAN_WORDS];
 *
 *     void print_arriving(int (*next_piece)(uint8_t *piece))
 *     {
 *         const uint64_t words = CRASHLOG_RECEIVER_SPAN_WORDS;
 *         uint8_t piece[CRASHLOG_MOST_PIECE];
 *         uint64_t rows;
 *         crashlog_listing told = {0};
 *         uint32_t answer = crashlog_receiver_start(&receiver, NULL, 0);
 *         for (int got; answer == CRASHLOG_DONE && (got = next_piece(piece)) >= 0;) {
 *             answer = crashlog_receiver_feed(&receiver, piece, (uint64_t)got, arrived, words, &rows);
 *             for (uint64_t row = 0; row < rows; row++)
 *                 printf("all of that at %" PRIu32 "\n", arrived[row * CRASHLOG_SPAN_WORDS + CRASHLOG_SPAN_OFFSET]);
 *         }
 *         if (answer == CRASHLOG_DONE)
 *             answer = crashlog_receiver_finish(&receiver, arrived, words, &told);
 *         if (told.rows > 0)
 *             printf("a part of that at %" PRIu32 "\n", arrived[CRASHLOG_SPAN_OFFSET]);
 *         if (answer != CRASHLOG_DONE)
 *             printf("answer %" PRIu32 "\n", answer);
 *     }
 */
#ifndef CRASHLOG_H
#define CRASHLOG_H

#include <stddef.h>
#include <stdint.h>

#ifdef __cplusplus
extern "C" {
#endif

/* Raised by one with every change after which a caller must be compiled again. */
#define CRASHLOG_INTERFACE_VERSION 4

/* The answers. Each function's comment says which of them it gives. */
#define CRASHLOG_DONE 0           /* none of the below */
#define CRASHLOG_TOO_LONG 1       /* a region, in pieces or not, or a CPER over CRASHLOG_MOST_BYTES */
#define CRASHLOG_BAD_RULES 2      /* rules not in whole rows, over CRASHLOG_MOST_RULES rows, or with a flag number above 15 */
#define CRASHLOG_BAD_HEADER 3     /* the header lacks bytes that it needs */
#define CRASHLOG_BAD_TYPE 4       /* its header type is 7 to 15, and no rule makes it a legacy header; the type is told */
#define CRASHLOG_EMPTY_REGION 5   /* no record was found */
#define CRASHLOG_SPANS_FULL 6     /* a record was found and no row was free */
#define CRASHLOG_TRIES_SPENT 7    /* a header was to be tried and the limit was reached */
#define CRASHLOG_NOT_CPER 8       /* under 128 bytes, or a signature is wrong */
#define CRASHLOG_SECTIONS_FULL 9  /* a section was to be kept and no row was free */
#define CRASHLOG_OUTPUT_SHORT 10  /* the result is longer than the output, or than 4,294,967,295 bytes */
#define CRASHLOG_BAD_FIELD 11     /* a header that can't be encoded */
#define CRASHLOG_BAD_PIECE 12     /* a piece over CRASHLOG_MOST_PIECE, or room for under CRASHLOG_LEAST_ROOM rows */
#define CRASHLOG_NOT_RECEIVING 13 /* a receiver that is shut, or whose content shows that no call left it */
#define CRASHLOG_ENDED 254        /* decode: the records have ended; the ending is told */
#define CRASHLOG_NONE 255         /* section: there is no such row */

/* Why a region stopped: `stop` of a listing. 2, 3 and 4 are the endings: `ending` of a decode is one of them. */
#define CRASHLOG_STOP_UNTOLD 0        /* no reason is told */
#define CRASHLOG_STOP_END_OF_INPUT 1  /* no byte was left */
#define CRASHLOG_STOP_ZERO_WORD 2     /* an ending: a word 0 where a header was due */
#define CRASHLOG_STOP_DEADBEEF_WORD 3 /* an ending: a word 0xdeadbeef */
#define CRASHLOG_STOP_FEW_BYTES 4     /* an ending: under 4 bytes were left; for a listing at least 1 */
#define CRASHLOG_STOP_BAD_HEADER 5    /* the header lacks bytes that it needs, or its type is bad */
#define CRASHLOG_STOP_SIZE_ZERO 6     /* the header declares no byte */

/* Limits. */
#define CRASHLOG_MOST_BYTES 1048576 /* of a region or a CPER */
#define CRASHLOG_MOST_RULES 64      /* rows of a rule table */
#define CRASHLOG_MOST_PIECE 64      /* bytes of a piece that a receiver takes */
#define CRASHLOG_LEAST_ROOM 600     /* rows that the table lent with a receiver must have room for: no call tells more */

/* Tries that are enough for any region of n bytes, under any rules. No listing has more rows than tries. */
#define CRASHLOG_MOST_TRIES(n) ((uint64_t)5 * (uint64_t)(n))

/* The record identifier of a Crash Log in a CPER, 8f87f311-c998-4d9e-a0c4-6065518c4f6d: an initialiser of sixteen bytes. */
#define CRASHLOG_RECORD_ID \
    {0x11, 0xf3, 0x87, 0x8f, 0x98, 0xc9, 0x9e, 0x4d, 0xa0, 0xc4, 0x60, 0x65, 0x51, 0x8c, 0x4f, 0x6d}

/*
 * The rule table: rows of three numbers, mask, wanted, flags. A row applies to a record when (version word & mask) == wanted;
 * the record's flags are the union over the rows that apply. The flag number is a sum of these.
 */
#define CRASHLOG_RULE_WORDS 3
#define CRASHLOG_LEGACY_SERVER 1
#define CRASHLOG_LEGACY_GPU 2
#define CRASHLOG_LEGACY_SERVER_BOX 4 /* the record is a Box */
#define CRASHLOG_SIZES_IN_BYTES 8    /* the record's sizes count bytes; else words of 4 bytes */

/* The numbers of the rule table that crashlog_intel_rules writes: 40 rows. */
#define CRASHLOG_INTEL_RULE_WORDS 120

/*
 * A row of the span table, number by number. The room is the table's length divided by CRASHLOG_SPAN_WORDS, rounded down. What
 * a row says of its header is what crashlog_decode tells of the region from the row's offset on, under the same rules.
 *
 * The rows of a region are boxes within boxes, in a listing that is cut off too. A row's bytes are those that it holds, at
 * least one. Of any two rows either they share no byte, or one lies wholly in the other's bytes after its header and has it
 * among its ancestors: its parent, that one's parent, and so on. A row lies so in each of its ancestors. A parent stands before
 * its children, one level up. The first child starts where the parent's header ends, each further one where the child before it
 * ends, and the rows of one level come in the order of their offsets. Only a Box that holds its whole header has children; the
 * header of another row may reach past its bytes into those of the next. The regions of a CPER may lie over each other: all
 * this is said of the rows of each region by itself, and where no two regions share a byte, no two rows cross.
 */
#define CRASHLOG_SPAN_WORDS 10
#define CRASHLOG_SPAN_LEVEL 0       /* 0 at the top, 1 in a Box, .. 4 */
#define CRASHLOG_SPAN_PARENT 1      /* the row of the Box that it lies in; CRASHLOG_NO_PARENT at the top */
#define CRASHLOG_SPAN_OFFSET 2      /* where it starts, in the whole region or CPER */
#define CRASHLOG_SPAN_HELD 3        /* how many of its bytes are there */
#define CRASHLOG_SPAN_DECLARED 4    /* how many it says it has */
#define CRASHLOG_SPAN_HEADER_SIZE 5 /* of its header */
#define CRASHLOG_SPAN_VERSION 6     /* its version word; the record type is bits 24 to 29 */
#define CRASHLOG_SPAN_SOCKET 7      /* that its header names; 0 where it names none */
#define CRASHLOG_SPAN_DIE 8         /* that its header names; CRASHLOG_NO_DIE where it names none. It names both or neither */
#define CRASHLOG_SPAN_FLAGS 9       /* from the rule table */
#define CRASHLOG_NO_PARENT 4294967295u
#define CRASHLOG_NO_DIE 4294967295u

/* The numbers of a table that has the room that is lent with a receiver. */
#define CRASHLOG_RECEIVER_SPAN_WORDS (CRASHLOG_LEAST_ROOM * CRASHLOG_SPAN_WORDS)

/* A row of the section table. The room is the table's length divided by CRASHLOG_SECTION_WORDS, rounded down. */
#define CRASHLOG_SECTION_WORDS 3
#define CRASHLOG_SECTION_INDEX 0  /* of its descriptor */
#define CRASHLOG_SECTION_OFFSET 1 /* of its body, in the CPER */
#define CRASHLOG_SECTION_LENGTH 2 /* of its body */

/*
 * What a listing tells. It is whole when the answer is CRASHLOG_DONE, every row holds what it declares, every Box on levels 0
 * to 3 holds all of its header, and the region, or each that is walked in a CPER, and those in such Boxes stopped at their end
 * or at a zero or 0xdeadbeef word.
 */
typedef struct {
    uint64_t rows;     /* rows written, from the table's start */
    uint64_t tries;    /* headers tried */
    uint64_t bad_type; /* with CRASHLOG_BAD_TYPE, else 0 */
    uint64_t whole;    /* 1 when the listing is whole, else 0 */
    uint64_t stop;     /* why the region stopped; why a Box in it did is not told, nor why a region in a CPER did */
} crashlog_listing;

/*
 * A receiver: what is kept of a region that comes in pieces. The caller lends it to each call; its fields are the library's
 * own. One with all bytes 0 is shut, as a static one is before its start, and so is one after a finish or CRASHLOG_TOO_LONG.
 */
typedef struct {
    uint64_t taken;       /* bytes taken */
    uint64_t offset;      /* where the record starts that is waited for */
    uint64_t rows;        /* records before it */
    uint64_t rule_blocks; /* rows of the rules, in blocks of eight */
    uint32_t whole;       /* 1 while the records before it leave the listing whole, else 0 */
    uint32_t stage;       /* 1 in use, 0 shut */
    uint32_t rules[192];  /* by columns: 64 masks, 64 wanted numbers, 64 flag numbers */
    uint8_t kept[536];    /* the first of the bytes that have come from `offset` on; no header is longer */
} crashlog_receiver;

/* What a header decode tells. The first three are 0 unless the answer is CRASHLOG_DONE. */
typedef struct {
    uint64_t declared;    /* bytes that the record says it has */
    uint64_t header_size; /* bytes of its header */
    uint64_t flags;       /* from the rule table */
    uint64_t bad_type;    /* with CRASHLOG_BAD_TYPE, else 0 */
    uint64_t ending;      /* with CRASHLOG_ENDED how the records ended, else 0 */
} crashlog_judged;

/* A part of the input; all 0 unless the answer is CRASHLOG_DONE. */
typedef struct {
    uint64_t offset;
    uint64_t length;
} crashlog_part;

/* The layouts of a header. 0 to 6 are the header types. */
#define CRASHLOG_LAYOUT_LEGACY_SERVER 7
#define CRASHLOG_LAYOUT_LEGACY_GPU 8

#define CRASHLOG_MOST_STATUSES 127

/*
 * A record header. Fields that the layout lacks are 0 from decode and ignored by encode, and so are the status words past
 * completion_status_size. A yes/no is 1 or 0; encode refuses any other value in one that the header has.
 */
typedef struct {
    uint64_t timestamp;                /* layouts 2 to 8 */
    uint32_t revision;                 /* all; 8 bits */
    uint32_t product_id;               /* all; 12 bits */
    uint32_t agent_version;            /* layouts 2 to 8 */
    uint32_t reason;                   /* layouts 2 to 8 */
    uint32_t completion_status;        /* layouts 3, 5, 7, 8; 31 bits */
    uint32_t error_status;             /* layout 5 */
    uint32_t whoami;                   /* layout 4 */
    uint32_t misc;                     /* layout 4 */
    uint16_t header_type;              /* all; 4 bits; the type that the version word has, legacy or not */
    uint16_t record_size;              /* all */
    uint16_t extended_record_size;     /* all; 0 in layouts 7 and 8 */
    uint16_t completion_status_size;   /* layout 6: how many status words, at most CRASHLOG_MOST_STATUSES */
    uint8_t record_type;               /* all; 6 bits */
    uint8_t cldic;                     /* all; yes/no */
    uint8_t consumed;                  /* all; yes/no */
    uint8_t layout;                    /* all; 0 to 8 */
    uint8_t die_id;                    /* layouts 6, 7; in layout 7 the revision decides it */
    uint8_t socket_id;                 /* layouts 6, 7 */
    uint8_t collection_complete;       /* layouts 3, 5, 6, 7, 8; yes/no */
    uint8_t reserved;                  /* 0 from decode */
    uint32_t completion_statuses[CRASHLOG_MOST_STATUSES]; /* layout 6 */
} crashlog_header;

/*
 * Lists the records of a region, and of the Boxes in it down to four levels, each Box before what lies in it. At most `limit`
 * headers are tried.
 *
 * Answers: DONE, TOO_LONG, BAD_RULES, BAD_HEADER and BAD_TYPE (of the region's first header), EMPTY_REGION, SPANS_FULL,
 * TRIES_SPENT. With DONE, SPANS_FULL and TRIES_SPENT told->rows rows are written; with any other answer it is 0 and the table
 * is as it was. told->tries is told with every answer. With DONE, BAD_HEADER, BAD_TYPE and EMPTY_REGION told->stop is a
 * reason; with any other answer it is CRASHLOG_STOP_UNTOLD.
 */
uint32_t crashlog_list(const uint8_t *region, uint64_t region_len, const uint32_t *rules, uint64_t rules_len, uint64_t limit,
                       uint32_t *spans, uint64_t spans_len, crashlog_listing *told);

/*
 * Lists as crashlog_list does, for a caller with little stack: 385 bytes on x86-64, as bench/stack measures it, which
 * fails at 600; crashlog_list takes 1,976. It calls itself nowhere, and keeps its place in a fixed record of five levels.
 *
 * Answer, *told and the table are those of crashlog_list on every input, with every rule table, limit and room.
 */
uint32_t crashlog_list_flat(const uint8_t *region, uint64_t region_len, const uint32_t *rules, uint64_t rules_len,
                            uint64_t limit, uint32_t *spans, uint64_t spans_len, crashlog_listing *told);

/*
 * Lists the records of all regions that lie in a CPER, one region after the other. A region is what follows the first 32 bytes
 * of a section of crashlog_sections that has at least these, whose type is UEFI's Firmware Error Record (N.2.10,
 * 81212a96-09ed-4996-9471-8d729c8e69ed) and whose bytes 16 to 31 are the sixteen of `record_id`; CRASHLOG_RECORD_ID has those
 * of a Crash Log. All other sections are left out. A region is walked as crashlog_list walks one, from level 0 on; offsets are
 * in the whole CPER, and a row's parent is a row of this table. A region without a record adds no row, whatever stands in it:
 * only its tries count, and for `whole` how it stopped. At most `limit` headers are tried in all. Room for more than
 * 4,294,967,294 rows counts as that.
 *
 * Sections may lie over each other, and each is walked once. A CPER can have 14,561 of them, so that far more headers may be
 * due than CRASHLOG_MOST_TRIES(cper_len), though never more than 76,341,575,680: it is `limit` that bounds the time of a call.
 *
 * Answers, in this order: TOO_LONG; BAD_RULES; NOT_CPER; SPANS_FULL or TRIES_SPENT, whichever the walk comes upon first;
 * EMPTY_REGION, where no region has a record; DONE. With DONE, SPANS_FULL and TRIES_SPENT told->rows rows are written; with
 * any other answer it is 0 and the table is as it was. told->tries is told with every answer. told->bad_type and told->stop
 * are always 0.
 */
uint32_t crashlog_list_cper(const uint8_t *cper, uint64_t cper_len, const uint8_t *record_id, const uint32_t *rules,
                            uint64_t rules_len, uint64_t limit, uint32_t *spans, uint64_t spans_len, crashlog_listing *told);

/*
 * Starts a receiver, whatever it held, under a copy of the rules: no byte of its region has come.
 *
 * Answers: DONE, BAD_RULES. With BAD_RULES the receiver is as it was.
 */
uint32_t crashlog_receiver_start(crashlog_receiver *receiver, const uint32_t *rules, uint64_t rules_len);

/*
 * Takes the next piece of the region, of 0 to CRASHLOG_MOST_PIECE bytes. *rows is how many records are all in with it, header
 * and declared bytes, and were not before; their rows are written from the table's start, in the order of the region. A Box
 * is not opened: every row is on level 0. Once the walk has stopped, at an ending, a bad header or size zero, pieces are taken
 * and complete no record.
 *
 * Answers, in this order: NOT_RECEIVING; BAD_PIECE; TOO_LONG, where the pieces joined would be over CRASHLOG_MOST_BYTES; DONE.
 * With any but DONE the piece is not taken, *rows is 0, and the table and the receiver are as they were, but that TOO_LONG
 * shuts the receiver: nothing more is told of that region.
 */
uint32_t crashlog_receiver_feed(crashlog_receiver *receiver, const uint8_t *piece, uint64_t piece_len,
                                uint32_t *spans, uint64_t spans_len, uint64_t *rows);

/*
 * Ends the region and shuts the receiver. However the region was cut, the rows of the feeds and after them that of this call
 * are those on level 0 of a listing of the pieces joined. told->tries, told->bad_type, told->whole and told->stop are what
 * such a listing tells with no Box opened: the headers tried on level 0; and of a Box `whole` asks only that it holds what it
 * declares, and all of its header. told->rows is how many rows this call wrote, to the table's start: 1 where the last record
 * has all of its header and not all that it declares, else 0.
 *
 * Answers, in this order: NOT_RECEIVING; BAD_PIECE, where the table lacks room; BAD_HEADER, BAD_TYPE, EMPTY_REGION, as
 * crashlog_list gives them; DONE. With NOT_RECEIVING and BAD_PIECE the table and the receiver are as they were.
 */
uint32_t crashlog_receiver_finish(crashlog_receiver *receiver, uint32_t *spans, uint64_t spans_len, crashlog_listing *told);

/*
 * Reads the header at the start of some bytes, of any length.
 *
 * Answers: DONE, BAD_RULES, BAD_HEADER, BAD_TYPE, ENDED. With DONE every field of *header is written; with any other answer
 * *header is untouched. Nothing of it is read. With ENDED told->ending is CRASHLOG_STOP_ZERO_WORD, CRASHLOG_STOP_DEADBEEF_WORD
 * or CRASHLOG_STOP_FEW_BYTES.
 */
uint32_t crashlog_decode(const uint8_t *bytes, uint64_t bytes_len, const uint32_t *rules, uint64_t rules_len,
                         crashlog_header *header, crashlog_judged *told);

/*
 * Writes a header's bytes (8 to 536) to the start of the output. Decoding them under the same rules gives the header again.
 * *length is how many were written; 0 on a refusal.
 *
 * Answers, in this order: BAD_RULES; BAD_FIELD; OUTPUT_SHORT; DONE. A header can't be encoded when a field exceeds its bits,
 * a yes/no that it has is neither 0 nor 1, its layout is not the one that rules and header type choose, its version word
 * would read as ended, or it is a legacy header with an extended size or with another die than its revision's.
 */
uint32_t crashlog_encode(const crashlog_header *header, const uint32_t *rules, uint64_t rules_len,
                         uint8_t *out, uint64_t out_len, uint64_t *length);

/*
 * Tables the sections of a CPER whose descriptor and whole body lie in the input. *rows is how many rows were written, from
 * the table's start; 0 on a refusal other than SECTIONS_FULL.
 *
 * Answers: DONE, TOO_LONG, NOT_CPER, SECTIONS_FULL.
 */
uint32_t crashlog_sections(const uint8_t *cper, uint64_t cper_len, uint32_t *table, uint64_t table_len, uint64_t *rows);

/*
 * Where the body of one section of that table is, by its row.
 *
 * Answers: DONE, TOO_LONG, NOT_CPER, NONE.
 */
uint32_t crashlog_section(const uint8_t *cper, uint64_t cper_len, uint32_t row, crashlog_part *told);

/*
 * Writes a CPER's normal form to the start of the output: the sections of the table in order, bodies packed after the
 * descriptors, what the record says is absent or reserved as zero. *length is how many bytes were written: 128, 72 for each
 * section, and the bodies; 0 on a refusal.
 *
 * Answers: DONE, TOO_LONG, NOT_CPER, OUTPUT_SHORT.
 */
uint32_t crashlog_normalise(const uint8_t *cper, uint64_t cper_len, uint8_t *out, uint64_t out_len, uint64_t *length);

/*
 * The length of a record type's name, at most 16. The name's bytes, with no zero after them, are written to the start of the
 * output where they fit, else the output is as it was. A type without a name is "UNKNOWN".
 */
uint32_t crashlog_name(uint32_t record_type, uint8_t *out, uint64_t out_len);

/*
 * The number of words of Intel's rule table, CRASHLOG_INTEL_RULE_WORDS. The table is written to the start of the output where
 * it fits, else the output is as it was. It states Intel's published errata: of header type 0, the legacy headers of the
 * server products 0x2f, 0x82 and 0x8e (their records of type 4 are Boxes) and of the GPU products 0x5d, 0x5e, 0x5f and 0xb6;
 * of all other headers, the sizes in bytes in records of type 4 of product 0x85 and of those below 0x71, and in records of
 * type 6 of products below 0x96. No function answers CRASHLOG_BAD_RULES to it.
 */
uint32_t crashlog_intel_rules(uint32_t *out, uint64_t out_len);

/* How the library has the structs. A compiler that lays one out otherwise can't call it, and stops here. */
#ifdef __cplusplus
#define CRASHLOG_HOLDS(fact) static_assert(fact, #fact)
#define CRASHLOG_ALIGNED(type) CRASHLOG_HOLDS(alignof(type) == 8)
#else
#define CRASHLOG_HOLDS(fact) _Static_assert(fact, #fact)
#define CRASHLOG_ALIGNED(type) CRASHLOG_HOLDS(_Alignof(type) == 8)
#endif
#define CRASHLOG_SIZE(type, size) CRASHLOG_HOLDS(sizeof(type) == (size))
#define CRASHLOG_FIELD(type, field, offset) CRASHLOG_HOLDS(offsetof(type, field) == (offset))

CRASHLOG_ALIGNED(crashlog_listing);
CRASHLOG_SIZE(crashlog_listing, 40);
CRASHLOG_FIELD(crashlog_listing, rows, 0);
CRASHLOG_FIELD(crashlog_listing, tries, 8);
CRASHLOG_FIELD(crashlog_listing, bad_type, 16);
CRASHLOG_FIELD(crashlog_listing, whole, 24);
CRASHLOG_FIELD(crashlog_listing, stop, 32);

CRASHLOG_ALIGNED(crashlog_receiver);
CRASHLOG_SIZE(crashlog_receiver, 1344);
CRASHLOG_FIELD(crashlog_receiver, taken, 0);
CRASHLOG_FIELD(crashlog_receiver, offset, 8);
CRASHLOG_FIELD(crashlog_receiver, rows, 16);
CRASHLOG_FIELD(crashlog_receiver, rule_blocks, 24);
CRASHLOG_FIELD(crashlog_receiver, whole, 32);
CRASHLOG_FIELD(crashlog_receiver, stage, 36);
CRASHLOG_FIELD(crashlog_receiver, rules, 40);
CRASHLOG_FIELD(crashlog_receiver, kept, 808);

CRASHLOG_ALIGNED(crashlog_judged);
CRASHLOG_SIZE(crashlog_judged, 40);
CRASHLOG_FIELD(crashlog_judged, declared, 0);
CRASHLOG_FIELD(crashlog_judged, header_size, 8);
CRASHLOG_FIELD(crashlog_judged, flags, 16);
CRASHLOG_FIELD(crashlog_judged, bad_type, 24);
CRASHLOG_FIELD(crashlog_judged, ending, 32);

CRASHLOG_ALIGNED(crashlog_part);
CRASHLOG_SIZE(crashlog_part, 16);
CRASHLOG_FIELD(crashlog_part, offset, 0);
CRASHLOG_FIELD(crashlog_part, length, 8);

CRASHLOG_ALIGNED(crashlog_header);
CRASHLOG_SIZE(crashlog_header, 568);
CRASHLOG_FIELD(crashlog_header, timestamp, 0);
CRASHLOG_FIELD(crashlog_header, revision, 8);
CRASHLOG_FIELD(crashlog_header, product_id, 12);
CRASHLOG_FIELD(crashlog_header, agent_version, 16);
CRASHLOG_FIELD(crashlog_header, reason, 20);
CRASHLOG_FIELD(crashlog_header, completion_status, 24);
CRASHLOG_FIELD(crashlog_header, error_status, 28);
CRASHLOG_FIELD(crashlog_header, whoami, 32);
CRASHLOG_FIELD(crashlog_header, misc, 36);
CRASHLOG_FIELD(crashlog_header, header_type, 40);
CRASHLOG_FIELD(crashlog_header, record_size, 42);
CRASHLOG_FIELD(crashlog_header, extended_record_size, 44);
CRASHLOG_FIELD(crashlog_header, completion_status_size, 46);
CRASHLOG_FIELD(crashlog_header, record_type, 48);
CRASHLOG_FIELD(crashlog_header, cldic, 49);
CRASHLOG_FIELD(crashlog_header, consumed, 50);
CRASHLOG_FIELD(crashlog_header, layout, 51);
CRASHLOG_FIELD(crashlog_header, die_id, 52);
CRASHLOG_FIELD(crashlog_header, socket_id, 53);
CRASHLOG_FIELD(crashlog_header, collection_complete, 54);
CRASHLOG_FIELD(crashlog_header, reserved, 55);
CRASHLOG_FIELD(crashlog_header, completion_statuses, 56);

#undef CRASHLOG_HOLDS
#undef CRASHLOG_ALIGNED
#undef CRASHLOG_SIZE
#undef CRASHLOG_FIELD

#ifdef __cplusplus
}
#endif

#endif
