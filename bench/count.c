/* One call of the library or of plain C, on the numbers of a rule table and the bytes that stand on standard input:
 *
 *     count library|plain list|normalise|receive
 *     count flat list
 *
 * 'flat' is the library's walk that takes a small stack. To receive is to make a call for each piece of 64 bytes. bench/count
 * counts the instructions. */
#include <stdbool.h>
#include <unistd.h>

#include "plain.h"

static struct {
    uint32_t numbers;
    uint32_t rules[CRASHLOG_RULE_WORDS * CRASHLOG_MOST_RULES];
} table;
static uint8_t bytes[CRASHLOG_MOST_BYTES], out[CRASHLOG_MOST_BYTES];
static uint32_t spans[CRASHLOG_MOST_BYTES];

static size_t filled(void *from, size_t room)
{
    size_t held = 0;
    long more;
    while ((more = read(0, (uint8_t *)from + held, room - held)) > 0)
        held += (size_t)more;
    return held;
}

static uint32_t list(char whose, size_t length)
{
    crashlog_listing told;
    uint64_t room = sizeof spans / sizeof *spans;
    return (whose == 'l' ? crashlog_list : whose == 'f' ? crashlog_list_flat : plain_list)(
        bytes, length, table.rules, table.numbers, UINT64_MAX, spans, room, &told);
}

static uint32_t receive(bool library, size_t length)
{
    static crashlog_receiver receiver;
    crashlog_listing told;
    uint64_t rows;
    (library ? crashlog_receiver_start : plain_receiver_start)(&receiver, table.rules, table.numbers);
    for (size_t at = 0; at < length; at += CRASHLOG_MOST_PIECE)
        (library ? crashlog_receiver_feed : plain_receiver_feed)(&receiver, bytes + at, CRASHLOG_MOST_PIECE, spans,
                                                                 CRASHLOG_RECEIVER_SPAN_WORDS, &rows);
    return (library ? crashlog_receiver_finish : plain_receiver_finish)(&receiver, spans, CRASHLOG_RECEIVER_SPAN_WORDS, &told);
}

int main(int count, char **words)
{
    if (count != 3)
        return 2;
    filled(&table.numbers, sizeof table.numbers);
    filled(table.rules, table.numbers * sizeof *table.rules);
    size_t length = filled(bytes, sizeof bytes);
    bool library = words[1][0] == 'l';
    if (words[2][0] == 'l')
        return (int)list(words[1][0], length);
    if (words[2][0] == 'r')
        return (int)receive(library, length);
    uint64_t written;
    return (library ? crashlog_normalise : plain_normalise)(bytes, length, out, sizeof out, &written);
}
