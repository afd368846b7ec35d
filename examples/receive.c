/*
 * Lists the records of a region while it comes in, from a file, from standard input or over a serial line: a row for each
 * record of the top level once all of it is there, then what the finish tells, and what ended the region.
 *
 *     tools/x86 cc -I include -o receive examples/receive.c target/staticlib/libcrashlog.a
 *     tools/x86 run ./receive [-s SPEED] [-t SECONDS] [FILE]
 *
 * FILE may be a terminal, /dev/ttyS0 say. It is set to SPEED (115200) bits a second, 8 bits, no parity and 1 stop bit, and to
 * hand over every byte as it is, and is set back at the end. Without FILE standard input is read. The region ends with the
 * file, when the line hangs up, when nothing has come for SECONDS, or at an interrupt (control C).
 */
#define _DEFAULT_SOURCE /* for what POSIX has beside C, and cfmakeraw */

#include <errno.h>
#include <fcntl.h>
#include <signal.h>
#include <stdio.h>
#include <stdlib.h>
#include <string.h>
#include <sys/select.h>
#include <termios.h>
#include <unistd.h>

#include "crashlog.h"
#include "rows.h"

static crashlog_receiver receiver;
static uint32_t spans[CRASHLOG_RECEIVER_SPAN_WORDS];

static const struct {
    long speed;
    speed_t code;
} speeds[] = {
    {1200, B1200},   {2400, B2400},     {4800, B4800},     {9600, B9600},     {19200, B19200},
    {38400, B38400}, {57600, B57600},   {115200, B115200}, {230400, B230400}, {460800, B460800},
    {921600, B921600},
};

static speed_t code_of(long speed)
{
    for (size_t i = 0; i < sizeof speeds / sizeof speeds[0]; i++)
        if (speeds[i].speed == speed)
            return speeds[i].code;
    return B0;
}

/* An interrupt comes through while a piece is waited for, and at no other time. */
static volatile sig_atomic_t interrupted;
static sigset_t while_waiting;

static void note_interrupt(int number)
{
    (void)number;
    interrupted = 1;
}

static void catch_interrupts(void)
{
    struct sigaction action = {.sa_handler = note_interrupt};
    sigset_t interrupts;

    sigemptyset(&interrupts);
    sigaddset(&interrupts, SIGINT);
    sigprocmask(SIG_BLOCK, &interrupts, &while_waiting);
    sigdelset(&while_waiting, SIGINT);
    sigaction(SIGINT, &action, NULL);
}

/* Sets a terminal up as a line. The settings that it had are put there. */
static int set_up(int line, speed_t speed, struct termios *before)
{
    struct termios raw;

    if (tcgetattr(line, before) != 0)
        return -1;
    raw = *before;
    cfmakeraw(&raw);
    raw.c_cflag &= ~(tcflag_t)CSTOPB;
    raw.c_cflag |= CLOCAL | CREAD;
    raw.c_cc[VMIN] = 1;
    raw.c_cc[VTIME] = 0;
    cfsetispeed(&raw, speed);
    cfsetospeed(&raw, speed);
    return tcsetattr(line, TCSANOW, &raw);
}

/* Reads the next burst, as it comes, of at most the bytes that a receiver takes. Gives NULL, or else what ends the region. */
static const char *next_piece(int line, long seconds, uint8_t *piece, uint64_t *length)
{
    for (;;) {
        struct timespec most = {.tv_sec = seconds};
        fd_set readable;

        FD_ZERO(&readable);
        FD_SET(line, &readable);
        int found = pselect(line + 1, &readable, NULL, NULL, seconds > 0 ? &most : NULL, &while_waiting);
        if (interrupted)
            return "interrupt";
        if (found == 0)
            return "quiet line";
        long got = found > 0 ? read(line, piece, CRASHLOG_MOST_PIECE) : -1;
        if (got > 0) {
            *length = (uint64_t)got;
            return NULL;
        }
        if (got == 0 || errno == EIO) /* a line that hangs up may tell either */
            return "end of file";
        if (errno != EINTR && errno != EAGAIN)
            return strerror(errno);
    }
}

static const char *words_of_answer(uint32_t answer)
{
    switch (answer) {
    case CRASHLOG_DONE: return "records were found";
    case CRASHLOG_TOO_LONG: return "the region is too long";
    case CRASHLOG_BAD_HEADER: return "the first header is cut short";
    case CRASHLOG_BAD_TYPE: return "the first header is of no known type";
    case CRASHLOG_EMPTY_REGION: return "no record was found";
    default: return "unknown";
    }
}

/* Feeds the receiver until the region ends, and prints the rows. Gives the last answer. */
static uint32_t receive(int line, long seconds)
{
    uint8_t piece[CRASHLOG_MOST_PIECE];
    uint64_t length = 0, rows, all = 0;
    const char *end = NULL;
    crashlog_listing told = {0};
    uint32_t answer = crashlog_receiver_start(&receiver, NULL, 0);

    print_heading();
    fflush(stdout);
    while (answer == CRASHLOG_DONE && (end = next_piece(line, seconds, piece, &length)) == NULL) {
        answer = crashlog_receiver_feed(&receiver, piece, length, spans, CRASHLOG_RECEIVER_SPAN_WORDS, &rows);
        print_rows(spans, rows);
        fflush(stdout);
        all += rows;
    }
    if (answer == CRASHLOG_DONE) {
        answer = crashlog_receiver_finish(&receiver, spans, CRASHLOG_RECEIVER_SPAN_WORDS, &told);
        print_rows(spans, told.rows);
        all += told.rows;
    }
    print_told(answer, all, &told);
    print_stop(&told);
    printf("answer: %s\n", words_of_answer(answer));
    printf("end: %s\n", end != NULL ? end : "no more is taken");
    return answer;
}

/* Opens a file. A line may have no carrier: its opening must not wait for one. */
static int opened(const char *name)
{
    int file = open(name, O_RDONLY | O_NOCTTY | O_NONBLOCK);

    if (file < 0 || isatty(file))
        return file;
    close(file);
    return open(name, O_RDONLY);
}

int main(int argc, char **argv)
{
    speed_t speed = B115200;
    long seconds = 0; /* without end */
    int option, line = STDIN_FILENO;
    struct termios before;

    while ((option = getopt(argc, argv, "s:t:")) != -1) {
        if (option == 's')
            speed = code_of(strtol(optarg, NULL, 10));
        else if (option == 't')
            seconds = strtol(optarg, NULL, 10);
        else
            speed = B0;
    }
    if (speed == B0 || seconds < 0 || optind + 1 < argc) {
        fprintf(stderr, "usage: %s [-s SPEED] [-t SECONDS] [FILE]\n", argv[0]);
        return 2;
    }
    if (optind < argc && (line = opened(argv[optind])) < 0) {
        perror(argv[optind]);
        return 2;
    }
    int is_line = isatty(line);
    if (is_line && set_up(line, speed, &before) != 0) {
        perror("the line can't be set up");
        return 2;
    }
    catch_interrupts();
    uint32_t answer = receive(line, seconds);
    if (is_line)
        tcsetattr(line, TCSANOW, &before);
    return answer == CRASHLOG_TOO_LONG;
}
