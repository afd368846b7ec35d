/*
 * Tries a program that reads a serial line, over a pseudo-terminal: starts it on one, waits until it has set the line up, and
 * sends it the bytes of a file in bursts. Once it has printed so many lines, hangs up, interrupts it, or leaves it quiet.
 * Prints what it prints, and ends with its status.
 *
 *     line hang-up|interrupt|quiet LINES FILE PROGRAM [ARG..]
 *
 * The program gets the name of the pseudo-terminal as its last argument.
 */
#define _XOPEN_SOURCE 700
#define _DEFAULT_SOURCE

#include <fcntl.h>
#include <signal.h>
#include <stdint.h>
#include <stdio.h>
#include <stdlib.h>
#include <string.h>
#include <sys/wait.h>
#include <termios.h>
#include <time.h>
#include <unistd.h>

#define MOST_SECONDS 60 /* in which all must be over */

static void stop(const char *why)
{
    perror(why);
    exit(2);
}

static void rest(void)
{
    nanosleep(&(struct timespec){.tv_nsec = 1000000}, NULL);
}

/* Starts a program whose output goes into a pipe. */
static pid_t start(char **words, int *output)
{
    int ends[2];

    if (pipe(ends) != 0)
        stop("pipe");
    pid_t program = fork();
    if (program < 0)
        stop("fork");
    if (program == 0) {
        dup2(ends[1], STDOUT_FILENO);
        close(ends[0]);
        close(ends[1]);
        execvp(words[0], words);
        stop(words[0]);
    }
    close(ends[1]);
    *output = ends[0];
    return program;
}

/* Waits until the line hands over single bytes. The settings are those that the program's end has. */
static void wait_until_raw(int line)
{
    struct termios settings;

    do {
        rest();
        if (tcgetattr(line, &settings) != 0)
            stop("tcgetattr");
    } while (settings.c_lflag & ICANON);
}

/* Sends a file in bursts, shorter and longer than what the program takes at a time. */
static void send(int line, const char *name)
{
    static const size_t bursts[] = {1, 3, 64, 65, 7, 130, 2, 200, 63, 8};
    uint8_t burst[200];
    FILE *file = fopen(name, "rb");

    if (file == NULL)
        stop(name);
    for (size_t turn = 0;; turn++) {
        size_t length = fread(burst, 1, bursts[turn % (sizeof bursts / sizeof bursts[0])], file);
        if (length == 0)
            break;
        for (size_t at = 0; at < length;) {
            long put = write(line, burst + at, length - at);
            if (put <= 0)
                stop("write");
            at += (size_t)put;
        }
        rest();
    }
    fclose(file);
}

/* Prints what the program prints: so many lines, or where it is -1 the rest. */
static void pass_on(int output, long lines)
{
    char letter;

    while (lines != 0 && read(output, &letter, 1) == 1) {
        putchar(letter);
        if (letter == '\n' && lines > 0)
            lines--;
    }
}

int main(int argc, char **argv)
{
    if (argc < 5) {
        fprintf(stderr, "usage: %s hang-up|interrupt|quiet LINES FILE PROGRAM [ARG..]\n", argv[0]);
        return 2;
    }
    int line = posix_openpt(O_RDWR | O_NOCTTY), output, status;
    if (line < 0 || grantpt(line) != 0 || unlockpt(line) != 0)
        stop("no pseudo-terminal");
    fcntl(line, F_SETFD, FD_CLOEXEC); /* the program has the other end alone, so that this one can hang up */
    char **words = calloc((size_t)argc, sizeof *words);
    if (words == NULL)
        stop("calloc");
    memcpy(words, argv + 4, (size_t)(argc - 4) * sizeof *words);
    words[argc - 4] = ptsname(line);

    alarm(MOST_SECONDS);
    pid_t program = start(words, &output);
    wait_until_raw(line);
    send(line, argv[3]);
    pass_on(output, strtol(argv[2], NULL, 10));
    if (strcmp(argv[1], "interrupt") == 0)
        kill(program, SIGINT);
    if (strcmp(argv[1], "hang-up") == 0)
        close(line);
    pass_on(output, -1);
    free(words);
    return waitpid(program, &status, 0) == program && WIFEXITED(status) ? WEXITSTATUS(status) : 2;
}
