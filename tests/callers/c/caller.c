/*
 * Calls the static library with inputs drawn from a seed, and stops where it does not do as the
 * second program does.
 *
 *     c-caller calls|seconds COUNT SEED
 *
 * Each session of calls has a seed of its own, the first one SEED and every later one the next
 * number, so that a session can be had again by itself.
 */
#define _POSIX_C_SOURCE 200809L

#include <inttypes.h>
#include <signal.h>
#include <stdio.h>
#include <stdlib.h>
#include <string.h>
#include <time.h>
#include <unistd.h>

#include "session.h"

#define SESSION_CALLS 300

/* Said where a call crashes, so it is put together before. */
static char last_words[200];
static size_t last_words_length;

static void say_last_words(int signal_number)
{
    ssize_t written = write(STDERR_FILENO, last_words, last_words_length);
    (void)written;
    signal(signal_number, SIG_DFL);
    raise(signal_number);
}

static void listen_for_crashes(void)
{
    const int crashes[] = {SIGSEGV, SIGBUS, SIGABRT, SIGILL, SIGFPE};
    for (size_t i = 0; i < sizeof crashes / sizeof *crashes; i++)
        signal(crashes[i], say_last_words);
}

static bool number(const char *text, uint64_t *value)
{
    char *end;
    *value = strtoull(text, &end, 10);
    return *text >= '0' && *text <= '9' && *end == '\0';
}

static uint64_t milliseconds(void)
{
    struct timespec now;
    clock_gettime(CLOCK_MONOTONIC, &now);
    return (uint64_t)now.tv_sec * 1000 + (uint64_t)now.tv_nsec / 1000000;
}

int main(int argc, char **argv)
{
    uint64_t count, seed;
    bool timed = argc == 4 && strcmp(argv[1], "seconds") == 0;
    bool counted = argc == 4 && strcmp(argv[1], "calls") == 0;
    if ((!timed && !counted) || !number(argv[2], &count) || !number(argv[3], &seed)) {
        fprintf(stderr, "usage: %s calls|seconds COUNT SEED\n", argv[0]);
        return 2;
    }
    listen_for_crashes();
    uint64_t end = milliseconds() + 1000 * count;
    uint64_t calls = 0;
    for (uint64_t next = seed; timed ? milliseconds() < end : calls < count; next++) {
        last_words_length =
            (size_t)snprintf(last_words, sizeof last_words,
                             "%.100s: stopped in the session of seed %" PRIu64 "\n", argv[0], next);
        struct source source = source_of_seed(next);
        uint64_t left = counted ? count - calls : SESSION_CALLS;
        calls += session(&source, left < SESSION_CALLS ? left : SESSION_CALLS);
    }
    printf("%s: %" PRIu64 " calls, seed %" PRIu64 "\n", argv[0], calls, seed);
    return 0;
}
