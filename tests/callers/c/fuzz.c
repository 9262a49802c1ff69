/* The entry of libFuzzer: its input is drawn from as a seed is. */
#include <inttypes.h>
#include <stdio.h>
#include <stdlib.h>

#include "session.h"

int LLVMFuzzerInitialize(int *argc, char ***argv);
int LLVMFuzzerTestOneInput(const uint8_t *input, size_t length);

static uint64_t calls;

static void say_calls(void)
{
    printf("fuzz: %" PRIu64 " calls\n", calls);
}

int LLVMFuzzerInitialize(int *argc, char ***argv)
{
    (void)argc;
    (void)argv;
    return atexit(say_calls);
}

int LLVMFuzzerTestOneInput(const uint8_t *input, size_t length)
{
    struct source source = source_of_input(input, length);
    calls += session(&source, UINT64_MAX);
    return 0;
}
