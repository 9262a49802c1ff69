#define _DEFAULT_SOURCE

#include "guarded.h"

#include <stdio.h>
#include <stdlib.h>
#include <string.h>
#include <sys/mman.h>

#define GUARD 0xa5

/* The archive is for x86-64 alone, where a page has so many bytes. */
#define PAGE GUARDED_ROOM

struct guarded guarded_make(void)
{
    uint8_t *pages = mmap(NULL, 3 * PAGE, PROT_NONE, MAP_PRIVATE | MAP_ANONYMOUS, -1, 0);
    if (pages == MAP_FAILED || mprotect(pages + PAGE, PAGE, PROT_READ | PROT_WRITE) != 0) {
        perror("guarded_make");
        exit(1);
    }
    return (struct guarded){.room = pages + PAGE, .at = pages + PAGE};
}

void *guarded_lend(struct guarded *guarded, const void *bytes, size_t length, bool at_end)
{
    memset(guarded->room, GUARD, GUARDED_ROOM);
    guarded->at = guarded->room + (at_end ? GUARDED_ROOM - length : 0);
    guarded->length = length;
    memcpy(guarded->at, bytes, length);
    return guarded->at;
}

static bool all_guards(const uint8_t *bytes, size_t length)
{
    return length == 0 || (bytes[0] == GUARD && memcmp(bytes, bytes + 1, length - 1) == 0);
}

bool guarded_intact(const struct guarded *guarded)
{
    size_t before = (size_t)(guarded->at - guarded->room);
    return all_guards(guarded->room, before) &&
           all_guards(guarded->at + guarded->length, GUARDED_ROOM - before - guarded->length);
}
