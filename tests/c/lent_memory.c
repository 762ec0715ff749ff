/* Lent memory, by pages. */
#define _DEFAULT_SOURCE
#include "lent_memory.h"

#include <stdio.h>
#include <stdlib.h>
#include <string.h>
#include <sys/mman.h>
#include <unistd.h>

static uint8_t *pages_between_guards(size_t bytes, size_t *room)
{
    size_t page = (size_t)sysconf(_SC_PAGESIZE);
    *room = (bytes + page - 1) / page * page;
    uint8_t *at = mmap(NULL, *room + 2 * page, PROT_READ | PROT_WRITE, MAP_PRIVATE | MAP_ANONYMOUS, -1, 0);
    if (at == MAP_FAILED || mprotect(at, page, PROT_NONE) != 0 || mprotect(at + page + *room, page, PROT_NONE) != 0) {
        perror("mmap");
        exit(2);
    }
    return at + page;
}

uint8_t *lent_to_the_end(size_t bytes)
{
    size_t room;
    uint8_t *at = pages_between_guards(bytes, &room);
    return at + room - bytes;
}

uint8_t *lent_from_the_start(size_t bytes)
{
    size_t room;
    return pages_between_guards(bytes, &room);
}

static void protect(const void *lent, size_t bytes, int protection)
{
    size_t page = (size_t)sysconf(_SC_PAGESIZE);
    uintptr_t start = (uintptr_t)lent / page * page;
    if (mprotect((void *)start, (uintptr_t)lent + bytes - start, protection) != 0) {
        perror("mprotect");
        exit(2);
    }
}

void allow_writes(const void *lent, size_t bytes, bool allowed)
{
    protect(lent, bytes, allowed ? PROT_READ | PROT_WRITE : PROT_READ);
}

void forbid_touches(const void *lent, size_t bytes)
{
    protect(lent, bytes, PROT_NONE);
}

struct copies room_for_copies(size_t most)
{
    struct copies c = {lent_to_the_end(most) + most, most};
    return c;
}

uint8_t *lend_copy(const struct copies *c, const void *from, size_t bytes)
{
    uint8_t *at = c->end - bytes;
    allow_writes(c->end - c->most, c->most, true);
    memcpy(at, from, bytes);
    allow_writes(c->end - c->most, c->most, false);
    return at;
}
