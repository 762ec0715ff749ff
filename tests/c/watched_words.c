/* Watched words: the fault that a write to a read-only page draws is where the page is noted. */
#define _DEFAULT_SOURCE
#include "watched_words.h"

#include <setjmp.h>
#include <signal.h>
#include <stdio.h>
#include <stdlib.h>
#include <string.h>
#include <sys/mman.h>
#include <unistd.h>

enum { ROOMS_MOST = 8 };

static struct watched *rooms[ROOMS_MOST];
static int room_count;
static sigjmp_buf stray;
static volatile sig_atomic_t is_running;

/* ---- faults ---- */

static void give_up(const char *message)
{
    if (write(STDERR_FILENO, message, strlen(message)) < 0)
        _exit(4);
    _exit(3);
}

static uint8_t *page_at(const struct watched *w, size_t page) { return w->pages + page * PAGE_BYTES; }

static void note(struct watched *w, size_t page)
{
    if (w->noted < NOTED_MOST) {
        memcpy(w->before[w->noted], page_at(w, page), PAGE_BYTES);
        w->page[w->noted++] = page;
    } else {
        w->unnoted++;
    }
    if (mprotect(page_at(w, page), PAGE_BYTES, PROT_READ | PROT_WRITE) != 0)
        give_up("mprotect failed in a fault\n");
}

/* The pages of watched words can always be read, so a fault there is a write. */
static void touched(int signal_number, siginfo_t *info, void *context)
{
    uintptr_t at = (uintptr_t)info->si_addr;
    (void)signal_number;
    (void)context;
    for (int i = 0; i < room_count; i++) {
        uintptr_t pages = (uintptr_t)rooms[i]->pages;
        if (at >= pages && at - pages < rooms[i]->page_count * PAGE_BYTES) {
            note(rooms[i], (at - pages) / PAGE_BYTES);
            return;
        }
    }
    if (!is_running)
        give_up("a fault outside the calls that are tested\n");
    siglongjmp(stray, 1);
}

static void watch_faults(void)
{
    struct sigaction action;
    memset(&action, 0, sizeof action);
    action.sa_sigaction = touched;
    action.sa_flags = SA_SIGINFO | SA_NODEFER; /* the handler may be left by a jump */
    if (sysconf(_SC_PAGESIZE) != PAGE_BYTES || sigaction(SIGSEGV, &action, NULL) != 0 || sigaction(SIGBUS, &action, NULL) != 0)
        give_up("pages of another size, or no way to watch faults\n");
}

bool touches_lent_alone(void (*run)(void *), void *with)
{
    if (sigsetjmp(stray, 0) != 0) {
        is_running = 0;
        return false;
    }
    is_running = 1;
    run(with);
    is_running = 0;
    return true;
}

/* ---- words ---- */

void watched_room(struct watched *w, size_t words)
{
    size_t bytes = words * sizeof w->words[0];
    memset(w, 0, sizeof *w);
    w->room_bytes = (bytes + PAGE_BYTES - 1) / PAGE_BYTES * PAGE_BYTES;
    w->room = w->pages = lent_from_the_start(w->room_bytes);
    w->page_count = w->room_bytes / PAGE_BYTES;
    if (room_count == ROOMS_MOST)
        give_up("too many rooms\n");
    rooms[room_count++] = w;
    watch_faults();
}

void place_words(struct watched *w, size_t count, bool is_to_the_end, uint8_t fill)
{
    size_t bytes = count * sizeof w->words[0], used = (bytes + PAGE_BYTES - 1) / PAGE_BYTES * PAGE_BYTES;
    forbid_touches(w->pages, w->page_count * PAGE_BYTES);
    w->pages = is_to_the_end ? w->room + w->room_bytes - used : w->room;
    w->page_count = used / PAGE_BYTES;
    w->words = (int32_t *)(void *)(is_to_the_end ? w->room + w->room_bytes - bytes : w->room);
    w->noted = w->unnoted = 0;
    allow_writes(w->pages, used, true);
    memset(w->pages, fill, used);
}

void watch_writes(struct watched *w)
{
    allow_writes(w->pages, w->page_count * PAGE_BYTES, false);
    w->noted = w->unnoted = 0;
}

void forget_writes(struct watched *w)
{
    if (w->unnoted > 0)
        watch_writes(w);
    for (size_t i = 0; i < w->noted; i++)
        allow_writes(page_at(w, w->page[i]), PAGE_BYTES, false);
    w->noted = 0;
}

/* ---- comparisons ---- */

static bool page_kept(const uint8_t *page, const uint8_t *before, const uint8_t *first, const uint8_t *end)
{
    const uint8_t *page_end = page + PAGE_BYTES;
    if (first >= page_end || end <= page)
        return false;
    size_t head = first > page ? (size_t)(first - page) : 0, tail = end < page_end ? (size_t)(page_end - end) : 0;
    return memcmp(page, before, head) == 0 && memcmp(page_end - tail, before + PAGE_BYTES - tail, tail) == 0;
}

bool wrote_only(const struct watched *w, size_t from, size_t end)
{
    if (from == end)
        return w->noted == 0;
    for (size_t i = 0; i < w->noted; i++)
        if (!page_kept(page_at(w, w->page[i]), w->before[i], (const uint8_t *)(w->words + from),
                       (const uint8_t *)(w->words + end)))
            return false;
    return w->unnoted == 0;
}

bool same_pages(const struct watched *a, const struct watched *b)
{
    return memcmp(a->pages, b->pages, a->page_count * PAGE_BYTES) == 0;
}

static bool same_where_noted(const struct watched *noted, const struct watched *other)
{
    for (size_t i = 0; i < noted->noted; i++)
        if (memcmp(page_at(noted, noted->page[i]), page_at(other, noted->page[i]), PAGE_BYTES) != 0)
            return false;
    return noted->unnoted == 0;
}

bool same_noted(const struct watched *a, const struct watched *b)
{
    return same_where_noted(a, b) && same_where_noted(b, a);
}
