/* Tables with untouchable pages on both sides: an access one element off ends the program. Only
 * the page on the side the table lies against is that near, so a call is tried at the end of its
 * pages, for what lies behind a table, and at their start, for what lies before it. */
#ifndef FENCE_H
#define FENCE_H

#include <stdio.h>
#include <stdlib.h>
#include <sys/mman.h>
#include <unistd.h>

/* A table of some bytes between two pages that may not be touched. */
typedef struct {
    void *first;      /* its first element */
    char *whole;      /* the pages, with the two */
    size_t size;      /* of the pages, without the two */
} Fenced;

static inline Fenced fence(size_t bytes, int at_end)
{
    size_t page = (size_t)sysconf(_SC_PAGESIZE);
    Fenced f;
    f.size = (bytes / page + 1) * page;
    f.whole = mmap(NULL, f.size + 2 * page, PROT_NONE, MAP_PRIVATE | MAP_ANONYMOUS, -1, 0);
    if (f.whole == MAP_FAILED || mprotect(f.whole + page, f.size, PROT_READ | PROT_WRITE) != 0) {
        perror("no pages for a table");
        exit(2);
    }
    f.first = f.whole + page + (at_end ? f.size - bytes : 0);
    return f;
}

/* For the tables that the library only reads: a write ends the program. */
static inline void only_read(Fenced f)
{
    size_t page = (size_t)sysconf(_SC_PAGESIZE);
    if (mprotect(f.whole + page, f.size, PROT_READ) != 0) {
        perror("pages of a table cannot be shut");
        exit(2);
    }
}

static inline void unfence(Fenced f)
{
    munmap(f.whole, f.size + 2 * (size_t)sysconf(_SC_PAGESIZE));
}

#endif
