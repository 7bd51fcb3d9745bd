/* The pages of sanitize.c: some that can be used, between some that cannot. */
#define _DEFAULT_SOURCE
#include "sanitize.h"

#include <stdio.h>
#include <stdlib.h>
#include <sys/mman.h>
#include <unistd.h>

/* The bytes of inaccessible pages on either side. A stray index may be off by more than one. */
enum { GUARD = 1 << 20 };

void give_up(const char *what)
{
    perror(what);
    exit(TROUBLE);
}

void allow(struct guarded pages, int protection)
{
    if (mprotect(pages.first, pages.size, protection) != 0) {
        give_up("mprotect");
    }
}

size_t whole_pages(size_t least)
{
    size_t page = (size_t)sysconf(_SC_PAGESIZE);
    return (least + page - 1) / page * page;
}

struct guarded map_guarded(size_t least)
{
    struct guarded pages = {NULL, whole_pages(least)};
    uint8_t *all = mmap(NULL, pages.size + 2 * (size_t)GUARD, PROT_NONE, MAP_PRIVATE | MAP_ANONYMOUS, -1, 0);
    if (all == MAP_FAILED) {
        give_up("mmap");
    }
    pages.first = all + GUARD;
    allow(pages, PROT_READ | PROT_WRITE);
    return pages;
}

void unmap_guarded(struct guarded pages)
{
    if (munmap(pages.first - GUARD, pages.size + 2 * (size_t)GUARD) != 0) {
        give_up("munmap");
    }
}
