/* mmap's flags are beyond C99; its name is asked for here and nowhere else. */
#define _DEFAULT_SOURCE
#include "expect.h"

#include <stdio.h>
#include <stdlib.h>
#include <string.h>
#include <sys/mman.h>
#include <unistd.h>

static unsigned long met_count;
static unsigned long failed_count;
static uint32_t copy[20000];

void expect(int met, const char *what, const char *file, int line)
{
    if (met) {
        met_count++;
    } else {
        failed_count++;
        printf("%s:%d: not met: %s\n", file, line, what);
    }
}

int report(const char *name)
{
    printf("%s: %lu met, %lu not met\n", name, met_count, failed_count);
    return failed_count == 0 && met_count > 0 ? EXIT_SUCCESS : EXIT_FAILURE;
}

uint32_t *lend(size_t len, uint32_t fill)
{
    size_t page = (size_t)sysconf(_SC_PAGESIZE);
    size_t bytes = len * sizeof(uint32_t);
    size_t whole = (bytes + page - 1) / page * page;
    char *start = mmap(NULL, whole + page, PROT_READ | PROT_WRITE, MAP_PRIVATE | MAP_ANONYMOUS, -1, 0);
    if (start == MAP_FAILED || mprotect(start + whole, page, PROT_NONE) != 0) {
        perror("lend");
        exit(EXIT_FAILURE);
    }
    uint32_t *words = (uint32_t *)(void *)(start + (whole - bytes));
    for (size_t i = 0; i < len; i++) {
        words[i] = fill;
    }
    return words;
}

size_t arena_len(uint32_t n, uint32_t v)
{
    return FOAMCORBEL_WORDS((size_t)n, (size_t)v);
}

uint32_t *arena(uint32_t n, uint32_t v)
{
    uint32_t *words = lend(arena_len(n, v), 7);
    EXPECT(foamcorbel_format(words, arena_len(n, v), n, v) == FOAMCORBEL_ACCEPTED);
    return words;
}

void keep(const uint32_t *words, size_t len)
{
    if (len > 0) {
        memcpy(copy, words, len * sizeof(uint32_t));
    }
}

int kept(const uint32_t *words, size_t len)
{
    return len == 0 || memcmp(copy, words, len * sizeof(uint32_t)) == 0;
}
