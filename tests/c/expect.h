/* What the tests share: counted expectations, and lent words that end where no page is, so that one word too far is a fault and not a chance hit. */
#ifndef EXPECT_H
#define EXPECT_H

#include "foamcorbel.h"

/* Counts an expectation, and says where it was not met. */
#define EXPECT(what) expect((what) != 0, #what, __FILE__, __LINE__)
void expect(int met, const char *what, const char *file, int line);

/* Writes how many expectations were met, and gives the program's exit status. */
int report(const char *name);

/* Words that are each `fill`, right below a page that cannot be touched. They are never given back. */
uint32_t *lend(size_t len, uint32_t fill);

/* A formatted arena of n nodes and v slots, on lent words. */
uint32_t *arena(uint32_t n, uint32_t v);
size_t arena_len(uint32_t n, uint32_t v);

/* The words are kept by `keep`, and `kept` says whether they are still the same. One set of words at a time. */
void keep(const uint32_t *words, size_t len);
int kept(const uint32_t *words, size_t len);

#endif
