/* Each function makes one call on the words at hand, and writes its name and its answer on a line: "R" and the number of a refusal, and "changed" where a refused
 * or a reading call has changed a word. */
#ifndef LINES_H
#define LINES_H

#include "foamcorbel.h"

/* So many words, each `fill`, are at hand from here on. */
void at_hand(size_t len, uint32_t fill);

void format(uint32_t n, uint32_t v);
void new_version(void);
void hold(uint32_t s);
void release(uint32_t s);
void size(uint32_t s);
void free_nodes(void);
void get(uint32_t s, uint32_t key);
void first(uint32_t s);
void last(uint32_t s);
void insert(uint32_t s, uint32_t key, uint32_t value);
/* Not called remove, which is a function of C. */
void cut(uint32_t s, uint32_t key);
void compare(uint32_t s, uint32_t t);
void equal(uint32_t s, uint32_t t);
void step_front(foamcorbel_walk walk);
void step_back(foamcorbel_walk walk);
/* Its answer is the four words of the difference: kind, key, first value, second value. */
void step_difference(foamcorbel_differences at);
void rescale_mark(uint32_t s);
void sound(void);

#endif
