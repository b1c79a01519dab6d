/* What the tests of the difference step share: the words they step on, versions made by edits, and
 * what a step is expected to do. */
#ifndef STEPPING_H
#define STEPPING_H

#include "expect.h"

/* What stands in a slot number or a difference that no call has written. */
#define UNWRITTEN 3141592653u

extern const foamcorbel_difference unwritten;

extern uint32_t *words;
extern size_t len;

/* The words are those of an arena without a version. */
void start(uint32_t nodes, uint32_t slots);

uint32_t new_version(void);
uint32_t hold(uint32_t slot);
void release(uint32_t slot);

/* The version of the slot with the key set, in the place of that version. */
uint32_t set(uint32_t slot, uint32_t key, uint32_t value);

/* The same without the key. */
uint32_t cut(uint32_t slot, uint32_t key);

foamcorbel_difference only_first(uint32_t key, uint32_t value);
foamcorbel_difference only_second(uint32_t key, uint32_t value);
foamcorbel_difference in_both(uint32_t key, uint32_t first_value, uint32_t second_value);

/* No key was given yet. */
foamcorbel_differences between(uint32_t first, uint32_t second);

/* This key was given last. */
foamcorbel_differences above(uint32_t first, uint32_t second, uint32_t key);

/* The step ends so and leaves this difference. It writes no word, nor what the caller keeps. */
int steps(foamcorbel_differences at, uint32_t result, foamcorbel_difference left);
int gives(foamcorbel_differences at, foamcorbel_difference difference);
int refused(foamcorbel_differences at, uint32_t refusal);

/* The next difference is this one, and its key is kept. */
int next_is(foamcorbel_differences *at, foamcorbel_difference expected);

/* The next step is refused, writes no difference, and leaves what is kept. */
int next_refused(foamcorbel_differences at, uint32_t refusal);

#endif
