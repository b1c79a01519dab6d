/* How much stack the calls take: they run on a stack of this program's, which is painted before and
 * looked at after. */
#define _DEFAULT_SOURCE
#include "expect.h"

#include <pthread.h>
#include <stdio.h>
#include <stdlib.h>
#include <sys/mman.h>

#define STACK (256 * 1024)
#define PAINT 0xa5

/* An arena of this many nodes, and the most bytes for its soundness test and for any call on it.
 * The last are what include/foamcorbel.h promises; the first are the scratch of the arena's size
 * and little more, so that they tell whether a small arena pays for a large one. */
typedef struct {
    uint32_t nodes;
    size_t test;
    size_t call;
} limit;

static const limit limits[] = {
    {15, 2 * 1024, 16 * 1024},
    {63, 2 * 1024, 16 * 1024},
    {255, 6 * 1024, 16 * 1024},
    {FOAMCORBEL_MAX_NODES, 40 * 1024, 48 * 1024},
};

static uint32_t words[FOAMCORBEL_WORDS(FOAMCORBEL_MAX_NODES, FOAMCORBEL_MAX_SLOTS)];
static uint32_t nodes;
static size_t len;

/* Nothing, for what a thread takes by itself. */
static void *nothing(void *unused)
{
    return unused;
}

/* The calls that read a version of which this key is the greatest. */
static void read_all(uint32_t slot, uint32_t key)
{
    foamcorbel_walk walk = foamcorbel_walk_over(slot);
    foamcorbel_entry entry = {0, 0};
    uint32_t word = 0;
    EXPECT(foamcorbel_get(words, len, slot, key, &word) == FOAMCORBEL_ACCEPTED && word == key);
    EXPECT(foamcorbel_size(words, len, slot, &word) == FOAMCORBEL_ACCEPTED && word == key + 1);
    EXPECT(foamcorbel_free_nodes(words, len, &word) == FOAMCORBEL_ACCEPTED && word < nodes);
    EXPECT(foamcorbel_first(words, len, slot, &entry) == FOAMCORBEL_ACCEPTED && entry.key == 0);
    EXPECT(foamcorbel_last(words, len, slot, &entry) == FOAMCORBEL_ACCEPTED && entry.key == key);
    EXPECT(foamcorbel_step_front(words, len, &walk, &entry) == FOAMCORBEL_ACCEPTED && entry.key == 0);
    EXPECT(foamcorbel_step_back(words, len, &walk, &entry) == FOAMCORBEL_ACCEPTED && entry.key == key);
    EXPECT(foamcorbel_rescale_mark(words, len, slot, &word) == FOAMCORBEL_ACCEPTED && word == 0);
}

/* Compares the version with another that lacks this key alone, and gives the other up. */
static void compare_and_release(uint32_t slot, uint32_t other, uint32_t key)
{
    foamcorbel_differences at = foamcorbel_differences_between(slot, other);
    foamcorbel_difference difference = {0, 0, 0, 0};
    int32_t sign = 0;
    uint32_t equal = 1;
    EXPECT(foamcorbel_compare(words, len, slot, other, &sign) == FOAMCORBEL_ACCEPTED && sign != 0);
    EXPECT(foamcorbel_equal(words, len, slot, other, &equal) == FOAMCORBEL_ACCEPTED && equal == 0);
    EXPECT(foamcorbel_next_difference(words, len, &at, &difference) == FOAMCORBEL_ACCEPTED);
    EXPECT(difference.kind == FOAMCORBEL_ONLY_FIRST && difference.key == key);
    EXPECT(foamcorbel_next_difference(words, len, &at, &difference) == FOAMCORBEL_END);
    EXPECT(foamcorbel_release(words, len, other) == FOAMCORBEL_ACCEPTED);
}

/* Fills an arena until an insertion is refused, and makes every other call at each size. */
static void *history(void *unused)
{
    uint32_t slot = 0;
    uint32_t next = 0;
    uint32_t key = 0;
    EXPECT(foamcorbel_format(words, len, nodes, FOAMCORBEL_MAX_SLOTS) == FOAMCORBEL_ACCEPTED);
    EXPECT(foamcorbel_new_version(words, len, &slot) == FOAMCORBEL_ACCEPTED);
    while (foamcorbel_insert(words, len, slot, key, key, &next) == FOAMCORBEL_ACCEPTED) {
        compare_and_release(next, slot, key);
        EXPECT(foamcorbel_hold(words, len, next, &slot) == FOAMCORBEL_ACCEPTED);
        EXPECT(foamcorbel_release(words, len, next) == FOAMCORBEL_ACCEPTED);
        read_all(slot, key);
        if (foamcorbel_remove(words, len, slot, key / 2, &next) == FOAMCORBEL_ACCEPTED) {
            compare_and_release(slot, next, key / 2);
        }
        key++;
    }
    EXPECT(key > nodes / 2);
    return unused;
}

/* The soundness test of the arena that the history filled. */
static void *test(void *unused)
{
    uint32_t sound = 0;
    EXPECT(foamcorbel_sound(words, len, &sound) == FOAMCORBEL_ACCEPTED && sound == 1);
    return unused;
}

/* How far a thread that runs this goes down its stack. */
static size_t taken(void *(*run)(void *))
{
    unsigned char *stack = mmap(NULL, STACK, PROT_READ | PROT_WRITE, MAP_PRIVATE | MAP_ANONYMOUS, -1, 0);
    size_t untouched = 0;
    pthread_attr_t attributes;
    pthread_t thread;
    if (stack == MAP_FAILED) {
        perror("stack");
        exit(EXIT_FAILURE);
    }
    for (size_t i = 0; i < STACK; i++) {
        stack[i] = PAINT;
    }
    EXPECT(pthread_attr_init(&attributes) == 0 && pthread_attr_setstack(&attributes, stack, STACK) == 0);
    EXPECT(pthread_create(&thread, &attributes, run, NULL) == 0 && pthread_join(thread, NULL) == 0);
    while (untouched < STACK && stack[untouched] == PAINT) {
        untouched++;
    }
    EXPECT(munmap(stack, STACK) == 0);
    return STACK - untouched;
}

int main(void)
{
    size_t itself = taken(nothing);
    for (size_t i = 0; i < sizeof limits / sizeof *limits; i++) {
        size_t calls = 0;
        size_t tested = 0;
        nodes = limits[i].nodes;
        len = FOAMCORBEL_WORDS(nodes, FOAMCORBEL_MAX_SLOTS);
        calls = taken(history) - itself;
        tested = taken(test) - itself;
        printf("stack: at %lu nodes the calls took %lu bytes, the test alone %lu\n", (unsigned long)nodes,
               (unsigned long)calls, (unsigned long)tested);
        EXPECT(calls < limits[i].call && tested < limits[i].test && tested <= calls);
    }
    return report("stack");
}
