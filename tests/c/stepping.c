#include "stepping.h"

#include <string.h>

const foamcorbel_difference unwritten = { UNWRITTEN, UNWRITTEN, UNWRITTEN, UNWRITTEN };

uint32_t *words;
size_t len;

foamcorbel_difference only_first(uint32_t key, uint32_t value)
{
    const foamcorbel_difference difference = { 1, key, value, 0 };
    return difference;
}

foamcorbel_difference only_second(uint32_t key, uint32_t value)
{
    const foamcorbel_difference difference = { 2, key, 0, value };
    return difference;
}

foamcorbel_difference in_both(uint32_t key, uint32_t first_value, uint32_t second_value)
{
    const foamcorbel_difference difference = { 3, key, first_value, second_value };
    return difference;
}

foamcorbel_differences between(uint32_t first, uint32_t second)
{
    return foamcorbel_differences_between(first, second);
}

foamcorbel_differences above(uint32_t first, uint32_t second, uint32_t key)
{
    foamcorbel_differences at = between(first, second);
    at.given = 1;
    at.given_key = key;
    return at;
}

int steps(foamcorbel_differences at, uint32_t result, foamcorbel_difference left)
{
    const foamcorbel_differences before = at;
    foamcorbel_difference difference = unwritten;
    keep(words, len);
    return foamcorbel_step_difference(words, len, &at, &difference) == result
        && memcmp(&difference, &left, sizeof left) == 0
        && memcmp(&at, &before, sizeof before) == 0 && kept(words, len);
}

int gives(foamcorbel_differences at, foamcorbel_difference difference)
{
    return steps(at, FOAMCORBEL_ACCEPTED, difference);
}

int refused(foamcorbel_differences at, uint32_t refusal)
{
    return steps(at, refusal, unwritten);
}

int next_is(foamcorbel_differences *at, foamcorbel_difference expected)
{
    foamcorbel_difference difference = unwritten;
    return foamcorbel_next_difference(words, len, at, &difference) == FOAMCORBEL_ACCEPTED
        && memcmp(&difference, &expected, sizeof expected) == 0
        && at->given == 1 && at->given_key == expected.key;
}

int next_refused(foamcorbel_differences at, uint32_t refusal)
{
    const foamcorbel_differences before = at;
    foamcorbel_difference difference = unwritten;
    return foamcorbel_next_difference(words, len, &at, &difference) == refusal
        && memcmp(&difference, &unwritten, sizeof unwritten) == 0
        && memcmp(&at, &before, sizeof before) == 0;
}

void start(uint32_t nodes, uint32_t slots)
{
    len = arena_len(nodes, slots);
    words = arena(nodes, slots);
}

uint32_t new_version(void)
{
    uint32_t slot = UNWRITTEN;
    EXPECT(foamcorbel_new_version(words, len, &slot) == FOAMCORBEL_ACCEPTED);
    return slot;
}

uint32_t hold(uint32_t slot)
{
    uint32_t second = UNWRITTEN;
    EXPECT(foamcorbel_hold(words, len, slot, &second) == FOAMCORBEL_ACCEPTED);
    return second;
}

void release(uint32_t slot)
{
    EXPECT(foamcorbel_release(words, len, slot) == FOAMCORBEL_ACCEPTED);
}

uint32_t set(uint32_t slot, uint32_t key, uint32_t value)
{
    uint32_t next = UNWRITTEN;
    EXPECT(foamcorbel_insert(words, len, slot, key, value, &next) == FOAMCORBEL_ACCEPTED);
    release(slot);
    return next;
}

uint32_t cut(uint32_t slot, uint32_t key)
{
    uint32_t next = UNWRITTEN;
    EXPECT(foamcorbel_remove(words, len, slot, key, &next) == FOAMCORBEL_ACCEPTED);
    release(slot);
    return next;
}
