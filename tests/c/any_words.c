/* Any words at all: random ones, and arenas with words changed at random. Every call returns, gives a number of the list, and writes only where it may. */
#include "expect.h"

#define MAX_LEN 400
#define WRITING 5
#define CALLS 17

static uint32_t seed = 20240229;

/* A linear congruential generator: its upper half. */
static uint32_t any(void)
{
    uint32_t upper;
    seed = seed * 1664525u + 1013904223u;
    upper = seed >> 16;
    seed = seed * 1664525u + 1013904223u;
    return upper << 16 | seed >> 16;
}

/* Numbers that are as often small or just beyond a limit as they are any. */
static uint32_t number(void)
{
    switch (any() % 4) {
    case 0:
        return any() % 4;
    case 1:
        return any() % 40;
    case 2:
        return 0u - any() % 4;
    default:
        return any();
    }
}

static foamcorbel_walk walk(void)
{
    foamcorbel_walk w;
    w.slot = number() % 8;
    w.start_kind = number();
    w.start_key = number();
    w.end_kind = number();
    w.end_key = number();
    w.front_given = number();
    w.front_key = number();
    w.back_given = number();
    w.back_key = number();
    return w;
}

static foamcorbel_differences differences(void)
{
    foamcorbel_differences at;
    at.first = number() % 8;
    at.second = number() % 8;
    at.given = number();
    at.given_key = number();
    return at;
}

/* The calls below WRITING may write words. */
static uint32_t call(unsigned which, uint32_t *words, size_t len)
{
    foamcorbel_walk w = walk();
    foamcorbel_differences at = differences();
    foamcorbel_difference difference;
    foamcorbel_entry entry;
    uint32_t value;
    int32_t sign;
    switch (which) {
    case 0: return foamcorbel_new_version(words, len, &value);
    case 1: return foamcorbel_hold(words, len, number(), &value);
    case 2: return foamcorbel_release(words, len, number());
    case 3: return foamcorbel_insert(words, len, number() % 8, number(), number(), &value);
    case 4: return foamcorbel_remove(words, len, number() % 8, number(), &value);
    case 5: return foamcorbel_size(words, len, number(), &value);
    case 6: return foamcorbel_free_nodes(words, len, &value);
    case 7: return foamcorbel_get(words, len, number() % 8, number(), &value);
    case 8: return foamcorbel_first(words, len, number(), &entry);
    case 9: return foamcorbel_last(words, len, number(), &entry);
    case 10: return foamcorbel_compare(words, len, number() % 8, number() % 8, &sign);
    case 11: return foamcorbel_equal(words, len, number() % 8, number() % 8, &value);
    case 12: return foamcorbel_step_front(words, len, &w, &entry);
    case 13: return foamcorbel_step_back(words, len, &w, &entry);
    case 14: return foamcorbel_rescale_mark(words, len, number(), &value);
    case 15: return foamcorbel_step_difference(words, len, &at, &difference);
    default: return foamcorbel_sound(words, len, &value);
    }
}

/* One call; a sound arena stays sound, and only words that are not sound are refused for that. */
static uint32_t try_one(uint32_t *words, size_t len)
{
    unsigned which = any() % CALLS;
    uint32_t before = 2, after = 2, result;
    EXPECT(foamcorbel_sound(words, len, &before) == FOAMCORBEL_ACCEPTED && before <= 1);
    keep(words, len);
    result = call(which, words, len);
    EXPECT(result <= FOAMCORBEL_END && result != FOAMCORBEL_BAD_SHAPE);
    EXPECT((result == FOAMCORBEL_UNSOUND) == (before == 0 && which != CALLS - 1));
    EXPECT((which < WRITING && result == FOAMCORBEL_ACCEPTED) || kept(words, len));
    EXPECT(foamcorbel_sound(words, len, &after) == FOAMCORBEL_ACCEPTED && after == before);
    return result;
}

/* Words that mean nothing. */
static void random_words(uint32_t *words)
{
    for (int round = 0; round < 4000; round++) {
        size_t len = any() % (MAX_LEN + 1);
        uint32_t *end = words + (MAX_LEN - len);
        for (size_t i = 0; i < len; i++) {
            end[i] = number();
        }
        try_one(end, len);
    }
}

/* A history on an arena; from time to time a word is changed, and later changed back. */
static unsigned long changed_words(uint32_t *words, size_t len)
{
    unsigned long accepted = 0;
    for (int round = 0; round < 20000; round++) {
        size_t at = any() % len;
        uint32_t old = words[at], sound;
        if (any() % 3 == 0) {
            words[at] = number();
        }
        foamcorbel_sound(words, len, &sound);
        accepted += try_one(words, len) == FOAMCORBEL_ACCEPTED;
        if (sound == 0) {
            words[at] = old;
        }
    }
    return accepted;
}

int main(void)
{
    random_words(lend(MAX_LEN, 0));
    EXPECT(changed_words(arena(40, 6), arena_len(40, 6)) > 2000);
    EXPECT(changed_words(arena(3, 2), arena_len(3, 2)) > 2000);
    return report("any_words");
}
