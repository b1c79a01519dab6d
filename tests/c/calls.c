/* Every function accepted, and refused in every way that it can be. Answers are read off
 * docs/RULES.md. */
#include "expect.h"

#include <string.h>

/* What stands in a value, entry or difference that no call has written. */
#define UNWRITTEN 3141592653u

/* The call is refused with that number, and writes neither a word nor what it would have given. */
#define REFUSES(refusal, call)                                        \
    do {                                                              \
        keep(words, len);                                             \
        value = UNWRITTEN;                                            \
        sign = -7;                                                    \
        entry.key = entry.value = UNWRITTEN;                          \
        difference = no_difference;                                   \
        EXPECT((call) == (refusal));                                  \
        EXPECT(value == UNWRITTEN && sign == -7);                     \
        EXPECT(entry.key == UNWRITTEN && entry.value == UNWRITTEN);   \
        EXPECT(difference_is(no_difference));                         \
        EXPECT(kept(words, len));                                     \
    } while (0)

/* The call is accepted. */
#define ACCEPTS(call) EXPECT((call) == FOAMCORBEL_ACCEPTED)

/* The call is accepted and gives the value. */
#define GIVES(expected, call)                                         \
    do {                                                              \
        value = UNWRITTEN;                                            \
        ACCEPTS(call);                                                \
        EXPECT(value == (expected));                                  \
    } while (0)

/* The call is accepted and gives the entry. */
#define GIVES_ENTRY(expected_key, expected_value, call)               \
    do {                                                              \
        entry.key = entry.value = UNWRITTEN;                          \
        ACCEPTS(call);                                                \
        EXPECT(entry.key == (expected_key) && entry.value == (expected_value)); \
    } while (0)

/* The call is accepted and gives the difference. */
#define GIVES_DIFFERENCE(kind, key, first_value, second_value, call)  \
    do {                                                              \
        const foamcorbel_difference expected = { kind, key, first_value, second_value }; \
        difference = no_difference;                                   \
        ACCEPTS(call);                                                \
        EXPECT(difference_is(expected));                              \
    } while (0)

static uint32_t value;
static int32_t sign;
static foamcorbel_entry entry;
static foamcorbel_difference difference;
static const foamcorbel_difference no_difference = { UNWRITTEN, UNWRITTEN, UNWRITTEN, UNWRITTEN };

static int difference_is(foamcorbel_difference expected)
{
    return memcmp(&difference, &expected, sizeof expected) == 0;
}

/* The first difference of two slots. */
static uint32_t step_difference(const uint32_t *words, size_t len, uint32_t first, uint32_t second)
{
    foamcorbel_differences at = foamcorbel_differences_between(first, second);
    return foamcorbel_step_difference(words, len, &at, &difference);
}

static void formats(void)
{
    size_t len = arena_len(1, 3);
    uint32_t *words = lend(len, 7);
    REFUSES(FOAMCORBEL_BAD_SHAPE, foamcorbel_format(words, len, 0, 3));
    REFUSES(FOAMCORBEL_BAD_SHAPE, foamcorbel_format(words, len, 1, 0));
    REFUSES(FOAMCORBEL_BAD_SHAPE, foamcorbel_format(words, len, 2, 3));
    REFUSES(FOAMCORBEL_BAD_SHAPE, foamcorbel_format(words, len - 1, 1, 3));
    REFUSES(FOAMCORBEL_BAD_SHAPE, foamcorbel_format(words, len, 4294967295u, 4294967295u));
    ACCEPTS(foamcorbel_format(words, len, 1, 3));
    GIVES(1, foamcorbel_sound(words, len, &value));
    GIVES(1, foamcorbel_free_nodes(words, len, &value));
}

static void limits(void)
{
    size_t len = arena_len(2048, 32);
    uint32_t *words = lend(len, 7);
    REFUSES(FOAMCORBEL_BAD_SHAPE, foamcorbel_format(words, len, 2048, 32));
    REFUSES(FOAMCORBEL_BAD_SHAPE, foamcorbel_format(words, arena_len(1, 33), 1, 33));
    len = arena_len(2047, 32);
    ACCEPTS(foamcorbel_format(words, len, 2047, 32));
    GIVES(2047, foamcorbel_free_nodes(words, len, &value));
}

static void versions(void)
{
    size_t len = arena_len(20, 3);
    uint32_t *words = arena(20, 3);
    REFUSES(FOAMCORBEL_NO_VERSION, foamcorbel_hold(words, len, 0, &value));
    GIVES(0, foamcorbel_new_version(words, len, &value));
    GIVES(1, foamcorbel_hold(words, len, 0, &value));
    GIVES(2, foamcorbel_insert(words, len, 1, 5, 50, &value));
    REFUSES(FOAMCORBEL_NO_SLOT, foamcorbel_new_version(words, len, &value));
    REFUSES(FOAMCORBEL_NO_SLOT, foamcorbel_hold(words, len, 2, &value));
    REFUSES(FOAMCORBEL_NO_SLOT, foamcorbel_insert(words, len, 2, 6, 60, &value));
    REFUSES(FOAMCORBEL_NO_SLOT, foamcorbel_remove(words, len, 2, 6, &value));
    REFUSES(FOAMCORBEL_NO_VERSION, foamcorbel_hold(words, len, 3, &value));
    REFUSES(FOAMCORBEL_NO_VERSION, foamcorbel_release(words, len, 4294967295u));
    ACCEPTS(foamcorbel_release(words, len, 0));
    REFUSES(FOAMCORBEL_NO_VERSION, foamcorbel_release(words, len, 0));
    REFUSES(FOAMCORBEL_NO_VERSION, foamcorbel_insert(words, len, 0, 6, 60, &value));
    REFUSES(FOAMCORBEL_NO_VERSION, foamcorbel_remove(words, len, 0, 6, &value));
    GIVES(0, foamcorbel_remove(words, len, 2, 5, &value));
    GIVES(0, foamcorbel_size(words, len, 0, &value));
    GIVES(1, foamcorbel_size(words, len, 2, &value));
    GIVES(19, foamcorbel_free_nodes(words, len, &value));
}

static void lookups(void)
{
    size_t len = arena_len(20, 4);
    uint32_t *words = arena(20, 4);
    GIVES(0, foamcorbel_new_version(words, len, &value));
    REFUSES(FOAMCORBEL_ABSENT, foamcorbel_get(words, len, 0, 5, &value));
    REFUSES(FOAMCORBEL_ABSENT, foamcorbel_first(words, len, 0, &entry));
    REFUSES(FOAMCORBEL_ABSENT, foamcorbel_last(words, len, 0, &entry));
    GIVES(1, foamcorbel_insert(words, len, 0, 5, 50, &value));
    GIVES(2, foamcorbel_insert(words, len, 1, 4294967295u, 60, &value));
    GIVES(50, foamcorbel_get(words, len, 2, 5, &value));
    GIVES(60, foamcorbel_get(words, len, 2, 4294967295u, &value));
    REFUSES(FOAMCORBEL_ABSENT, foamcorbel_get(words, len, 2, 6, &value));
    GIVES_ENTRY(5, 50, foamcorbel_first(words, len, 2, &entry));
    GIVES_ENTRY(4294967295u, 60, foamcorbel_last(words, len, 2, &entry));
    REFUSES(FOAMCORBEL_NO_VERSION, foamcorbel_get(words, len, 3, 5, &value));
    REFUSES(FOAMCORBEL_NO_VERSION, foamcorbel_first(words, len, 3, &entry));
    REFUSES(FOAMCORBEL_NO_VERSION, foamcorbel_last(words, len, 4, &entry));
    REFUSES(FOAMCORBEL_NO_VERSION, foamcorbel_size(words, len, 3, &value));
}

/* Document 01's figures: N = 10 and 11 for the fourth insertion, N = 14 and 15 for a removal. */
static void reserves(void)
{
    for (uint32_t n = 10; n <= 11; n++) {
        size_t len = arena_len(n, 32);
        uint32_t *words = arena(n, 32);
        GIVES(0, foamcorbel_new_version(words, len, &value));
        for (uint32_t key = 1; key <= 3; key++) {
            GIVES(key, foamcorbel_insert(words, len, key - 1, key, 10 * key, &value));
        }
        GIVES(n - 6, foamcorbel_free_nodes(words, len, &value));
        if (n == 10) {
            REFUSES(FOAMCORBEL_NO_ROOM, foamcorbel_insert(words, len, 3, 4, 40, &value));
        } else {
            GIVES(4, foamcorbel_insert(words, len, 3, 4, 40, &value));
            GIVES(2, foamcorbel_free_nodes(words, len, &value));
        }
    }
    for (uint32_t n = 14; n <= 15; n++) {
        size_t len = arena_len(n, 32);
        uint32_t *words = arena(n, 32);
        GIVES(0, foamcorbel_new_version(words, len, &value));
        GIVES(1, foamcorbel_insert(words, len, 0, 5, 50, &value));
        if (n == 14) {
            REFUSES(FOAMCORBEL_NO_ROOM, foamcorbel_remove(words, len, 1, 5, &value));
        } else {
            GIVES(2, foamcorbel_remove(words, len, 1, 5, &value));
            GIVES(0, foamcorbel_size(words, len, 2, &value));
        }
    }
}

/* Slots 1, 2, 3, 4 hold: 5 to 50; 5 to 51; 5 to 50 and 9 to 90; 5 to 50 again. */
static void comparisons(void)
{
    size_t len = arena_len(40, 6);
    uint32_t *words = arena(40, 6);
    GIVES(0, foamcorbel_new_version(words, len, &value));
    GIVES(1, foamcorbel_insert(words, len, 0, 5, 50, &value));
    GIVES(2, foamcorbel_insert(words, len, 0, 5, 51, &value));
    GIVES(3, foamcorbel_insert(words, len, 1, 9, 90, &value));
    GIVES(4, foamcorbel_insert(words, len, 2, 5, 50, &value));
    ACCEPTS(foamcorbel_compare(words, len, 1, 2, &sign));
    EXPECT(sign == -1);
    ACCEPTS(foamcorbel_compare(words, len, 2, 1, &sign));
    EXPECT(sign == 1);
    ACCEPTS(foamcorbel_compare(words, len, 1, 3, &sign));
    EXPECT(sign == -1);
    ACCEPTS(foamcorbel_compare(words, len, 1, 4, &sign));
    EXPECT(sign == 0);
    GIVES(1, foamcorbel_equal(words, len, 1, 4, &value));
    GIVES(0, foamcorbel_equal(words, len, 1, 2, &value));
    REFUSES(FOAMCORBEL_NO_VERSION, foamcorbel_compare(words, len, 1, 5, &sign));
    REFUSES(FOAMCORBEL_NO_VERSION, foamcorbel_compare(words, len, 6, 1, &sign));
    REFUSES(FOAMCORBEL_NO_VERSION, foamcorbel_equal(words, len, 1, 5, &value));
    REFUSES(FOAMCORBEL_NO_VERSION, foamcorbel_equal(words, len, 5, 1, &value));
}

/* Slots 1, 2, 3 hold: 5 to 50; 5 to 50 and 9 to 90; 5 to 51. */
static void differences(void)
{
    size_t len = arena_len(40, 5);
    uint32_t *words = arena(40, 5);
    GIVES(0, foamcorbel_new_version(words, len, &value));
    GIVES(1, foamcorbel_insert(words, len, 0, 5, 50, &value));
    GIVES(2, foamcorbel_insert(words, len, 1, 9, 90, &value));
    GIVES(3, foamcorbel_insert(words, len, 0, 5, 51, &value));
    GIVES_DIFFERENCE(FOAMCORBEL_ONLY_FIRST, 9, 90, 0, step_difference(words, len, 2, 1));
    GIVES_DIFFERENCE(FOAMCORBEL_ONLY_SECOND, 5, 0, 50, step_difference(words, len, 0, 1));
    GIVES_DIFFERENCE(FOAMCORBEL_IN_BOTH, 5, 50, 51, step_difference(words, len, 1, 3));
    REFUSES(FOAMCORBEL_END, step_difference(words, len, 0, 0));
    REFUSES(FOAMCORBEL_END, step_difference(words, len, 2, 2));
    REFUSES(FOAMCORBEL_NO_VERSION, step_difference(words, len, 1, 4));
    REFUSES(FOAMCORBEL_NO_VERSION, step_difference(words, len, 4, 1));
    REFUSES(FOAMCORBEL_NO_VERSION, step_difference(words, len, 4, 4));
    REFUSES(FOAMCORBEL_NO_VERSION, step_difference(words, len, 1, 5));
    REFUSES(FOAMCORBEL_NO_VERSION, step_difference(words, len, 4294967295u, 1));
}

static void marks(void)
{
    size_t len = arena_len(20, 4);
    uint32_t *words = arena(20, 4);
    EXPECT(FOAMCORBEL_TAG(0x0028, 0x1053) == 2625619);
    GIVES(0, foamcorbel_new_version(words, len, &value));
    GIVES(1, foamcorbel_insert(words, len, 0, FOAMCORBEL_TAG(0x0028, 0x1052), 1, &value));
    GIVES(2, foamcorbel_insert(words, len, 1, FOAMCORBEL_TAG(0x0028, 0x1053), 2, &value));
    GIVES(0, foamcorbel_rescale_mark(words, len, 0, &value));
    GIVES(0, foamcorbel_rescale_mark(words, len, 1, &value));
    GIVES(1, foamcorbel_rescale_mark(words, len, 2, &value));
    REFUSES(FOAMCORBEL_NO_VERSION, foamcorbel_rescale_mark(words, len, 3, &value));
}

/* Every call on words that are no arena. */
static void refuse_all(uint32_t *words, size_t len)
{
    foamcorbel_walk walk = foamcorbel_walk_over(0);
    REFUSES(FOAMCORBEL_UNSOUND, foamcorbel_new_version(words, len, &value));
    REFUSES(FOAMCORBEL_UNSOUND, foamcorbel_hold(words, len, 0, &value));
    REFUSES(FOAMCORBEL_UNSOUND, foamcorbel_release(words, len, 0));
    REFUSES(FOAMCORBEL_UNSOUND, foamcorbel_size(words, len, 0, &value));
    REFUSES(FOAMCORBEL_UNSOUND, foamcorbel_free_nodes(words, len, &value));
    REFUSES(FOAMCORBEL_UNSOUND, foamcorbel_get(words, len, 0, 5, &value));
    REFUSES(FOAMCORBEL_UNSOUND, foamcorbel_first(words, len, 0, &entry));
    REFUSES(FOAMCORBEL_UNSOUND, foamcorbel_last(words, len, 0, &entry));
    REFUSES(FOAMCORBEL_UNSOUND, foamcorbel_insert(words, len, 0, 5, 50, &value));
    REFUSES(FOAMCORBEL_UNSOUND, foamcorbel_remove(words, len, 0, 5, &value));
    REFUSES(FOAMCORBEL_UNSOUND, foamcorbel_compare(words, len, 0, 0, &sign));
    REFUSES(FOAMCORBEL_UNSOUND, foamcorbel_equal(words, len, 0, 0, &value));
    REFUSES(FOAMCORBEL_UNSOUND, foamcorbel_step_front(words, len, &walk, &entry));
    REFUSES(FOAMCORBEL_UNSOUND, foamcorbel_step_back(words, len, &walk, &entry));
    REFUSES(FOAMCORBEL_UNSOUND, step_difference(words, len, 0, 0));
    REFUSES(FOAMCORBEL_UNSOUND, step_difference(words, len, 0, 1));
    REFUSES(FOAMCORBEL_UNSOUND, foamcorbel_rescale_mark(words, len, 0, &value));
    GIVES(0, foamcorbel_sound(words, len, &value));
}

static void no_arena(void)
{
    uint32_t *words = NULL;
    size_t len = 0;
    REFUSES(FOAMCORBEL_BAD_SHAPE, foamcorbel_format(words, len, 1, 1));
    REFUSES(FOAMCORBEL_BAD_SHAPE, foamcorbel_format(words, len, 0, 0));
    refuse_all(words, len);
    refuse_all(lend(0, 0), 0);
    for (len = 1; len <= 30; len++) {
        refuse_all(lend(len, 0), len);
        refuse_all(lend(len, 1), len);
        refuse_all(lend(len, 4294967295u), len);
    }
    /* An arena with one word too many, with one too few, and with a count that is one too high. */
    len = arena_len(4, 2);
    words = lend(len + 1, 7);
    ACCEPTS(foamcorbel_format(words, len, 4, 2));
    refuse_all(words, len + 1);
    refuse_all(words, len - 1);
    words[6 * 2 + 7] = 1;
    refuse_all(words, len);
}

int main(void)
{
    formats();
    limits();
    versions();
    lookups();
    reserves();
    comparisons();
    differences();
    marks();
    no_arena();
    return report("calls");
}
