/* What differs between two versions, a step at a time. Answers are read off docs/RULES.md: 4.23,
 * 4.24, 4.29, 8.7 to 8.11, 9.21 and 9.22. */
#include "stepping.h"

#define NODES 400
#define SLOTS 8

/* The greatest key, value, and number that a slot may be called by. */
#define GREATEST 4294967295u

/* Slots that hold 1 to 10, 2 to 20 and 3 to 30; 2 to 20, 3 to 31 and 4 to 40; nothing; the version
 * of the first of them once more. */
static uint32_t one, other, empty, twin;

/* A slot that is never handed out. */
static const uint32_t unheld = SLOTS - 1;

/* The other version is made of the one by edits, or apart from it. */
static void store(int apart)
{
    start(NODES, SLOTS);
    empty = new_version();
    one = set(set(set(hold(empty), 1, 10), 2, 20), 3, 30);
    twin = hold(one);
    if (apart) {
        other = set(set(set(hold(empty), 4, 40), 3, 31), 2, 20);
    } else {
        other = set(set(cut(hold(one), 1), 3, 31), 4, 40);
    }
}

/* Numbers that may say whether a key was given: 0 says that none was, every other that one was. */
static const uint32_t givens[] = { 0, 1, 2, 3, 255, 256, 65536, 2147483648u, GREATEST };
#define GIVENS (sizeof givens / sizeof *givens)

/* The same as kept, with another of these numbers. */
static foamcorbel_differences with_given(foamcorbel_differences at, uint32_t given)
{
    at.given = given;
    return at;
}

/* The cases of request E1 that are accepted or END. */
static void cases(void)
{
    EXPECT(gives(between(one, other), only_first(1, 10)));
    EXPECT(gives(above(one, other, 1), in_both(3, 30, 31)));
    EXPECT(gives(above(one, other, 3), only_second(4, 40)));
    EXPECT(refused(above(one, other, 4), FOAMCORBEL_END));
    EXPECT(refused(above(one, other, 4), FOAMCORBEL_END));
    EXPECT(refused(between(one, one), FOAMCORBEL_END));
    EXPECT(refused(above(one, one, 2), FOAMCORBEL_END));
    EXPECT(refused(between(one, twin), FOAMCORBEL_END));
    EXPECT(gives(between(other, one), only_second(1, 10)));
    EXPECT(gives(between(empty, other), only_second(2, 20)));
    EXPECT(gives(above(one, empty, 2), only_first(3, 30)));
    EXPECT(refused(between(empty, empty), FOAMCORBEL_END));
    EXPECT(refused(above(empty, empty, GREATEST), FOAMCORBEL_END));
    EXPECT(refused(above(one, other, GREATEST), FOAMCORBEL_END));
}

/* Two roots with the same children: the only node that is not shared is the one that differs. */
static void root_alone(void)
{
    uint32_t edited = set(hold(one), 2, 21);
    EXPECT(gives(between(one, edited), in_both(2, 20, 21)));
    EXPECT(gives(above(edited, one, 1), in_both(2, 21, 20)));
    EXPECT(refused(above(one, edited, 2), FOAMCORBEL_END));
    release(edited);
}

/* The same refusal whatever key was given, where a difference would follow and where END would. */
static void always_refused(uint32_t first, uint32_t second, uint32_t refusal)
{
    for (size_t i = 0; i < GIVENS; i++) {
        EXPECT(refused(with_given(above(first, second, 1), givens[i]), refusal));
        EXPECT(refused(with_given(above(first, second, GREATEST), givens[i]), refusal));
        EXPECT(next_refused(with_given(above(first, second, 1), givens[i]), refusal));
    }
}

/* A slot that is not held is told before END, also where it is named twice. */
static void not_held(uint32_t slot)
{
    always_refused(slot, other, FOAMCORBEL_NO_VERSION);
    always_refused(one, slot, FOAMCORBEL_NO_VERSION);
    always_refused(slot, slot, FOAMCORBEL_NO_VERSION);
}

/* Some of these numbers end in the bits of a slot that is held. */
static void no_version(void)
{
    static const uint32_t beyond[] = { 32, 256, 65536, 2147483648u };
    not_held(unheld);
    not_held(SLOTS);
    not_held(GREATEST);
    for (size_t i = 0; i < sizeof beyond / sizeof *beyond; i++) {
        not_held(one + beyond[i]);
        not_held(other + beyond[i]);
    }
}

/* The count of node 1 is one too high, which is told before all else; then it is mended. */
static void unsound(void)
{
    uint32_t *count = words + 6 * 1 + 7;
    ++*count;
    always_refused(one, other, FOAMCORBEL_UNSOUND);
    always_refused(one, one, FOAMCORBEL_UNSOUND);
    always_refused(unheld, GREATEST, FOAMCORBEL_UNSOUND);
    EXPECT(refused(between(one, other), FOAMCORBEL_UNSOUND));
    --*count;
    EXPECT(gives(between(one, other), only_first(1, 10)));
}

/* Any number may stand as the last key, and beside 0 it says nothing. */
static void given_words(void)
{
    EXPECT(gives(above(one, other, 0), only_first(1, 10)));
    EXPECT(gives(above(one, other, 2), in_both(3, 30, 31)));
    EXPECT(gives(with_given(above(one, other, 1), 0), only_first(1, 10)));
    EXPECT(gives(with_given(above(one, other, GREATEST), 0), only_first(1, 10)));
    for (size_t i = 1; i < GIVENS; i++) {
        EXPECT(gives(with_given(above(one, other, 1), givens[i]), in_both(3, 30, 31)));
        EXPECT(refused(with_given(above(one, other, GREATEST), givens[i]), FOAMCORBEL_END));
    }
}

/* Each difference in turn, and END from then on. */
static void in_turn(void)
{
    foamcorbel_differences at = foamcorbel_differences_between(one, other);
    EXPECT(at.first == one && at.second == other && at.given == 0);
    EXPECT(next_is(&at, only_first(1, 10)));
    EXPECT(next_is(&at, in_both(3, 30, 31)));
    EXPECT(next_is(&at, only_second(4, 40)));
    EXPECT(next_refused(at, FOAMCORBEL_END));
    EXPECT(next_refused(at, FOAMCORBEL_END));
    EXPECT(next_refused(above(unheld, other, 1), FOAMCORBEL_NO_VERSION));
}

/* A step reads what the slots hold when it is made: the second comes to hold another version. */
static void slot_handed_out_anew(void)
{
    foamcorbel_differences at = foamcorbel_differences_between(one, other);
    uint32_t edited = set(set(hold(one), 2, 21), 9, 90);
    EXPECT(next_is(&at, only_first(1, 10)));
    release(other);
    EXPECT(next_refused(at, FOAMCORBEL_NO_VERSION));
    EXPECT(hold(edited) == other);
    EXPECT(next_is(&at, in_both(2, 20, 21)));
    EXPECT(next_is(&at, only_second(9, 90)));
    EXPECT(next_refused(at, FOAMCORBEL_END));
}

/* Keys 0 and 4294967295, each in one version only; the one value is not there, the other is 0. */
static void limits(void)
{
    uint32_t least, greatest, zero;
    start(NODES, SLOTS);
    empty = new_version();
    least = set(hold(empty), 0, GREATEST);
    greatest = set(hold(empty), GREATEST, 0);
    zero = set(hold(empty), 0, 0);
    EXPECT(gives(between(least, empty), only_first(0, GREATEST)));
    EXPECT(refused(above(least, empty, 0), FOAMCORBEL_END));
    EXPECT(gives(between(empty, greatest), only_second(GREATEST, 0)));
    EXPECT(refused(above(empty, greatest, GREATEST), FOAMCORBEL_END));
    EXPECT(gives(between(least, greatest), only_first(0, GREATEST)));
    EXPECT(gives(above(least, greatest, 0), only_second(GREATEST, 0)));
    EXPECT(gives(above(least, greatest, GREATEST - 1), only_second(GREATEST, 0)));
    EXPECT(refused(above(least, greatest, GREATEST), FOAMCORBEL_END));
    EXPECT(gives(between(zero, least), in_both(0, 0, GREATEST)));
    EXPECT(gives(between(least, zero), in_both(0, GREATEST, 0)));
    EXPECT(gives(between(zero, empty), only_first(0, 0)));
    EXPECT(gives(between(empty, zero), only_second(0, 0)));
    EXPECT(gives(between(empty, least), only_second(0, GREATEST)));
}

/* Values that differ in one bit alone, each of the 32 in turn. */
static void values_a_bit_apart(void)
{
    uint32_t full;
    start(NODES, SLOTS);
    full = set(new_version(), 1, GREATEST);
    for (int bit = 0; bit < 32; bit++) {
        const uint32_t value = GREATEST - ((uint32_t) 1 << bit);
        uint32_t lacking = set(hold(full), 1, value);
        EXPECT(gives(between(full, lacking), in_both(1, GREATEST, value)));
        EXPECT(gives(between(lacking, full), in_both(1, value, GREATEST)));
        release(lacking);
    }
}

/* A key and the one above it, each in one version, and then both in one. */
static void neighbours(uint32_t key)
{
    uint32_t lower, upper, both;
    start(NODES, SLOTS);
    empty = new_version();
    lower = set(hold(empty), key, 5);
    upper = set(hold(empty), key + 1, 6);
    both = set(hold(lower), key + 1, 6);
    EXPECT(gives(between(lower, upper), only_first(key, 5)));
    EXPECT(gives(above(lower, upper, key - 1), only_first(key, 5)));
    EXPECT(gives(above(lower, upper, key), only_second(key + 1, 6)));
    EXPECT(refused(above(lower, upper, key + 1), FOAMCORBEL_END));
    EXPECT(gives(between(upper, lower), only_second(key, 5)));
    EXPECT(gives(above(upper, lower, key), only_first(key + 1, 6)));
    EXPECT(gives(between(both, lower), only_first(key + 1, 6)));
    EXPECT(gives(between(both, upper), only_first(key, 5)));
    EXPECT(gives(above(empty, both, key - 1), only_second(key, 5)));
    EXPECT(gives(above(empty, both, key), only_second(key + 1, 6)));
}

/* The keys of the long listings below come in runs of five, and six runs follow each other: both
 * have the keys, the second, both, the first, both with different values, both. */
#define KEYS 120

enum run { ONLY_IN_SECOND = 1, ONLY_IN_FIRST = 3, WITH_OTHER_VALUES = 4 };

static uint32_t run_of(uint32_t key)
{
    return key / 5 % 6;
}

/* Whether the two differ at the key, and how. */
static int differs(uint32_t key, foamcorbel_difference *difference)
{
    switch (run_of(key)) {
    case ONLY_IN_SECOND: *difference = only_second(key, 7 * key); return 1;
    case ONLY_IN_FIRST: *difference = only_first(key, 7 * key); return 1;
    case WITH_OTHER_VALUES: *difference = in_both(key, 7 * key, 7 * key + 1); return 1;
    default: return 0;
    }
}

static uint32_t long_first(void)
{
    uint32_t slot = new_version();
    for (uint32_t key = 0; key < KEYS; key++) {
        if (run_of(key) != ONLY_IN_SECOND) {
            slot = set(slot, key, 7 * key);
        }
    }
    return slot;
}

/* Shares with the first what the edits leave alone. */
static uint32_t long_edited(uint32_t first)
{
    uint32_t slot = hold(first);
    for (uint32_t key = 0; key < KEYS; key++) {
        switch (run_of(key)) {
        case ONLY_IN_SECOND: slot = set(slot, key, 7 * key); break;
        case ONLY_IN_FIRST: slot = cut(slot, key); break;
        case WITH_OTHER_VALUES: slot = set(slot, key, 7 * key + 1); break;
        default: break;
        }
    }
    return slot;
}

/* Shares nothing with the first, and has another shape. */
static uint32_t long_apart(void)
{
    uint32_t slot = new_version();
    for (uint32_t key = KEYS; key-- > 0;) {
        if (run_of(key) != ONLY_IN_FIRST) {
            slot = set(slot, key, run_of(key) == WITH_OTHER_VALUES ? 7 * key + 1 : 7 * key);
        }
    }
    return slot;
}

static void long_in_turn(uint32_t first, uint32_t second)
{
    foamcorbel_differences at = between(first, second);
    foamcorbel_difference expected;
    for (uint32_t key = 0; key < KEYS; key++) {
        if (differs(key, &expected)) {
            EXPECT(next_is(&at, expected));
        }
    }
    EXPECT(next_refused(at, FOAMCORBEL_END));
}

/* From each key on the first difference above it. The last keys are the same in both, so that the
 * way down starts with END. */
static void long_from_each_key(uint32_t first, uint32_t second)
{
    foamcorbel_difference next = unwritten;
    uint32_t result = FOAMCORBEL_END;
    for (uint32_t key = KEYS; key-- > 0;) {
        EXPECT(steps(above(first, second, key), result, next));
        if (differs(key, &next)) {
            result = FOAMCORBEL_ACCEPTED;
        }
    }
}

static void long_listings(int apart)
{
    uint32_t first, second;
    start(NODES, SLOTS);
    first = long_first();
    second = apart ? long_apart() : long_edited(first);
    long_in_turn(first, second);
    long_from_each_key(first, second);
}

int main(void)
{
    EXPECT(FOAMCORBEL_ONLY_FIRST == 1 && FOAMCORBEL_ONLY_SECOND == 2 && FOAMCORBEL_IN_BOTH == 3);
    for (int apart = 0; apart <= 1; apart++) {
        store(apart);
        cases();
        root_alone();
        no_version();
        unsound();
        given_words();
        in_turn();
        slot_handed_out_anew();
        long_listings(apart);
    }
    limits();
    values_a_bit_apart();
    neighbours(2147483647u);
    neighbours(GREATEST - 1);
    return report("differences");
}
