/* Walks from both ends, in every kind of range, and the rule for kinds and numbers beyond the known ones. */
#include "expect.h"

/* What stands in an entry that no step has written. */
#define UNWRITTEN 3141592653u

typedef uint32_t step(const uint32_t *words, size_t len, const foamcorbel_walk *walk, foamcorbel_entry *entry);

static uint32_t *words;
static size_t len;

/* A walk over slot 1 with these bounds. */
static foamcorbel_walk range(uint32_t start_kind, uint32_t start_key, uint32_t end_kind, uint32_t end_key)
{
    foamcorbel_walk walk = foamcorbel_walk_over(1);
    walk.start_kind = start_kind;
    walk.start_key = start_key;
    walk.end_kind = end_kind;
    walk.end_key = end_key;
    return walk;
}

/* The step is refused, and writes nothing. */
static int refused(step *at, foamcorbel_walk walk, uint32_t refusal)
{
    foamcorbel_entry entry = { UNWRITTEN, UNWRITTEN };
    keep(words, len);
    return at(words, len, &walk, &entry) == refusal && entry.key == UNWRITTEN && entry.value == UNWRITTEN && kept(words, len);
}

/* The step gives the entry of the key, whose value is ten times the key. */
static int gives(step *at, foamcorbel_walk walk, uint32_t key)
{
    foamcorbel_entry entry = { UNWRITTEN, UNWRITTEN };
    keep(words, len);
    return at(words, len, &walk, &entry) == FOAMCORBEL_ACCEPTED && entry.key == key && entry.value == 10 * key && kept(words, len);
}

/* Both ends are refused so. */
static int both_refused(foamcorbel_walk walk, uint32_t refusal)
{
    return refused(foamcorbel_step_front, walk, refusal) && refused(foamcorbel_step_back, walk, refusal);
}

/* Keys 1 to n, each with ten times the key, in slot 1; no other slot is held but 0, which is empty. */
static void store(uint32_t n)
{
    uint32_t slot;
    len = arena_len(60, 4);
    words = arena(60, 4);
    EXPECT(foamcorbel_new_version(words, len, &slot) == FOAMCORBEL_ACCEPTED && slot == 0);
    EXPECT(foamcorbel_hold(words, len, 0, &slot) == FOAMCORBEL_ACCEPTED && slot == 1);
    for (uint32_t key = n; key >= 1; key--) {
        EXPECT(foamcorbel_insert(words, len, 1, key, 10 * key, &slot) == FOAMCORBEL_ACCEPTED && slot == 2);
        EXPECT(foamcorbel_release(words, len, 1) == FOAMCORBEL_ACCEPTED);
        EXPECT(foamcorbel_hold(words, len, 2, &slot) == FOAMCORBEL_ACCEPTED && slot == 1);
        EXPECT(foamcorbel_release(words, len, 2) == FOAMCORBEL_ACCEPTED);
    }
}

/* Document 01's figure on the entries 1 and 2. */
static void two_ends(void)
{
    foamcorbel_walk walk = foamcorbel_walk_over(1);
    foamcorbel_entry entry;
    store(2);
    EXPECT(foamcorbel_next_front(words, len, &walk, &entry) == FOAMCORBEL_ACCEPTED && entry.key == 1 && entry.value == 10);
    EXPECT(foamcorbel_next_back(words, len, &walk, &entry) == FOAMCORBEL_ACCEPTED && entry.key == 2 && entry.value == 20);
    EXPECT(foamcorbel_next_front(words, len, &walk, &entry) == FOAMCORBEL_END);
    EXPECT(foamcorbel_next_back(words, len, &walk, &entry) == FOAMCORBEL_END);
    EXPECT(walk.front_key == 1 && walk.back_key == 2);
    EXPECT(both_refused(foamcorbel_walk_over(0), FOAMCORBEL_END));
    EXPECT(both_refused(foamcorbel_walk_over(2), FOAMCORBEL_NO_VERSION));
    EXPECT(both_refused(foamcorbel_walk_over(4294967295u), FOAMCORBEL_NO_VERSION));
    walk = range(FOAMCORBEL_EXCLUDED, 5, FOAMCORBEL_EXCLUDED, 5);
    walk.slot = 3;
    EXPECT(both_refused(walk, FOAMCORBEL_NO_VERSION));
}

/* Front and back steps, mixed: each of thirty entries once. */
static void mixed(void)
{
    foamcorbel_walk walk = foamcorbel_walk_over(1);
    foamcorbel_entry entry;
    uint32_t front = 1, back = 30;
    store(30);
    while (front <= back) {
        if ((front * 7 + back) % 3 == 0) {
            EXPECT(foamcorbel_next_front(words, len, &walk, &entry) == FOAMCORBEL_ACCEPTED && entry.key == front);
            front++;
        } else {
            EXPECT(foamcorbel_next_back(words, len, &walk, &entry) == FOAMCORBEL_ACCEPTED && entry.key == back);
            back--;
        }
    }
    EXPECT(both_refused(walk, FOAMCORBEL_END));
}

/* Document 01's figures on ranges, over the entries 1 to 9. */
static void ranges(void)
{
    store(9);
    EXPECT(both_refused(range(FOAMCORBEL_INCLUDED, 5, FOAMCORBEL_EXCLUDED, 5), FOAMCORBEL_END));
    EXPECT(both_refused(range(FOAMCORBEL_EXCLUDED, 5, FOAMCORBEL_INCLUDED, 5), FOAMCORBEL_END));
    EXPECT(both_refused(range(FOAMCORBEL_EXCLUDED, 5, FOAMCORBEL_EXCLUDED, 5), FOAMCORBEL_BAD_RANGE));
    EXPECT(both_refused(range(FOAMCORBEL_INCLUDED, 6, FOAMCORBEL_INCLUDED, 5), FOAMCORBEL_BAD_RANGE));
    EXPECT(gives(foamcorbel_step_front, range(FOAMCORBEL_INCLUDED, 5, FOAMCORBEL_INCLUDED, 5), 5));
    EXPECT(gives(foamcorbel_step_back, range(FOAMCORBEL_INCLUDED, 5, FOAMCORBEL_INCLUDED, 5), 5));
    EXPECT(gives(foamcorbel_step_front, range(FOAMCORBEL_EXCLUDED, 5, FOAMCORBEL_EXCLUDED, 8), 6));
    EXPECT(gives(foamcorbel_step_back, range(FOAMCORBEL_EXCLUDED, 5, FOAMCORBEL_EXCLUDED, 8), 7));
    EXPECT(gives(foamcorbel_step_front, range(FOAMCORBEL_INCLUDED, 0, FOAMCORBEL_INCLUDED, 4294967295u), 1));
    EXPECT(gives(foamcorbel_step_back, range(FOAMCORBEL_INCLUDED, 0, FOAMCORBEL_INCLUDED, 4294967295u), 9));
}

/* Kinds beyond the known ones are no bound, and every number but 0 says that a key was given. */
static void beyond(void)
{
    static const uint32_t unbounded[] = { 0, 3, 4, 256, 2147483648u, 4294967295u };
    static const uint32_t given[] = { 1, 2, 256, 2147483648u, 4294967295u };
    store(9);
    for (size_t i = 0; i < sizeof unbounded / sizeof *unbounded; i++) {
        uint32_t kind = unbounded[i];
        EXPECT(gives(foamcorbel_step_front, range(kind, 6, FOAMCORBEL_INCLUDED, 5), 1));
        EXPECT(gives(foamcorbel_step_back, range(FOAMCORBEL_EXCLUDED, 6, kind, 5), 9));
        EXPECT(gives(foamcorbel_step_back, range(kind, 6, kind, 5), 9));
    }
    for (size_t i = 0; i < sizeof given / sizeof *given; i++) {
        foamcorbel_walk walk = foamcorbel_walk_over(1);
        walk.front_given = given[i];
        walk.front_key = 3;
        walk.back_given = given[i];
        walk.back_key = 7;
        EXPECT(gives(foamcorbel_step_front, walk, 4));
        EXPECT(gives(foamcorbel_step_back, walk, 6));
        walk.back_given = 0;
        EXPECT(gives(foamcorbel_step_back, walk, 9));
        walk.front_given = 0;
        EXPECT(gives(foamcorbel_step_front, walk, 1));
    }
}

int main(void)
{
    two_ends();
    mixed();
    ranges();
    beyond();
    return report("walks");
}
