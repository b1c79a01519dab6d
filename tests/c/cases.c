/* The figures of docs/RULES.md, and each call with every refusal that it can give; each answer goes
 * on a line. cases.stdout has what docs/RULES.md says they are. */
#include "lines.h"

/* The greatest key, and the greatest number that a slot may be called by. */
#define GREATEST 4294967295u

#define RESCALE_SLOPE FOAMCORBEL_TAG(0x0028, 0x1053)

/* What the words hold before they are formatted. */
#define OLD 7

/* The words of an arena of n nodes and v slots are at hand, and formatted. */
static void formatted(uint32_t n, uint32_t v)
{
    at_hand(FOAMCORBEL_WORDS(n, v), OLD);
    format(n, v);
}

/* A walk in a range that has given nothing. */
static foamcorbel_walk range(uint32_t slot, uint32_t start_kind, uint32_t start, uint32_t end_kind, uint32_t end)
{
    foamcorbel_walk walk = foamcorbel_walk_over(slot);
    walk.start_kind = start_kind;
    walk.start_key = start;
    walk.end_kind = end_kind;
    walk.end_key = end;
    return walk;
}

/* The walk that has given this key last at the front. */
static foamcorbel_walk given_front(foamcorbel_walk walk, uint32_t key)
{
    walk.front_given = 1;
    walk.front_key = key;
    return walk;
}

/* The walk that has given this key last at the back. */
static foamcorbel_walk given_back(foamcorbel_walk walk, uint32_t key)
{
    walk.back_given = 1;
    walk.back_key = key;
    return walk;
}

/* The differences of two slots, of which this key was given last. */
static foamcorbel_differences above(uint32_t first, uint32_t second, uint32_t key)
{
    foamcorbel_differences at = foamcorbel_differences_between(first, second);
    at.given = 1;
    at.given_key = key;
    return at;
}

/* Formats with too few or too many nodes or slots for words of that number. */
static void limits(void)
{
    at_hand(FOAMCORBEL_WORDS(0, 32), OLD);
    format(0, 32);
    at_hand(FOAMCORBEL_WORDS(2048, 32), OLD);
    format(2048, 32);
    at_hand(FOAMCORBEL_WORDS(1, 33), OLD);
    format(1, 33);
    at_hand(FOAMCORBEL_WORDS(1, 0), OLD);
    format(1, 0);
}

/* Formats one word too many, one too few, and no word. */
static void lengths(void)
{
    at_hand(FOAMCORBEL_WORDS(1, 3) + 1, OLD);
    format(1, 3);
    at_hand(FOAMCORBEL_WORDS(1, 3) - 1, OLD);
    format(1, 3);
    at_hand(0, OLD);
    format(1, 3);
}

/* The one node serves again after its version is released. */
static void one_node(void)
{
    formatted(1, 3);
    new_version();
    insert(0, 5, 50);
    insert(1, 6, 60);
    free_nodes();
    release(1);
    free_nodes();
    insert(0, 6, 60);
    get(1, 6);
}

/* Inserts 1, 2 and 3 with all versions kept, then 4. */
static void four_kept(uint32_t n)
{
    formatted(n, 32);
    new_version();
    insert(0, 1, 10);
    insert(1, 2, 20);
    insert(2, 3, 30);
    free_nodes();
    insert(3, 4, 40);
    free_nodes();
}

/* Removes the only entry. */
static void one_removed(uint32_t n)
{
    formatted(n, 32);
    new_version();
    insert(0, 5, 50);
    free_nodes();
    cut(1, 5);
    size(2);
}

/* Each reserve with one node short of it, and with just enough. */
static void reserves(void)
{
    four_kept(10);
    four_kept(11);
    one_removed(14);
    one_removed(15);
}

/* A walk over entries 1 and 2 from both ends. */
static void two_ended(void)
{
    foamcorbel_walk none = foamcorbel_walk_over(2), one = given_front(none, 1), both = given_back(one, 2);
    formatted(20, 4);
    new_version();
    insert(0, 1, 10);
    insert(1, 2, 20);
    step_front(none);
    step_back(one);
    step_front(both);
    step_back(both);
}

/* The first step from either end of a range. */
static void both_ends(foamcorbel_walk walk)
{
    step_front(walk);
    step_back(walk);
}

/* The four ranges on the single entry 5. */
static void ranges(void)
{
    foamcorbel_walk alone = range(1, FOAMCORBEL_INCLUDED, 5, FOAMCORBEL_INCLUDED, 5);
    formatted(20, 4);
    new_version();
    insert(0, 5, 50);
    both_ends(range(1, FOAMCORBEL_INCLUDED, 5, FOAMCORBEL_EXCLUDED, 5));
    both_ends(range(1, FOAMCORBEL_EXCLUDED, 5, FOAMCORBEL_EXCLUDED, 5));
    both_ends(range(1, FOAMCORBEL_INCLUDED, 6, FOAMCORBEL_INCLUDED, 5));
    step_front(alone);
    step_front(given_front(alone, 5));
    step_back(alone);
    step_back(given_back(alone, 5));
}

/* Each call that writes, to slot s. */
static void writes(uint32_t s)
{
    hold(s);
    release(s);
    insert(s, 7, 70);
    cut(s, 7);
}

/* Each call that reads, from slot s. */
static void reads(uint32_t s)
{
    size(s);
    get(s, 7);
    first(s);
    last(s);
    compare(s, 0);
    compare(0, s);
    equal(s, 0);
    equal(0, s);
    both_ends(foamcorbel_walk_over(s));
    step_difference(foamcorbel_differences_between(s, 0));
    step_difference(foamcorbel_differences_between(0, s));
    step_difference(foamcorbel_differences_between(s, s));
    rescale_mark(s);
}

/* Every call on words that are not sound. */
static void unsound(void)
{
    at_hand(FOAMCORBEL_WORDS(20, 4), 0);
    sound();
    new_version();
    free_nodes();
    writes(0);
    reads(0);
}

/* Every call that names a slot, on one that is not held and on two that are not there. */
static void no_version(void)
{
    static const uint32_t slots[] = { 1, 4, GREATEST };
    formatted(20, 4);
    new_version();
    for (size_t k = 0; k < sizeof slots / sizeof *slots; k++) {
        writes(slots[k]);
        reads(slots[k]);
    }
    step_front(range(4, FOAMCORBEL_INCLUDED, 6, FOAMCORBEL_INCLUDED, 5));
}

/* What an empty version and one with the key 7 have not. */
static void absent(void)
{
    formatted(20, 4);
    new_version();
    get(0, 7);
    first(0);
    last(0);
    insert(0, 7, 70);
    get(1, 8);
    get(1, 7);
    first(1);
    last(1);
}

/* The calls that hand out a slot when all are held: on the arena of `absent`. */
static void no_slot(void)
{
    hold(1);
    new_version();
    new_version();
    hold(1);
    insert(1, 8, 80);
    cut(1, 7);
    cut(1, 8);
    hold(4);
}

/* The slot that is released is handed out for the removal of an absent key. */
static void slot_released(void)
{
    release(2);
    cut(1, 8);
    size(2);
    sound();
}

/* No node is free: only the removal of an absent key needs none. */
static void no_room(void)
{
    formatted(1, 2);
    new_version();
    insert(0, 5, 50);
    insert(1, 6, 60);
    release(0);
    insert(1, 6, 60);
    insert(1, 5, 51);
    cut(1, 5);
    cut(1, 6);
    size(0);
    sound();
}

/* Eight versions of at most two entries. */
static void eight(void)
{
    formatted(20, 8);
    new_version();
    insert(0, RESCALE_SLOPE, 7);
    insert(1, RESCALE_SLOPE, 8);
    insert(0, GREATEST, 1);
    hold(1);
    insert(1, GREATEST, 9);
    insert(1, 0, 3);
    insert(0, RESCALE_SLOPE, 7);
    free_nodes();
}

/* The order of the eight. */
static void orders(void)
{
    static const uint32_t compared[][2] = { { 1, 2 }, { 2, 1 }, { 1, 4 }, { 1, 7 }, { 1, 3 }, { 1, 5 }, { 5, 1 }, { 6, 1 }, { 0, 1 }, { 0, 0 } };
    for (size_t k = 0; k < sizeof compared / sizeof *compared; k++) {
        compare(compared[k][0], compared[k][1]);
    }
    equal(1, 7);
    equal(1, 2);
    equal(1, 5);
    equal(0, 0);
}

/* What differs between the eight. */
static void differences(void)
{
    step_difference(foamcorbel_differences_between(1, 2));
    step_difference(above(1, 2, RESCALE_SLOPE));
    step_difference(foamcorbel_differences_between(5, 3));
    step_difference(above(5, 3, RESCALE_SLOPE));
    step_difference(above(5, 3, GREATEST));
    step_difference(foamcorbel_differences_between(6, 5));
    step_difference(above(6, 5, 0));
    step_difference(above(6, 5, GREATEST));
    step_difference(foamcorbel_differences_between(0, 1));
    step_difference(foamcorbel_differences_between(1, 4));
    step_difference(foamcorbel_differences_between(1, 7));
    step_difference(foamcorbel_differences_between(0, 0));
}

/* The entries of the eight. */
static void contents(void)
{
    foamcorbel_walk all = foamcorbel_walk_over(6);
    size(0);
    size(2);
    size(5);
    get(5, GREATEST);
    get(6, 0);
    first(5);
    last(5);
    first(6);
    last(6);
    rescale_mark(1);
    rescale_mark(5);
    rescale_mark(0);
    rescale_mark(3);
    step_front(all);
    step_front(given_front(all, 0));
    step_front(given_front(all, RESCALE_SLOPE));
    sound();
}

/* Slots released and handed out again, the lowest first. */
static void reused(void)
{
    release(5);
    free_nodes();
    release(4);
    free_nodes();
    hold(1);
    cut(6, 0);
    size(5);
    equal(5, 1);
    get(5, 0);
}

/* All slots released, which leaves every node free. */
static void all_released(void)
{
    for (uint32_t s = 0; s < 8; s++) {
        release(s);
    }
    free_nodes();
    size(0);
    sound();
}

int main(void)
{
    limits();
    lengths();
    one_node();
    reserves();
    two_ended();
    ranges();
    unsound();
    no_version();
    absent();
    no_slot();
    slot_released();
    no_room();
    eight();
    orders();
    differences();
    contents();
    reused();
    all_released();
    return 0;
}
