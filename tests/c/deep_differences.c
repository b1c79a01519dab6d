/* What differs between two versions where the way to it is long: down the tallest trees, past many
 * equal entries that are not shared, and at the last node. Answers are read off docs/RULES.md:
 * 4.23, 4.24, 9.21. */
#include "planted.h"
#include "stepping.h"

/* Slot TALL holds the tallest tree, slot SINGLE its root's entry alone, in a node of its own. */
enum { TALL, SINGLE, PLANTED_SLOTS };

/* The entry that both have, and how many entries the tallest tree has. */
static uint32_t common, entries;

static void plant_both(enum way way)
{
    uint32_t sound = 0, single;
    len = arena_len(MOST_NODES, PLANTED_SLOTS);
    words = planting_ground(PLANTED_SLOTS);
    common = plant_tallest(way);
    entries = planted();
    single = plant_again(common);
    hold_planted(TALL, common, entries);
    hold_planted(SINGLE, single, 1);
    EXPECT(foamcorbel_sound(words, len, &sound) == FOAMCORBEL_ACCEPTED && sound == 1);
}

/* The step gives the i-th entry, or the one after it if both have the i-th, or END behind the last
 * of them. */
static int gives_from(foamcorbel_differences at, uint32_t i)
{
    if (i == common) {
        i++;
    }
    if (i > entries) {
        return refused(at, FOAMCORBEL_END);
    }
    return gives(at, at.first == TALL ? only_first(key_of(i), value_of(i))
                                      : only_second(key_of(i), value_of(i)));
}

static void deep(uint32_t first, uint32_t second)
{
    EXPECT(gives_from(between(first, second), 1));
    for (uint32_t i = 1; i <= entries; i++) {
        EXPECT(gives_from(above(first, second, key_of(i) - 1), i));
        EXPECT(gives_from(above(first, second, key_of(i)), i + 1));
    }
}

/* Two versions of so many entries leave room for the nodes of one more edit. */
#define EQUAL 999u

/* An edit near the least key leaves the right side of the root to both. */
static void edited_at_the_left(uint32_t slot)
{
    uint32_t edited = set(hold(slot), 1, 70);
    EXPECT(gives(between(slot, edited), in_both(1, 7, 70)));
    EXPECT(gives(above(edited, slot, 0), in_both(1, 70, 7)));
    EXPECT(refused(above(slot, edited, 1), FOAMCORBEL_END));
    release(edited);
}

/* The versions are built from their two ends, so that they share no node and have two shapes. */
static void long_run(void)
{
    uint32_t rising, falling;
    foamcorbel_differences at;
    start(MOST_NODES, 4);
    rising = new_version();
    falling = new_version();
    for (uint32_t key = 0; key < EQUAL; key++) {
        rising = set(rising, key, 7 * key);
    }
    rising = set(rising, EQUAL, 70);
    falling = set(falling, EQUAL, 71);
    for (uint32_t key = EQUAL; key-- > 0;) {
        falling = set(falling, key, 7 * key);
    }
    at = between(rising, falling);
    EXPECT(next_is(&at, in_both(EQUAL, 70, 71)));
    EXPECT(next_refused(at, FOAMCORBEL_END));
    EXPECT(gives(between(falling, rising), in_both(EQUAL, 71, 70)));
    EXPECT(refused(above(falling, rising, EQUAL), FOAMCORBEL_END));
    edited_at_the_left(rising);
    edited_at_the_left(falling);
}

/* Node i with the value 10 times its key, no left child, and one name. */
static void write_node(uint32_t i, uint32_t key, uint32_t right, uint32_t color)
{
    const uint32_t node[] = { key, 10 * key, 0, right, color, 1 };
    for (int word = 0; word < 6; word++) {
        words[6 * i + 2 + word] = node[word];
    }
}

/* The last node that there is hangs at one of two nodes with the same entry: it is no missing
 * child. */
static void last_node(void)
{
    uint32_t sound = 0, *slots;
    start(MOST_NODES, 2);
    slots = words + 6 * MOST_NODES + 8;
    write_node(1, 5, MOST_NODES, 1);
    write_node(MOST_NODES, 6, 0, 0);
    write_node(2, 5, 0, 1);
    words[2] = 3;                        /* the free nodes are 3 .. */
    words[6 * (MOST_NODES - 1) + 4] = 0; /* .. to the last but one */
    slots[0] = 1, slots[1] = 2;
    slots[2] = 2, slots[3] = 1;
    EXPECT(foamcorbel_sound(words, len, &sound) == FOAMCORBEL_ACCEPTED && sound == 1);
    EXPECT(gives(between(0, 1), only_first(6, 60)));
    EXPECT(gives(above(1, 0, 5), only_second(6, 60)));
    EXPECT(refused(above(0, 1, 6), FOAMCORBEL_END));
}

int main(void)
{
    for (int way = LEFTWARD; way <= RIGHT_THEN_LEFT; way++) {
        plant_both((enum way) way);
        deep(TALL, SINGLE);
        deep(SINGLE, TALL);
    }
    long_run();
    last_node();
    return report("deep_differences");
}
