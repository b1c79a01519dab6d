/* get of every key and of both keys beside it, on trees that are planted word by word: the tallest
 * that the largest arena allows, with its long way at four places, and the fullest. */
#include "planted.h"

/* What stands in a value that no call has written. */
#define UNWRITTEN 3141592653u

static uint32_t *words;
static size_t len;

static void start(void)
{
    len = arena_len(MOST_NODES, 1);
    words = planting_ground(1);
}

/* Slot 0 holds all that was planted. */
static void hold(uint32_t root)
{
    uint32_t sound = 0;
    hold_planted(0, root, planted());
    EXPECT(foamcorbel_sound(words, len, &sound) == FOAMCORBEL_ACCEPTED && sound == 1);
}

static int absent(uint32_t key)
{
    uint32_t value = UNWRITTEN;
    return foamcorbel_get(words, len, 0, key, &value) == FOAMCORBEL_ABSENT && value == UNWRITTEN;
}

static void look_up_all(void)
{
    keep(words, len);
    for (uint32_t i = 1; i <= planted(); i++) {
        uint32_t value = UNWRITTEN;
        EXPECT(foamcorbel_get(words, len, 0, key_of(i), &value) == FOAMCORBEL_ACCEPTED);
        EXPECT(value == value_of(i));
        EXPECT(absent(key_of(i) - 1) && absent(key_of(i) + 1));
    }
    EXPECT(absent(0) && absent(4294967295u));
    EXPECT(kept(words, len));
}

int main(void)
{
    uint32_t fullest;
    for (int way = LEFTWARD; way <= RIGHT_THEN_LEFT; way++) {
        start();
        hold(plant_tallest((enum way) way));
        look_up_all();
    }
    start();
    fullest = plant_black(11);
    hold(fullest);
    EXPECT(planted() == MOST_NODES && height(fullest) == 11);
    look_up_all();
    return report("lookups");
}
