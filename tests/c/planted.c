#include "planted.h"

#define RED 0u
#define BLACK 1u

static uint32_t *words;
static uint32_t last;
static enum way way;

/* Node i: key, value, left, right, colour, count. */
static uint32_t *node(uint32_t i)
{
    return words + 6 * i + 2;
}

uint32_t *planting_ground(uint32_t slots)
{
    words = arena(MOST_NODES, slots);
    last = 0;
    return words;
}

uint32_t planted(void)
{
    return last;
}

uint32_t key_of(uint32_t i)
{
    return 2097151 * i;
}

uint32_t value_of(uint32_t i)
{
    return 2654435769u * i;
}

/* The next node, with the entry of the i-th. */
static uint32_t plant_entry(uint32_t i, uint32_t color, uint32_t left)
{
    const uint32_t planting[] = { key_of(i), value_of(i), left, 0, color, 1 };
    last++;
    for (int word = 0; word < 6; word++) {
        node(last)[word] = planting[word];
    }
    return last;
}

/* The next node in listing order: its left child is planted before it, its right child after it. */
static uint32_t plant(uint32_t color, uint32_t left)
{
    return plant_entry(last + 1, color, left);
}

uint32_t plant_again(uint32_t i)
{
    return plant_entry(i, BLACK, 0);
}

uint32_t plant_black(uint32_t levels)
{
    uint32_t root;
    if (levels == 0) {
        return 0;
    }
    root = plant(BLACK, plant_black(levels - 1));
    node(root)[3] = plant_black(levels - 1);
    return root;
}

/* A tree with so many black levels below its root. On its long way red and black take turns; beside
 * it there are black nodes alone. */
static uint32_t tall(uint32_t color, uint32_t below, uint32_t depth);

/* The tree that hangs at the long way of such a root. */
static uint32_t onward(uint32_t color, uint32_t below, uint32_t depth)
{
    if (color == BLACK) {
        return tall(RED, below, depth + 1);
    }
    return below > 0 ? tall(BLACK, below - 1, depth + 1) : 0;
}

static int leftward(uint32_t depth)
{
    switch (way) {
    case LEFTWARD: return 1;
    case IN_TURN: return depth % 2 == 0;
    case RIGHT_THEN_LEFT: return depth > 0;
    default: return 0;
    }
}

static uint32_t tall(uint32_t color, uint32_t below, uint32_t depth)
{
    uint32_t left = leftward(depth) ? onward(color, below, depth) : plant_black(below);
    uint32_t root = plant(color, left);
    node(root)[3] = leftward(depth) ? plant_black(below) : onward(color, below, depth);
    return root;
}

uint32_t plant_tallest(enum way taken)
{
    uint32_t root;
    way = taken;
    root = tall(BLACK, 9, 0);
    /* A tree of height 21 has at least 4,093 nodes. */
    EXPECT(last == 2046 && height(root) == 20);
    return root;
}

uint32_t height(uint32_t link)
{
    uint32_t left, right;
    if (link == 0) {
        return 0;
    }
    left = height(node(link)[2]);
    right = height(node(link)[3]);
    return 1 + (left > right ? left : right);
}

void hold_planted(uint32_t slot, uint32_t root, uint32_t size)
{
    uint32_t *held = words + 6 * MOST_NODES + 8 + 2 * slot;
    words[2] = last < MOST_NODES ? last + 1 : 0;
    held[0] = root;
    held[1] = size;
}
