/* Trees that are planted word by word in the largest arena, as edits alone would hardly leave them.
 * The words are those of docs/LAYOUT.md. */
#ifndef PLANTED_H
#define PLANTED_H

#include "expect.h"

#define MOST_NODES FOAMCORBEL_MAX_NODES

/* Which child the long way takes at each depth. */
enum way { LEFTWARD, RIGHTWARD, IN_TURN, RIGHT_THEN_LEFT };

/* Lends the largest arena with so many slots, every node free; what follows plants there. */
uint32_t *planting_ground(uint32_t slots);

/* Nodes 1 to this one are planted. */
uint32_t planted(void);

/* Node i has the i-th key. Keys are spread over all 32 bits, and none is another's neighbour. */
uint32_t key_of(uint32_t i);

/* So are the values, in no order: an odd multiplier takes no number twice. */
uint32_t value_of(uint32_t i);

/* A tree of black nodes alone, with so many levels; the nodes are the next in listing order. */
uint32_t plant_black(uint32_t levels);

/* The tallest tree that the arena allows: 2,046 nodes, and 20 on its long way. */
uint32_t plant_tallest(enum way way);

/* One black node with the entry of another. */
uint32_t plant_again(uint32_t i);

/* How many nodes the longest way from a link has. */
uint32_t height(uint32_t link);

/* The slot holds a tree of so many entries. The nodes behind what is planted are free, and listed
 * as format left them. */
void hold_planted(uint32_t slot, uint32_t root, uint32_t size);

#endif
