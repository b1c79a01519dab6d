/* Foamcorbel: a persistent map from DICOM tags to value positions, in one array of 32-bit words that the caller lends.
 *
 * C99. Link libfoamcorbel.a, whose functions are proved to do what is said here. This file, with
 * the five small functions at its end, is only compiled and run (tests/bindings).
 *
 * THE ARENA. For N nodes and V version slots it is an array of FOAMCORBEL_WORDS(N, V) words. Each state of a header is a version, held by a slot,
 * a number below V. No call changes a version that is there: foamcorbel_insert and foamcorbel_remove hand out a slot for a new version, which shares
 * its unchanged nodes with the old one. A slot that is not needed any more is given up by foamcorbel_release, and its nodes serve again.
 *
 * THE RESULT of every function is 0 when the call was accepted, or the number of the refusal (enum foamcorbel_refusal). What the call gives goes
 * through its last pointer. A refused call writes nothing: no word of the arena and nothing through that pointer. Refusals are tested in the order
 * of their numbers, so the result is the least that is due. foamcorbel_sound is never refused.
 *
 * WHAT THE CALLER OWES: every pointer is valid for its length. `words` points to `len` words, and may be NULL where len is 0; any other pointer points
 * to one object of its type, outside the words. While the call runs nobody else writes them, or reads those that the call may write. Nothing more is
 * owed: the words may hold anything, the length may be any, and so may every number. Words that are no sound arena are refused.
 *
 * There is no heap, no state beside the words, and no function that does not return. A call takes
 * less than 48 kB of stack, and on an arena of at most 255 nodes less than 16 kB: this is measured
 * (tests/c/stack.c), not proved.
 */
#ifndef FOAMCORBEL_H
#define FOAMCORBEL_H

#include <stddef.h>
#include <stdint.h>

#ifdef __cplusplus
extern "C" {
#endif

/* The greatest N and V; both are 1 at least. */
#define FOAMCORBEL_MAX_NODES 2047
#define FOAMCORBEL_MAX_SLOTS 32

/* The number of words of an arena for n nodes and v slots, exactly. */
#define FOAMCORBEL_WORDS(n, v) (8 + 2 * (v) + 6 * (n))

/* The key of a tag: group times 65,536, and the element. Every 32-bit number is a key. */
#define FOAMCORBEL_TAG(group, element) ((uint32_t)(group) * 65536u + (uint32_t)(element))

/* Why a call was refused. */
enum foamcorbel_refusal {
    FOAMCORBEL_ACCEPTED = 0,
    FOAMCORBEL_BAD_SHAPE = 1,  /* format: N or V outside its limits, or not the length that they need */
    FOAMCORBEL_UNSOUND = 2,    /* any other call but the soundness test: the arena is not sound */
    FOAMCORBEL_NO_VERSION = 3, /* a named slot is V or more, or not held */
    FOAMCORBEL_BAD_RANGE = 4,  /* a walk's start and end are equal and both excluded, or the start is above the end */
    FOAMCORBEL_ABSENT = 5,     /* get without the key; first or last of an empty version */
    FOAMCORBEL_NO_SLOT = 6,    /* a slot is to be handed out, and all V are held */
    FOAMCORBEL_NO_ROOM = 7,    /* insert or remove: fewer nodes are free than the call may need */
    FOAMCORBEL_END = 8         /* a walk step or a difference step with nothing left */
};

/* The kind of a walk's bound. Every other number is read as FOAMCORBEL_UNBOUNDED. */
enum foamcorbel_bound {
    FOAMCORBEL_UNBOUNDED = 0, /* the key beside it says nothing */
    FOAMCORBEL_INCLUDED = 1,
    FOAMCORBEL_EXCLUDED = 2
};

/* Which of two versions have the key at which they differ. */
enum foamcorbel_difference_kind {
    FOAMCORBEL_ONLY_FIRST = 1,
    FOAMCORBEL_ONLY_SECOND = 2,
    FOAMCORBEL_IN_BOTH = 3 /* with different values */
};

/* An entry: a key and the value stored at it. Two words. */
typedef struct foamcorbel_entry {
    uint32_t key;
    uint32_t value;
} foamcorbel_entry;

/* What the caller keeps of a walk: a slot, two bounds, and the last key that it was given at each end. Nine words. The calls read it and never write it.
 * front_given and back_given: 0 is no, every other number is yes. Where it is no, the key beside it says nothing. */
typedef struct foamcorbel_walk {
    uint32_t slot;
    uint32_t start_kind;
    uint32_t start_key;
    uint32_t end_kind;
    uint32_t end_key;
    uint32_t front_given;
    uint32_t front_key;
    uint32_t back_given;
    uint32_t back_key;
} foamcorbel_walk;

/* What the caller keeps between difference steps: the slots of two versions, and the last key that
 * it was given. Four words. The call reads it and never writes it. given: 0 is no, every other
 * number is yes. Where it is no, the key beside it says nothing. */
typedef struct foamcorbel_differences {
    uint32_t first;
    uint32_t second;
    uint32_t given;
    uint32_t given_key;
} foamcorbel_differences;

/* How two versions differ at a key: the kind (enum foamcorbel_difference_kind), the key, and the
 * value in each version. Where a version has no such key its value is 0; the kind tells this from a
 * 0 that is stored. Four words. */
typedef struct foamcorbel_difference {
    uint32_t kind;
    uint32_t key;
    uint32_t first_value;
    uint32_t second_value;
} foamcorbel_difference;

/* C99 has no static_assert: an array type of -1 elements stops the compiler instead. */
#define FOAMCORBEL_ASSERT(name, what) typedef char foamcorbel_assert_##name[(what) ? 1 : -1]
FOAMCORBEL_ASSERT(a_word_is_four_bytes, sizeof(uint32_t) == 4);
FOAMCORBEL_ASSERT(a_length_is_eight_bytes, sizeof(size_t) == 8);
FOAMCORBEL_ASSERT(an_entry_is_two_words, sizeof(foamcorbel_entry) == 2 * sizeof(uint32_t));
FOAMCORBEL_ASSERT(a_walk_is_nine_words, sizeof(foamcorbel_walk) == 9 * sizeof(uint32_t));
FOAMCORBEL_ASSERT(two_slots_and_a_key_are_four_words,
                  sizeof(foamcorbel_differences) == 4 * sizeof(uint32_t));
FOAMCORBEL_ASSERT(a_difference_is_four_words,
                  sizeof(foamcorbel_difference) == 4 * sizeof(uint32_t));
FOAMCORBEL_ASSERT(a_sign_is_a_word, sizeof(int32_t) == sizeof(uint32_t));
FOAMCORBEL_ASSERT(the_largest_arena, FOAMCORBEL_WORDS(FOAMCORBEL_MAX_NODES, FOAMCORBEL_MAX_SLOTS) == 12354);
#undef FOAMCORBEL_ASSERT

/* Makes the words an arena of n nodes, all free, and v slots, none held. Any old contents will do.
 * Refused: BAD_SHAPE. */
uint32_t foamcorbel_format(uint32_t *words, size_t len, uint32_t n, uint32_t v);

/* Gives a slot for a new empty version: the lowest not held, as everywhere where a slot is handed out.
 * Refused: UNSOUND, NO_SLOT. */
uint32_t foamcorbel_new_version(uint32_t *words, size_t len, uint32_t *slot);

/* Gives a second slot for the version of slot s.
 * Refused: UNSOUND, NO_VERSION, NO_SLOT. */
uint32_t foamcorbel_hold(uint32_t *words, size_t len, uint32_t s, uint32_t *slot);

/* Gives up slot s. Nodes that no held slot reaches any more are free again.
 * Refused: UNSOUND, NO_VERSION. */
uint32_t foamcorbel_release(uint32_t *words, size_t len, uint32_t s);

/* Gives the number of entries of slot s.
 * Refused: UNSOUND, NO_VERSION. */
uint32_t foamcorbel_size(const uint32_t *words, size_t len, uint32_t s, uint32_t *size);

/* Gives how many nodes are free.
 * Refused: UNSOUND. */
uint32_t foamcorbel_free_nodes(const uint32_t *words, size_t len, uint32_t *free_nodes);

/* Gives the value at the key.
 * Refused: UNSOUND, NO_VERSION, ABSENT. */
uint32_t foamcorbel_get(const uint32_t *words, size_t len, uint32_t s, uint32_t key, uint32_t *value);

/* Gives the entry with the least key, or the greatest.
 * Refused: UNSOUND, NO_VERSION, ABSENT. */
uint32_t foamcorbel_first(const uint32_t *words, size_t len, uint32_t s, foamcorbel_entry *entry);
uint32_t foamcorbel_last(const uint32_t *words, size_t len, uint32_t s, foamcorbel_entry *entry);

/* Gives a slot for the version of slot s with the value set at the key, which may be there or not. Slot s keeps its version.
 * With n entries it needs H(n) + 1 free nodes, where H(0) = 0 and H(n) = 2 * floor(log2(n + 1)).
 * Refused: UNSOUND, NO_VERSION, NO_SLOT, NO_ROOM. */
uint32_t foamcorbel_insert(uint32_t *words, size_t len, uint32_t s, uint32_t key, uint32_t value, uint32_t *slot);

/* Gives a slot for the version of slot s without the key. Slot s keeps its version. Without the key there, it is a second slot for the same version.
 * With n entries, the key among them, it needs 6 * H(n) + 2 free nodes; otherwise none.
 * Refused: UNSOUND, NO_VERSION, NO_SLOT, NO_ROOM. */
uint32_t foamcorbel_remove(uint32_t *words, size_t len, uint32_t s, uint32_t key, uint32_t *slot);

/* Gives -1, 0 or 1: how the version of slot s compares with that of slot t, by the first pair of entries that differs, key before value. A version that is
 * a proper beginning of the other is less. (The word that is written is 4294967295, 0 or 1: what an int32_t has there.)
 * Refused: UNSOUND, NO_VERSION. */
uint32_t foamcorbel_compare(const uint32_t *words, size_t len, uint32_t s, uint32_t t, int32_t *sign);

/* Gives 1 where the versions of slots s and t have the same entries, otherwise 0.
 * Refused: UNSOUND, NO_VERSION. */
uint32_t foamcorbel_equal(const uint32_t *words, size_t len, uint32_t s, uint32_t t, uint32_t *equal);

/* Gives the least entry, or the greatest, that is in the walk's range, above the last key at its front and below the last key at its back. The caller then
 * keeps the entry's key in the walk, at the end where it stepped: foamcorbel_next_front and foamcorbel_next_back below do that too.
 * Refused: UNSOUND, NO_VERSION, BAD_RANGE, END. */
uint32_t foamcorbel_step_front(const uint32_t *words, size_t len, const foamcorbel_walk *walk, foamcorbel_entry *entry);
uint32_t foamcorbel_step_back(const uint32_t *words, size_t len, const foamcorbel_walk *walk, foamcorbel_entry *entry);

/* Gives the least key at which the versions of the two slots differ, above the last key given: only
 * one of them has it, or both have it with different values. The caller then keeps the key for the
 * next step: foamcorbel_next_difference below does that too. One slot twice is END at once.
 * A step reads the versions that the two slots hold when it is made: for one list of differences
 * give up neither slot before END. Each step tests the whole arena, as every call does.
 * Refused: UNSOUND, NO_VERSION, END. */
uint32_t foamcorbel_step_difference(const uint32_t *words, size_t len,
                                    const foamcorbel_differences *at,
                                    foamcorbel_difference *difference);

/* Gives 1 where the version of slot s has (0028,1053) Rescale Slope, otherwise 0.
 * Refused: UNSOUND, NO_VERSION. */
uint32_t foamcorbel_rescale_mark(const uint32_t *words, size_t len, uint32_t s, uint32_t *marked);

/* Gives 1 where the words are a sound arena, otherwise 0. It is never refused: the result is 0. */
uint32_t foamcorbel_sound(const uint32_t *words, size_t len, uint32_t *sound);

/* The walk over all entries of a slot, none given yet. For a range, set the kinds and keys of its start and end. */
static inline foamcorbel_walk foamcorbel_walk_over(uint32_t slot)
{
    foamcorbel_walk walk;
    walk.slot = slot;
    walk.start_kind = FOAMCORBEL_UNBOUNDED;
    walk.start_key = 0;
    walk.end_kind = FOAMCORBEL_UNBOUNDED;
    walk.end_key = 0;
    walk.front_given = 0;
    walk.front_key = 0;
    walk.back_given = 0;
    walk.back_key = 0;
    return walk;
}

/* foamcorbel_step_front, and the walk keeps the key that was given. A refusal leaves the walk as it was. */
static inline uint32_t foamcorbel_next_front(const uint32_t *words, size_t len, foamcorbel_walk *walk, foamcorbel_entry *entry)
{
    uint32_t refusal = foamcorbel_step_front(words, len, walk, entry);
    if (refusal == FOAMCORBEL_ACCEPTED) {
        walk->front_given = 1;
        walk->front_key = entry->key;
    }
    return refusal;
}

/* foamcorbel_step_back, and the walk keeps the key that was given. A refusal leaves the walk as it was. */
static inline uint32_t foamcorbel_next_back(const uint32_t *words, size_t len, foamcorbel_walk *walk, foamcorbel_entry *entry)
{
    uint32_t refusal = foamcorbel_step_back(words, len, walk, entry);
    if (refusal == FOAMCORBEL_ACCEPTED) {
        walk->back_given = 1;
        walk->back_key = entry->key;
    }
    return refusal;
}

/* The differences between the versions of two slots, none given yet. */
static inline foamcorbel_differences foamcorbel_differences_between(uint32_t first, uint32_t second)
{
    foamcorbel_differences at;
    at.first = first;
    at.second = second;
    at.given = 0;
    at.given_key = 0;
    return at;
}

/* foamcorbel_step_difference, and the key that was given is kept. A refusal leaves what is kept as
 * it was. */
static inline uint32_t foamcorbel_next_difference(const uint32_t *words, size_t len,
                                                  foamcorbel_differences *at,
                                                  foamcorbel_difference *difference)
{
    uint32_t refusal = foamcorbel_step_difference(words, len, at, difference);
    if (refusal == FOAMCORBEL_ACCEPTED) {
        at->given = 1;
        at->given_key = difference->key;
    }
    return refusal;
}

#ifdef __cplusplus
}
#endif

#endif
