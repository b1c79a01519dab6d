/* A study's header as received, as imported and as sent, each a version of its own; what changed
 * between them, tag by tag; and going back gives the received header.
 *
 * The value stored at a tag is the position of the tag's value in a file. Import sets two tags,
 * sending cuts two. examples/header.rs is the same in Rust, and both write examples/header.stdout.
 */
#include "foamcorbel.h"

#include <stdio.h>
#include <stdlib.h>

#define NODES 200
#define SLOTS 8

static const foamcorbel_entry received_tags[] = {
    { FOAMCORBEL_TAG(0x0008, 0x0060), 340 },  /* Modality */
    { FOAMCORBEL_TAG(0x0010, 0x0010), 612 },  /* Patient's Name */
    { FOAMCORBEL_TAG(0x0010, 0x0020), 640 },  /* Patient ID */
    { FOAMCORBEL_TAG(0x0020, 0x000d), 904 },  /* Study Instance UID */
    { FOAMCORBEL_TAG(0x0028, 0x1052), 1310 }, /* Rescale Intercept */
    { FOAMCORBEL_TAG(0x0028, 0x1053), 1322 }, /* Rescale Slope */
};

#define TAGS (sizeof received_tags / sizeof *received_tags)

static uint32_t words[FOAMCORBEL_WORDS(NODES, SLOTS)];
static const size_t len = sizeof words / sizeof *words;

/* Nothing here should be refused. */
static void accepted(uint32_t refusal)
{
    if (refusal != FOAMCORBEL_ACCEPTED) {
        printf("refused: %u\n", (unsigned)refusal);
        exit(EXIT_FAILURE);
    }
}

/* The version of the slot with the tag set, in the place of that version. */
static uint32_t set(uint32_t slot, uint32_t tag, uint32_t position)
{
    uint32_t next;
    accepted(foamcorbel_insert(words, len, slot, tag, position, &next));
    accepted(foamcorbel_release(words, len, slot));
    return next;
}

/* The same without the tag. */
static uint32_t cut(uint32_t slot, uint32_t tag)
{
    uint32_t next;
    accepted(foamcorbel_remove(words, len, slot, tag, &next));
    accepted(foamcorbel_release(words, len, slot));
    return next;
}

static uint32_t receive(void)
{
    uint32_t slot;
    accepted(foamcorbel_new_version(words, len, &slot));
    for (size_t i = 0; i < TAGS; i++) {
        slot = set(slot, received_tags[i].key, received_tags[i].value);
    }
    return slot;
}

/* Starts from a second slot for the received version, which so stays as it was. */
static uint32_t import(uint32_t received)
{
    uint32_t slot;
    accepted(foamcorbel_hold(words, len, received, &slot));
    slot = set(slot, FOAMCORBEL_TAG(0x0010, 0x0020), 7000);
    return set(slot, FOAMCORBEL_TAG(0x0012, 0x0062), 7020);
}

static uint32_t send(uint32_t imported)
{
    uint32_t slot;
    accepted(foamcorbel_hold(words, len, imported, &slot));
    slot = cut(slot, FOAMCORBEL_TAG(0x0010, 0x0010));
    return cut(slot, FOAMCORBEL_TAG(0x0028, 0x1053));
}

static void show(const char *name, uint32_t slot)
{
    foamcorbel_walk walk = foamcorbel_walk_over(slot);
    foamcorbel_entry entry;
    uint32_t size, marked;
    accepted(foamcorbel_size(words, len, slot, &size));
    accepted(foamcorbel_rescale_mark(words, len, slot, &marked));
    printf("%s: %u tags, rescale mark %s\n", name, (unsigned)size, marked ? "yes" : "no");
    while (foamcorbel_next_front(words, len, &walk, &entry) == FOAMCORBEL_ACCEPTED) {
        printf("  (%04x,%04x) at %u\n", (unsigned)(entry.key >> 16), (unsigned)(entry.key & 0xffff), (unsigned)entry.value);
    }
}

/* A tag that differs between two states of the header, which have these names. */
static void show_change(const char *from, const char *to, foamcorbel_difference change)
{
    unsigned first = (unsigned)change.first_value, second = (unsigned)change.second_value;
    printf("  (%04x,%04x) ", (unsigned)(change.key >> 16), (unsigned)(change.key & 0xffff));
    switch (change.kind) {
    case FOAMCORBEL_ONLY_FIRST:
        printf("only in %s, at position %u\n", from, first);
        break;
    case FOAMCORBEL_ONLY_SECOND:
        printf("only in %s, at position %u\n", to, second);
        break;
    case FOAMCORBEL_IN_BOTH:
        printf("changed from position %u to position %u\n", first, second);
        break;
    }
}

static void show_changes(const char *from, uint32_t first, const char *to, uint32_t second)
{
    foamcorbel_differences at = foamcorbel_differences_between(first, second);
    foamcorbel_difference change;
    uint32_t refusal = foamcorbel_next_difference(words, len, &at, &change);
    printf("what changed from %s to %s:\n", from, to);
    while (refusal == FOAMCORBEL_ACCEPTED) {
        show_change(from, to, change);
        refusal = foamcorbel_next_difference(words, len, &at, &change);
    }
    /* A list that a refusal has cut short must not pass for a whole one. */
    if (refusal != FOAMCORBEL_END) {
        accepted(refusal);
    }
}

/* Whether the slot lists the tags that were received, each at its position, and no other. */
static int as_received(uint32_t slot)
{
    foamcorbel_walk walk = foamcorbel_walk_over(slot);
    foamcorbel_entry entry;
    for (size_t i = 0; i < TAGS; i++) {
        if (foamcorbel_next_front(words, len, &walk, &entry) != FOAMCORBEL_ACCEPTED) {
            return 0;
        }
        if (entry.key != received_tags[i].key || entry.value != received_tags[i].value) {
            return 0;
        }
    }
    return foamcorbel_next_front(words, len, &walk, &entry) == FOAMCORBEL_END;
}

int main(void)
{
    uint32_t received, imported, sent, equal, free_nodes;
    accepted(foamcorbel_format(words, len, NODES, SLOTS));
    received = receive();
    imported = import(received);
    sent = send(imported);
    show("received", received);
    show("imported", imported);
    show("sent", sent);
    show_changes("received", received, "imported", imported);
    show_changes("received", received, "sent", sent);

    accepted(foamcorbel_equal(words, len, received, sent, &equal));
    printf("sent equals received: %s\n", equal ? "yes" : "no");
    accepted(foamcorbel_release(words, len, sent));
    accepted(foamcorbel_release(words, len, imported));
    show("going back", received);
    printf("going back gives the received header: %s\n", as_received(received) ? "yes" : "no");
    accepted(foamcorbel_free_nodes(words, len, &free_nodes));
    printf("free nodes: %u of %u\n", (unsigned)free_nodes, (unsigned)NODES);
    return as_received(received) ? EXIT_SUCCESS : EXIT_FAILURE;
}
