#include "lines.h"
#include "expect.h"

#include <inttypes.h>
#include <stdio.h>

/* What stands where no call has written a value. */
#define UNWRITTEN 3141592653u

static uint32_t *words;
static size_t len;

void at_hand(size_t count, uint32_t fill)
{
    len = count;
    words = lend(len, fill);
}

/* Starts the line of a call. */
static void calls(const char *name)
{
    printf("%s ", name);
    keep(words, len);
}

/* Ends the line where the call is refused. */
static int refused(uint32_t status)
{
    if (status == FOAMCORBEL_ACCEPTED) {
        return 0;
    }
    printf("R %" PRIu32 "%s\n", status, kept(words, len) ? "" : " changed");
    return 1;
}

/* Ends the line of an accepted call. */
static void ends(int may_write)
{
    puts(may_write || kept(words, len) ? "" : " changed");
}

static void done_line(uint32_t status)
{
    if (refused(status)) {
        return;
    }
    printf("done");
    ends(1);
}

static void slot_line(uint32_t status, uint32_t slot)
{
    if (refused(status)) {
        return;
    }
    printf("%" PRIu32, slot);
    ends(1);
}

static void number_line(uint32_t status, uint32_t number)
{
    if (refused(status)) {
        return;
    }
    printf("%" PRIu32, number);
    ends(0);
}

static void truth_line(uint32_t status, uint32_t truth)
{
    if (refused(status)) {
        return;
    }
    printf("%s", truth == 1 ? "yes" : truth == 0 ? "no" : "neither 0 nor 1");
    ends(0);
}

static void entry_line(uint32_t status, foamcorbel_entry entry)
{
    if (refused(status)) {
        return;
    }
    printf("%" PRIu32 " %" PRIu32, entry.key, entry.value);
    ends(0);
}

void format(uint32_t n, uint32_t v)
{
    calls("format");
    done_line(foamcorbel_format(words, len, n, v));
}

void new_version(void)
{
    uint32_t slot = UNWRITTEN;
    calls("new");
    uint32_t status = foamcorbel_new_version(words, len, &slot);
    slot_line(status, slot);
}

void hold(uint32_t s)
{
    uint32_t slot = UNWRITTEN;
    calls("hold");
    uint32_t status = foamcorbel_hold(words, len, s, &slot);
    slot_line(status, slot);
}

void release(uint32_t s)
{
    calls("release");
    done_line(foamcorbel_release(words, len, s));
}

void size(uint32_t s)
{
    uint32_t number = UNWRITTEN;
    calls("size");
    uint32_t status = foamcorbel_size(words, len, s, &number);
    number_line(status, number);
}

void free_nodes(void)
{
    uint32_t number = UNWRITTEN;
    calls("free nodes");
    uint32_t status = foamcorbel_free_nodes(words, len, &number);
    number_line(status, number);
}

void get(uint32_t s, uint32_t key)
{
    uint32_t value = UNWRITTEN;
    calls("get");
    uint32_t status = foamcorbel_get(words, len, s, key, &value);
    number_line(status, value);
}

void first(uint32_t s)
{
    foamcorbel_entry entry = { UNWRITTEN, UNWRITTEN };
    calls("first");
    uint32_t status = foamcorbel_first(words, len, s, &entry);
    entry_line(status, entry);
}

void last(uint32_t s)
{
    foamcorbel_entry entry = { UNWRITTEN, UNWRITTEN };
    calls("last");
    uint32_t status = foamcorbel_last(words, len, s, &entry);
    entry_line(status, entry);
}

void insert(uint32_t s, uint32_t key, uint32_t value)
{
    uint32_t slot = UNWRITTEN;
    calls("insert");
    uint32_t status = foamcorbel_insert(words, len, s, key, value, &slot);
    slot_line(status, slot);
}

void cut(uint32_t s, uint32_t key)
{
    uint32_t slot = UNWRITTEN;
    calls("remove");
    uint32_t status = foamcorbel_remove(words, len, s, key, &slot);
    slot_line(status, slot);
}

void compare(uint32_t s, uint32_t t)
{
    int32_t sign = 2;
    calls("compare");
    uint32_t status = foamcorbel_compare(words, len, s, t, &sign);
    if (refused(status)) {
        return;
    }
    printf("%" PRId32, sign);
    ends(0);
}

void equal(uint32_t s, uint32_t t)
{
    uint32_t truth = UNWRITTEN;
    calls("equal");
    uint32_t status = foamcorbel_equal(words, len, s, t, &truth);
    truth_line(status, truth);
}

void step_front(foamcorbel_walk walk)
{
    foamcorbel_entry entry = { UNWRITTEN, UNWRITTEN };
    calls("step front");
    uint32_t status = foamcorbel_step_front(words, len, &walk, &entry);
    entry_line(status, entry);
}

void step_back(foamcorbel_walk walk)
{
    foamcorbel_entry entry = { UNWRITTEN, UNWRITTEN };
    calls("step back");
    uint32_t status = foamcorbel_step_back(words, len, &walk, &entry);
    entry_line(status, entry);
}

void step_difference(foamcorbel_differences at)
{
    foamcorbel_difference difference = { UNWRITTEN, UNWRITTEN, UNWRITTEN, UNWRITTEN };
    calls("step difference");
    uint32_t status = foamcorbel_step_difference(words, len, &at, &difference);
    if (refused(status)) {
        return;
    }
    printf("%" PRIu32 " %" PRIu32 " %" PRIu32 " %" PRIu32, difference.kind, difference.key,
           difference.first_value, difference.second_value);
    ends(0);
}

void rescale_mark(uint32_t s)
{
    uint32_t truth = UNWRITTEN;
    calls("rescale mark");
    uint32_t status = foamcorbel_rescale_mark(words, len, s, &truth);
    truth_line(status, truth);
}

void sound(void)
{
    uint32_t truth = UNWRITTEN;
    calls("sound");
    uint32_t status = foamcorbel_sound(words, len, &truth);
    truth_line(status, truth);
}
