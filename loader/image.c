/* A plan stored and restored: the image's bytes, the plan that comes back, every shorter beginning, a byte more, a pad bit, a code 3, too
   many slots, a plan that is refused, and buffers around the image's length; a refused call leaves the image, or the plan, as it was. */
#include "loader.h"
#include <stdio.h>
#include <string.h>

enum { AS_IT_WAS = 77, LENGTH = 33 };

/* 01's example: all of (machine, 5, valve), (valve, 9, 7), out-out and in-in over aevt; select the valve. */
static const struct loader_plan example = {
    .scan_count = 2, .slot_count = 3, .select_count = 1,
    .scans = { { LOADER_AEVT, LOADER_OUT_OUT, 0, 5, 1 }, { LOADER_AEVT, LOADER_IN_IN, 1, 9, 2 } },
    .slots = { { 0, 0 }, { 0, 0 }, { 1, 7 } },
    .select = { 1 },
};
/* Its image: 000010 0000011 000001, 0 0 1 and 7, 00 00 0000000 5 0000001, 00 10 0000001 9 0000010, 0000001, and seven zeros. */
static const uint8_t image[LENGTH] = { 8, 24, 36, 0, 0, 0, 0, 0, 0, 0, 28, 0, 0, 0, 0, 0, 0, 0, 0, 2, 129, 32, 32, 0, 0, 0, 0, 0, 0, 1, 32, 128, 128 };
static int wrong;

static void must(const char *what, int holds)
{
    if (!holds) {
        printf("%s\n", what);
        wrong = 1;
    }
}

static int answers(const struct loader_answer *answer, uint64_t number, uint64_t place, uint64_t first)
{
    return answer->number == number && answer->place == place && answer->first == first && answer->second == 0;
}

/* The plan in a buffer of this length, of which bytes past the image must stay. */
static void store(const char *what, const struct loader_plan *plan, size_t room, uint64_t number, uint64_t place)
{
    uint8_t buffer[LENGTH + 9], after[LENGTH + 9];
    struct loader_answer answer = { AS_IT_WAS, AS_IT_WAS, AS_IT_WAS, AS_IT_WAS };
    memset(buffer, AS_IT_WAS, sizeof buffer);
    memset(after, AS_IT_WAS, sizeof after);
    if (number == 0)
        memcpy(after, image, LENGTH);
    must(what, loader_store(plan, buffer, room, &answer) == number && answers(&answer, number, place, number == 0 ? LENGTH : 0)
               && memcmp(buffer, after, sizeof buffer) == 0);
}

static void restore(const char *what, const uint8_t *bytes, size_t length, uint64_t number, uint64_t place)
{
    struct loader_plan plan, before;
    struct loader_answer answer = { AS_IT_WAS, AS_IT_WAS, AS_IT_WAS, AS_IT_WAS };
    memset(&plan, AS_IT_WAS, sizeof plan);
    before = plan;
    must(what, loader_restore(bytes, length, &plan, &answer) == number && answers(&answer, number, place, 0)
               && memcmp(&plan, number == 0 ? &example : &before, sizeof plan) == 0);
}

/* Where the field begins in which the first `length` bytes of the image run out: the counts, a slot's mark or constant, a scan's fields. */
static uint64_t cut(size_t length)
{
    static const unsigned widths[] = { 6, 7, 6, 1, 1, 1, 64, 2, 2, 7, 64, 7, 2, 2, 7, 64, 7, 7 };
    size_t at = 0, i = 0;
    while (at + widths[i] <= 8 * length)
        at += widths[i++];
    return at / 8;
}

int main(void)
{
    uint8_t bytes[LENGTH + 1] = { 0 };
    struct loader_plan plan = example;
    store("a buffer with room", &example, LENGTH + 9, LOADER_FINE, 0);
    store("a buffer that it just fits", &example, LENGTH, LOADER_FINE, 0);
    store("a buffer one byte short", &example, LENGTH - 1, LOADER_NO_ROOM_FOR_IMAGE, 0);
    store("a buffer of no bytes", &example, 0, LOADER_NO_ROOM_FOR_IMAGE, 0);
    plan.select[0] = 2;
    store("a selected constant, before 64", &plan, 0, LOADER_CONSTANT_SELECTED, 0);
    /* Past the counts anything may stand: it is not stored. */
    plan = example;
    plan.scans[2].attribute = plan.slots[3].value = plan.select[1] = AS_IT_WAS;
    store("words past the counts", &plan, LENGTH, LOADER_FINE, 0);

    restore("the image", image, LENGTH, LOADER_FINE, 0);
    for (size_t length = 0; length < LENGTH; length++)
        restore("a beginning of the image", image, length, LOADER_BITS_RUN_OUT, cut(length));
    memcpy(bytes, image, LENGTH);
    restore("a byte too many", bytes, LENGTH + 1, LOADER_BYTE_TOO_MANY, LENGTH);
    bytes[LENGTH - 1] |= 1;
    restore("a pad bit, before the byte too many", bytes, LENGTH + 1, LOADER_PAD_NOT_ZERO, LENGTH - 1);
    restore("a pad bit", bytes, LENGTH, LOADER_PAD_NOT_ZERO, LENGTH - 1);
    memcpy(bytes, image, LENGTH);
    bytes[10] |= 3; /* the first scan's index, bits 86 and 87 */
    restore("a code 3", bytes, LENGTH, LOADER_NO_SUCH_CODE, 10);
    memcpy(bytes, image, LENGTH);
    bytes[0] |= 3;
    bytes[1] |= 248; /* 127 slots */
    restore("too many slots", bytes, 3, LOADER_PLAN_COUNTS, 0);
    memcpy(bytes, image, LENGTH);
    bytes[LENGTH - 2] |= 1; /* select 2, the constant: bits 250 to 256 */
    bytes[LENGTH - 1] = 0;
    restore("a selected constant", bytes, LENGTH, LOADER_CONSTANT_SELECTED, 0);
    return wrong;
}
