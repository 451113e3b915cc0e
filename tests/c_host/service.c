/* The service library as its header tells of it: making and judging blocks, removals, slots and the next key. Pages and write lists
 * have hosts of their own. */
#include "block.h"
#include "register_service.h"

#include <stdio.h>
#include <string.h>

static struct block block;

/* A removal whose answer is held to what is left: beside a no stands zero, and the block stays. */
static uint8_t take_out(const void *key, size_t key_size, uint32_t *count) {
    *count = 0xA5A5A5A5;
    keep(&block);
    uint8_t answer = register_remove(bytes(&block), block.size, key, key_size, count);
    CHECK(answer == REGISTER_DONE || (*count == 0 && kept(&block)));
    CHECK(kept_margins(&block));
    return answer;
}

/* A call on a slot; a no leaves the block. */
static uint8_t on_slot(uint8_t (*call)(uint8_t *, register_size, uint32_t), uint32_t slot) {
    keep(&block);
    uint8_t answer = call(bytes(&block), block.size, slot);
    CHECK(answer == REGISTER_DONE || kept(&block));
    CHECK(kept_margins(&block));
    return answer;
}

/* The value of a key, which must be held. */
static uint32_t value_of(const void *key, size_t key_size) {
    uint32_t value;
    CHECK(register_get(bytes(&block), block.size, key, key_size, &value) == REGISTER_DONE);
    return value;
}

/* Whether a key is missing. */
static bool is_missing(const void *key, size_t key_size) {
    uint32_t value;
    return register_get(bytes(&block), block.size, key, key_size, &value) == REGISTER_MISSING;
}

/* Whether the header's helper makes of so many bytes what the proved call makes, and refuses what it refuses, for every edition. */
static void compare_fresh(size_t size) {
    static const uint32_t editions[] = {0, 1, 2, 3, 4, 255, 257, 65537, UINT32_MAX};
    static struct block proved, helped;
    proved.size = helped.size = size;
    for (size_t i = 0; i < sizeof editions / sizeof *editions; i++) {
        memset(proved.room, FILLER, sizeof proved.room);
        memset(helped.room, FILLER, sizeof helped.room);
        uint8_t answer = register_format(bytes(&proved), size, editions[i]);
        CHECK(register_make_fresh(bytes(&helped), size, editions[i]) == answer);
        CHECK(memcmp(&proved, &helped, sizeof proved) == 0);
        CHECK((register_validate(bytes(&proved), size) == REGISTER_DONE) == (answer == REGISTER_DONE));
    }
}

/* Every number of cells, every size near the least and the most, and sizes that no memory has. */
static void fresh_blocks(void) {
    for (size_t cells = 0; cells <= MOST_CELLS; cells++) compare_fresh(cells * CELL);
    for (size_t size = 0; size <= 200; size++) compare_fresh(size);
    for (size_t size = 65500; size <= MOST_CELLS * CELL; size++) compare_fresh(size);
    static const register_size too_large[] = {(UINT64_C(1) << 32) + 128, UINT64_C(1) << 63, UINT64_MAX - 31};
    for (size_t i = 0; i < sizeof too_large / sizeof *too_large; i++) {
        CHECK(register_make_fresh(NULL, too_large[i], 1) == REGISTER_BAD_SIZE);
        CHECK(register_format(NULL, too_large[i], 1) == REGISTER_BAD_SIZE);
    }
}

/* Sample H of the bench taken apart again: CHA and C, then C goes, then CHA. */
static void removals(void) {
    static const char long_key[49] = {0};
    uint32_t count;
    fresh(&block, 8);
    enter(&block, "CHA", 3, 0);
    enter(&block, "C", 1, 5);
    CHECK(take_out("CH", 2, &count) == REGISTER_MISSING);
    CHECK(take_out("", 0, &count) == REGISTER_BAD_KEY);
    CHECK(take_out(NULL, 0, &count) == REGISTER_BAD_KEY);
    CHECK(take_out(long_key, 49, &count) == REGISTER_BAD_KEY);
    CHECK(take_out("C", 1, &count) == REGISTER_DONE && count == 1);
    CHECK(is_missing("C", 1) && value_of("CHA", 3) == 0);
    CHECK(take_out("CHA", 3, &count) == REGISTER_DONE && count == 0 && root(&block) == 0);
    CHECK(take_out("CHA", 3, &count) == REGISTER_MISSING);
    put_word(&block, trailer(&block), 1);
    CHECK(take_out("", 0, &count) == REGISTER_UNSOUND);
    block.size = 96;
    CHECK(take_out("", 0, &count) == REGISTER_BAD_SIZE);
}

/* Samples A to D of the bench through the slots; a full block refuses a removal until its slot is released. */
static void slots(void) {
    uint32_t count;
    fresh(&block, 4);
    CHECK(on_slot(register_restore, 1) == REGISTER_EMPTY_SLOT && on_slot(register_release, 1) == REGISTER_EMPTY_SLOT);
    enter(&block, "A", 1, 0);
    CHECK(on_slot(register_snapshot, 1) == REGISTER_DONE);
    CHECK(word(&block, trailer(&block) + 4) == 0x3B && bytes(&block)[trailer(&block) + 0x10] == 1);
    enter(&block, "B", 1, 1);
    CHECK(take_out("A", 1, &count) == REGISTER_NO_ROOM);
    CHECK(take_out("C", 1, &count) == REGISTER_MISSING);
    CHECK(on_slot(register_restore, 1) == REGISTER_DONE && root(&block) == 0x3B);
    CHECK(value_of("A", 1) == 0 && is_missing("B", 1));
    CHECK(on_slot(register_release, 1) == REGISTER_DONE && on_slot(register_release, 1) == REGISTER_EMPTY_SLOT);
    static const uint32_t no_slots[] = {0, 4, 5, 255, 257, UINT32_MAX};
    for (size_t i = 0; i < sizeof no_slots / sizeof *no_slots; i++) {
        CHECK(on_slot(register_snapshot, no_slots[i]) == REGISTER_BAD_SLOT);
        CHECK(on_slot(register_restore, no_slots[i]) == REGISTER_BAD_SLOT);
        CHECK(on_slot(register_release, no_slots[i]) == REGISTER_BAD_SLOT);
    }
    for (uint32_t slot = 1; slot <= 3; slot++) CHECK(on_slot(register_snapshot, slot) == REGISTER_DONE);
    CHECK(bytes(&block)[trailer(&block) + 0x10] == 7);
    put_word(&block, trailer(&block), 1);
    CHECK(on_slot(register_snapshot, 9) == REGISTER_UNSOUND);
    block.size = 2049 * CELL;
    CHECK(on_slot(register_release, 9) == REGISTER_BAD_SIZE);
}

/* Whether the next key after one is this key, with zeros past its size. */
static bool leads_to(const void *key, size_t key_size, const char *expected) {
    uint8_t next[REGISTER_KEY_LIMIT], whole[REGISTER_KEY_LIMIT] = {0};
    uint32_t size = 0xA5A5A5A5;
    memset(next, FILLER, sizeof next);
    memcpy(whole, expected, strlen(expected));
    keep(&block);
    uint8_t answer = register_next_key(bytes(&block), block.size, key, key_size, &size, next);
    CHECK(kept(&block) && (answer == REGISTER_DONE) == (strlen(expected) > 0));
    return answer == (size > 0 ? REGISTER_DONE : REGISTER_MISSING) && size == strlen(expected) && memcmp(next, whole, sizeof next) == 0;
}

/* Keys in order, each before its extensions; the empty key leads to the first, a longest one to what is behind it. */
static void next_keys(void) {
    static const char zeros[49] = {0};
    uint8_t next[REGISTER_KEY_LIMIT];
    uint32_t size;
    fresh_of(&block, 16, 2);
    CHECK(leads_to("", 0, ""));
    enter(&block, "C", 1, 1);
    enter(&block, "CHA", 3, 2);
    enter(&block, "5", 1, 3);
    CHECK(leads_to(NULL, 0, "5") && leads_to("5", 1, "C") && leads_to("C", 1, "CHA") && leads_to("CHA", 3, ""));
    CHECK(leads_to("6", 1, "C") && leads_to(zeros, 48, "5") && leads_to("\xFF", 1, ""));
    memset(next, FILLER, sizeof next);
    CHECK(register_next_key(bytes(&block), block.size, (const uint8_t *)zeros, 49, &size, next) == REGISTER_BAD_KEY && size == 0);
    CHECK(memcmp(next, zeros, sizeof next) == 0);
}

int main(void) {
    fresh_blocks();
    removals();
    slots();
    next_keys();
    printf("c_host: %lu checks of the service library passed\n", checks_passed());
    return 0;
}
