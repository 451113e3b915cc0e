/* Insertion and look-up: sizes, keys and values at and past their limits. */
#include "host.h"
#include "register.h"

#include <string.h>

static struct block block;
static const char long_key[] = "0123456789012345678901234567890123456789012345678";

/* Keys of 28, 29, 48 and 49 bytes into a fresh block of four cells. */
static void long_keys(void) {
    static const size_t sizes[] = {28, 29, 48};
    static const uint32_t roots[] = {0x20, 0x5B, 0x48};
    uint32_t value;
    for (size_t i = 0; i < 3; i++) {
        fresh(&block, 4);
        CHECK(answer_of_insert(&block, long_key, sizes[i], 9) == REGISTER_DONE);
        CHECK(root(&block) == roots[i]);
        CHECK(get(&block, long_key, sizes[i], &value) == REGISTER_DONE && value == 9);
        CHECK(answer_of_get(&block, long_key, sizes[i] - 1) == REGISTER_MISSING);
    }
    CHECK(answer_of_insert(&block, long_key, 49, 9) == REGISTER_BAD_KEY);
    CHECK(answer_of_get(&block, long_key, 49) == REGISTER_BAD_KEY);
    CHECK(answer_of_insert(&block, "", 0, 9) == REGISTER_BAD_KEY);
    CHECK(answer_of_get(&block, "", 0) == REGISTER_BAD_KEY);
    CHECK(answer_of_insert(&block, NULL, 0, 9) == REGISTER_BAD_KEY);
    CHECK(answer_of_get(&block, NULL, 0) == REGISTER_BAD_KEY);
}

/* Seven children make a split of six cells. */
static void seven_children(void) {
    static const uint8_t children[] = {0x33, 0x35, 0x41, 0x42, 0x43, 0x50, 0x51};
    uint32_t count;
    uint32_t value;
    fresh(&block, 16);
    for (size_t i = 0; i < 7; i++) {
        CHECK(insert(&block, children + i, 1, (uint32_t)i, &count) == REGISTER_DONE && count == (i < 6 ? 1 : 6));
    }
    for (size_t i = 0; i < 7; i++) CHECK(get(&block, children + i, 1, &value) == REGISTER_DONE && value == i);
    CHECK(root(&block) % 32 == 0x1C);
    CHECK(answer_of_get(&block, "\x34", 1) == REGISTER_MISSING);
}

/* A fresh block of edition 2: a value goes into the cell of the chain below it, which the same insertion takes. */
static void edition_two(void) {
    static const uint8_t cell_two[CELL] = {0, 0, 0, 5, 0x1A, [26] = 0x48, 0x41, 0xFF, 0xFF, 0xFF, 0xFF};
    uint32_t count;
    uint32_t value;
    fresh(&block, 8);
    put_word(&block, trailer(&block) + 0x1C, 2);
    CHECK(insert(&block, "C", 1, 5, &count) == REGISTER_DONE && count == 1);
    CHECK(insert(&block, "CHA", 3, 0, &count) == REGISTER_DONE && count == 2);
    CHECK(root(&block) == 0x7B && memcmp(bytes(&block) + 64, cell_two, CELL) == 0);
    CHECK(get(&block, "C", 1, &value) == REGISTER_DONE && value == 5);
    CHECK(get(&block, "CHA", 3, &value) == REGISTER_DONE && value == 0);
}

/* A block is 4 to 2,048 whole cells. */
static void sizes(void) {
    uint32_t value;
    for (size_t cells = 1; cells <= 3; cells++) {
        fresh(&block, cells);
        CHECK(answer_of_insert(&block, "A", 1, 0) == REGISTER_BAD_SIZE);
        CHECK(answer_of_get(&block, "A", 1) == REGISTER_BAD_SIZE);
    }
    fresh(&block, 2049);
    CHECK(answer_of_insert(&block, "A", 1, 0) == REGISTER_BAD_SIZE);
    CHECK(answer_of_get(&block, "A", 1) == REGISTER_BAD_SIZE);
    fresh(&block, 2048);
    CHECK(answer_of_insert(&block, "A", 1, 0) == REGISTER_DONE);
    CHECK(get(&block, "A", 1, &value) == REGISTER_DONE && value == 0);
    block.size--;
    CHECK(answer_of_get(&block, "A", 1) == REGISTER_BAD_SIZE);
    block.size -= 31;
    CHECK(answer_of_get(&block, "A", 1) == REGISTER_UNSOUND);
    block.size = 0;
    CHECK(answer_of_insert(&block, "A", 1, 0) == REGISTER_BAD_SIZE);
    value = 7;
    CHECK(register_get(NULL, 0, NULL, 0, &value) == REGISTER_BAD_SIZE && value == 0);
    value = 7;
    CHECK(register_insert(NULL, 0, NULL, 0, 0xFFFFFFFF, &value) == REGISTER_BAD_SIZE && value == 0);
}

/* Values up to 2,147,483,647; the lowest answer that applies is given. */
static void values(void) {
    uint32_t value;
    fresh(&block, 4);
    CHECK(answer_of_insert(&block, "A", 1, 2147483647) == REGISTER_DONE);
    CHECK(get(&block, "A", 1, &value) == REGISTER_DONE && value == 2147483647);
    CHECK(answer_of_insert(&block, "A", 1, 2147483648) == REGISTER_BAD_VALUE);
    CHECK(answer_of_insert(&block, "A", 1, 0xFFFFFFFF) == REGISTER_BAD_VALUE);
    CHECK(answer_of_insert(&block, "", 0, 0xFFFFFFFF) == REGISTER_BAD_KEY);
    CHECK(answer_of_insert(&block, long_key, 48, 0) == REGISTER_NO_ROOM);
    CHECK(answer_of_insert(&block, long_key, 48, 2147483648) == REGISTER_BAD_VALUE);
    CHECK(answer_of_insert(&block, "A", 1, 0) == REGISTER_DONE);
    bytes(&block)[trailer(&block) + 0x1F] = 3;
    CHECK(answer_of_insert(&block, "", 0, 0xFFFFFFFF) == REGISTER_UNSOUND);
}

void test_insert_and_get(void) {
    long_keys();
    seven_children();
    edition_two();
    sizes();
    values();
}
