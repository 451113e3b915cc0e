/* Bytes that no call has made: nothing is written outside the block, and what is not sound is refused and left. */
#include "host.h"
#include "register.h"

#include <string.h>

static struct block block;
static const struct question question = {
    .label = "A", .label_size = 1, .year = 2025, .month = 3, .day = 7, .unit = REGISTER_CELSIUS, .degrees = 20,
    .kind = REGISTER_GATE_ANY, .section = 60, .length = 4000,
};

/* All calls answer unsound. */
static void check_unsound(void) {
    CHECK(answer_of_get(&block, "A", 1) == REGISTER_UNSOUND);
    CHECK(answer_of_verdict(&block, question) == REGISTER_UNSOUND);
    CHECK(answer_of_list(&block, "A", 1, 1) == REGISTER_UNSOUND);
    CHECK(answer_of_insert(&block, "A", 1, 1) == REGISTER_UNSOUND);
}

/* The trailer: number of cells, edition, zero bytes, slots and root. */
static void trailers(void) {
    fresh(&block, 4);
    memset(bytes(&block), 0, block.size);
    check_unsound();
    memset(bytes(&block), 0xFF, block.size);
    check_unsound();
    for (size_t at = 0x11; at < CELL; at++) {
        fresh(&block, 4);
        bytes(&block)[trailer(&block) + at] ^= 0x80;
        check_unsound();
    }
    for (size_t bit = 3; bit < 8; bit++) {
        fresh(&block, 4);
        bytes(&block)[trailer(&block) + 0x10] = (uint8_t)(1 << bit);
        check_unsound();
    }
    for (size_t slot = 1; slot <= 3; slot++) {
        fresh(&block, 4);
        CHECK(answer_of_insert(&block, "A", 1, 1) == REGISTER_DONE);
        put_word(&block, trailer(&block) + 4 * slot, 0x3B);
        check_unsound();
        bytes(&block)[trailer(&block) + 0x10] = (uint8_t)(1 << (slot - 1));
        CHECK(answer_of_get(&block, "A", 1) == REGISTER_DONE);
    }
    static const uint32_t no_roots[] = {1, 0x1B, 0x3D, 0x3F, 0x60, 0x7B, 0x7FFFFFFF, 0x80000000, 0xFFFFFFFF};
    for (size_t i = 0; i < sizeof no_roots / sizeof *no_roots; i++) {
        fresh(&block, 4);
        put_word(&block, trailer(&block), no_roots[i]);
        check_unsound();
    }
}

/* A cell entered twice: by two children, and by a chain that leads into itself. */
static void entered_twice(void) {
    fresh(&block, 4);
    put_word(&block, trailer(&block), 0x3B);
    bytes(&block)[32 + 0x1B] = 'A';
    put_word(&block, 32 + 0x1C, 0x3B);
    check_unsound();

    fresh(&block, 8);
    CHECK(answer_of_insert(&block, "AA", 2, 1) == REGISTER_DONE);
    CHECK(answer_of_insert(&block, "BA", 2, 2) == REGISTER_DONE);
    CHECK(root(&block) % 32 == 0x1E);
    size_t sparse = root(&block) / 32 * 32;
    put_word(&block, sparse + 4, word(&block, sparse));
    check_unsound();
}

/* Every byte of a small register in every other value: each call gives one of its answers. */
static void every_byte(void) {
    fresh(&block, 4);
    CHECK(answer_of_insert(&block, "A", 1, 1036903) == REGISTER_DONE);
    struct block sample = block;
    for (size_t at = 0; at < block.size; at++) {
        for (unsigned other = 1; other < 256; other++) {
            bytes(&block)[at] = (uint8_t)(bytes(&sample)[at] ^ other);
            uint8_t answer = answer_of_get(&block, "A", 1);
            CHECK(answer == REGISTER_DONE || answer == REGISTER_UNSOUND || answer == REGISTER_MISSING);
            bool meant = at >= 96 || (at >= 32 + 27 && at < 64);
            CHECK(meant || answer == REGISTER_DONE);
            uint8_t listed = answer_of_list(&block, "A", 1, 1);
            uint8_t inserted = answer_of_insert(&block, "A", 1, 1);
            CHECK(listed == inserted);
            CHECK(answer == REGISTER_UNSOUND ? inserted == REGISTER_UNSOUND : inserted == REGISTER_DONE || inserted == REGISTER_NO_ROOM);
            block = sample;
        }
    }
}

/* Blocks of random bytes under a valid trailer. */
static void random_blocks(void) {
    uint32_t state = FIRST_STATE;
    for (unsigned turn = 0; turn < 20000; turn++) {
        draw(&block, turn, &state);
        uint8_t answer = answer_of_get(&block, "A", 1);
        CHECK(answer == REGISTER_DONE || answer == REGISTER_UNSOUND || answer == REGISTER_MISSING);
        uint8_t judged = answer_of_verdict(&block, question);
        CHECK((answer == REGISTER_UNSOUND) == (judged == REGISTER_UNSOUND));
        uint8_t listed = answer_of_list(&block, "A", 1, 1);
        uint8_t inserted = answer_of_insert(&block, "A", 1, 1);
        CHECK(listed == inserted && (answer == REGISTER_UNSOUND) == (inserted == REGISTER_UNSOUND));
        if (inserted == REGISTER_DONE) CHECK(answer_of_get(&block, "A", 1) == REGISTER_DONE);
    }
}

void test_hostile_bytes(void) {
    trailers();
    entered_twice();
    every_byte();
    random_blocks();
}
