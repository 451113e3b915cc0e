/* Checks that are counted, and a block in margins. */
#include "block.h"
#include "register.h"

#include <stdio.h>
#include <stdlib.h>
#include <string.h>

static unsigned long passed;

void check_at(bool holds, const char *what, const char *file, int line) {
    if (!holds) {
        fprintf(stderr, "c_host: %s:%d fails: %s\n", file, line, what);
        exit(1);
    }
    passed++;
}

unsigned long checks_passed(void) { return passed; }

uint8_t *bytes(struct block *block) { return block->room + MARGIN; }

size_t trailer(const struct block *block) { return block->size - CELL; }

uint32_t word_of(const uint8_t *four) {
    return (uint32_t)four[0] << 24 | (uint32_t)four[1] << 16 | (uint32_t)four[2] << 8 | four[3];
}

uint32_t word(struct block *block, size_t at) { return word_of(bytes(block) + at); }

void put_word(struct block *block, size_t at, uint32_t word) {
    for (size_t i = 0; i < 4; i++) bytes(block)[at + i] = (uint8_t)(word >> (24 - 8 * i));
}

uint32_t root(struct block *block) { return word(block, trailer(block)); }

void fresh(struct block *block, size_t cells) { fresh_of(block, cells, 1); }

void fresh_of(struct block *block, size_t cells, uint32_t edition) {
    memset(block->room, FILLER, sizeof block->room);
    block->size = cells * CELL;
    memset(bytes(block), 0, block->size);
    put_word(block, trailer(block) + 0x14, (uint32_t)cells);
    put_word(block, trailer(block) + 0x1C, edition);
}

void enter(struct block *block, const void *key, size_t key_size, uint32_t value) {
    uint32_t count;
    CHECK(register_insert(bytes(block), block->size, key, key_size, value, &count) == REGISTER_DONE);
}

/* The next of a row of numbers, by three shifts. */
static uint32_t next(uint32_t state) {
    state ^= state << 13;
    state ^= state >> 17;
    return state ^ state << 5;
}

void draw(struct block *block, unsigned turn, uint32_t *state) {
    fresh(block, 4 + turn % 13);
    for (size_t at = CELL; at < trailer(block) + 4; at++) {
        *state = next(*state);
        uint8_t drawn = (uint8_t)(*state >> 8);
        bytes(block)[at] = turn % 2 == 0 || *state % 4 == 0 ? drawn : drawn & 0x1F;
    }
    put_word(block, trailer(block), root(block) % (uint32_t)block->size);
}

/* The block as it was before a call. */
static struct block before;

/* The block and its margins. */
static size_t span(const struct block *block) { return MARGIN + block->size + MARGIN; }

void keep(const struct block *block) { memcpy(before.room, block->room, span(block)); }

bool kept(const struct block *block) { return memcmp(block->room, before.room, span(block)) == 0; }

bool kept_margins(const struct block *block) {
    size_t after = MARGIN + block->size;
    return memcmp(block->room, before.room, MARGIN) == 0 && memcmp(block->room + after, before.room + after, MARGIN) == 0;
}

bool untouched(const uint8_t *from, size_t count) {
    while (count > 0 && from[count - 1] == FILLER) count--;
    return count == 0;
}
