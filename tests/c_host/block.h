/* What the hosts share: checks that are counted, and a block in margins that must stay. */
#ifndef BLOCK_H
#define BLOCK_H

#include <stdbool.h>
#include <stddef.h>
#include <stdint.h>

enum { CELL = 32, MOST_CELLS = 2049, MARGIN = 37, FILLER = 0xA5 };

/* A block of some bytes; it stands at an odd address between margins of filler. */
struct block {
    size_t size;
    uint8_t room[MARGIN + MOST_CELLS * CELL + MARGIN];
};

/* Counts a check; one that fails ends the run and tells where it stands. */
void check_at(bool holds, const char *what, const char *file, int line);
#define CHECK(holds) check_at((holds), #holds, __FILE__, __LINE__)
unsigned long checks_passed(void);

uint8_t *bytes(struct block *block);
void fresh(struct block *block, size_t cells);
void fresh_of(struct block *block, size_t cells, uint32_t edition);
uint32_t word_of(const uint8_t *four);
uint32_t word(struct block *block, size_t at);
void put_word(struct block *block, size_t at, uint32_t word);
size_t trailer(const struct block *block);
uint32_t root(struct block *block);

/* Enters a key with its value, which must be taken. */
void enter(struct block *block, const void *key, size_t key_size, uint32_t value);

/* Makes a block of random bytes under a valid trailer, every second one with bytes that are mostly small; drawn from the same first state,
   the blocks are the same in every run. */
#define FIRST_STATE 2463534242u
void draw(struct block *block, unsigned turn, uint32_t *state);

/* Keeps a copy of the block before a call; then whether it, or only its margins, are as they were. */
void keep(const struct block *block);
bool kept(const struct block *block);
bool kept_margins(const struct block *block);

/* Whether so many bytes from a place on are filler. */
bool untouched(const uint8_t *from, size_t count);

#endif
