/* Sizes that are no sizes of a block or a key, also such as only 64 bits can tell, and pointers to nothing. */
#include "calls.h"
#include "drawn.h"

static struct block block;

/* A good size, a size near it, one bit more, or any number. */
static uint64_t draw_size(uint64_t good) {
    switch (below(6)) {
    case 0: return good + below(67) - 33;
    case 1: return good | (uint64_t)1 << below(64);
    case 2: return good + ((uint64_t)drawn() << 32);
    case 3: good = drawn(); return good << below(33);
    default: return good;
    }
}

static bool is_size(uint64_t size) { return size == block.size; }
static bool is_readable(uint64_t size) { return size <= KEY_ROOM; }

/* A size is wrong or the bytes are really there, since the caller lends what it tells; a key too long is not read at all. */
static void one_turn(void) {
    static struct key key;
    draw_key(&key, ANY_BYTES);
    struct question question = draw_question();
    uint64_t block_size = draw_size(block.size), key_size = draw_size(key.size);
    if (!is_size(block_size) && block_size % CELL == 0 && block_size > block.size) block_size++;
    if (is_readable(key_size) && key_size > key.size) key_size = key.size;
    uint8_t *place = block_size == 0 ? NULL : bytes(&block);
    const uint8_t *letters = key_size == 0 ? NULL : key.bytes;
    call_insert(place, block_size, letters, key_size, draw_value());
    call_get(place, block_size, letters, key_size);
    call_verdict(place, block_size, letters, key_size, &question);
}

void odd_arguments(void) {
    begin_part("arguments", &block);
    for (uint32_t cells = 4; cells <= 40; cells++) {
        fresh_of(&block, cells, 1 + cells % 2);
        for (unsigned turn = 0; turn < 80; turn++) one_turn();
    }
}
