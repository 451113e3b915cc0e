/* Blocks that grow from fresh ones of many sizes and both editions, most until they are full, with keys of every family. */
#include "calls.h"
#include "drawn.h"

static struct block block;

/* A snapshot as the call of the workshop makes it: the slot's word is the root, and its bit is set. */
static void take_snapshot(void) {
    uint32_t slot = below(3);
    put_word(&block, trailer(&block) + 4 + 4 * slot, root(&block));
    bytes(&block)[trailer(&block) + 0x10] |= (uint8_t)(1 << slot);
}

static void one_call(enum family family) {
    static struct key key;
    if (one_in(2)) {
        draw_key(&key, family);
        remember_key(&key);
        call_insert(bytes(&block), block.size, key.bytes, key.size, draw_value());
        if (one_in(64)) take_snapshot();
        return;
    }
    choose_key(&key, family);
    struct question question = draw_question();
    if (one_in(2)) call_get(bytes(&block), block.size, key.bytes, key.size);
    else call_verdict(bytes(&block), block.size, key.bytes, key.size, &question);
}

static void grow(size_t cells, uint32_t edition, enum family family, unsigned turns) {
    fresh_of(&block, cells, edition);
    begin_keys(family);
    while (turns-- > 0) one_call(family);
}

/* Small blocks of each size, which are full soon, and large ones. */
void grown_blocks(void) {
    begin_part("grown", &block);
    for (size_t cells = 4; cells <= 67; cells++)
        for (uint32_t edition = 1; edition <= 2; edition++)
            for (enum family family = ANY_BYTES; family < FAMILIES; family++) grow(cells, edition, family, 20 + (unsigned)cells);
    for (uint32_t edition = 1; edition <= 2; edition++) {
        grow(255, edition, NEIGHBOURS, 1000);
        grow(256, edition, ONE_STEM, 1000);
        grow(1000, edition, SHORT_KEYS, 1000);
        grow(2047, edition, TWO_LETTERS, 500);
        grow(2048, edition, ANY_BYTES, 2500);
    }
}
