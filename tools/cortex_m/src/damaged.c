/* Sound blocks with some bytes damaged, and blocks of drawn bytes under a valid trailer. */
#include "calls.h"
#include "drawn.h"

#include <string.h>

static struct block block, sound;

static void all_three(const struct key *key) {
    struct question question = draw_question();
    call_get(bytes(&block), block.size, key->bytes, key->size);
    call_verdict(bytes(&block), block.size, key->bytes, key->size, &question);
    call_insert(bytes(&block), block.size, key->bytes, key->size, draw_value());
}

/* A bit, a byte, or a word that might be a pointer into the block. */
static void damage(void) {
    size_t at = below((uint32_t)block.size);
    if (one_in(4)) at = trailer(&block) + below(CELL);
    switch (below(3)) {
    case 0: bytes(&block)[at] ^= (uint8_t)(1 << below(8)); break;
    case 1: bytes(&block)[at] = (uint8_t)drawn(); break;
    default: put_word(&block, at & ~(size_t)3, below((uint32_t)block.size)); break;
    }
}

static void fill(size_t cells, uint32_t edition, enum family family, unsigned turns) {
    static struct key key;
    fresh_of(&block, cells, edition);
    while (turns-- > 0) {
        draw_key(&key, family);
        call_insert(bytes(&block), block.size, key.bytes, key.size, draw_value());
    }
}

void damaged_blocks(void) {
    static struct key key;
    begin_part("damaged", &block);
    for (unsigned turn = 0; turn < 300; turn++) {
        enum family family = (enum family)(turn % FAMILIES);
        size_t cells = turn % 100 == 99 ? 2048 : 4 + turn % 60;
        fill(cells, 1 + turn % 2, family, (unsigned)cells / 4);
        memcpy(&sound, &block, sizeof block);
        for (unsigned time = 0; time < 20; time++) {
            draw_key(&key, family);
            for (uint32_t places = 1 + below(3); places > 0; places--) damage();
            all_three(&key);
            memcpy(&block, &sound, sizeof block);
        }
    }
}

void hostile_blocks(void) {
    static struct key key;
    uint32_t state = FIRST_STATE;
    begin_part("hostile", &block);
    for (unsigned turn = 0; turn < 6000; turn++) {
        draw(&block, turn, &state);
        if (turn % 4 >= 2) put_word(&block, trailer(&block) + 0x1C, 2);
        draw_key(&key, turn % 3 == 0 ? SHORT_KEYS : ANY_BYTES);
        all_three(&key);
    }
}
