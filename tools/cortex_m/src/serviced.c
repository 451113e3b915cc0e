/* The service library's calls on blocks that grow and shrink: each takes what it leaves of block and buffers into the hash. An entry
 * by its list of stores must leave what the insertion leaves. */
#include "calls.h"
#include "drawn.h"

#include <string.h>

enum { BUFFER = 4096 };

static struct block block, other;
static struct key key;
static uint8_t buffer[BUFFER];

/* A size of the block, seldom one that is none. */
static register_size drawn_size(void) { return one_in(50) ? block.size - 1 - below(64) : block.size; }

/* Fills the buffer, and gives as much of it as is to be lent: mostly all, else little or none. */
static register_size lend(void) {
    memset(buffer, FILLER, sizeof buffer);
    return one_in(3) ? below(200) : sizeof buffer;
}

/* A call on a slot, of which some are none. */
static void call_slot(enum call call, uint8_t (*on_slot)(uint8_t *, register_size, uint32_t)) {
    uint32_t slot = below(5);
    uint8_t answer = on_slot(bytes(&block), drawn_size(), slot);
    hash_block();
    take_answer(call, answer, slot);
}

static void call_remove(void) {
    uint32_t count = 0xA5A5A5A5;
    uint8_t answer = register_remove(bytes(&block), drawn_size(), key.bytes, key.size, &count);
    hash_block();
    take_answer(REMOVE, answer, count);
}

static void call_next_key(void) {
    uint8_t next[REGISTER_KEY_LIMIT];
    uint32_t size = 0xA5A5A5A5;
    memset(next, FILLER, sizeof next);
    uint8_t answer = register_next_key(bytes(&block), drawn_size(), key.bytes, key.size, &size, next);
    hash_bytes(next, sizeof next);
    take_answer(NEXT_KEY, answer, size);
}

static void call_page(void) {
    uint32_t records = 0xA5A5A5A5, used = 0xA5A5A5A5, more = 0xA5A5A5A5;
    register_size lent = lend();
    uint8_t answer = register_page(bytes(&block), drawn_size(), key.bytes, key.size, buffer, lent, &records, &used, &more);
    hash_bytes(buffer, sizeof buffer);
    hash_word(used);
    hash_word(more);
    take_answer(PAGE, answer, records);
}

/* Makes the stores of a list in the other block. */
static void drive(uint32_t records) {
    for (const uint8_t *record = buffer; records > 0; records--, record += 8) {
        put_word(&other, word_of(record), word_of(record + 4));
    }
}

/* Asks for a list, and where it is given makes its stores in a copy, which must then be what the insertion makes of the block. */
static void call_write_list(void) {
    uint32_t records = 0xA5A5A5A5, value = draw_value();
    register_size size = drawn_size(), lent = lend();
    uint8_t answer = register_write_list(bytes(&block), size, key.bytes, key.size, value, buffer, lent, &records);
    hash_bytes(buffer, sizeof buffer);
    take_answer(WRITE_LIST, answer, records);
    if (answer != REGISTER_DONE) return;
    memcpy(&other, &block, sizeof block);
    drive(records);
    remember_key(&key);
    CHECK(call_insert(bytes(&block), size, key.bytes, key.size, value) == REGISTER_DONE);
    CHECK(memcmp(&other, &block, sizeof block) == 0);
}

static void one_call(enum family family) {
    choose_key(&key, family);
    switch (below(8)) {
    case 0: call_remove(); break;
    case 1: call_next_key(); break;
    case 2: call_page(); break;
    case 3: call_slot(SNAPSHOT, register_snapshot); break;
    case 4: call_slot(RELEASE, register_release); break;
    case 5: if (one_in(4)) call_slot(RESTORE, register_restore); break;
    default: call_write_list(); break;
    }
}

/* A block damaged at one place: all calls judge it alike. */
static void one_damaged(enum family family) {
    memcpy(&other, &block, sizeof block);
    bytes(&block)[below((uint32_t)block.size)] ^= (uint8_t)(1 << below(8));
    take_answer(VALIDATE, register_validate(bytes(&block), drawn_size()), 0);
    for (unsigned call = 0; call < 4; call++) one_call(family);
    memcpy(&block, &other, sizeof block);
}

/* Formats a block by the call, seldom of an edition or size that there is none of, which leaves the fresh one of before. */
static void begin_block(size_t cells, uint32_t edition) {
    fresh_of(&block, cells, edition);
    uint32_t asked = one_in(20) ? below(5) : edition;
    uint8_t answer = register_format(bytes(&block), drawn_size(), asked);
    hash_block();
    take_answer(FORMAT, answer, asked);
    if (answer != REGISTER_DONE) fresh_of(&block, cells, edition);
}

void serviced_blocks(void) {
    begin_part("serviced", &block);
    for (size_t cells = 4; cells <= 67; cells++)
        for (unsigned turn = 0; turn < 2 * FAMILIES; turn++) {
            enum family family = (enum family)(turn % FAMILIES);
            begin_block(cells, 1 + turn / FAMILIES);
            begin_keys(family);
            for (size_t calls = 0; calls < 40 + cells; calls++) one_call(family);
            for (unsigned times = 0; times < 4; times++) one_damaged(family);
        }
    begin_block(2048, 2);
    for (unsigned calls = 0; calls < 2000; calls++) one_call(ANY_BYTES);
}
