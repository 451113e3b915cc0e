/* The third host: it takes entries as lists of stores, as a memory driver does. This part asks for lists and holds each byte of the
 * buffer to what is expected. */
#include "driver.h"
#include "register_service.h"

#include <stdio.h>
#include <string.h>

struct list list;

static struct block block;

static const struct entry key_41 = {"\x41", 1, 1};
static const struct entry key_43 = {"\x43", 1, 5};
static const char long_key[49] = "0123456789012345678901234567890123456789012345678";

static const uint8_t *buffer(void) { return list.room + MARGIN; }

uint32_t position(uint32_t store) { return word_of(buffer() + store * RECORD); }

uint32_t data(uint32_t store) { return word_of(buffer() + store * RECORD + 4); }

uint8_t ask(struct block *lent, struct entry entry, size_t size) {
    CHECK(size <= MOST_LIST);
    memset(&list, FILLER, sizeof list);
    keep(lent);
    const uint8_t *key = (const uint8_t *)entry.key;
    uint8_t answer = register_write_list(bytes(lent), lent->size, key, entry.key_size, entry.value, list.room + MARGIN, size,
                                         &list.records);
    CHECK(kept(lent));
    if (answer != REGISTER_DONE) CHECK(list.records == 0);
    size_t used = (size_t)list.records * RECORD;
    CHECK(used <= size && untouched(list.room, MARGIN) && untouched(buffer() + used, sizeof list.room - MARGIN - used));
    return answer;
}

void ask_whole(struct block *lent, struct entry entry) { CHECK(ask(lent, entry, MOST_LIST) == REGISTER_DONE); }

/* Whether a store of the last list is this one. */
static bool is_store(uint32_t store, uint32_t at, uint32_t word) { return position(store) == at && data(store) == word; }

/* Whether eight stores of the last list are the words of a cell, in rising position. */
static bool is_cell(uint32_t first, uint32_t cell, const uint32_t words[8]) {
    bool same = true;
    for (uint32_t i = 0; i < 8; i++) same = same && is_store(first + i, cell * CELL + 4 * i, words[i]);
    return same;
}

/* Sample E: 43 48 41 with 0 in a fresh block of 8 cells. */
static void sample_e(void) {
    fresh(&block, 8);
    enter(&block, "\x43\x48\x41", 3, 0);
}

/* The lists of 41 with 1 and of 43 with 5 into sample E. */
static void samples(void) {
    static const uint32_t sparse[8] = {0xFFFFFFFE, 0x3A, [6] = 0x41430000, 6};
    static const uint32_t prefix[8] = {5, 0xFF000000, [7] = 0x3A};
    static const uint32_t chain[8] = {[6] = 0x43, 0x5F};
    sample_e();
    CHECK(ask(&block, key_41, 72) == REGISTER_DONE && list.records == 9);
    CHECK(is_store(0, 0x40, 0xFFFFFFFE) && is_store(6, 0x58, 0x41430000) && is_store(8, 0xE0, 0x5E));
    CHECK(is_cell(0, 2, sparse));
    CHECK(ask(&block, key_43, 136) == REGISTER_DONE && list.records == 17);
    CHECK(is_cell(0, 2, prefix) && is_cell(8, 3, chain) && is_store(16, 0xE0, 0x7B));
}

/* Cells come in the order taken: 43 with 5 into the same run in cell 5 of 8 takes cell 6, the last usable one, and then cell 1. */
static void round_the_block(void) {
    static const uint32_t prefix[8] = {5, 0xFF000000, [7] = 0xBA};
    static const uint32_t chain[8] = {[6] = 0x43, 0xDF};
    fresh(&block, 8);
    put_word(&block, 5 * CELL + 24, 0x00434841);
    put_word(&block, 5 * CELL + 28, 0xFFFFFFFF);
    put_word(&block, trailer(&block), 0xB9);
    CHECK(ask(&block, key_43, 136) == REGISTER_DONE && list.records == 17);
    CHECK(is_cell(0, 6, prefix) && is_cell(8, 1, chain) && is_store(16, 0xE0, 0x3B));
}

/* Nine records fit into 72 bytes and into more, of which the others stay; fewer are too few, even none at all. */
static void sizes(void) {
    sample_e();
    for (size_t size = 0; size <= MOST_LIST; size++) {
        CHECK(ask(&block, key_41, size) == (size < 72 ? REGISTER_SHORT_BUFFER : REGISTER_DONE));
        CHECK(ask(&block, key_43, size) == (size < 136 ? REGISTER_SHORT_BUFFER : REGISTER_DONE));
    }
    CHECK(ask(&block, key_41, 71) == REGISTER_SHORT_BUFFER);
    CHECK(ask(&block, key_41, 80) == REGISTER_DONE && list.records == 9 && untouched(buffer() + 72, 8));
    uint32_t records = 7;
    CHECK(register_write_list(bytes(&block), block.size, (const uint8_t *)"A", 1, 1, NULL, 0, &records) == REGISTER_SHORT_BUFFER);
    CHECK(records == 0);
}

/* Bad size, unsound, bad key, bad value, no room, short buffer: the first of them that applies is given. */
static void order(void) {
    static const size_t list_sizes[] = {0, 71, 72, 200};
    static const size_t bad_sizes[] = {0, 1, 96, 127, 129, 2049 * CELL};
    struct entry bad = {long_key, sizeof long_key, 0x80000000};
    for (size_t i = 0; i < sizeof list_sizes / sizeof *list_sizes; i++) {
        size_t size = list_sizes[i];
        for (size_t j = 0; j < sizeof bad_sizes / sizeof *bad_sizes; j++) {
            fresh(&block, MOST_CELLS);
            block.size = bad_sizes[j];
            CHECK(ask(&block, bad, size) == REGISTER_BAD_SIZE);
        }
        fresh(&block, 4);
        put_word(&block, trailer(&block), 0x3B);
        CHECK(ask(&block, bad, size) == REGISTER_UNSOUND);
        fresh(&block, 4);
        CHECK(ask(&block, bad, size) == REGISTER_BAD_KEY);
        CHECK(ask(&block, (struct entry){NULL, 0, 0x80000000}, size) == REGISTER_BAD_KEY);
        CHECK(ask(&block, (struct entry){long_key, 48, 0x80000000}, size) == REGISTER_BAD_VALUE);
        CHECK(ask(&block, key_41, size) == (size < 72 ? REGISTER_SHORT_BUFFER : REGISTER_DONE));
        enter(&block, "\x41", 1, 0);
        CHECK(register_snapshot(bytes(&block), block.size, 1) == REGISTER_DONE);
        enter(&block, "\x41", 1, 1);
        CHECK(ask(&block, key_41, size) == REGISTER_NO_ROOM);
    }
}

int main(int count, char **arguments) {
    CHECK(count == 2 && REGISTER_LIST_SIZE == 12936);
    samples();
    round_the_block();
    sizes();
    order();
    test_cuts(arguments[1]);
    printf("c_host: %lu checks of write lists passed\n", checks_passed());
    return 0;
}
