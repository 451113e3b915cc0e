/* Where the cells of an entry are taken: from the one after the root's own upward, and round. */
#include "host.h"
#include "register.h"

enum { WRITES = 100000, CELLS = 64, USABLE = CELLS - 2 };

static struct block block;

/* Enters a key of one byte and gives the root word that this leaves. */
static uint32_t root_after(char key, uint32_t value) {
    CHECK(answer_of_insert(&block, &key, 1, value) == REGISTER_DONE);
    return root(&block);
}

/* Sample G of an edition, then the same label again and again: round the block, but for cell 1, which holds another label. */
static void again_and_again(uint32_t edition) {
    fresh_of(&block, 8, edition);
    CHECK(answer_of_insert(&block, "\x43\x48\x41", 3, 0) == REGISTER_DONE);
    CHECK(root_after(0x41, 1) == 0x5E);
    CHECK(root_after(0x35, 2) == 0x7E);
    CHECK(root_after(0x35, 3) == 0x9E);
    CHECK(root_after(0x35, 4) == 0xBE);
    CHECK(root_after(0x35, 5) == 0xDE);
    CHECK(root_after(0x35, 6) == 0x5E);
    CHECK(root_after(0x35, 7) == 0x7E);
}

/* The root's own cell is that of the root word as the call begins: one that a slot held, put back by hand, and none at all. */
static void other_roots(void) {
    fresh(&block, 8);
    CHECK(root_after(0x41, 0) == 0x3B);
    put_word(&block, trailer(&block) + 4, 0x3B);
    bytes(&block)[trailer(&block) + 0x10] = 1;
    CHECK(root_after(0x41, 1) == 0x5B);
    CHECK(root_after(0x41, 2) == 0x7B);
    put_word(&block, trailer(&block), 0x3B);
    CHECK(root_after(0x41, 3) == 0x5B);
    put_word(&block, trailer(&block), 0);
    CHECK(root_after(0x41, 4) == 0x5B);
    put_word(&block, trailer(&block) + 4, 0);
    bytes(&block)[trailer(&block) + 0x10] = 0;
    put_word(&block, trailer(&block), 0);
    CHECK(root_after(0x41, 5) == 0x3B);
}

/* A split's own cell is its head, the last that it takes. */
static void after_a_split(void) {
    static const char seven[] = {0x33, 0x35, 0x41, 0x42, 0x43, 0x50, 0x51};
    fresh(&block, 16);
    for (uint32_t i = 0; i < sizeof seven; i++) root_after(seven[i], i);
    CHECK(root(&block) == 0x19C);
    CHECK(root_after(0x52, 7) == 0x3C);
}

/* One label written 100,000 times: each cell gets its share. */
static void shares(void) {
    static unsigned writes[CELLS];
    fresh(&block, CELLS);
    for (uint32_t value = 0; value < WRITES; value++) writes[root_after(0x41, value) / CELL]++;
    CHECK(writes[0] == 0 && writes[CELLS - 1] == 0);
    for (uint32_t cell = 1; cell <= USABLE; cell++) {
        CHECK(writes[cell] == WRITES / USABLE + (cell <= WRITES % USABLE ? 1 : 0));
    }
}

void test_wear(void) {
    again_and_again(1);
    again_and_again(2);
    other_roots();
    after_a_split();
    shares();
}
