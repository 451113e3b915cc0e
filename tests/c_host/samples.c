/* The bench samples, as far as they go through firmware's calls; a slot is set and a root put back by hand. */
#include "host.h"
#include "register.h"

#include <math.h>
#include <string.h>

static struct block block;

/* Samples A to D: one key in a block of four cells, with a snapshot of it. */
static void samples_a_to_d(void) {
    static const uint8_t sample_a[4 * CELL] = {
        [32 + 27] = 0x41, [32 + 28] = 0xFF, [32 + 29] = 0xFF, [32 + 30] = 0xFF, [32 + 31] = 0xFF,
        [96 + 3] = 0x3B, [96 + 0x17] = 4, [96 + 0x1F] = 1,
    };
    uint32_t count;
    uint32_t value;
    fresh(&block, 4);
    CHECK(insert(&block, "\x41", 1, 0, &count) == REGISTER_DONE && count == 1);
    CHECK(memcmp(bytes(&block), sample_a, sizeof sample_a) == 0);
    CHECK(get(&block, "\x41", 1, &value) == REGISTER_DONE && value == 0);

    put_word(&block, 96 + 4, 0x3B);
    bytes(&block)[96 + 0x10] = 1;
    CHECK(insert(&block, "\x41", 1, 1, &count) == REGISTER_DONE && count == 1);
    CHECK(root(&block) == 0x5B);
    CHECK(get(&block, "\x41", 1, &value) == REGISTER_DONE && value == 1);

    CHECK(answer_of_insert(&block, "\x41", 1, 2) == REGISTER_NO_ROOM);

    put_word(&block, 96, 0x3B);
    CHECK(get(&block, "\x41", 1, &value) == REGISTER_DONE && value == 0);
    CHECK(insert(&block, "\x41", 1, 2, &count) == REGISTER_DONE && count == 1);
    CHECK(root(&block) == 0x5B && word(&block, 64 + 28) == 0xFFFFFFFD);
}

/* Samples E to H and M: a chain, a sparse cell of two and of three, that one written again, and a prefix. */
static void samples_e_to_h(void) {
    static const uint8_t cell_of_f[CELL] = {0xFF, 0xFF, 0xFF, 0xFE, 0, 0, 0, 0x3A, [24] = 0x41, 0x43, [30] = 0, 6};
    uint32_t count;
    uint32_t value;
    fresh(&block, 8);
    CHECK(insert(&block, "\x43\x48\x41", 3, 0, &count) == REGISTER_DONE && count == 1);
    CHECK(root(&block) == 0x39);
    struct block sample_e = block;

    CHECK(insert(&block, "\x41", 1, 1, &count) == REGISTER_DONE && count == 1);
    CHECK(root(&block) == 0x5E);
    CHECK(memcmp(bytes(&block) + 64, cell_of_f, CELL) == 0);

    CHECK(answer_of_insert(&block, "\x35", 1, 2) == REGISTER_DONE);
    CHECK(root(&block) == 0x7E && word(&block, 96 + 28) % 65536 == 0x0026);
    CHECK(get(&block, "\x43\x48\x41", 3, &value) == REGISTER_DONE && value == 0);
    CHECK(get(&block, "\x41", 1, &value) == REGISTER_DONE && value == 1);
    CHECK(get(&block, "\x35", 1, &value) == REGISTER_DONE && value == 2);

    CHECK(insert(&block, "\x35", 1, 3, &count) == REGISTER_DONE && count == 1);
    CHECK(root(&block) == 0x9E && word(&block, 128 + 28) % 65536 == 0x0026);
    CHECK(get(&block, "\x35", 1, &value) == REGISTER_DONE && value == 3);

    block = sample_e;
    CHECK(insert(&block, "\x43", 1, 5, &count) == REGISTER_DONE && count == 2);
    CHECK(root(&block) == 0x7B && word(&block, 64 + 28) == 0x3A);
    CHECK(get(&block, "\x43", 1, &value) == REGISTER_DONE && value == 5);
    CHECK(get(&block, "\x43\x48\x41", 3, &value) == REGISTER_DONE && value == 0);
    CHECK(answer_of_get(&block, "\x43\x48", 2) == REGISTER_MISSING);
}

/* Samples J, K and L: an expiry day, a dose and a reading. */
static void samples_j_to_l(void) {
    struct question q = {
        .label = "A", .label_size = 1, .year = 2025, .month = 3, .day = 7, .unit = REGISTER_CELSIUS, .degrees = 20,
        .kind = REGISTER_GATE_ANY, .section = 60, .length = 4000,
    };
    float dose;
    fresh(&block, 4);
    CHECK(answer_of_insert(&block, "A", 1, 1036903) == REGISTER_DONE);
    CHECK(verdict(&block, q, &dose) == REGISTER_DONE && dose == 240.0f);
    q.day = 8;
    CHECK(answer_of_verdict(&block, q) == REGISTER_EXPIRED);
    q.day = 3;
    q.month = 7;
    CHECK(answer_of_verdict(&block, q) == REGISTER_EXPIRED);

    q.day = 7;
    q.month = 3;
    q.unit = REGISTER_FAHRENHEIT;
    q.degrees = 392;
    q.kind = REGISTER_GATE_BETWEEN;
    q.low = q.high = 200;
    CHECK(verdict(&block, q, &dose) == REGISTER_DONE && dose == 240.0f);
    q.degrees = nextafterf(392, 400);
    CHECK(answer_of_verdict(&block, q) == REGISTER_OUTSIDE_GATE);
    q.degrees = nextafterf(392, 0);
    CHECK(answer_of_verdict(&block, q) == REGISTER_OUTSIDE_GATE);
}

void test_samples(void) {
    samples_a_to_d();
    samples_e_to_h();
    samples_j_to_l();
}
