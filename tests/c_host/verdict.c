/* The verdict: numbers that name nothing, limits met exactly, what is no number, dates, and the order of the answers. */
#include "host.h"
#include "register.h"

#include <math.h>
#include <string.h>

static struct block block;

/* A question that is answered with a dose; the block holds 31 December 2199 for A and no date for B. */
static const struct question good = {
    .label = "A", .label_size = 1, .year = 2025, .month = 3, .day = 7, .unit = REGISTER_CELSIUS, .degrees = 20,
    .kind = REGISTER_GATE_BETWEEN, .low = 5, .high = 35, .section = 60, .length = 4000,
};

static void good_block(void) {
    fresh(&block, 8);
    CHECK(answer_of_insert(&block, "A", 1, 2199 * 512 + 12 * 32 + 31) == REGISTER_DONE);
    CHECK(answer_of_insert(&block, "B", 1, 2025 * 512 + 2 * 32 + 29) == REGISTER_DONE);
    CHECK(answer_of_insert(&block, "C", 1, 2025 * 512 + 3 * 32 + 6) == REGISTER_DONE);
    CHECK(answer_of_verdict(&block, good) == REGISTER_DONE);
}

static uint8_t with_reading(uint32_t unit, float degrees) {
    struct question q = good;
    q.unit = unit;
    q.degrees = degrees;
    q.kind = REGISTER_GATE_ANY;
    return answer_of_verdict(&block, q);
}

static uint8_t with_gate(uint32_t kind, float low, float high) {
    struct question q = good;
    q.kind = kind;
    q.low = low;
    q.high = high;
    return answer_of_verdict(&block, q);
}

static uint8_t with_bead(float section, float length) {
    struct question q = good;
    q.section = section;
    q.length = length;
    return answer_of_verdict(&block, q);
}

static uint8_t on_day(uint32_t year, uint32_t month, uint32_t day) {
    return answer_on_day(&block, good, year, month, day);
}

/* What a held value gets on a day. */
static uint8_t held_on(uint32_t value, uint32_t year, uint32_t month, uint32_t day) {
    CHECK(answer_of_insert(&block, "A", 1, value) == REGISTER_DONE);
    return on_day(year, month, day);
}

static void readings(void) {
    static const float refused[] = {NAN, -NAN, INFINITY, -INFINITY, 1000, -1000, 3.4e38f};
    for (uint32_t unit = REGISTER_CELSIUS; unit <= REGISTER_FAHRENHEIT; unit++) {
        CHECK(with_reading(unit, -100) == REGISTER_DONE);
        CHECK(with_reading(unit, 400) == REGISTER_DONE);
        CHECK(with_reading(unit, nextafterf(-100, -INFINITY)) == REGISTER_BAD_READING);
        CHECK(with_reading(unit, nextafterf(400, INFINITY)) == REGISTER_BAD_READING);
        for (size_t i = 0; i < sizeof refused / sizeof *refused; i++) {
            CHECK(with_reading(unit, refused[i]) == REGISTER_BAD_READING);
        }
    }
    static const uint32_t no_units[] = {0, 3, 256, 257, 258, 65537, 0x80000001, 0xFFFFFFFF};
    for (size_t i = 0; i < sizeof no_units / sizeof *no_units; i++) {
        CHECK(with_reading(no_units[i], 20) == REGISTER_BAD_READING);
        CHECK(with_reading(no_units[i], NAN) == REGISTER_BAD_READING);
    }
}

static void gates(void) {
    CHECK(with_gate(REGISTER_GATE_BETWEEN, 20, 20) == REGISTER_DONE);
    CHECK(with_gate(REGISTER_GATE_BETWEEN, -100, 400) == REGISTER_DONE);
    CHECK(with_gate(REGISTER_GATE_BETWEEN, nextafterf(20, 21), 35) == REGISTER_OUTSIDE_GATE);
    CHECK(with_gate(REGISTER_GATE_BETWEEN, 5, nextafterf(20, 19)) == REGISTER_OUTSIDE_GATE);
    CHECK(with_gate(REGISTER_GATE_BETWEEN, 20, nextafterf(20, 19)) == REGISTER_BAD_SHEET);
    CHECK(with_gate(REGISTER_GATE_BETWEEN, NAN, 35) == REGISTER_BAD_SHEET);
    CHECK(with_gate(REGISTER_GATE_BETWEEN, 5, NAN) == REGISTER_BAD_SHEET);
    CHECK(with_gate(REGISTER_GATE_BETWEEN, -INFINITY, INFINITY) == REGISTER_BAD_SHEET);
    CHECK(with_gate(REGISTER_GATE_BETWEEN, nextafterf(-100, -101), 35) == REGISTER_BAD_SHEET);
    CHECK(with_gate(REGISTER_GATE_BETWEEN, 5, nextafterf(400, 401)) == REGISTER_BAD_SHEET);
    CHECK(with_gate(REGISTER_GATE_AT_LEAST, 20, NAN) == REGISTER_DONE);
    CHECK(with_gate(REGISTER_GATE_AT_LEAST, 20, -100) == REGISTER_DONE);
    CHECK(with_gate(REGISTER_GATE_AT_LEAST, nextafterf(20, 21), 35) == REGISTER_OUTSIDE_GATE);
    CHECK(with_gate(REGISTER_GATE_AT_LEAST, 400, 35) == REGISTER_OUTSIDE_GATE);
    CHECK(with_gate(REGISTER_GATE_AT_LEAST, NAN, 35) == REGISTER_BAD_SHEET);
    CHECK(with_gate(REGISTER_GATE_AT_LEAST, nextafterf(400, 401), 35) == REGISTER_BAD_SHEET);
    CHECK(with_gate(REGISTER_GATE_AT_LEAST, -INFINITY, 35) == REGISTER_BAD_SHEET);
    CHECK(with_gate(REGISTER_GATE_ANY, NAN, NAN) == REGISTER_DONE);
    CHECK(with_gate(REGISTER_GATE_ANY, INFINITY, -INFINITY) == REGISTER_DONE);
    static const uint32_t no_kinds[] = {0, 4, 256, 257, 258, 259, 65537, 0x80000001, 0xFFFFFFFF};
    for (size_t i = 0; i < sizeof no_kinds / sizeof *no_kinds; i++) CHECK(with_gate(no_kinds[i], 5, 35) == REGISTER_BAD_SHEET);
}

static void beads(void) {
    struct question q = good;
    float dose;
    CHECK(with_bead(0.5f, 1) == REGISTER_DONE);
    CHECK(with_bead(100, 10000) == REGISTER_DONE);
    CHECK(with_bead(nextafterf(0.5f, 0), 1) == REGISTER_BAD_SHEET);
    CHECK(with_bead(0.5f, nextafterf(1, 0)) == REGISTER_BAD_SHEET);
    CHECK(with_bead(nextafterf(100, 101), 1) == REGISTER_BAD_SHEET);
    CHECK(with_bead(100, nextafterf(10000, 10001)) == REGISTER_BAD_SHEET);
    CHECK(with_bead(NAN, 1) == REGISTER_BAD_SHEET);
    CHECK(with_bead(60, NAN) == REGISTER_BAD_SHEET);
    CHECK(with_bead(INFINITY, 1) == REGISTER_BAD_SHEET);
    CHECK(with_bead(60, INFINITY) == REGISTER_BAD_SHEET);
    CHECK(with_bead(-60, -4000) == REGISTER_BAD_SHEET);
    q.section = 0.7f;
    q.length = 3333.3f;
    volatile float product = q.section * q.length;
    CHECK(verdict(&block, q, &dose) == REGISTER_DONE && dose == product / 1000.0f);
}

static void dates(void) {
    CHECK(on_day(2000, 1, 1) == REGISTER_DONE);
    CHECK(on_day(2199, 12, 31) == REGISTER_DONE);
    CHECK(on_day(2024, 2, 29) == REGISTER_DONE);
    CHECK(on_day(2000, 2, 29) == REGISTER_DONE);
    CHECK(on_day(2104, 2, 29) == REGISTER_DONE);
    CHECK(on_day(2100, 2, 28) == REGISTER_DONE);
    CHECK(on_day(2100, 2, 29) == REGISTER_BAD_TODAY);
    CHECK(on_day(2025, 2, 29) == REGISTER_BAD_TODAY);
    CHECK(on_day(2024, 2, 30) == REGISTER_BAD_TODAY);
    CHECK(on_day(2025, 4, 31) == REGISTER_BAD_TODAY);
    CHECK(on_day(2025, 12, 32) == REGISTER_BAD_TODAY);
    CHECK(on_day(1999, 12, 31) == REGISTER_BAD_TODAY);
    CHECK(on_day(2200, 1, 1) == REGISTER_BAD_TODAY);
    CHECK(on_day(2025, 0, 7) == REGISTER_BAD_TODAY);
    CHECK(on_day(2025, 13, 7) == REGISTER_BAD_TODAY);
    CHECK(on_day(2025, 3, 0) == REGISTER_BAD_TODAY);
    CHECK(on_day(2025 + 65536, 3, 7) == REGISTER_BAD_TODAY);
    CHECK(on_day(2025, 3 + 256, 7) == REGISTER_BAD_TODAY);
    CHECK(on_day(2025, 3, 7 + 256) == REGISTER_BAD_TODAY);
    CHECK(on_day(0xFFFFFFFF, 0xFFFFFFFF, 0xFFFFFFFF) == REGISTER_BAD_TODAY);
}

/* 29 February 2100 is held as 1,075,293 and is no date; the day before is good through its end. */
static void held_dates(void) {
    CHECK(held_on(1075293, 2100, 2, 28) == REGISTER_HELD_NO_DATE);
    CHECK(held_on(1075292, 2100, 2, 28) == REGISTER_DONE);
    CHECK(held_on(1075292, 2100, 3, 1) == REGISTER_EXPIRED);
    CHECK(held_on(2104 * 512 + 2 * 32 + 29, 2104, 2, 29) == REGISTER_DONE);
    good_block();
}

/* Everything is wrong at first; each answer shows when the ones before it are put right. */
static void order(void) {
    struct question q = {.label = "Z", .label_size = 49, .degrees = NAN, .low = NAN, .high = NAN};
    static const char over_long[49] = "Z";
    float dose = 7;
    q.label = over_long;
    CHECK(register_verdict(NULL, 0, NULL, 0, 0, 0, 0, 0, NAN, 0, NAN, NAN, NAN, NAN, &dose) == REGISTER_BAD_SIZE && dose == 0);
    block.size = 3 * CELL;
    CHECK(answer_of_verdict(&block, q) == REGISTER_BAD_SIZE);
    block.size = 4 * CELL;
    CHECK(answer_of_verdict(&block, q) == REGISTER_UNSOUND);
    block.size = 8 * CELL;
    CHECK(answer_of_verdict(&block, q) == REGISTER_BAD_KEY);
    q.label = NULL;
    q.label_size = 0;
    CHECK(answer_of_verdict(&block, q) == REGISTER_BAD_KEY);
    q.label = "Z";
    q.label_size = 1;
    CHECK(answer_of_verdict(&block, q) == REGISTER_BAD_SHEET);
    q.kind = REGISTER_GATE_BETWEEN;
    q.section = 60;
    q.length = 4000;
    CHECK(answer_of_verdict(&block, q) == REGISTER_BAD_SHEET);
    q.low = 5;
    q.high = 10;
    CHECK(answer_of_verdict(&block, q) == REGISTER_BAD_READING);
    q.unit = REGISTER_CELSIUS;
    CHECK(answer_of_verdict(&block, q) == REGISTER_BAD_READING);
    q.degrees = 20;
    CHECK(answer_of_verdict(&block, q) == REGISTER_BAD_TODAY);
    q.year = 2025;
    q.month = 3;
    q.day = 7;
    CHECK(answer_of_verdict(&block, q) == REGISTER_MISSING);
    q.label = "B";
    CHECK(answer_of_verdict(&block, q) == REGISTER_HELD_NO_DATE);
    q.label = "C";
    CHECK(answer_of_verdict(&block, q) == REGISTER_EXPIRED);
    q.label = "A";
    CHECK(answer_of_verdict(&block, q) == REGISTER_OUTSIDE_GATE);
    q.high = 20;
    CHECK(verdict(&block, q, &dose) == REGISTER_DONE && dose == 240.0f);
}

void test_verdict(void) {
    good_block();
    readings();
    gates();
    beads();
    dates();
    held_dates();
    order();
}
