/* The verdict's numbers: limits met exactly and missed by one step, what is no number, rounding, dates. */
#include "calls.h"
#include "drawn.h"

#include <math.h>

static struct block block;

/* The scale of the register, each operation rounded by itself. */
static float celsius(uint32_t unit, float degrees) {
    if (unit != REGISTER_FAHRENHEIT) return degrees;
    volatile float above = degrees - 32.0f, fivefold = above * 5.0f;
    return fivefold / 9.0f;
}

static struct question good_question(void) {
    struct question question = {0};
    question.year = 2000 + below(200);
    question.month = 1 + below(12);
    question.day = 1 + below(28);
    question.unit = 1 + below(2);
    question.kind = 1 + below(3);
    question.degrees = draw_between(-100, 400);
    question.low = draw_between(-100, 100);
    question.high = draw_between(100, 400);
    question.section = draw_between(0.5f, 100);
    question.length = draw_between(1, 10000);
    return question;
}

/* A step below, none, or a step above. */
static float beside(float number) {
    uint32_t side = below(3);
    return side == 0 ? number : nextafterf(number, side == 1 ? -INFINITY : INFINITY);
}

/* Both limits beside the very temperature; degrees around freezing, where numbers below the normal ones count too. */
static void sharpen(struct question *question) {
    if (one_in(4)) question->degrees = question->unit == REGISTER_FAHRENHEIT ? beside(32) : float_of(drawn() & 0x80000001);
    question->low = beside(celsius(question->unit, question->degrees));
    question->high = beside(one_in(2) ? question->low : celsius(question->unit, question->degrees));
}

static float draw_number(void) { return one_in(4) ? draw_any() : draw_delicate(); }

static uint32_t draw_word(uint32_t good) { return one_in(2) ? below(40) : one_in(2) ? good | 1u << below(32) : drawn(); }

/* Puts one thing wrong, or nearly so. */
static void disturb(struct question *question) {
    switch (below(11)) {
    case 0: question->year = one_in(2) ? draw_word(question->year) : 1999 + below(2) * 201; break;
    case 1: question->month = draw_word(question->month); break;
    case 2: question->day = one_in(2) ? draw_word(question->day) : 29 + below(3); break;
    case 3: question->unit = draw_word(question->unit); break;
    case 4: question->degrees = draw_number(); break;
    case 5: question->kind = draw_word(question->kind); break;
    case 6: question->low = draw_number(); break;
    case 7: question->high = draw_number(); break;
    case 8: question->section = draw_number(); break;
    case 9: question->length = draw_number(); break;
    default: break;
    }
}

struct question draw_question(void) {
    struct question question = good_question();
    if (one_in(3)) sharpen(&question);
    for (uint32_t times = below(3); times > 0; times--) disturb(&question);
    return question;
}

/* Label A holds drawn dates, B the last day, C no date, D an old date; Z is not there. */
void verdicts(void) {
    static const uint8_t labels[] = "AABBBCDZ";
    begin_part("verdicts", &block);
    fresh(&block, 8);
    call_insert(bytes(&block), block.size, labels + 2, 1, 2199 * 512 + 12 * 32 + 31);
    call_insert(bytes(&block), block.size, labels + 5, 1, 2025 * 512 + 2 * 32 + 30);
    call_insert(bytes(&block), block.size, labels + 6, 1, 2000 * 512 + 1 * 32 + 1);
    for (unsigned turn = 0; turn < 30000; turn++) {
        struct question question = draw_question();
        if (turn % 16 == 0) call_insert(bytes(&block), block.size, labels, 1, draw_value());
        if (one_in(4)) question.year = 2000;
        const uint8_t *label = labels + below(8);
        call_verdict(bytes(&block), block.size, label, one_in(100) ? 0 : 1, &question);
    }
}
