/* The host: its calls on the functions of firmware, and the run of its tests. */
#include "host.h"
#include "register_service.h"

#include <stdio.h>
#include <string.h>

/* A no leaves the block, and no call writes outside it. */
static void check_left(const struct block *block, uint8_t answer) {
    if (answer != REGISTER_DONE) CHECK(kept(block));
    CHECK(kept_margins(block));
}

uint8_t insert(struct block *block, const void *key, size_t key_size, uint32_t value, uint32_t *count) {
    *count = 0xA5A5A5A5;
    keep(block);
    uint8_t answer = register_insert(bytes(block), block->size, key, key_size, value, count);
    if (answer != REGISTER_DONE) CHECK(*count == 0);
    check_left(block, answer);
    return answer;
}

uint8_t get(struct block *block, const void *key, size_t key_size, uint32_t *value) {
    *value = 0xA5A5A5A5;
    keep(block);
    uint8_t answer = register_get(bytes(block), block->size, key, key_size, value);
    if (answer != REGISTER_DONE) CHECK(*value == 0);
    CHECK(kept(block));
    return answer;
}

uint8_t verdict(struct block *block, struct question q, float *dose) {
    const float zero = 0;
    memset(dose, FILLER, sizeof *dose);
    keep(block);
    uint8_t answer = register_verdict(bytes(block), block->size, (const uint8_t *)q.label, q.label_size, q.year, q.month, q.day,
                                      q.unit, q.degrees, q.kind, q.low, q.high, q.section, q.length, dose);
    if (answer != REGISTER_DONE) CHECK(memcmp(dose, &zero, sizeof zero) == 0);
    CHECK(kept(block));
    return answer;
}

uint8_t answer_of_insert(struct block *block, const void *key, size_t key_size, uint32_t value) {
    uint32_t count;
    return insert(block, key, key_size, value, &count);
}

uint8_t answer_of_list(struct block *block, const void *key, size_t key_size, uint32_t value) {
    static uint8_t room[MARGIN + REGISTER_LIST_SIZE + MARGIN];
    uint32_t records = 0xA5A5A5A5;
    memset(room, FILLER, sizeof room);
    keep(block);
    uint8_t answer = register_write_list(bytes(block), block->size, key, key_size, value, room + MARGIN, REGISTER_LIST_SIZE, &records);
    CHECK(kept(block) && (answer == REGISTER_DONE || records == 0));
    size_t used = (size_t)records * 8;
    CHECK(used <= REGISTER_LIST_SIZE && untouched(room, MARGIN) && untouched(room + MARGIN + used, sizeof room - MARGIN - used));
    return answer;
}

uint8_t answer_of_get(struct block *block, const void *key, size_t key_size) {
    uint32_t value;
    return get(block, key, key_size, &value);
}

uint8_t answer_of_verdict(struct block *block, struct question question) {
    float dose;
    return verdict(block, question, &dose);
}

uint8_t answer_on_day(struct block *block, struct question question, uint32_t year, uint32_t month, uint32_t day) {
    question.year = year;
    question.month = month;
    question.day = day;
    return answer_of_verdict(block, question);
}

int main(void) {
    test_samples();
    test_insert_and_get();
    test_verdict();
    test_hostile_bytes();
    test_wear();
    test_dates();
    printf("c_host: %lu checks passed\n", checks_passed());
    return 0;
}
