/* What the tests of firmware's functions share: calls whose answers are held to what is expected. */
#ifndef HOST_H
#define HOST_H

#include "block.h"

/* A question to the verdict. */
struct question {
    const char *label;
    size_t label_size;
    uint32_t year, month, day;
    uint32_t unit;
    float degrees;
    uint32_t kind;
    float low, high, section, length;
};

/* The calls: each starts with a filler beside the answer, and a no must leave a zero there and every byte of the block. */
uint8_t insert(struct block *block, const void *key, size_t key_size, uint32_t value, uint32_t *count);
uint8_t get(struct block *block, const void *key, size_t key_size, uint32_t *value);
uint8_t verdict(struct block *block, struct question question, float *dose);

/* The answer alone. */
uint8_t answer_of_insert(struct block *block, const void *key, size_t key_size, uint32_t value);
uint8_t answer_of_list(struct block *block, const void *key, size_t key_size, uint32_t value);
uint8_t answer_of_get(struct block *block, const void *key, size_t key_size);
uint8_t answer_of_verdict(struct block *block, struct question question);
uint8_t answer_on_day(struct block *block, struct question question, uint32_t year, uint32_t month, uint32_t day);

void test_samples(void);
void test_insert_and_get(void);
void test_verdict(void);
void test_hostile_bytes(void);
void test_wear(void);
void test_dates(void);

#endif
