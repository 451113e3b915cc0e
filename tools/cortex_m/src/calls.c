/* The calls that are compared, their hash and the count of their answers. */
#include "calls.h"
#include "drawn.h"

#include <inttypes.h>
#include <stdio.h>
#include <string.h>

enum { ANSWERS = 16, CALLS_A_LINE = 1000 };

static uint64_t hash = 14695981039346656037u;
static unsigned long calls;
static unsigned long answers[CALLS][ANSWERS];
static const char *part;
static struct block *part_block;

void hash_word(uint32_t word) { hash = (hash ^ word) * 1099511628211u; }

void hash_bytes(const uint8_t *from, size_t count) {
    for (size_t at = 0; at < count; at += 4) {
        uint32_t word = 0;
        memcpy(&word, from + at, count - at < 4 ? count - at : 4);
        hash_word(word);
    }
}

void hash_block(void) { hash_bytes(part_block->room, MARGIN + part_block->size + MARGIN); }

static void tell(void) {
    hash_block();
    printf("%s %lu %08" PRIx32 "%08" PRIx32 "\n", part, calls, (uint32_t)(hash >> 32), (uint32_t)hash);
}

void begin_part(const char *name, struct block *block) {
    if (part) tell();
    part = name;
    part_block = block;
}

/* The result goes into the hash as the compiler finds it in its register, so that a result which does not fill it shows. */
uint8_t take_answer(enum call call, uint8_t answer, uint32_t number) {
    hash_word(answer);
    hash_word(number);
    CHECK(answer < ANSWERS);
    answers[call][answer]++;
    if (++calls % CALLS_A_LINE == 0) tell();
    return answer;
}

uint8_t call_insert(uint8_t *block, uint64_t block_size, const uint8_t *key, uint64_t key_size, uint32_t value) {
    uint32_t count = 0xA5A5A5A5;
    uint8_t answer = register_insert(block, block_size, key, key_size, value, &count);
    hash_block();
    return take_answer(INSERT, answer, count);
}

uint8_t call_get(const uint8_t *block, uint64_t block_size, const uint8_t *key, uint64_t key_size) {
    uint32_t value = 0xA5A5A5A5;
    uint8_t answer = register_get(block, block_size, key, key_size, &value);
    return take_answer(GET, answer, value);
}

uint8_t call_verdict(const uint8_t *block, uint64_t block_size, const uint8_t *label, uint64_t label_size,
                     const struct question *question) {
    float dose = 7;
    uint8_t answer = register_verdict(block, block_size, label, label_size, question->year, question->month, question->day,
                                      question->unit, question->degrees, question->kind, question->low, question->high,
                                      question->section, question->length, &dose);
    return take_answer(VERDICT, answer, bits_of(dose));
}

/* The answers of a call, a bit for each. */
static const char *const names[CALLS] = {
    "insert", "get", "verdict", "format", "validate", "remove", "snapshot", "restore", "release", "next key", "page", "write list",
};
static const uint32_t expected[CALLS] = {
    0x009F, 0x080F, 0x7F0F, 0x0003, 0x0007, 0x088F, 0x0027, 0x0067, 0x0067, 0x080F, 0x800F, 0x809F,
};

bool tell_answers(void) {
    bool all = true;
    tell();
    printf("%lu calls\n", calls);
    for (enum call call = INSERT; call < CALLS; call++) {
        printf("answers of %s:", names[call]);
        for (unsigned answer = 0; answer < ANSWERS; answer++) {
            if (answers[call][answer]) printf(" %u: %lu", answer, answers[call][answer]);
            if ((answers[call][answer] != 0) != (expected[call] >> answer & 1)) all = false;
        }
        printf("\n");
    }
    return all;
}
