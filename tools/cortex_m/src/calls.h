/* The calls that are compared: what each gives goes into one running hash, which is told every 1,000 calls. */
#ifndef CALLS_H
#define CALLS_H

#include "block.h"
#include "host.h"
#include "register_service.h"

/* Begins a part of the run; its name stands before each hash. */
void begin_part(const char *name, struct block *block);

/* The calls, firmware's first. */
enum call { INSERT, GET, VERDICT, FORMAT, VALIDATE, REMOVE, SNAPSHOT, RESTORE, RELEASE, NEXT_KEY, PAGE, WRITE_LIST, CALLS };

/* Takes a number, some bytes, or the part's block with its margins into the hash; and an answer with the number beside it. */
void hash_word(uint32_t word);
void hash_bytes(const uint8_t *from, size_t count);
void hash_block(void);
uint8_t take_answer(enum call call, uint8_t answer, uint32_t number);

/* Each hands its words to the register as they are; an insertion's block is hashed whole, with its margins. */
uint8_t call_insert(uint8_t *block, uint64_t block_size, const uint8_t *key, uint64_t key_size, uint32_t value);
uint8_t call_get(const uint8_t *block, uint64_t block_size, const uint8_t *key, uint64_t key_size);
uint8_t call_verdict(const uint8_t *block, uint64_t block_size, const uint8_t *label, uint64_t label_size,
                     const struct question *question);

/* Tells how often each answer came; whether each answer of a call did, and no other. */
bool tell_answers(void);

/* The parts of the run. */
void grown_blocks(void);
void damaged_blocks(void);
void hostile_blocks(void);
void odd_arguments(void);
void verdicts(void);
void serviced_blocks(void);

/* A question of the verdict in which about one thing is wrong. */
struct question draw_question(void);

#endif
