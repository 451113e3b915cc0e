/* Seeded draws: the same row of numbers, keys and floats in every run and on every processor. No expression that uses them draws
 * twice without an order, since C leaves it to each compiler which part comes first. */
#ifndef DRAWN_H
#define DRAWN_H

#include <stdbool.h>
#include <stdint.h>

enum { KEY_LIMIT = 48, KEY_ROOM = KEY_LIMIT + 1 };

struct key {
    uint8_t bytes[KEY_ROOM];
    uint32_t size;
};

/* How the keys of a block resemble each other. */
enum family { ANY_BYTES, TWO_LETTERS, ONE_STEM, SHORT_KEYS, NEIGHBOURS, FAMILIES };

uint32_t drawn(void);
uint32_t below(uint32_t limit);
bool one_in(uint32_t times);

/* A key of a family, of 1 to 48 bytes, seldom of 0 or 49; neighbours begin as the key that was there before. */
void draw_key(struct key *key, enum family family);

/* Keys that come again: some are drawn anew for each block, one that is entered takes the place of another, and a key is chosen from
 * them every second time. */
void begin_keys(enum family family);
void remember_key(const struct key *key);
void choose_key(struct key *key, enum family family);

/* A value to enter: mostly a date or nearly one, seldom any number. */
uint32_t draw_value(void);

float float_of(uint32_t bits);
uint32_t bits_of(float number);

/* A float from low to high; one of those where judging is delicate; and one of all bits. */
float draw_between(float low, float high);
float draw_delicate(void);
float draw_any(void);

#endif
