/* What the two parts of the third host share: entries, and the list of stores that was asked for last. */
#ifndef DRIVER_H
#define DRIVER_H

#include "block.h"

enum { RECORD = 8, MOST_LIST = 1024 };

/* A key with the value that it is to have. */
struct entry {
    const char *key;
    size_t key_size;
    uint32_t value;
};

/* The last list: how many records it has, and its buffer at an odd address between margins. */
struct list {
    uint32_t records;
    uint8_t room[MARGIN + MOST_LIST + MARGIN];
};
extern struct list list;

/* Asks for the list of an entry into a buffer of so many bytes; the block stays, and of the buffer all but the list. */
uint8_t ask(struct block *block, struct entry entry, size_t size);

/* Asks for a list that must be given, into a buffer with room for it. */
void ask_whole(struct block *block, struct entry entry);

/* The record of a store in the last list: its position, and its data word. */
uint32_t position(uint32_t store);
uint32_t data(uint32_t store);

/* Cuts lists at every place, in a file of this name. */
void test_cuts(const char *file);

#endif
