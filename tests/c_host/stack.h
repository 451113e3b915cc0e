/* What the parts of the stack's host share: the calls with the stack that the headers state for them, and the blocks that take most. */
#ifndef STACK_H
#define STACK_H

#include "block.h"

/* A shape: what it is, and how it is laid into a block of so many cells, as deep as these allow. */
struct shape {
    const char *name;
    void (*lay)(struct block *block, size_t cells);
};
extern const struct shape shapes[];
extern const size_t shape_count;

/* The key that leads down through every node of a shape: a longest one, of one character again and again. */
extern const uint8_t deepest_key[];

/* Lays a block by entering drawn keys until one has no room, and tells one of them; each number leads to another block. */
struct drawn_key {
    uint8_t bytes[48];
    size_t size;
};
struct drawn_key lay_drawn(struct block *block, size_t cells, unsigned number);

/* A call, and the most bytes of stack that its header states for it in blocks of up to 16 cells and of any number. */
struct stated {
    const char *name;
    void (*call)(void);
    size_t few, many;
};
extern const struct stated stated_calls[];
extern const size_t stated_count;

/* The most bytes that a call takes over all shapes of so many cells, by a way to tell the bytes of one call. */
size_t most_stack(void (*call)(void), size_t cells, size_t (*used_by)(void (*call)(void)));

/* Each shape is what it is called: sound, but for the broken ones and those that are a level too deep. */
void check_shapes(void);

#endif
