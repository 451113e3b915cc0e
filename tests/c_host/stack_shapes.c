/* Blocks as deep as a key is long, or as their cells allow: those that the calls build, and those of hostile bytes. They are laid word
 * by word, so that a block has as many levels as it has cells for. */
#include "stack.h"
#include "register.h"

#include <string.h>

enum { CHAIN = 0x1B, SPLIT = 0x1C, SPARSE = 0x1E, PREFIX = 0x1F, NO_KIND = 0x1D, LETTER = 'A' };

const uint8_t deepest_key[REGISTER_KEY_LIMIT] = "AAAAAAAAAAAAAAAAAAAAAAAAAAAAAAAAAAAAAAAAAAAAAAAA";

/* The block that is laid, the next cell for it, and the one behind the last. */
static struct block *laid;
static size_t next_cell, end_cell;

/* Begins a block of so many cells, of an edition. */
static void begin(struct block *block, size_t cells, uint32_t edition) {
    fresh_of(block, cells, edition);
    laid = block;
    next_cell = 1;
    end_cell = cells - 1;
}

/* Whether so many cells are left. */
static bool has_room(size_t cells) { return end_cell - next_cell >= cells; }

/* A pointer to a cell. */
static uint32_t pointer(size_t cell, uint32_t kind) { return (uint32_t)cell * CELL + kind; }

/* The position of a byte of a cell. */
static size_t at(size_t cell, size_t offset) { return cell * CELL + offset; }

/* A leaf of the value 1. */
static uint32_t leaf(void) { return ~UINT32_C(1); }

/* A chain cell of one character above a pointer. */
static uint32_t chain(uint32_t below) {
    bytes(laid)[at(next_cell, 0x1B)] = LETTER;
    put_word(laid, at(next_cell, 0x1C), below);
    return pointer(next_cell++, CHAIN);
}

/* A sparse cell of two characters, the lesser of which leads to a pointer. */
static uint32_t sparse(uint32_t below) {
    put_word(laid, at(next_cell, 0), below);
    put_word(laid, at(next_cell, 4), leaf());
    bytes(laid)[at(next_cell, 0x18)] = LETTER;
    bytes(laid)[at(next_cell, 0x19)] = LETTER + 1;
    bytes(laid)[at(next_cell, 0x1F)] = 6;
    return pointer(next_cell++, SPARSE);
}

/* A split whose one character leads to a pointer: end, mid and head. */
static uint32_t split(uint32_t below) {
    put_word(laid, at(next_cell, LETTER % 8 * 4), below);
    put_word(laid, at(next_cell + 1, LETTER / 8 % 8 * 4), pointer(next_cell, SPLIT));
    put_word(laid, at(next_cell + 2, 0x10 + LETTER / 64 * 4), pointer(next_cell + 1, SPLIT));
    next_cell += 3;
    return pointer(next_cell - 1, SPLIT);
}

/* A prefix of the value 1 over a node, in a cell of its own. */
static uint32_t prefix(uint32_t node) {
    put_word(laid, at(next_cell, 0), 1);
    bytes(laid)[at(next_cell, 4)] = 0xFF;
    put_word(laid, at(next_cell, 0x1C), node);
    return pointer(next_cell++, PREFIX);
}

/* A prefix of the value 1 in the cell of the split that it is over. */
static uint32_t embedded(uint32_t node) {
    size_t head = node / CELL;
    put_word(laid, at(head, 0), 1);
    bytes(laid)[at(head, 4)] = SPLIT;
    return pointer(head, PREFIX);
}

/* A way to lay one level above a pointer, the cells that it takes, and whether a prefix over the level below takes one more. */
struct level {
    uint32_t (*lay)(uint32_t below);
    size_t cells;
    uint32_t (*over)(uint32_t node);
};

/* Lays as many levels as are asked for or fit, one above the other, from what stands at the bottom; all roots are the topmost. */
static void levels(struct level level, size_t most, uint32_t bottom) {
    uint32_t word = bottom;
    for (size_t depth = 0; depth < most && has_room(level.cells + 1); depth++) {
        word = level.lay(depth > 0 && level.over ? level.over(word) : word);
    }
    for (size_t root = 0; root < 4; root++) put_word(laid, trailer(laid) + 4 * root, word);
    bytes(laid)[trailer(laid) + 0x10] = 7;
}

static const struct level chains = {chain, 1, NULL};
static const struct level sparses = {sparse, 1, NULL};
static const struct level splits = {split, 3, NULL};
static const struct level sparses_under_prefixes = {sparse, 1, prefix};
static const struct level splits_under_prefixes = {split, 3, prefix};
static const struct level splits_with_values = {split, 3, embedded};

static void lay_nothing(struct block *block, size_t cells) { begin(block, cells, 1); }

/* A run of chains, in cells of 28 characters. */
static void lay_run(struct block *block, size_t cells) {
    begin(block, cells, 1);
    enter(block, deepest_key, REGISTER_KEY_LIMIT, 1);
}

/* For each kind of level: a sound block, one of the same depth whose last pointer is of no kind, and one that is a level too deep. */
#define DEEP(name, edition, kind) \
    static void lay_##name(struct block *block, size_t cells) { \
        begin(block, cells, edition); \
        levels(kind, REGISTER_KEY_LIMIT, leaf()); \
    } \
    static void lay_broken_##name(struct block *block, size_t cells) { \
        begin(block, cells, edition); \
        levels(kind, REGISTER_KEY_LIMIT, pointer(1, NO_KIND)); \
    } \
    static void lay_deeper_##name(struct block *block, size_t cells) { \
        begin(block, cells, edition); \
        levels(kind, REGISTER_KEY_LIMIT + 1, leaf()); \
    }
#define DEEP_SHAPES(name) {#name, lay_##name}, {"broken " #name, lay_broken_##name}, {"deeper " #name, lay_deeper_##name}

DEEP(chains, 1, chains)
DEEP(sparses, 1, sparses)
DEEP(splits, 1, splits)
DEEP(sparses_under_prefixes, 1, sparses_under_prefixes)
DEEP(splits_under_prefixes, 1, splits_under_prefixes)
DEEP(splits_with_values, 2, splits_with_values)

const struct shape shapes[] = {
    {"nothing", lay_nothing}, {"run", lay_run}, DEEP_SHAPES(chains), DEEP_SHAPES(sparses), DEEP_SHAPES(splits),
    DEEP_SHAPES(sparses_under_prefixes), DEEP_SHAPES(splits_under_prefixes), DEEP_SHAPES(splits_with_values),
};
const size_t shape_count = sizeof shapes / sizeof *shapes;

/* The next of a row of numbers, of which the upper bits are taken. */
static uint32_t drawn(uint64_t *state, uint32_t limit) {
    *state = *state * 6364136223846793005u + 1442695040888963407u;
    return (uint32_t)((*state >> 33) % limit);
}

/* A key of up to 48 characters of few letters, so that keys share their beginnings. */
static struct drawn_key draw_key(uint64_t *state) {
    struct drawn_key key;
    uint32_t letters = 2 + drawn(state, 8);
    key.size = 1 + drawn(state, drawn(state, 2) == 0 ? 6 : REGISTER_KEY_LIMIT);
    for (size_t i = 0; i < key.size; i++) key.bytes[i] = (uint8_t)(LETTER + drawn(state, letters));
    return key;
}

struct drawn_key lay_drawn(struct block *block, size_t cells, unsigned number) {
    uint64_t state = number;
    uint32_t count;
    struct drawn_key kept = draw_key(&state), key = kept;
    begin(block, cells, 1 + number % 2);
    for (uint32_t turn = 1; turn < 4096; turn++) {
        if (register_insert(bytes(block), block->size, key.bytes, key.size, turn, &count) != REGISTER_DONE) break;
        if (drawn(&state, turn) == 0) kept = key;
        key = draw_key(&state);
    }
    return drawn(&state, 2) == 0 ? key : kept;
}
