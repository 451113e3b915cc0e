/* The cartridge register for controller firmware: entering, looking up, and the verdict whether a cartridge may be dosed now.
 * register_service.h has every other call, for service tools and memory drivers.
 *
 * A register is one block of cells of 32 bytes, 4 to 2,048 of them, that the caller owns and lends to each call;
 * register_make_fresh below makes a new one. It is of edition 1 or 2 and keeps its edition; one of edition 2 may take fewer
 * cells where a key is the beginning of others. Each key is 1 to 48 bytes of any value, each value a number up to
 * 2,147,483,647. A cartridge is entered under its label, with its expiry day as value, which register_pack_date packs.
 *
 * Every call judges the whole block and all that it is told, whatever comes in, and answers with the lowest number below that
 * applies; where a fresh block is made, its old bytes are not judged. On every answer but REGISTER_DONE the block stays byte for byte and
 * the number beside the answer is zero.
 *
 * Power. register_insert stores the root word, the first word of the last cell, after all cells; but power that drops inside the
 * call may leave that word torn, half old and half new, and nothing is proved of such a block. Where power can drop, enter
 * through register_write_list of register_service.h: that the block survives a cut at any place of its list is proved. No other call
 * that writes has such a list: one that is cut, be it a removal or a snapshot, may leave a block that is not sound.
 *
 * Wear. Insertions take their cells in turn, each behind those of the one before and round the block, so that the free cells are
 * written alike. The root word is written by every insertion: of all words it wears most.
 *
 * Stack. The table of REGISTER_STACK_... below tells the most bytes that a call takes; nothing is taken from a heap, and there is no
 * static memory.
 *
 * Time. Every call on a register walks the whole tree of the root and that of each slot in use: its time grows with the cells that the root
 * reaches, and again with those of each slot; with three slots in use it is about fourfold.
 *
 * Other calls. No call is reentrant over one block: while one runs, no other call over the same block may begin, in an interrupt
 * or a task, unless both only read. Calls over different blocks know nothing of each other.
 *
 * C library. Nothing of it is needed but memset, for the calls of register_service.h memcpy too.
 *
 * Cortex-M4. docs/CORTEX_M.md tells how the libraries are made for it, what they need there of the C runtime and of the float unit, and
 * their stack.
 *
 * C cuts a number wider than a parameter before the call: the year 4,294,969,321 in 64 bits would arrive as 2025 and be taken for it.
 * Judge wider numbers yourself before you hand them over.
 *
 * A pointer to bytes stands before the number of bytes; it may be NULL where that is 0. Each pointer to a number that a call tells is
 * never NULL and is written on every answer. What the pointers of a call lead to does not overlap.
 *
 * The header needs C99 or C++.
 */
#ifndef REGISTER_H
#define REGISTER_H

#include <stddef.h>
#include <stdint.h>

/* The version of this header and its libraries; everything else that tells a version takes it from here. */
#define REGISTER_VERSION "0.12.0"

/* Marks a result that must be looked at: the compiler warns where one is dropped. */
#if defined(__cplusplus) && __cplusplus >= 201703L
#define REGISTER_MUST_USE [[nodiscard]]
#elif defined(__STDC_VERSION__) && __STDC_VERSION__ >= 202311L
#define REGISTER_MUST_USE [[nodiscard]]
#elif defined(__GNUC__)
#define REGISTER_MUST_USE __attribute__((warn_unused_result))
#else
#define REGISTER_MUST_USE
#endif

#ifdef __cplusplus
extern "C" {
#endif

/* A number of bytes: 64 bits on every target, since the proved code counts so; C widens a size_t to it. */
typedef uint64_t register_size;

/* Sizes have 64 bits, and a size_t that would be cut is refused: an array of a negative size does not compile. */
typedef char register_size_is_64_bits[sizeof(register_size) == 8 ? 1 : -1];
typedef char register_size_holds_size_t[sizeof(size_t) <= sizeof(register_size) ? 1 : -1];

/* What a call answers. 5, 6 and 15 are answers of calls that register_service.h has. */
enum {
    REGISTER_DONE = 0,
    REGISTER_BAD_SIZE = 1,      /* the size is no multiple of 32, or not 4 to 2,048 cells; of a fresh block, or no edition */
    REGISTER_UNSOUND = 2,       /* the bytes are no register of edition 1 or 2 */
    REGISTER_BAD_KEY = 3,       /* the key or label is empty or over 48 bytes */
    REGISTER_BAD_VALUE = 4,     /* the value is over 2,147,483,647 */
    REGISTER_BAD_SLOT = 5,      /* the slot is not 1, 2 or 3 */
    REGISTER_EMPTY_SLOT = 6,    /* the slot to be restored or released is not in use */
    REGISTER_NO_ROOM = 7,       /* the insertion or removal takes more cells than are free */
    REGISTER_BAD_SHEET = 8,     /* no gate kind, a limit that the kind uses outside -100 to 400, low above high, section outside
                                   0.5 to 100, length outside 1 to 10,000, or any of these not a number */
    REGISTER_BAD_READING = 9,   /* no unit, or degrees outside -100 to 400 in their own unit or not a number */
    REGISTER_BAD_TODAY = 10,    /* today is no date of the years 2000 to 2199 */
    REGISTER_MISSING = 11,      /* the register does not hold the key or label, or no next one */
    REGISTER_HELD_NO_DATE = 12, /* the value held for the label is no date */
    REGISTER_EXPIRED = 13,      /* today is after the expiry day */
    REGISTER_OUTSIDE_GATE = 14, /* the temperature is outside the gate */
    REGISTER_SHORT_BUFFER = 15  /* a page has under 53 bytes, or a list under 8 for each record; asked last */
};

/* The kinds of a temperature gate; its limits are in Celsius and count as inside. */
enum {
    REGISTER_GATE_ANY = 1,      /* uses neither limit */
    REGISTER_GATE_AT_LEAST = 2, /* uses the low limit */
    REGISTER_GATE_BETWEEN = 3   /* uses both limits */
};

/* The units of a temperature reading. */
enum {
    REGISTER_CELSIUS = 1,
    REGISTER_FAHRENHEIT = 2
};

/* Sizes in bytes. */
enum {
    REGISTER_CELL_SIZE = 32,
    REGISTER_KEY_LIMIT = 48
};

/* The most bytes of stack that a call takes on x86-64, measured on the deepest blocks, sound and hostile ones, and rounded up; a test
 * fails above them. Those of a Cortex-M4 are in docs/CORTEX_M.md.
 *
 *  in blocks of up to 16 cells            of any number of cells */
enum {
    REGISTER_STACK_INSERT_FEW = 9984,      REGISTER_STACK_INSERT = 9984,
    REGISTER_STACK_GET_FEW = 4096,         REGISTER_STACK_GET = 8064,
    REGISTER_STACK_VERDICT_FEW = 4224,     REGISTER_STACK_VERDICT = 8320,
    REGISTER_STACK_PACK_DATE_FEW = 2816,   REGISTER_STACK_PACK_DATE = 2816
};

/* Enters a key with its value, in place of an older one, and tells in *count how many cells that took.
 * Answers: done, bad size, unsound, bad key, bad value, no room. */
REGISTER_MUST_USE uint8_t register_insert(uint8_t *block, register_size block_size, const uint8_t *key, register_size key_size,
                                          uint32_t value, uint32_t *count);

/* Looks a key up and tells its value in *value.
 * Answers: done, bad size, unsound, bad key, missing. */
REGISTER_MUST_USE uint8_t register_get(const uint8_t *block, register_size block_size, const uint8_t *key, register_size key_size,
                                       uint32_t *value);

/* Judges whether a bead may be laid today from the cartridge of a label: the reading of the thermometer (unit and degrees) is
 * held against the gate of the product sheet (kind, low and high), and *dose tells the millilitres of a bead of this section in
 * square millimetres and this length in millimetres. A limit that the gate kind does not use is not judged.
 * Answers: done, bad size, unsound, bad key, and all from bad sheet to outside gate. */
REGISTER_MUST_USE uint8_t register_verdict(const uint8_t *block, register_size block_size, const uint8_t *label,
                                           register_size label_size, uint32_t year, uint32_t month, uint32_t day, uint32_t unit,
                                           float degrees, uint32_t kind, float low, float high, float section, float length,
                                           float *dose);

/* Makes a fresh register, which holds nothing, of edition 1 or 2.
 * Answers: done, bad size. */
REGISTER_MUST_USE static inline uint8_t register_make_fresh(uint8_t *block, register_size block_size, uint32_t edition) {
    const register_size cells = block_size / REGISTER_CELL_SIZE;
    uint8_t *trailer;
    if (block_size % REGISTER_CELL_SIZE != 0 || cells < 4 || cells > 2048) return REGISTER_BAD_SIZE;
    if (edition != 1 && edition != 2) return REGISTER_BAD_SIZE;
    for (size_t at = 0; at < block_size; at++) block[at] = 0;
    trailer = block + (block_size - REGISTER_CELL_SIZE);
    trailer[0x16] = (uint8_t)(cells >> 8);
    trailer[0x17] = (uint8_t)cells;
    trailer[0x1F] = (uint8_t)edition;
    return REGISTER_DONE;
}

/* What register_pack_date gives for numbers that are no date. No register takes it as a value: register_insert answers bad value. */
#define REGISTER_NO_DATE UINT32_C(0xFFFFFFFF)

/* Packs an expiry day of the years 2000 to 2199 into the value that a register holds for it, year x 512 + month x 32 + day;
 * REGISTER_NO_DATE for any other three numbers. Whether they are a date the proved verdict says: in an empty register it
 * answers bad today for what is no date, and missing for a date. */
REGISTER_MUST_USE static inline uint32_t register_pack_date(uint32_t year, uint32_t month, uint32_t day) {
    const uint8_t label = 0;
    uint8_t block[4 * REGISTER_CELL_SIZE];
    float dose;
    if (register_make_fresh(block, sizeof block, 1) != REGISTER_DONE) return REGISTER_NO_DATE;
    if (register_verdict(block, sizeof block, &label, 1, year, month, day, REGISTER_CELSIUS, 0.0f, REGISTER_GATE_ANY, 0.0f, 0.0f,
                         1.0f, 1.0f, &dose) != REGISTER_MISSING)
        return REGISTER_NO_DATE;
    return year * 512 + month * 32 + day;
}

#ifdef __cplusplus
}
#endif

#endif
