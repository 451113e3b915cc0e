/* The calls of the cartridge register that firmware does not have, for service tools and memory drivers: making and judging a
 * block, removing a key, snapshots, the next key, pages, and an insertion as a list of stores.
 *
 * What register.h says of blocks, keys, answers, power, time, stack, other calls and pointers holds here too; on every answer but
 * REGISTER_DONE a lent buffer stays byte for byte too. The library of these calls stands beside firmware's, and both can be linked.
 * Power that drops inside register_format, register_remove, register_snapshot, register_restore or register_release may leave a
 * block that is not sound; only a list of stores is proved against it.
 */
#ifndef REGISTER_SERVICE_H
#define REGISTER_SERVICE_H

#include "register.h"

#ifdef __cplusplus
extern "C" {
#endif

/* The most bytes of stack that a call takes on x86-64, as in register.h.
 *
 *  in blocks of up to 16 cells            of any number of cells */
enum {
    REGISTER_STACK_FORMAT_FEW = 128,       REGISTER_STACK_FORMAT = 128,
    REGISTER_STACK_VALIDATE_FEW = 3968,    REGISTER_STACK_VALIDATE = 7936,
    REGISTER_STACK_REMOVE_FEW = 8192,      REGISTER_STACK_REMOVE = 8832,
    REGISTER_STACK_SNAPSHOT_FEW = 3968,    REGISTER_STACK_SNAPSHOT = 8064,
    REGISTER_STACK_RESTORE_FEW = 3968,     REGISTER_STACK_RESTORE = 8064,
    REGISTER_STACK_RELEASE_FEW = 3968,     REGISTER_STACK_RELEASE = 8064,
    REGISTER_STACK_NEXT_KEY_FEW = 7936,    REGISTER_STACK_NEXT_KEY = 8192,
    REGISTER_STACK_PAGE_FEW = 13056,       REGISTER_STACK_PAGE = 15232,
    REGISTER_STACK_WRITE_LIST_FEW = 8192,  REGISTER_STACK_WRITE_LIST = 8832
};

/* Makes a block fresh, of edition 1 or 2, whatever its bytes were. An edition that there is none of is bad size.
 * Answers: done, bad size. */
REGISTER_MUST_USE uint8_t register_format(uint8_t *block, register_size block_size, uint32_t edition);

/* Judges whether the bytes are a register.
 * Answers: done, bad size, unsound. */
REGISTER_MUST_USE uint8_t register_validate(const uint8_t *block, register_size block_size);

/* Removes a key with its value, and tells in *count how many cells that took: a removal writes its path anew, so a full register
 * may refuse it until a slot is released.
 * Answers: done, bad size, unsound, bad key, missing, no room; missing is asked before no room. */
REGISTER_MUST_USE uint8_t register_remove(uint8_t *block, register_size block_size, const uint8_t *key, register_size key_size,
                                          uint32_t *count);

/* Keeps what the register holds now in slot 1, 2 or 3, in place of what the slot held. Each slot in use keeps its cells from being
 * taken, and makes every call slower.
 * Answers: done, bad size, unsound, bad slot. */
REGISTER_MUST_USE uint8_t register_snapshot(uint8_t *block, register_size block_size, uint32_t slot);

/* Makes the register hold again what a slot holds; the slot stays in use.
 * Answers: done, bad size, unsound, bad slot, empty slot. */
REGISTER_MUST_USE uint8_t register_restore(uint8_t *block, register_size block_size, uint32_t slot);

/* Gives up what a slot holds, so that its cells can be taken again.
 * Answers: done, bad size, unsound, bad slot, empty slot. */
REGISTER_MUST_USE uint8_t register_release(uint8_t *block, register_size block_size, uint32_t slot);

/* Tells the least key that is greater than a given one, by unsigned bytes, a key before its extensions: its size in *next_size
 * and its bytes in next, which is never NULL, zero past the size and on every no. The given key need not be held; the empty one leads to the first.
 * Answers: done, bad size, unsound, bad key (over 48 bytes), missing (there is no greater one). */
REGISTER_MUST_USE uint8_t register_next_key(const uint8_t *block, register_size block_size, const uint8_t *key,
                                            register_size key_size, uint32_t *next_size, uint8_t next[REGISTER_KEY_LIMIT]);

/* The least bytes of a page: the record of a longest key. */
#define REGISTER_PAGE_SIZE (1 + REGISTER_KEY_LIMIT + 4)

/* Writes the keys greater than a given one with their values into a buffer, in order, as many as fit. A record is a byte with the
 * key's size, the key, and the value as a word, highest byte first. Tells in *records how many there are, in *used how many bytes
 * they use, and in *more whether there are greater keys still (1) or not (0); the bytes past those used stay. The next page
 * begins after the last key of this one, the first after the empty key.
 * Answers: done, bad size, unsound, bad key (over 48 bytes), short buffer (under REGISTER_PAGE_SIZE). */
REGISTER_MUST_USE uint8_t register_page(const uint8_t *block, register_size block_size, const uint8_t *key, register_size key_size,
                                        uint8_t *buffer, register_size buffer_size, uint32_t *records, uint32_t *used,
                                        uint32_t *more);

/* The most bytes that the list of an insertion has: 8 records for each of 4 x 48 + 10 cells and one for the root word, 8 bytes each. In
 * a small block of n cells it has at most 8 x (n - 2) + 1 records. */
#define REGISTER_LIST_SIZE ((8 * (4 * REGISTER_KEY_LIMIT + 10) + 1) * 8)

/* Gives the entry of register_insert as a list of stores for a memory driver, and tells in *records how many; the block is only read.
 * The list holds one record of 8 bytes for each store: a byte position in the block, as a word, then the data word to be stored
 * there, words highest byte first, positions multiples of 4. It begins with the cells that the entry takes, 8 records each,
 * and the last record alone is the root word. The bytes of the list buffer past the records stay as they are.
 * The driver makes the stores one after the other, in this order, and guarantees two things: the store of a word is whole, it is made
 * or not made; and the last store begins only after all others have reached the memory. If power drops before the last store is
 * made, the block is sound and shows the old entries, and the entry is simply made again: through a list or by register_insert,
 * it then takes the same cells. After the last store the block is byte for byte what register_insert leaves.
 * Nothing else alters the block between the asking for the list and its last store.
 * Answers: done, bad size, unsound, bad key, bad value, no room, short buffer (under 8 bytes for each record). */
REGISTER_MUST_USE uint8_t register_write_list(const uint8_t *block, register_size block_size, const uint8_t *key,
                                              register_size key_size, uint32_t value, uint8_t *list, register_size list_size,
                                              uint32_t *records);

#ifdef __cplusplus
}
#endif

#endif
