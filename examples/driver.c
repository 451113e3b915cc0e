/* A memory driver in small: an entry is asked for as a list of stores, which are then made one by one, the root word last. */
#include <register_service.h>
#include <stdio.h>

static uint8_t block[16 * REGISTER_CELL_SIZE], list[REGISTER_LIST_SIZE];
static const uint8_t label[] = {'C', 'H', 'A', '1'};

/* The word at a place of the list, highest byte first. */
static uint32_t word(const uint8_t *at) {
    return (uint32_t)at[0] << 24 | (uint32_t)at[1] << 16 | (uint32_t)at[2] << 8 | at[3];
}

/* Makes one store. A real driver writes the word whole, and waits before the last one until all others are in the memory for good. */
static void store(const uint8_t *record) {
    for (unsigned i = 0; i < 4; i++) block[word(record) + i] = record[4 + i];
}

int main(void) {
    uint32_t records, value;
    if (register_format(block, sizeof block, 2) != REGISTER_DONE) return 1;
    uint32_t expiry = register_pack_date(2025, 3, 7);
    if (register_write_list(block, sizeof block, label, sizeof label, expiry, list, sizeof list, &records) != REGISTER_DONE) return 1;
    for (uint32_t i = 0; i < records; i++) store(list + 8 * i);
    if (register_validate(block, sizeof block) != REGISTER_DONE) return 1;
    if (register_get(block, sizeof block, label, sizeof label, &value) != REGISTER_DONE) return 1;
    printf("%u stores made, value %u held\n", (unsigned)records, (unsigned)value);
    return 0;
}
