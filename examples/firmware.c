/* A controller in small: a register with one cartridge, and the verdict on three days. */
#include <register.h>
#include <stdio.h>

static uint8_t block[16 * REGISTER_CELL_SIZE];
static const uint8_t label[] = {'C', 'H', 'A', '1'};

/* Asks whether a bead of 60 square millimetres and 4 metres may be laid at 20 degrees, between 5 and 40. */
static void ask(uint32_t year, uint32_t month, uint32_t day) {
    float dose;
    uint8_t answer = register_verdict(block, sizeof block, label, sizeof label, year, month, day, REGISTER_CELSIUS, 20.0f,
                                      REGISTER_GATE_BETWEEN, 5.0f, 40.0f, 60.0f, 4000.0f, &dose);
    printf("%u-%02u-%02u: answer %u, dose %g ml\n", (unsigned)year, (unsigned)month, (unsigned)day, answer, (double)dose);
}

int main(void) {
    uint32_t cells;
    if (register_make_fresh(block, sizeof block, 1) != REGISTER_DONE) return 1;
    uint32_t expiry = register_pack_date(2025, 3, 7);
    if (register_insert(block, sizeof block, label, sizeof label, expiry, &cells) != REGISTER_DONE) return 1;
    ask(2025, 3, 7);
    ask(2025, 3, 8);
    ask(2025, 3, 33);
    return 0;
}
