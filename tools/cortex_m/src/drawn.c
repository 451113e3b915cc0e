/* Seeded draws: three shifts and a product, of which the upper half is taken. */
#include "drawn.h"

#include <math.h>
#include <string.h>

static uint64_t state = 88172645463325252u;

uint32_t drawn(void) {
    state ^= state >> 12;
    state ^= state << 25;
    state ^= state >> 27;
    return (uint32_t)(state * 2685821657736338717u >> 32);
}

uint32_t below(uint32_t limit) { return (uint32_t)((uint64_t)drawn() * limit >> 32); }

bool one_in(uint32_t times) { return below(times) == 0; }

/* Each size from 0 to 49 occurs, the two that are refused seldom. */
static uint32_t draw_size(uint32_t most) {
    if (one_in(60)) return one_in(2) ? 0 : KEY_ROOM;
    return 1 + below(most);
}

static uint8_t draw_byte(enum family family) {
    return family == TWO_LETTERS || family == NEIGHBOURS ? (uint8_t)('A' + below(2)) : (uint8_t)drawn();
}

void draw_key(struct key *key, enum family family) {
    uint32_t before = key->size;
    uint32_t same = 0;
    key->size = draw_size(family == SHORT_KEYS ? 2 : KEY_LIMIT);
    if (family == ONE_STEM) {
        same = key->size < 40 ? key->size / 2 : 40;
        memset(key->bytes, 'S', same);
    }
    if (family == NEIGHBOURS) same = below(before < key->size ? before + 1 : key->size + 1);
    for (uint32_t at = same; at < key->size; at++) key->bytes[at] = draw_byte(family);
}

enum { REMEMBERED = 64 };
static struct key held[REMEMBERED];

void begin_keys(enum family family) {
    for (unsigned i = 0; i < REMEMBERED; i++) draw_key(&held[i], family);
}

void remember_key(const struct key *key) { held[below(REMEMBERED)] = *key; }

void choose_key(struct key *key, enum family family) {
    if (one_in(2)) draw_key(key, family);
    else *key = held[below(REMEMBERED)];
}

uint32_t draw_value(void) {
    if (one_in(16)) return drawn();
    if (one_in(16)) return 0x7FFFFFFF + below(2);
    uint32_t year = 1999 + below(202);
    uint32_t month = below(14);
    return year * 512 + month * 32 + below(32);
}

float float_of(uint32_t bits) {
    float number;
    memcpy(&number, &bits, sizeof number);
    return number;
}

uint32_t bits_of(float number) {
    uint32_t bits;
    memcpy(&bits, &number, sizeof bits);
    return bits;
}

float draw_between(float low, float high) { return low + (high - low) * ((float)(drawn() >> 8) / 16777216.0f); }

float draw_any(void) { return float_of(drawn()); }

/* Limits and their neighbours, zeros, the smallest numbers, infinities, and NaNs quiet and signalling, of both signs. */
float draw_delicate(void) {
    static const float limits[] = {-100, 400, 0.5f, 100, 1, 10000, 0, 32, 212, 1000, -148, 752};
    static const uint32_t others[] = {
        0x00000000, 0x80000000, 0x00000001, 0x80000001, 0x007FFFFF, 0x00800000, 0x80800000, 0x7F7FFFFF, 0xFF7FFFFF,
        0x7F800000, 0xFF800000, 0x7FC00000, 0xFFC00000, 0x7F800001, 0xFFBFFFFF,
    };
    if (one_in(3)) return float_of(others[below(sizeof others / sizeof *others)]);
    float limit = limits[below(sizeof limits / sizeof *limits)];
    switch (below(3)) {
    case 0: return nextafterf(limit, -INFINITY);
    case 1: return nextafterf(limit, INFINITY);
    default: return limit;
    }
}
