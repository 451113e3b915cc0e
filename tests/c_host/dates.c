/* The header's helper that packs an expiry day, held to the proved library for every day and for much that is none. */
#include "host.h"
#include "register.h"

static struct block block;

static const struct question question = {
    .label = "A", .label_size = 1, .unit = REGISTER_CELSIUS, .degrees = 20, .kind = REGISTER_GATE_ANY, .section = 60, .length = 4000,
};

/* What the verdict on the cartridge answers on a day. */
static uint8_t answer_on(uint32_t year, uint32_t month, uint32_t day) {
    return answer_on_day(&block, question, year, month, day);
}

/* Packs three numbers and tells whether they are a date: exactly where the verdict takes them as today. The cartridge entered with the
 * packed value is good on that day; what is no date is refused as a value too. */
static bool pack(uint32_t year, uint32_t month, uint32_t day) {
    uint32_t packed = register_pack_date(year, month, day);
    bool is_date = answer_on(year, month, day) != REGISTER_BAD_TODAY;
    CHECK((packed != REGISTER_NO_DATE) == is_date);
    uint8_t entered = answer_of_insert(&block, "A", 1, packed);
    CHECK(entered == (is_date ? REGISTER_DONE : REGISTER_BAD_VALUE));
    if (is_date) CHECK(answer_on(year, month, day) == REGISTER_DONE);
    return is_date;
}

/* Every day of the calendar and the numbers around each month, in order: the cartridge of the day before is expired on each. */
static void every_day(void) {
    unsigned days = 0;
    for (uint32_t year = 1999; year <= 2200; year++) {
        for (uint32_t month = 0; month <= 13; month++) {
            for (uint32_t day = 0; day <= 33; day++) {
                uint8_t before = answer_on(year, month, day);
                bool is_first = days == 0;
                if (!pack(year, month, day)) continue;
                CHECK(before == (is_first ? REGISTER_MISSING : REGISTER_EXPIRED));
                days++;
            }
        }
    }
    CHECK(days == 200 * 365 + 49);
}

/* Numbers that would pack into the value of a date, were they not judged one by one, and the largest ones. */
static void no_days(void) {
    static const uint32_t others[][3] = {
        {2025, 2, 39}, {2025, 0, 103}, {2024, 19, 7}, {2024, 18, 39}, {0, 0, 1036903}, {2025, 3, 33}, {8390633, 3, 7},
        {2025, 134217731, 7}, {UINT32_MAX, UINT32_MAX, UINT32_MAX}, {0, 0, 0}, {7, 3, 2025}, {3, 7, 2025}, {25, 3, 7},
    };
    for (size_t i = 0; i < sizeof others / sizeof *others; i++) {
        CHECK(register_pack_date(others[i][0], others[i][1], others[i][2]) == REGISTER_NO_DATE);
        CHECK(!pack(others[i][0], others[i][1], others[i][2]));
    }
}

void test_dates(void) {
    fresh(&block, 4);
    CHECK(register_pack_date(2025, 3, 7) == 1036903);
    CHECK(register_pack_date(2025, 7, 3) == 1037027);
    CHECK(register_pack_date(2100, 2, 29) == REGISTER_NO_DATE);
    every_day();
    no_days();
}
