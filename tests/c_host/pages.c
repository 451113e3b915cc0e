/* The second host: it prints registers in pages, by the service library, and holds each byte of the buffer to what
 * is expected. */
#include "block.h"
#include "register_service.h"

#include <stdio.h>
#include <string.h>

/* The least buffer that is taken, the longest key, and the most bytes lent here. */
enum { LEAST = REGISTER_PAGE_SIZE, LONGEST_KEY = REGISTER_KEY_LIMIT, MOST = 4096 };

static struct block block;

/* The last page: its numbers, and its buffer at an odd address between margins. */
static struct {
    uint32_t records, used, more;
    uint8_t room[MARGIN + MOST + MARGIN];
} page;

static const uint8_t *buffer(void) { return page.room + MARGIN; }

/* Makes a page of the block after a key: the block stays, and of the buffer all but the bytes used; beside a no stand zeros. */
static uint8_t print_page(const void *key, size_t key_size, size_t size) {
    memset(&page, FILLER, sizeof page);
    keep(&block);
    uint8_t answer = register_page(bytes(&block), block.size, key, key_size, page.room + MARGIN, size, &page.records, &page.used,
                                  &page.more);
    CHECK(kept(&block));
    if (answer != REGISTER_DONE) CHECK(page.records == 0 && page.used == 0 && page.more == 0);
    CHECK(page.used <= size && page.more <= 1 && untouched(page.room, MARGIN));
    CHECK(untouched(buffer() + page.used, sizeof page.room - MARGIN - page.used));
    return answer;
}

/* Whether a page is done with these numbers and just these bytes. */
static bool printed(const void *key, size_t key_size, size_t size, uint32_t records, const void *expected, uint32_t used,
                    uint32_t more) {
    return print_page(key, key_size, size) == REGISTER_DONE && page.records == records && page.used == used && page.more == more &&
           memcmp(buffer(), expected, used) == 0;
}

/* Sample G: three records in 20 bytes; after its keys two, one and none; 52 bytes are too few. */
static void sample_g(void) {
    static const uint8_t records[] = {1, 0x35, 0, 0, 0, 2, 1, 0x41, 0, 0, 0, 1, 3, 0x43, 0x48, 0x41, 0, 0, 0, 0};
    fresh(&block, 8);
    enter(&block, "CHA", 3, 0);
    enter(&block, "A", 1, 1);
    enter(&block, "5", 1, 2);
    for (size_t size = LEAST; size <= 120; size++) CHECK(printed("", 0, size, 3, records, 20, 0));
    CHECK(printed(NULL, 0, LEAST, 3, records, 20, 0));
    CHECK(printed("5", 1, LEAST, 2, records + 6, 14, 0));
    CHECK(printed("A", 1, LEAST, 1, records + 12, 8, 0));
    CHECK(printed("C", 1, LEAST, 1, records + 12, 8, 0));
    CHECK(printed("CHA", 3, LEAST, 0, "", 0, 0));
    CHECK(printed("CHA1", 4, LEAST, 0, "", 0, 0));
    for (size_t size = 0; size < LEAST; size++) CHECK(print_page("", 0, size) == REGISTER_SHORT_BUFFER);
    uint32_t numbers[3] = {7, 7, 7};
    CHECK(register_page(bytes(&block), block.size, NULL, 0, NULL, 0, numbers, numbers + 1, numbers + 2) == REGISTER_SHORT_BUFFER);
    CHECK(numbers[0] == 0 && numbers[1] == 0 && numbers[2] == 0);
}

/* Labels of 48, 48 and 1 bytes in pages of several sizes: a record that fits exactly is written, and after the last none remain. */
static void sizes(void) {
    char first[LONGEST_KEY], second[LONGEST_KEY];
    uint8_t records[112] = {[0] = 48, [52] = 7, [53] = 48, [105] = 8, [106] = 1, [107] = 'Z', [111] = 9};
    memset(first, 'A', sizeof first);
    memcpy(second, first, sizeof first);
    second[47] = 'B';
    memcpy(records + 1, first, sizeof first);
    memcpy(records + 54, second, sizeof second);
    for (uint32_t edition = 1; edition <= 2; edition++) {
        fresh_of(&block, 8, edition);
        enter(&block, first, 48, 7);
        enter(&block, second, 48, 8);
        enter(&block, "Z", 1, 9);
        CHECK(printed("", 0, 53, 1, records, 53, 1));
        CHECK(printed(first, 48, 53, 1, records + 53, 53, 1));
        CHECK(printed(second, 48, 53, 1, records + 106, 6, 0));
        CHECK(printed("", 0, 105, 1, records, 53, 1));
        CHECK(printed(first, 48, 105, 2, records + 53, 59, 0));
        CHECK(printed("", 0, 106, 2, records, 106, 1));
        CHECK(printed(second, 48, 106, 1, records + 106, 6, 0));
        CHECK(printed("", 0, 111, 2, records, 106, 1));
        CHECK(printed("", 0, 112, 3, records, 112, 0));
        CHECK(printed("", 0, 113, 3, records, 112, 0));
    }
}

/* A fresh register has nothing to print, which is no refusal. */
static void empty_register(void) {
    for (uint32_t edition = 1; edition <= 2; edition++) {
        fresh_of(&block, 4, edition);
        CHECK(printed("", 0, LEAST, 0, "", 0, 0));
        CHECK(printed("\xFF", 1, MOST, 0, "", 0, 0));
    }
}

/* The records of the register by the calls for the next key and its value, one behind the other; gives how many bytes they are. */
static size_t walk(uint8_t *records) {
    uint8_t key[LONGEST_KEY];
    uint32_t size = 0, value;
    size_t used = 0;
    while (register_next_key(bytes(&block), block.size, key, size, &size, records + used + 1) == REGISTER_DONE) {
        memcpy(key, records + used + 1, size);
        CHECK(register_get(bytes(&block), block.size, key, size, &value) == REGISTER_DONE);
        records[used] = (uint8_t)size;
        for (size_t i = 0; i < 4; i++) records[used + 1 + size + i] = (uint8_t)(value >> (24 - 8 * i));
        used += size + 5;
    }
    return used;
}

/* Prints the register page by page, each begun after the last key in the bytes of the one before; the sizes rise from one page
 * to the next. Gives how many bytes they are, joined. */
static size_t all_pages(uint8_t *joined, size_t size, size_t step) {
    uint8_t key[LONGEST_KEY];
    size_t key_size = 0, total = 0;
    do {
        CHECK(print_page(key, key_size, size) == REGISTER_DONE);
        memcpy(joined + total, buffer(), page.used);
        total += page.used;
        size_t last = 0, at = 0;
        for (uint32_t i = 0; i < page.records; i++) {
            last = at;
            at += 5u + buffer()[at];
        }
        CHECK(at == page.used && (page.records > 0 || !page.more));
        key_size = page.records > 0 ? buffer()[last] : 0;
        memcpy(key, buffer() + last + 1, key_size);
        size += step;
    } while (page.more);
    return total;
}

/* Whatever the sizes, the pages joined are one page with room for all, and the walk from key to key. */
static void joined_pages(void) {
    static uint8_t walked[MOST], joined[MOST];
    fresh(&block, 256);
    for (uint32_t i = 0; i < 60; i++) {
        uint8_t key[LONGEST_KEY];
        for (size_t at = 0; at < LONGEST_KEY; at++) key[at] = (uint8_t)(at < 2 ? i * 37 : at * (i % 3) * 85);
        enter(&block, key, 1 + i * 29 % LONGEST_KEY, i * 1000003);
    }
    size_t total = walk(walked);
    CHECK(printed("", 0, MOST, 60, walked, (uint32_t)total, 0));
    CHECK(printed("", 0, total, 60, walked, (uint32_t)total, 0));
    CHECK(print_page("", 0, total - 1) == REGISTER_DONE && page.records == 59 && page.more == 1);
    for (size_t size = LEAST; size <= 4 * LEAST; size++) {
        for (size_t step = 0; step < 8; step++) {
            CHECK(all_pages(joined, size, step) == total && memcmp(joined, walked, total) == 0);
        }
    }
}

/* Bad size, unsound, bad key, short buffer: the lowest that applies is given. */
static void order(void) {
    static const size_t bad_sizes[] = {0, 1, 96, 127, 129, 2049 * CELL};
    static const char long_key[300];
    for (size_t size = LEAST - 1; size <= LEAST; size++) {
        for (size_t key_size = 48; key_size <= 49; key_size++) {
            for (size_t i = 0; i < sizeof bad_sizes / sizeof *bad_sizes; i++) {
                fresh(&block, MOST_CELLS);
                block.size = bad_sizes[i];
                CHECK(print_page(long_key, key_size, size) == REGISTER_BAD_SIZE);
            }
            fresh(&block, 4);
            put_word(&block, trailer(&block), 0x3B);
            CHECK(print_page(long_key, key_size, size) == REGISTER_UNSOUND);
            fresh(&block, 4);
            uint8_t answer = key_size > 48 ? REGISTER_BAD_KEY : size < LEAST ? REGISTER_SHORT_BUFFER : REGISTER_DONE;
            CHECK(print_page(long_key, key_size, size) == answer);
        }
    }
    CHECK(print_page(long_key, sizeof long_key, LEAST) == REGISTER_BAD_KEY);
    CHECK(print_page(long_key, 0, LEAST) == REGISTER_DONE);
}

/* A page is refused just as the judgement of the block says, and else done. */
static void check_judged(void) {
    uint8_t judged = register_validate(bytes(&block), block.size);
    CHECK(judged == REGISTER_DONE || judged == REGISTER_UNSOUND);
    CHECK(print_page("", 0, LEAST) == judged);
    CHECK(print_page("A", 1, MOST) == judged);
    CHECK(print_page("", 0, LEAST - 1) == (judged == REGISTER_DONE ? REGISTER_SHORT_BUFFER : judged));
}

/* Every byte of a small register in every other value. */
static void every_byte(void) {
    fresh(&block, 5);
    enter(&block, "A", 1, 1036903);
    enter(&block, "CH", 2, 7);
    struct block sample = block;
    for (size_t at = 0; at < block.size; at++) {
        for (unsigned other = 1; other < 256; other++) {
            bytes(&block)[at] = (uint8_t)(bytes(&sample)[at] ^ other);
            check_judged();
        }
        bytes(&block)[at] = bytes(&sample)[at];
    }
}

/* Blocks of random bytes under a valid trailer. */
static void random_blocks(void) {
    uint32_t state = FIRST_STATE;
    for (unsigned turn = 0; turn < 20000; turn++) {
        draw(&block, turn, &state);
        check_judged();
    }
}

int main(void) {
    CHECK(REGISTER_PAGE_SIZE == 53 && REGISTER_KEY_LIMIT == 48);
    sample_g();
    sizes();
    empty_register();
    joined_pages();
    order();
    every_byte();
    random_blocks();
    printf("c_host: %lu checks of pages passed\n", checks_passed());
    return 0;
}
