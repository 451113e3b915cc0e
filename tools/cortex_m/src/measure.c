/* How much stack each call takes on a Cortex-M4 at most, over the shapes of the x86-64 test, and how many instructions some take. */
#include "block.h"
#include "drawn.h"
#include "register_service.h"
#include "stack.h"

#include <stdio.h>
#include <string.h>

enum { STACK_ROOM = 256 * 1024, PAINT = 0xA5A5A5A5, LAST_DAY = 2199 * 512 + 12 * 32 + 31, INSTRUCTIONS_A_TICK = 40 };

/* The processor's own timer: the emulator counts one nanosecond for each instruction, and the timer has 25 ticks in a microsecond. */
#define TIMER_CONTROL (*(volatile uint32_t *)0xE000E010)
#define TIMER_RELOAD (*(volatile uint32_t *)0xE000E014)
#define TIMER_NOW (*(volatile uint32_t *)0xE000E018)

static struct block block;
static struct key key;
static uint8_t answer;

static void get(void) {
    uint32_t value;
    answer = register_get(bytes(&block), block.size, key.bytes, key.size, &value);
}

static void verdict(void) {
    float dose;
    answer = register_verdict(bytes(&block), block.size, key.bytes, key.size, 2025, 3, 7, REGISTER_FAHRENHEIT, 70,
                              REGISTER_GATE_BETWEEN, 5, 35, 60, 4000, &dose);
}

static void insert(void) {
    uint32_t count;
    answer = register_insert(bytes(&block), block.size, key.bytes, key.size, LAST_DAY, &count);
}

static void write_list(void) {
    static uint8_t list[REGISTER_LIST_SIZE];
    uint32_t records;
    answer = register_write_list(bytes(&block), block.size, key.bytes, key.size, LAST_DAY, list, sizeof list, &records);
}

/* The bytes below this frame that lose their paint in a call; nothing else is called between painting and looking. */
static __attribute__((noinline)) size_t stack_of(void (*call)(void)) {
    volatile uint32_t *top, *low;
    __asm__ volatile("mov %0, sp" : "=r"(top));
    for (low = top - STACK_ROOM / 4; low < top; low++) *low = PAINT;
    call();
    for (low = top - STACK_ROOM / 4; low < top && *low == PAINT; low++) continue;
    return (uintptr_t)top - (uintptr_t)low;
}

static __attribute__((noinline)) uint32_t ticks_of(void (*call)(void)) {
    TIMER_RELOAD = 0xFFFFFF;
    TIMER_NOW = 0;
    TIMER_CONTROL = 5;
    uint32_t begun = TIMER_NOW;
    while (begun == 0) begun = TIMER_NOW;
    call();
    return (begun - TIMER_NOW) & 0xFFFFFF;
}

/* An insertion is made twice, which leaves a block with the same keys. */
static void measure(const char *name, void (*call)(void)) {
    call();
    CHECK(answer == REGISTER_DONE);
    uint32_t ticks = ticks_of(call);
    CHECK(answer == REGISTER_DONE);
    printf("| %s | %lu |\n", name, (unsigned long)ticks * INSTRUCTIONS_A_TICK);
}

static void all_calls(const char *title) {
    memset(key.bytes, 'A', KEY_LIMIT);
    key.size = KEY_LIMIT;
    printf("\n%s\n\n| call | instructions |\n|---|---|\n", title);
    measure("write list", write_list);
    measure("insert", insert);
    measure("get", get);
    measure("verdict", verdict);
}

static void put(uint32_t size) {
    key.size = size;
    insert();
    CHECK(answer == REGISTER_DONE);
}

/* A path of nodes with so many children each, as deep as a key is long. */
static void nest(uint8_t children, uint32_t edition) {
    fresh_of(&block, 2048, edition);
    memset(key.bytes, 'A', KEY_LIMIT);
    put(KEY_LIMIT);
    for (uint32_t at = 0; at < KEY_LIMIT; at++)
        for (uint8_t next = 1; next < children; next++) {
            memset(key.bytes, 'A', KEY_LIMIT);
            key.bytes[at] = (uint8_t)('A' + next);
            put(at + 1);
        }
}

/* A key that is the beginning of the longer ones, over each node of the path. */
static void put_beginnings(void) {
    memset(key.bytes, 'A', KEY_LIMIT);
    for (uint32_t size = 1; size < KEY_LIMIT; size++) put(size);
}

/* Drawn keys until a block has no room, behind the deepest one. */
static void fill(void) {
    fresh_of(&block, 2048, 1);
    memset(key.bytes, 'A', KEY_LIMIT);
    put(KEY_LIMIT);
    do {
        do draw_key(&key, ANY_BYTES); while (key.size == 0 || key.size > KEY_LIMIT);
        insert();
    } while (answer == REGISTER_DONE);
    CHECK(answer == REGISTER_NO_ROOM);
}

/* The most bytes of stack of every call. */
static void all_stacks(void) {
    printf("\n| call | stack, 16 cells | stack, 2,048 cells |\n|---|---|---|\n");
    for (size_t i = 0; i < stated_count; i++) {
        size_t few = most_stack(stated_calls[i].call, 16, stack_of), many = most_stack(stated_calls[i].call, 2048, stack_of);
        printf("| %s | %lu | %lu |\n", stated_calls[i].name, (unsigned long)few, (unsigned long)many);
    }
}

int main(void) {
    all_stacks();
    fresh_of(&block, 16, 1);
    all_calls("One run of chains, 16 cells");
    fresh_of(&block, 2048, 1);
    all_calls("One run of chains, 2,048 cells");
    nest(2, 1);
    all_calls("48 nested sparse nodes, 2,048 cells");
    nest(7, 1);
    all_calls("48 nested splits, 2,048 cells");
    put_beginnings();
    all_calls("The same with a prefix over each split");
    nest(7, 2);
    put_beginnings();
    all_calls("48 nested splits with values over them, edition 2");
    fill();
    all_calls("Filled until no room is left, 2,048 cells");
    return 0;
}
