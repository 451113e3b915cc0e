/* The calls whose stack is measured, each on one block and key, and the most that one takes over all shapes. */
#include "stack.h"
#include "register_service.h"

#include <string.h>

enum { PAGE_ROOM = 65536, FEW_CELLS = 16, DRAWN_FEW = 300, DRAWN_MANY = 3 };

static struct block block;
static const uint8_t *key;
static size_t key_size;
static uint8_t answer, buffer[PAGE_ROOM], next[REGISTER_KEY_LIMIT];
static uint32_t numbers[3];

/* The calls, each on the block and the key, none of which is told how it answers. */
static void insert(void) { answer = register_insert(bytes(&block), block.size, key, key_size, 7, numbers); }
static void get(void) { answer = register_get(bytes(&block), block.size, key, key_size, numbers); }
static void format(void) { answer = register_format(bytes(&block), block.size, 1); }
static void validate(void) { answer = register_validate(bytes(&block), block.size); }
static void remove_key(void) { answer = register_remove(bytes(&block), block.size, key, key_size, numbers); }
static void snapshot(void) { answer = register_snapshot(bytes(&block), block.size, 1); }
static void restore(void) { answer = register_restore(bytes(&block), block.size, 1); }
static void release(void) { answer = register_release(bytes(&block), block.size, 1); }
static void next_key(void) { answer = register_next_key(bytes(&block), block.size, key, key_size, numbers, next); }

static void verdict(void) {
    float dose;
    answer = register_verdict(bytes(&block), block.size, key, key_size, 2025, 3, 7, REGISTER_FAHRENHEIT, 68, REGISTER_GATE_BETWEEN, 5, 40,
                              60, 4000, &dose);
}

static void pack_date(void) { numbers[0] = register_pack_date(2025, 3, 7); }

static void page(void) {
    answer = register_page(bytes(&block), block.size, key, key_size, buffer, sizeof buffer, numbers, numbers + 1, numbers + 2);
}

static void write_list(void) {
    answer = register_write_list(bytes(&block), block.size, key, key_size, 7, buffer, sizeof buffer, numbers);
}

#define STATED(name, call, stack) {#name, call, stack##_FEW, stack}
const struct stated stated_calls[] = {
    STATED(register_insert, insert, REGISTER_STACK_INSERT),
    STATED(register_get, get, REGISTER_STACK_GET),
    STATED(register_verdict, verdict, REGISTER_STACK_VERDICT),
    STATED(register_pack_date, pack_date, REGISTER_STACK_PACK_DATE),
    STATED(register_format, format, REGISTER_STACK_FORMAT),
    STATED(register_validate, validate, REGISTER_STACK_VALIDATE),
    STATED(register_remove, remove_key, REGISTER_STACK_REMOVE),
    STATED(register_snapshot, snapshot, REGISTER_STACK_SNAPSHOT),
    STATED(register_restore, restore, REGISTER_STACK_RESTORE),
    STATED(register_release, release, REGISTER_STACK_RELEASE),
    STATED(register_next_key, next_key, REGISTER_STACK_NEXT_KEY),
    STATED(register_page, page, REGISTER_STACK_PAGE),
    STATED(register_write_list, write_list, REGISTER_STACK_WRITE_LIST),
};
const size_t stated_count = sizeof stated_calls / sizeof *stated_calls;

/* The greater of a number and the bytes of a call with a key. */
static size_t more_of(size_t most, void (*call)(void), const uint8_t *bytes, size_t size, size_t (*used_by)(void (*call)(void))) {
    key = bytes;
    key_size = size;
    size_t used = used_by(call);
    return used > most ? used : most;
}

size_t most_stack(void (*call)(void), size_t cells, size_t (*used_by)(void (*call)(void))) {
    static const size_t sizes[] = {REGISTER_KEY_LIMIT, REGISTER_KEY_LIMIT - 1, 0};
    size_t most = 0;
    for (size_t i = 0; i < shape_count; i++) {
        for (size_t j = 0; j < sizeof sizes / sizeof *sizes; j++) {
            shapes[i].lay(&block, cells);
            most = more_of(most, call, deepest_key, sizes[j], used_by);
        }
    }
    for (unsigned number = 0; number < (cells > FEW_CELLS ? DRAWN_MANY : DRAWN_FEW); number++) {
        struct drawn_key drawn = lay_drawn(&block, cells, number);
        most = more_of(most, call, drawn.bytes, drawn.size, used_by);
    }
    return most;
}

void check_shapes(void) {
    key = deepest_key;
    key_size = REGISTER_KEY_LIMIT;
    for (size_t i = 0; i < shape_count; i++) {
        bool hostile = strncmp(shapes[i].name, "broken", 6) == 0 || strncmp(shapes[i].name, "deeper", 6) == 0;
        shapes[i].lay(&block, 2048);
        validate();
        CHECK(answer == (hostile ? REGISTER_UNSOUND : REGISTER_DONE));
        get();
        CHECK(answer == (hostile ? REGISTER_UNSOUND : i == 0 ? REGISTER_MISSING : REGISTER_DONE));
    }
}
