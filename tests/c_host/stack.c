/* How much stack each call takes, against the figures that the headers state. A call runs in a thread whose stack was painted before, and
 * the bytes that lost their paint are counted from the frame that calls it. */
#include "stack.h"

#include <pthread.h>
#include <stdio.h>
#include <string.h>

enum { STACK_SIZE = 256 * 1024 };

/* What a thread runs, and where its frame is. */
struct run {
    void (*call)(void);
    uint8_t *frame;
};

static void *run(void *given) {
    struct run *told = given;
    told->frame = __builtin_frame_address(0);
    told->call();
    return NULL;
}

/* The bytes of a painted stack that a call uses below the frame of its caller. */
static size_t used_by(void (*call)(void)) {
    static uint8_t stack[STACK_SIZE] __attribute__((aligned(4096)));
    struct run told = {call, NULL};
    pthread_attr_t attributes;
    pthread_t thread;
    memset(stack, FILLER, sizeof stack);
    CHECK(pthread_attr_init(&attributes) == 0 && pthread_attr_setstack(&attributes, stack, sizeof stack) == 0);
    CHECK(pthread_create(&thread, &attributes, run, &told) == 0 && pthread_join(thread, NULL) == 0);
    CHECK(pthread_attr_destroy(&attributes) == 0);
    uint8_t *low = stack;
    while (low < told.frame && *low == FILLER) low++;
    CHECK(low > stack + 4096);
    return (size_t)(told.frame - low);
}

/* Holds a figure to what was measured: no more than stated, and stated no more than a quarter over it. */
static bool holds(size_t measured, size_t stated) { return measured <= stated && stated <= measured + measured / 4 + 256; }

int main(void) {
    bool all = true;
    check_shapes();
    for (size_t i = 0; i < stated_count; i++) {
        const struct stated *stated = &stated_calls[i];
        size_t few = most_stack(stated->call, 16, used_by), many = most_stack(stated->call, 2048, used_by);
        bool good = holds(few, stated->few) && holds(many, stated->many);
        printf("%-20s 16 cells: %6zu of %6zu, 2,048 cells: %6zu of %6zu%s\n", stated->name, few, stated->few, many, stated->many,
               good ? "" : "  <- not as stated");
        all = all && good;
    }
    CHECK(all);
    printf("c_host: the stack of %zu calls is as stated, %lu checks\n", stated_count, checks_passed());
    return 0;
}
