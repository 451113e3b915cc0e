/* Where a Cortex-M4 begins: the table that it reads at address 0, and its float unit switched on before the C runtime starts. */
#include <stdint.h>

/* The C runtime's own beginning, which makes a stack and calls main. */
void _start(void);

static void begin(void) {
    volatile uint32_t *access_control = (volatile uint32_t *)0xE000ED88;
    *access_control |= 0xFu << 20;
    __asm__ volatile("dsb\n\tisb");
    _start();
}

/* A fault ends the run with a message, where the processor would stand still. */
static void fault(void) {
    static const char message[] = "cortex_m: the processor met a fault\n";
    register uint32_t number __asm__("r0") = 4;
    register const char *text __asm__("r1") = message;
    __asm__ volatile("bkpt 0xAB" : "+r"(number) : "r"(text) : "memory");
    static const uint32_t ended[] = {0x20023, 1};
    number = 0x20;
    text = (const char *)ended;
    __asm__ volatile("bkpt 0xAB" : "+r"(number) : "r"(text) : "memory");
    for (;;) continue;
}

/* The first stack, which the C runtime replaces, and what follows a reset or a fault. */
#define FIRST_STACK ((void (*)(void))0x20400000)
__attribute__((section(".vectors"), used)) void (*const vectors[16])(void) = {
    FIRST_STACK, begin, fault, fault, fault, fault, fault,
};
