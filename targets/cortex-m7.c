/* A driver on a Cortex-M7 with no library, in an emulator that answers semihosting: it reads the file `list`, says what the driver says, and then how far
 * down the stack a tick writes and how many instructions it takes, by a clock that an emulator moves once an instruction. */
#include "drive.h"

/* What the core wants from outside. The last two are libgcc's and compiler-rt's, written here so that no other compiler is needed. */
void *memset(void *to, int byte, __SIZE_TYPE__ count) {
    for (volatile uint8_t *at = to; count > 0; count--) *at++ = (uint8_t)byte;
    return to;
}
void *memcpy(void *to, const void *from, __SIZE_TYPE__ count) {
    const uint8_t *source = from;
    for (volatile uint8_t *at = to; count > 0; count--) *at++ = *source++;
    return to;
}
void __aeabi_memset(void *to, __SIZE_TYPE__ count, int byte) { memset(to, byte, count); }
void __aeabi_memclr(void *to, __SIZE_TYPE__ count) { memset(to, 0, count); }
void __aeabi_memclr4(void *to, __SIZE_TYPE__ count) { memset(to, 0, count); }
void __aeabi_memclr8(void *to, __SIZE_TYPE__ count) { memset(to, 0, count); }
void __aeabi_memcpy(void *to, const void *from, __SIZE_TYPE__ count) { memcpy(to, from, count); }
void __aeabi_memcpy4(void *to, const void *from, __SIZE_TYPE__ count) { memcpy(to, from, count); }
void __aeabi_memcpy8(void *to, const void *from, __SIZE_TYPE__ count) { memcpy(to, from, count); }

/* quotient and rest of whole numbers, a bit at a time; the answer goes back in four registers, which a struct does not, hence the two lines below */
struct divided {
    uint64_t quotient, rest;
};
void divided(struct divided *by, uint64_t a, uint64_t b) {
    uint64_t quotient = 0, rest = 0;
    for (int bit = 63; bit >= 0; bit--) {
        rest = rest << 1 | (a >> bit & 1);
        quotient <<= 1;
        if (rest >= b) {
            rest -= b;
            quotient |= 1;
        }
    }
    by->quotient = quotient;
    by->rest = rest;
}
__asm__(".thumb\n.thumb_func\n.globl __aeabi_uldivmod\n__aeabi_uldivmod:\n"
        "push {r4, lr}\nsub sp, #24\nstr r2, [sp]\nstr r3, [sp, #4]\nmov r2, r0\nmov r3, r1\nadd r0, sp, #8\nbl divided\n"
        "ldr r0, [sp, #8]\nldr r1, [sp, #12]\nldr r2, [sp, #16]\nldr r3, [sp, #20]\nadd sp, #24\npop {r4, pc}\n");

/* the nearest float, ties to even */
__attribute__((pcs("aapcs"))) float __aeabi_ul2f(uint64_t whole) {
    if (whole == 0) return number(0);
    uint32_t places = 63;
    while (!(whole >> places)) places--;
    uint64_t top = places <= 23 ? whole << (23 - places) : whole >> (places - 23);
    uint64_t rest = places <= 23 ? 0 : whole & ((1ull << (places - 23)) - 1), half = places <= 23 ? 1 : 1ull << (places - 24);
    uint32_t word = ((places + 127) << 23) + (uint32_t)(top & 0x7fffff);
    if (rest > half || (rest == half && (top & 1))) word++;
    return number(word);
}

static int32_t semihosting(int32_t operation, const void *block) {
    register int32_t r0 __asm__("r0") = operation;
    register const void *r1 __asm__("r1") = block;
    __asm__ volatile("bkpt 0xab" : "+r"(r0) : "r"(r1) : "memory");
    return r0;
}

static void print(const char *text) { semihosting(0x04, text); }

#define REGISTER(address) (*(volatile uint32_t *)(address))
#define LIST ((uint8_t *)0x60000000)
enum { MOST = 8 << 20, PAINTED = 8192, TICKS = 256, PERIOD = 40 };

/* the bytes below the stack pointer that a tick writes */
static uint32_t __attribute__((noinline)) depth(uint8_t paint) {
    uint8_t *low;
    __asm__ volatile("mov %0, sp" : "=r"(low));
    low -= PAINTED;
    for (uint32_t k = 0; k < PAINTED - 64; k++) ((volatile uint8_t *)low)[k] = paint;
    one_tick();
    uint32_t left = 0;
    while (left < PAINTED && ((volatile uint8_t *)low)[left] == paint) left++;
    return PAINTED - left;
}

static void say_line(const char *before, uint32_t count) {
    written = 0;
    say(before);
    say_number(count, 10, 1);
    say("\n");
    print(lines);
}

void reset(void) {
    /* the floating-point unit */
    REGISTER(0xe000ed88) |= 0xf << 20;
    __asm__ volatile("dsb\nisb");
    const uint32_t open[3] = {(uint32_t) "list", 1, 4};
    int32_t file = semihosting(0x01, open);
    const uint32_t read[3] = {(uint32_t)file, (uint32_t)LIST, MOST};
    uint32_t length = file < 0 ? 0 : MOST - (uint32_t)semihosting(0x06, read);
    print(report(LIST, length, ROUNDS));
    ready(LIST);
    uint32_t first = depth(0x5a), second = depth(0xa5);
    say_line("stack of a tick: ", first > second ? first : second);
    /* SysTick at 25 MHz of a clock that an instruction moves by a nanosecond */
    REGISTER(0xe000e014) = 0xffffff;
    REGISTER(0xe000e018) = 0;
    REGISTER(0xe000e010) = 5;
    uint32_t before = REGISTER(0xe000e018);
    for (uint32_t k = 0; k < TICKS; k++) one_tick();
    uint32_t moved = (before - REGISTER(0xe000e018)) & 0xffffff;
    say_line("instructions of a tick: ", moved * PERIOD / TICKS);
    semihosting(0x18, (const void *)0x20026);
    for (;;) {}
}

__attribute__((section(".vectors"), used)) void *const vectors[2] = {(void *)0x20400000, (void *)reset};
