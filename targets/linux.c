/* A driver as a program of Linux with no library: the stored answers on standard input, the rounds as its one argument, what it says on standard output, and
 * then the least time of a tick. */
#include "drive.h"

static long ask(long number, long a, long b, long c) {
#if defined(__x86_64__)
    long answer;
    __asm__ volatile("syscall" : "=a"(answer) : "a"(number), "D"(a), "S"(b), "d"(c) : "rcx", "r11", "memory");
    return answer;
#elif defined(__aarch64__)
    register long x8 __asm__("x8") = number, x0 __asm__("x0") = a, x1 __asm__("x1") = b, x2 __asm__("x2") = c;
    __asm__ volatile("svc 0" : "+r"(x0) : "r"(x8), "r"(x1), "r"(x2) : "memory");
    return x0;
#elif defined(__riscv)
    register long a7 __asm__("a7") = number, a0 __asm__("a0") = a, a1 __asm__("a1") = b, a2 __asm__("a2") = c;
    __asm__ volatile("ecall" : "+r"(a0) : "r"(a7), "r"(a1), "r"(a2) : "memory");
    return a0;
#endif
}

#if defined(__x86_64__)
enum { READ = 0, WRITE = 1, EXIT = 60, CLOCK = 228 };
__asm__(".globl _start\n_start: mov %rsp, %rdi\n and $-16, %rsp\n call begun\n");
#elif defined(__aarch64__)
enum { READ = 63, WRITE = 64, EXIT = 93, CLOCK = 113 };
__asm__(".globl _start\n_start: mov x0, sp\n bl begun\n");
#elif defined(__riscv)
enum { READ = 63, WRITE = 64, EXIT = 93, CLOCK = 113 };
__asm__(".globl _start\n_start: mv a0, sp\n andi sp, sp, -16\n call begun\n");
#endif

void *memset(void *to, int byte, __SIZE_TYPE__ count) {
    for (volatile uint8_t *at = to; count > 0; count--) *at++ = (uint8_t)byte;
    return to;
}

void *memcpy(void *to, const void *from, __SIZE_TYPE__ count) {
    const uint8_t *source = from;
    for (volatile uint8_t *at = to; count > 0; count--) *at++ = *source++;
    return to;
}

static uint8_t list[8 << 20];

static void print(const char *text) {
    long count = 0;
    while (text[count]) count++;
    ask(WRITE, 1, (long)text, count);
}

static uint64_t nanoseconds(void) {
    long time[2];
    ask(CLOCK, 1, (long)time, 0);
    return (uint64_t)time[0] * 1000000000u + (uint64_t)time[1];
}

void begun(const long *stack) {
    uint32_t length = 0, rounds = 0;
    for (long got; length < sizeof list && (got = ask(READ, 0, (long)(list + length), (long)(sizeof list - length))) > 0;) length += (uint32_t)got;
    if (stack[0] == 2)
        for (const char *at = (const char *)stack[2]; *at >= '0' && *at <= '9'; at++) rounds = 10 * rounds + (uint32_t)(*at - '0');
    print(report(list, length, rounds));
    ready(list);
    uint64_t least = ~0ull;
    for (int turn = 0; turn < 40; turn++) {
        uint64_t start = nanoseconds();
        for (int k = 0; k < 1000; k++) one_tick();
        uint64_t taken = (nanoseconds() - start) / 1000;
        if (taken < least) least = taken;
    }
    written = 0;
    say("time of a tick: ");
    say_number(least, 10, 1);
    say(" ns\n");
    print(lines);
    ask(EXIT, 0, 0, 0);
}
