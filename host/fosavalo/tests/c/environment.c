/* What the header tells of the floating-point environment as the program was started, in each direction of rounding, and with each of the processor's
 * bits that lose subnormal numbers; then the thresholds that set-up keeps of a subnormal enter, and of no exit. */
#include "fosavalo.h"

#include <fenv.h>
#include <stdio.h>
#include <string.h>

#ifdef __aarch64__
/* FPCR's one bit, for operands and results */
static const uint32_t losing[] = {1u << 24};
static uint32_t control(void) {
    uint64_t word;
    __asm__ volatile("mrs %0, fpcr" : "=r"(word) : : "memory");
    return (uint32_t)word;
}
static void load(uint32_t word) { __asm__ volatile("msr fpcr, %0" : : "r"((uint64_t)word) : "memory"); }
#else
#include <xmmintrin.h>
/* MXCSR's two, for operands and for results */
static const uint32_t losing[] = {1u << 6, 1u << 15};
static uint32_t control(void) { return _mm_getcsr(); }
static void load(uint32_t word) { _mm_setcsr(word); }
#endif

static uint32_t told_with(uint32_t bit) {
    uint32_t before = control();
    load(before | bit);
    uint32_t wrong = fosavalo_float_environment();
    load(before);
    return wrong;
}

static uint32_t told(int direction) {
    fesetround(direction);
    uint32_t wrong = fosavalo_float_environment();
    fesetround(FE_TONEAREST);
    return wrong;
}

static unsigned word(const uint8_t *bytes, int at) {
    const uint8_t *b = bytes + 4 * at;
    return (unsigned)b[0] | (unsigned)b[1] << 8 | (unsigned)b[2] << 16 | (unsigned)b[3] << 24;
}

int main(void) {
    uint8_t image[FOSAVALO_IMAGE_BYTES], input[FOSAVALO_SETUP_BYTES] = {0};
    const uint8_t enter[4] = {0xc2, 0x16, 0x01, 0x00};
    memcpy(input + 4 * FOSAVALO_SETUP_ENTER, enter, sizeof enter);
    const float filter[2] = {80, 1000};
    memcpy(input + 4 * FOSAVALO_SETUP_FC, filter, sizeof filter);

    uint32_t first = fosavalo_float_environment();
    uint32_t up = told(FE_UPWARD), down = told(FE_DOWNWARD), zero = told(FE_TOWARDZERO), nearest = told(FE_TONEAREST);
    printf("%u, %u %u %u %u,", (unsigned)first, (unsigned)up, (unsigned)down, (unsigned)zero, (unsigned)nearest);
    for (size_t k = 0; k < sizeof losing / sizeof losing[0]; k++) printf(" %u", (unsigned)told_with(losing[k]));
    if (fosavalo_setup(image, sizeof image, input, sizeof input) != FOSAVALO_DONE) return 1;
    printf(", %08x %08x\n", word(image, FOSAVALO_IMAGE_ENTER), word(image, FOSAVALO_IMAGE_EXIT));
    return 0;
}
