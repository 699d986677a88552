/* Drives the core: the stored answers, each number and each byte compared; then calls of every kind on random and damaged bytes, hashed. */
#include "drive.h"
#include "fosavalo.h"

static uint8_t image[FOSAVALO_IMAGE_BYTES], input[FOSAVALO_TICK_BYTES], answer[FOSAVALO_ANSWER_BYTES], setup[FOSAVALO_SETUP_BYTES];
static uint8_t route[FOSAVALO_MOST_LEGS * FOSAVALO_LEG_BYTES + FOSAVALO_ROUTE_TRAILER_BYTES], pattern[400];
static uint8_t log[100 * FOSAVALO_RECORD_BYTES + FOSAVALO_LOG_TRAILER_BYTES], record[FOSAVALO_RECORD_BYTES];
static uint8_t margins[1200], flags[300], word[4], sample[FOSAVALO_SAMPLE_BYTES];

/* ---- the stored answers */

static struct lent a, b, c, d;

static uint32_t call(uint32_t which, uint32_t at) {
    switch (which) {
    case 500: return fosavalo_setup(a.held, a.bytes, b.held, b.bytes);
    case 501: return fosavalo_tick(a.held, a.bytes, b.held, b.bytes, c.held, c.bytes);
    case 502: return fosavalo_route_tick(a.held, a.bytes, b.held, b.bytes, d.held, d.bytes, c.held, c.bytes);
    case 503: return fosavalo_log_append(a.held, a.bytes, at, b.held, b.bytes, d.held, d.bytes);
    case 504: return fosavalo_log_count(b.held, b.bytes, c.held, c.bytes);
    case 505: return fosavalo_log_record(b.held, b.bytes, at, c.held, c.bytes);
    case 506: return fosavalo_exchange(a.held, a.bytes, b.held, b.bytes);
    case 507: return fosavalo_flags(b.held, b.bytes, number(word_at(d.held, 0)), number(word_at(d.held, 1)), c.held, c.bytes);
    case 508: return fosavalo_route_sample(d.held, d.bytes, number(word_at(b.held, 0)), c.held, c.bytes);
    case 509: return fosavalo_tick_refusal(b.held, b.bytes, word_at(d.held, 0), word_at(d.held, 1));
    case 510: return fosavalo_log_check(d.held, d.bytes, word_at(b.held, 0), number(word_at(b.held, 1)), number(word_at(b.held, 2)), c.held, c.bytes);
    case 511: return fosavalo_pattern_expand(d.held, d.bytes, a.held, a.bytes, c.held, c.bytes);
    default: return 0xffffffff;
    }
}

/* one row: whether its number and every byte of both buffers that a call may change are as stored */
static uint32_t as_stored(uint32_t which, const uint8_t *row) {
    const uint8_t *at = take(&d, take(&c, take(&b, take(&a, row)))), *wanted = at + 8;
    return call(which, word_at(at, 0)) == word_at(at, 1) && alike(&a, &wanted) && alike(&c, &wanted);
}

/* ---- calls at random */

static void fresh(uint32_t seed) {
    any_words(setup, 51);
    if (seed % 4 != 0)
        for (uint32_t k = FOSAVALO_SETUP_FC; k <= FOSAVALO_SETUP_FS; k++) put_word(setup, k, bits((float)(any_word() % 2000)));
    put_word(setup, FOSAVALO_SETUP_PROFILE, any_word() % 32 == 0 ? any_word() : any_word() & 1);
    mix_said(fosavalo_setup(image, sizeof image, setup, sizeof setup));
    mix(image, sizeof image);
}

static void one_call(void) {
    any_words(input, 17);
    /* an image that is refused is put back, so that the next calls are not */
    uint32_t damaged = any_word() % sizeof image, flip = any_word() % 20 == 0 ? 1u << any_word() % 8 : 0;
    image[damaged] ^= (uint8_t)flip;
    uint32_t kind = any_word() % 8, said;
    mix_word(fosavalo_tick_refusal(image, sizeof image, sizeof input, sizeof answer - kind % 2));
    if (kind < 5) {
        said = fosavalo_tick(image, sizeof image, input, sizeof input, answer, sizeof answer);
    } else if (kind == 5) {
        any_words(route, 19);
        said = fosavalo_exchange(image, sizeof image, route, FOSAVALO_LEG_BYTES);
    } else {
        uint32_t length = any_route(route, FOSAVALO_MOST_LEGS);
        said = fosavalo_route_tick(image, sizeof image, input, sizeof input, route, length, answer, sizeof answer);
    }
    mix_said(said);
    if (said == FOSAVALO_BROKEN_IMAGE) image[damaged] ^= (uint8_t)flip;
    if (kind > 5) {
        uint32_t length = any_route(route, FOSAVALO_MOST_LEGS), time = any_word() % 2 ? any_number() : small();
        mix_said(fosavalo_route_sample(route, length, number(time), sample, sizeof sample - any_word() % 16 / 15));
        mix(sample, sizeof sample);
    }
    mix(image, sizeof image);
    mix(answer, sizeof answer);
    uint32_t angles[2] = {any_number(), bits(number(small()) * 4096.0f)};
    for (uint32_t k = 0; k < 2; k++) {
        mix_word(bits(fosavalo_sinf(number(angles[k]))));
        mix_word(bits(fosavalo_cosf(number(angles[k]))));
    }
}

/* a leg, or a repeat of what stands behind it: mostly of the right form */
static uint32_t any_pattern(void) {
    uint32_t length = 0, legs = 1 + any_word() % 4;
    if (any_word() % 2) {
        uint32_t held = 77 * legs;
        pattern[length++] = 1;
        pattern[length++] = (uint8_t)(any_word() % 11);
        pattern[length++] = (uint8_t)held;
        pattern[length++] = (uint8_t)(held >> 8);
    }
    for (uint32_t leg = 0; leg < legs; leg++) {
        pattern[length++] = any_word() % 16 == 0 ? (uint8_t)any_word() : 0;
        for (uint32_t k = 0; k < FOSAVALO_LEG_BYTES; k++) pattern[length++] = 0;
        pattern[length - 1] = 0x3f;
    }
    if (any_word() % 4 == 0) pattern[any_word() % length] ^= (uint8_t)(1u << any_word() % 8);
    return length;
}

static void driven(uint32_t seed, uint32_t rounds) {
    begin(seed);
    mix_word(fosavalo_version());
    for (uint32_t round = 0; round < rounds; round++) {
        fresh(round);
        const uint8_t empty[] = FOSAVALO_EMPTY_LOG;
        uint64_t length = sizeof empty;
        for (uint32_t k = 0; k < sizeof empty; k++) log[k] = empty[k];
        for (uint32_t k = 0; k < 100; k++) {
            one_call();
            if (!fosavalo_log_append(log, sizeof log, length, input, sizeof input, answer, sizeof answer)) length += FOSAVALO_RECORD_BYTES;
        }
        if (any_word() % 4 == 0) log[any_word() % length] ^= 1;
        mix_said(fosavalo_log_count(log, length, word, sizeof word));
        mix(word, sizeof word);
        mix_said(fosavalo_log_record(log, length, any_word() % 110, record, sizeof record));
        mix(record, sizeof record);
        mix_said(fosavalo_log_check(log, length, any_word() % 3, number(word_at(setup, 12)), number(word_at(setup, 13)), word, sizeof word));
        mix(word, sizeof word);
        for (uint32_t k = 0; k < 300; k++) put_word(margins, k, any_word() % 8 ? bits(number(small()) * 0.06f) : any_number());
        mix_said(fosavalo_flags(margins, sizeof margins, 0.03f, 0.07f, flags, sizeof flags));
        mix(flags, sizeof flags);
        uint32_t held = any_pattern();
        mix_said(fosavalo_pattern_expand(pattern, held, route, sizeof route, word, sizeof word));
        mix(route, sizeof route);
        mix(word, sizeof word);
    }
}

const char *report(const uint8_t *list, uint32_t length, uint32_t rounds) {
    (void)length;
    written = 0;
    say_stored(list, 500, 511, as_stored);
    for (uint32_t seed = 1; seed <= 4; seed++) {
        driven(seed, rounds);
        say_hash(seed);
    };
    return lines;
}

void ready(const uint8_t *list) {
    uint32_t rows;
    for (const uint8_t *row = rows_of(list, 501, &rows); rows > 0; rows--, row = behind(501, row)) {
        const uint8_t *at = take(&d, take(&c, take(&b, take(&a, row))));
        if (word_at(at, 1) == 0) return;
    }
}

void one_tick(void) { fosavalo_tick(a.held, a.bytes, b.held, b.bytes, c.held, c.bytes); }
