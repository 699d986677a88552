/* Drives the desk: its stored answers, each number and each byte compared; then, on the images of the stored ticks, calls of every kind on random and damaged bytes,
 * hashed. */
#include "drive.h"
#include "fosavalo_desk.h"

static uint8_t desk[FOSAVALO_DESK_BYTES], sticks[FOSAVALO_STICKS_BYTES], setup[FOSAVALO_DESK_SETUP_BYTES];
static uint8_t image[FOSAVALO_IMAGE_BYTES], input[FOSAVALO_TICK_BYTES], answer[FOSAVALO_ANSWER_BYTES];
static uint8_t route[FOSAVALO_MOST_LEGS * FOSAVALO_LEG_BYTES + FOSAVALO_ROUTE_TRAILER_BYTES];

/* ---- the stored answers */

/* desk, sticks, image, input, route, answer */
static struct lent six[6];

static uint32_t call(uint32_t which) {
    struct lent *d = &six[0], *s = &six[1], *m = &six[2], *i = &six[3], *r = &six[4], *a = &six[5];
    switch (which) {
    case 512: return fosavalo_desk_tick(d->held, d->bytes, s->held, s->bytes, m->held, m->bytes, i->held, i->bytes, a->held, a->bytes);
    case 513: return fosavalo_desk_route_tick(d->held, d->bytes, s->held, s->bytes, m->held, m->bytes, i->held, i->bytes, r->held, r->bytes, a->held, a->bytes);
    case 514: return fosavalo_desk_setup(d->held, d->bytes, s->held, s->bytes);
    case 515: return fosavalo_desk_centre(d->held, d->bytes);
    default: return 0xffffffff;
    }
}

/* one row: whether its number and every byte of the four buffers that a call may change are as stored */
static uint32_t as_stored(uint32_t which, const uint8_t *row) {
    for (uint32_t k = 0; k < 6; k++) row = take(&six[k], row);
    const uint8_t *wanted = row + 4;
    return call(which) == word_at(row, 0) && alike(&six[0], &wanted) && alike(&six[2], &wanted) && alike(&six[3], &wanted) && alike(&six[5], &wanted);
}

/* ---- calls at random */

static void copy(uint8_t *to, const uint8_t *from, uint32_t count) {
    for (uint32_t k = 0; k < count; k++) to[k] = from[k];
}

static void one_call(void) {
    any_words(sticks, 3);
    any_words(input, 17);
    /* an image that is refused is put back, so that the next calls are not */
    uint32_t damaged = any_word() % sizeof image, flip = any_word() % 20 == 0 ? 1u << any_word() % 8 : 0;
    image[damaged] ^= (uint8_t)flip;
    uint32_t said;
    switch (any_word() % 16) {
    case 0:
        any_words(setup, 9);
        said = fosavalo_desk_setup(desk, sizeof desk, setup, sizeof setup);
        break;
    case 1: said = fosavalo_desk_centre(desk, sizeof desk - any_word() % 2); break;
    case 2:
    case 3:
    case 4: {
        uint32_t length = any_route(route, FOSAVALO_MOST_LEGS);
        said = fosavalo_desk_route_tick(desk, sizeof desk, sticks, sizeof sticks - any_word() % 32 / 31, image, sizeof image, input, sizeof input, route, length, answer, sizeof answer);
        break;
    }
    default: said = fosavalo_desk_tick(desk, sizeof desk, sticks, sizeof sticks - any_word() % 32 / 31, image, sizeof image, input, sizeof input, answer, sizeof answer);
    }
    mix_said(said);
    if (said == FOSAVALO_BROKEN_IMAGE) image[damaged] ^= (uint8_t)flip;
    mix(desk, sizeof desk);
    mix(image, sizeof image);
    mix(input, sizeof input);
    mix(answer, sizeof answer);
}

static void driven(uint32_t seed, uint32_t rounds, const uint8_t *first, uint32_t rows) {
    const uint8_t *row = first;
    begin(seed);
    mix_word(fosavalo_desk_version());
    for (uint32_t round = 0; round < rounds; round++) {
        row = round % rows == 0 ? first : behind(501, row);
        copy(image, row + 8, sizeof image);
        for (uint32_t k = 0; k < 100; k++) one_call();
    }
}

const char *report(const uint8_t *list, uint32_t length, uint32_t rounds) {
    uint32_t rows;
    const uint8_t *first = rows_of(list, 501, &rows);
    (void)length;
    written = 0;
    say_stored(list, 512, 515, as_stored);
    for (uint32_t seed = 1; seed <= 4 && rows > 0; seed++) {
        driven(seed, rounds, first, rows);
        say_hash(seed);
    };
    return lines;
}

void ready(const uint8_t *list) {
    uint32_t rows;
    copy(image, rows_of(list, 501, &rows) + 8, sizeof image);
}

void one_tick(void) { fosavalo_desk_tick(desk, sizeof desk, sticks, sizeof sticks, image, sizeof image, input, sizeof input, answer, sizeof answer); }
