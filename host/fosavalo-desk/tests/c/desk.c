/* The desk beside the core in one program: what each call gives, on right buffers, on wrong ones and on none at all. */
#include "fosavalo_desk.h"

#include <stdio.h>
#include <string.h>

static void put(uint8_t *bytes, size_t at, float x) { memcpy(bytes + 4 * at, &x, 4); }

static unsigned word(const uint8_t *bytes, size_t at) {
    uint32_t word;
    memcpy(&word, bytes + 4 * at, 4);
    return (unsigned)word;
}

int main(void) {
    uint8_t desk[FOSAVALO_DESK_BYTES], given[FOSAVALO_DESK_SETUP_BYTES], sticks[FOSAVALO_STICKS_BYTES] = {0};
    uint8_t image[FOSAVALO_IMAGE_BYTES], set_up[FOSAVALO_SETUP_BYTES] = {0}, input[FOSAVALO_TICK_BYTES] = {0}, answer[FOSAVALO_ANSWER_BYTES];
    for (size_t stick = 0; stick < 3; stick++) {
        put(given, FOSAVALO_DESK_SETUP_OMEGA_N(stick), 2.0f);
        put(given, FOSAVALO_DESK_SETUP_MAX_MAG(stick), 1.0f);
        put(given, FOSAVALO_DESK_SETUP_MAX_RATE(stick), 0.125f);
    }
    put(sticks, FOSAVALO_STICK_HEADING, 1.0f);
    put(sticks, FOSAVALO_STICK_ZOOM, -1.0f);
    put(input, FOSAVALO_TICK_ATTITUDE, 1.0f);
    put(input, FOSAVALO_TICK_DT, 0.0625f);
    put(input, FOSAVALO_TICK_YAW, 3.0f);
    put(set_up, FOSAVALO_SETUP_FC, 80.0f);
    put(set_up, FOSAVALO_SETUP_FS, 1000.0f);
    if (!fosavalo_header_fits() || !fosavalo_desk_header_fits()) return 1;
    if (fosavalo_setup(image, sizeof image, set_up, sizeof set_up) || fosavalo_desk_setup(desk, sizeof desk, given, sizeof given)) return 1;

    /* refused, with nothing changed */
    uint8_t kept[sizeof desk + sizeof image + sizeof input];
    memcpy(kept, desk, sizeof desk);
    memcpy(kept + sizeof desk, image, sizeof image);
    memcpy(kept + sizeof desk + sizeof image, input, sizeof input);
    const uint32_t said[] = {
        fosavalo_desk_setup(NULL, 0, NULL, 0),
        fosavalo_desk_setup(desk, sizeof desk, NULL, 0),
        fosavalo_desk_centre(NULL, 0),
        fosavalo_desk_tick(NULL, 0, NULL, 0, NULL, 0, NULL, 0, NULL, 0),
        fosavalo_desk_tick(desk, sizeof desk, NULL, 0, NULL, 0, NULL, 0, NULL, 0),
        fosavalo_desk_tick(desk, sizeof desk, sticks, sizeof sticks, NULL, 0, NULL, 0, NULL, 0),
        fosavalo_desk_tick(desk, sizeof desk, sticks, sizeof sticks, image, sizeof image, NULL, 0, NULL, 0),
        fosavalo_desk_tick(desk, sizeof desk, sticks, sizeof sticks, image, sizeof image, input, sizeof input, NULL, 0),
        fosavalo_desk_route_tick(NULL, 0, NULL, 0, NULL, 0, NULL, 0, NULL, 0, NULL, 0),
        fosavalo_desk_route_tick(desk, sizeof desk, NULL, 0, NULL, 0, NULL, 0, NULL, 0, NULL, 0),
        fosavalo_desk_route_tick(desk, sizeof desk, sticks, sizeof sticks, NULL, 0, NULL, 0, NULL, 0, NULL, 0),
        fosavalo_desk_route_tick(desk, sizeof desk, sticks, sizeof sticks, image, sizeof image, NULL, 0, NULL, 0, NULL, 0),
        fosavalo_desk_route_tick(desk, sizeof desk, sticks, sizeof sticks, image, sizeof image, input, sizeof input, NULL, 0, NULL, 0),
        fosavalo_desk_route_tick(desk, sizeof desk, sticks, sizeof sticks, image, sizeof image, input, sizeof input, NULL, 0, answer, sizeof answer),
    };
    for (size_t k = 0; k < sizeof said / sizeof said[0]; k++) printf("%u ", (unsigned)said[k]);
    int same = !memcmp(kept, desk, sizeof desk) && !memcmp(kept + sizeof desk, image, sizeof image) && !memcmp(kept + sizeof desk + sizeof image, input, sizeof input);
    puts(same ? "unchanged" : "changed");

    /* a desk tick, and the core's own tick of the input that it leaves */
    uint8_t plain[sizeof image], answered[sizeof answer];
    memcpy(plain, image, sizeof plain);
    if (fosavalo_desk_tick(desk, sizeof desk, sticks, sizeof sticks, image, sizeof image, input, sizeof input, answer, sizeof answer)) return 1;
    if (fosavalo_tick(plain, sizeof plain, input, sizeof input, answered, sizeof answered)) return 1;
    puts(!memcmp(plain, image, sizeof plain) && !memcmp(answered, answer, sizeof answer) ? "the core's own" : "another");

    /* the same on a route of one leg, and the core's own route tick */
    uint8_t route[FOSAVALO_LEG_BYTES + FOSAVALO_ROUTE_TRAILER_BYTES] = {0}, other[sizeof desk], again[sizeof input];
    route[FOSAVALO_LEG_BYTES] = 1;
    route[FOSAVALO_LEG_BYTES + 4] = FOSAVALO_LEG_BYTES;
    memcpy(other, desk, sizeof other);
    memcpy(again, input, sizeof again);
    if (fosavalo_desk_route_tick(other, sizeof other, sticks, sizeof sticks, image, sizeof image, again, sizeof again, route, sizeof route, answer, sizeof answer)) return 1;
    if (fosavalo_route_tick(plain, sizeof plain, again, sizeof again, route, sizeof route, answered, sizeof answered)) return 1;
    puts(!memcmp(plain, image, sizeof plain) && !memcmp(answered, answer, sizeof answer) ? "the core's own" : "another");
    printf("%08x %08x\n", word(input, FOSAVALO_TICK_YAW), word(input, FOSAVALO_TICK_YAW_RATE));
    printf("%08x %08x %08x\n", word(desk, FOSAVALO_DESK_VALUE(0)), word(desk, FOSAVALO_DESK_RATE(0)), word(desk, FOSAVALO_DESK_VALUE(FOSAVALO_STICK_ZOOM)));
    if (fosavalo_desk_centre(desk, sizeof desk)) return 1;
    printf("%08x %08x\n", word(desk, FOSAVALO_DESK_VALUE(0)), word(desk, FOSAVALO_DESK_MAX_RATE(0)));
    for (uint32_t number = 0; number < 20; number++) puts(fosavalo_desk_meaning(number));
    return 0;
}
