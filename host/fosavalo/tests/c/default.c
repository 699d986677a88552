/* The buffers that the header's helpers fill, as hexadecimal digits; all begin full of ones. */
#include "fosavalo.h"

#include <stdio.h>
#include <string.h>

static void show(const uint8_t *bytes, unsigned length) {
    for (unsigned k = 0; k < length; k++) printf("%02x", bytes[k]);
    puts("");
}

int main(void) {
    uint8_t setup[FOSAVALO_SETUP_BYTES], tick[FOSAVALO_TICK_BYTES], route[2 * FOSAVALO_LEG_BYTES + FOSAVALO_ROUTE_TRAILER_BYTES], word[4];
    memset(setup, 0xff, sizeof setup);
    memset(tick, 0xff, sizeof tick);
    memset(route, 0xff, sizeof route);
    fosavalo_setup_default(setup);
    show(setup, sizeof setup);
    fosavalo_tick_default(tick);
    show(tick, sizeof tick);

    memcpy(route, setup + 4 * FOSAVALO_SETUP_LEG, FOSAVALO_LEG_BYTES);
    memcpy(route + FOSAVALO_LEG_BYTES, route, FOSAVALO_LEG_BYTES);
    fosavalo_put_three(route, FOSAVALO_LEG_BYTES / 4 + FOSAVALO_LEG_PF, 3.0f, -0.5f, 0.1f);
    fosavalo_put(route, FOSAVALO_LEG_BYTES / 4 + FOSAVALO_LEG_T, 8.0f);
    fosavalo_route_close(route, 2);
    show(route, sizeof route);

    fosavalo_put_word(word, 0, 0xdeadbeefu);
    for (unsigned k = 0; k < 4; k++) printf("%02x", word[k]);
    printf(" %08lx", (unsigned long)fosavalo_word(word, 0));
    fosavalo_put(word, 0, -3.14159274f);
    printf(" %08lx %.8f\n", (unsigned long)fosavalo_word(word, 0), (double)fosavalo_number(word, 0));
    return 0;
}
