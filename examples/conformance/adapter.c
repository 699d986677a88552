/* An adapter of the conformance kit: it reads a line and answers one (CONFORMANCE.md). Here for the archives; in another's place stand his calls.
 *   gcc -O2 -I../include adapter.c libfosavalo_desk.a libfosavalo.a -o adapter && ./conform ./adapter */
#define _POSIX_C_SOURCE 200809L
#include "fosavalo_desk.h"
#include <stdio.h>
#include <stdlib.h>
#include <string.h>

typedef struct {
    uint8_t *at;
    uint64_t len;
} bytes;

static bytes zeros(uint64_t len) {
    bytes made = {calloc(len + 1, 1), len};
    if (!made.at) exit(3);
    return made;
}

/* the bytes of a word: parts joined by +, each hexadecimal digits, *N behind them for so many times; - for none */
static bytes read_bytes(const char *word) {
    static const char digits[] = "0123456789abcdef";
    bytes all = zeros(0);
    while (*word && *word != '-') {
        uint64_t count = strspn(word, digits) / 2, times = 1, at = all.len;
        const char *end = word + 2 * count;
        if (*end == '*') times = strtoull(end + 1, NULL, 10);
        all.len += count * times;
        if (!(all.at = realloc(all.at, all.len + 1))) exit(3);
        for (uint64_t k = 0; k < count; k++) all.at[at + k] = (uint8_t)(16 * (strchr(digits, word[2 * k]) - digits) + (strchr(digits, word[2 * k + 1]) - digits));
        for (uint64_t k = 1; k < times; k++) memcpy(all.at + at + k * count, all.at + at, count);
        end += strcspn(end, "+");
        word = *end ? end + 1 : end;
    }
    return all;
}

static void hex(bytes told) {
    putchar(' ');
    if (!told.len) putchar('-');
    for (uint64_t k = 0; k < told.len; k++) putchar("0123456789abcdef"[told.at[k] >> 4]), putchar("0123456789abcdef"[told.at[k] & 15]);
}

/* a call's number; and what it wrote, if that is 0 or the buffer was the line's own */
static void say(uint32_t number, bytes wrote, int lent) {
    printf("%u", (unsigned)number);
    if (wrote.at && (lent || !number)) hex(wrote);
}

static void keep(bytes *state, bytes *given) {
    free(state->at);
    *state = *given;
    *given = zeros(0);
}

static float number(bytes word) {
    float x = 0;
    memcpy(&x, word.at, word.len < 4 ? word.len : 4);
    return x;
}

int main(void) {
    /* what goes from line to line */
    bytes image = zeros(FOSAVALO_IMAGE_BYTES), desk = zeros(FOSAVALO_DESK_BYTES), buffer = zeros(0), none = {0}, b[4];
    uint64_t log_len = 0;
    char *line = NULL, *word[4];
    size_t room = 0;
    while (getline(&line, &room, stdin) > 0) {
        char *call = strtok(line, " \r\n");
        int words = 0;
        while (words < 4 && (word[words] = strtok(NULL, " \r\n"))) b[words] = read_bytes(word[words]), words++;
#define IS(name, least, most) (call && !strcmp(call, name) && words >= least && words <= most)
#define IN(k) b[k].at, b[k].len
#define ALL(buffer) buffer.at, buffer.len
/* the call writes into the line's own word k, where there is one, or else into so many bytes */
#define INTO(k, own, number) do { int lent = words > k; bytes to = lent ? b[k] : zeros(own); say(number, to, lent); if (!lent) free(to.at); } while (0)
        if (IS("setup", 1, 1)) say(fosavalo_setup(ALL(image), IN(0)), none, 0);
        else if (IS("exchange", 1, 1)) say(fosavalo_exchange(ALL(image), IN(0)), none, 0);
        else if (IS("tick", 1, 2)) INTO(1, 40, fosavalo_tick(ALL(image), IN(0), ALL(to)));
        else if (IS("route", 2, 3)) INTO(2, 40, fosavalo_route_tick(ALL(image), IN(0), IN(1), ALL(to)));
        else if (IS("sample", 2, 3)) INTO(2, FOSAVALO_SAMPLE_BYTES, fosavalo_route_sample(IN(0), number(b[1]), ALL(to)));
        else if (IS("refusal", 2, 2)) say(fosavalo_tick_refusal(ALL(image), strtoull(word[0], NULL, 10), strtoull(word[1], NULL, 10)), none, 0);
        else if (IS("image", 0, 0)) say(0, image, 1);
        else if (IS("image", 1, 1)) keep(&image, &b[0]), say(0, none, 0);
        else if (IS("log", 0, 0)) {
            const uint8_t empty[] = FOSAVALO_EMPTY_LOG;
            bytes fresh = zeros(FOSAVALO_LOG_TRAILER_BYTES + 400 * FOSAVALO_RECORD_BYTES);
            memcpy(fresh.at, empty, log_len = sizeof empty);
            keep(&buffer, &fresh), free(fresh.at), say(0, none, 0);
        } else if (IS("log", 2, 2)) {
            bytes both = zeros(b[0].len + b[1].len);
            memcpy(both.at, b[0].at, log_len = b[0].len), memcpy(both.at + b[0].len, b[1].at, b[1].len);
            keep(&buffer, &both), free(both.at), say(0, none, 0);
        } else if (IS("append", 2, 3)) {
            uint32_t said = fosavalo_log_append(ALL(buffer), words > 2 ? strtoull(word[2], NULL, 10) : log_len, IN(0), IN(1));
            log_len += said ? 0 : FOSAVALO_RECORD_BYTES;
            say(said, none, 0);
        } else if (IS("bytes", 2, 2)) {
            uint64_t from = strtoull(word[0], NULL, 10), count = strtoull(word[1], NULL, 10);
            from = from < buffer.len ? from : buffer.len;
            say(0, (bytes){buffer.at + from, count < buffer.len - from ? count : buffer.len - from}, 1);
        } else if (IS("count", 0, 1)) INTO(0, 4, fosavalo_log_count(buffer.at, log_len, ALL(to)));
        else if (IS("record", 1, 2)) INTO(1, FOSAVALO_RECORD_BYTES, fosavalo_log_record(buffer.at, log_len, strtoull(word[0], NULL, 10), ALL(to)));
        else if (IS("check", 3, 4)) {
            uint32_t profile = 0;
            memcpy(&profile, b[0].at, 4);
            INTO(3, 4, fosavalo_log_check(buffer.at, log_len, profile, number(b[1]), number(b[2]), ALL(to)));
        } else if (IS("flags", 3, 4)) INTO(3, b[0].len / 4, fosavalo_flags(IN(0), number(b[1]), number(b[2]), ALL(to)));
        else if (IS("expand", 1, 1)) {
            bytes route = zeros(FOSAVALO_MOST_LEGS * FOSAVALO_LEG_BYTES + FOSAVALO_ROUTE_TRAILER_BYTES), length = zeros(4);
            uint32_t said = fosavalo_pattern_expand(IN(0), ALL(route), ALL(length));
            route.len = length.at[0] + 256u * length.at[1];
            say(said, route, 0), free(route.at), free(length.at);
        } else if (IS("expand", 3, 3)) say(fosavalo_pattern_expand(IN(0), IN(1), IN(2)), b[1], 1), hex(b[2]);
        else if (IS("desksetup", 1, 1)) say(fosavalo_desk_setup(ALL(desk), IN(0)), none, 0);
        else if (IS("centre", 0, 0)) say(fosavalo_desk_centre(ALL(desk)), none, 0);
        else if (IS("desk", 2, 3)) {
            INTO(2, 40, fosavalo_desk_tick(ALL(desk), IN(0), ALL(image), IN(1), ALL(to)));
            if (words > 2) hex(b[1]);
        } else if (IS("deskroute", 3, 4)) {
            INTO(3, 40, fosavalo_desk_route_tick(ALL(desk), IN(0), ALL(image), IN(1), IN(2), ALL(to)));
            if (words > 3) hex(b[1]);
        } else if (IS("deskimage", 0, 0)) say(0, desk, 1);
        else if (IS("deskimage", 1, 1)) keep(&desk, &b[0]), say(0, none, 0);
        else fputs("unsupported", stdout);
        putchar('\n');
        fflush(stdout);
        while (words > 0) free(b[--words].at);
    }
    return 0;
}
