/* Runs the vectors of the conformance kit (docs/CONFORMANCE.md), file behind file: each question put to the core and the desk, each number and each byte of the answer
 * compared. So it is an adapter and the level of bytes in one, for machines with no library. */
#include "drive.h"
#include "fosavalo_desk.h"

struct bytes {
    uint8_t *at;
    uint64_t len;
};

/* the log's buffer, and behind it what the words of a line hold */
enum { ALL = 8 << 20, LOG = 7200000 };
#if defined(__arm__)
static uint8_t *const room = (uint8_t *)0x60800000;
#else
static uint8_t room[ALL];
#endif
static uint8_t image[8192], desk[1024], answer[FOSAVALO_RECORD_BYTES], route[FOSAVALO_MOST_LEGS * FOSAVALO_LEG_BYTES + FOSAVALO_ROUTE_TRAILER_BYTES], length[4];
static uint64_t image_len, desk_len, buffer_len, log_len;

/* the words of a line: as bytes, and as whole numbers */
static struct bytes word[4];
static uint64_t plain[4];
static uint32_t words;

/* what the call gave */
static struct bytes told[2];
static uint32_t said, tells;

static uint32_t digit(uint8_t c) { return c >= '0' && c <= '9' ? c - '0' : c >= 'a' && c <= 'f' ? c - 'a' + 10u : 16; }

/* a part of a word: where its digits begin, of how many bytes, how often; the place behind it */
struct part {
    const uint8_t *digits, *end;
    uint64_t count, times;
};

static struct part part_of(const uint8_t *at) {
    struct part part = {at, at, 0, 1};
    while (digit(at[0]) < 16 && digit(at[1]) < 16) at += 2, part.count++;
    while (digit(*at) < 16) at++;
    if (*at == '*')
        for (part.times = 0, at++; *at >= '0' && *at <= '9'; at++) part.times = 10 * part.times + (*at - '0');
    part.end = at;
    return part;
}

static uint8_t byte_of(const struct part *part, uint64_t k) { return (uint8_t)(16 * digit(part->digits[2 * k]) + digit(part->digits[2 * k + 1])); }

/* the bytes of a word, as many as there is room for; the place behind it */
static const uint8_t *read_word(const uint8_t *at, struct bytes *to, uint64_t most) {
    for (to->len = 0; *at == '-' || *at == '+' || digit(*at) < 16;) {
        if (*at == '-' || *at == '+') {
            at++;
            continue;
        }
        struct part part = part_of(at);
        uint8_t *from = to->at + to->len;
        if (part.count * part.times > most - to->len) part.times = 0;
        for (uint64_t k = 0; k < part.count && part.times > 0; k++) from[k] = byte_of(&part, k);
        for (uint64_t k = part.count; k < part.count * part.times; k++) from[k] = from[k - part.count];
        to->len += part.count * part.times;
        at = part.end;
    }
    return at;
}

/* whether a word has these bytes; the place behind it in at */
static uint32_t as_told(const uint8_t **at, struct bytes own) {
    uint64_t place = 0;
    uint32_t same = 1;
    while (**at == '-' || **at == '+' || digit(**at) < 16) {
        if (**at == '-' || **at == '+') {
            (*at)++;
            continue;
        }
        struct part part = part_of(*at);
        for (uint64_t time = 0; time < part.times; time++)
            for (uint64_t k = 0; k < part.count; k++, place++) same &= place < own.len && own.at[place] == byte_of(&part, k);
        *at = part.end;
    }
    return same && place == own.len;
}

static uint32_t is(const uint8_t *line, const char *name) {
    while (*name && *line == (uint8_t)*name) line++, name++;
    return !*name && (*line == ' ' || *line == '\n');
}

static void tell(uint32_t number, uint8_t *at, uint64_t len, uint32_t lent) {
    said = number;
    tells = lent || number == 0;
    told[0] = (struct bytes){at, len};
}

static void copy(uint8_t *to, struct bytes from, uint64_t *len, uint64_t most) {
    *len = from.len < most ? from.len : most;
    for (uint64_t k = 0; k < *len; k++) to[k] = from.at[k];
}

#define GIVEN(k) word[k].at, word[k].len
/* into the line's own word k, where there is one, or else into so many bytes */
#define INTO(k, own, call) do { uint8_t *to = words > k ? word[k].at : answer; uint64_t to_len = words > k ? word[k].len : own; tell(call, to, to_len, words > k); } while (0)

static void ask(const uint8_t *line) {
    const uint8_t *at = line;
    while (*at != ' ' && *at != '\n') at++;
    tells = words = 0;
    said = ~0u;
    uint64_t behind_log = LOG;
    if (is(line, "log")) {
        /* straight into its buffer */
        struct bytes log = {room, 0}, more;
        if (*at == ' ') at = read_word(at + 1, &log, LOG);
        more.at = room + log.len;
        log_len = log.len;
        if (*at == ' ') {
            read_word(at + 1, &more, LOG - log.len);
        } else {
            const uint8_t empty[] = FOSAVALO_EMPTY_LOG;
            for (log_len = 0; log_len < sizeof empty; log_len++) room[log_len] = empty[log_len];
            more.len = 400 * FOSAVALO_RECORD_BYTES;
            for (uint64_t k = 0; k < more.len; k++) room[log_len + k] = 0;
        }
        buffer_len = log_len + more.len;
        said = 0;
        return;
    }
    while (*at == ' ' && words < 4) {
        plain[words] = 0;
        for (const uint8_t *c = at + 1; *c >= '0' && *c <= '9'; c++) plain[words] = 10 * plain[words] + (*c - '0');
        word[words].at = room + behind_log;
        at = read_word(at + 1, &word[words], ALL - behind_log);
        behind_log += word[words++].len;
    }
    if (is(line, "setup")) said = fosavalo_setup(image, image_len, GIVEN(0));
    else if (is(line, "exchange")) said = fosavalo_exchange(image, image_len, GIVEN(0));
    else if (is(line, "tick")) INTO(1, 40, fosavalo_tick(image, image_len, GIVEN(0), to, to_len));
    else if (is(line, "route")) INTO(2, 40, fosavalo_route_tick(image, image_len, GIVEN(0), GIVEN(1), to, to_len));
    else if (is(line, "sample")) INTO(2, FOSAVALO_SAMPLE_BYTES, fosavalo_route_sample(GIVEN(0), number(word_at(word[1].at, 0)), to, to_len));
    else if (is(line, "refusal")) said = fosavalo_tick_refusal(image, image_len, plain[0], plain[1]);
    else if (is(line, "image") && words == 0) tell(0, image, image_len, 1);
    else if (is(line, "image")) copy(image, word[0], &image_len, sizeof image), said = 0;
    else if (is(line, "append")) {
        said = fosavalo_log_append(room, buffer_len, words > 2 ? plain[2] : log_len, GIVEN(0), GIVEN(1));
        log_len += said ? 0 : FOSAVALO_RECORD_BYTES;
    } else if (is(line, "bytes")) {
        uint64_t from = plain[0] < buffer_len ? plain[0] : buffer_len, left = buffer_len - from;
        tell(0, room + from, plain[1] < left ? plain[1] : left, 1);
    } else if (is(line, "count")) INTO(0, 4, fosavalo_log_count(room, log_len, to, to_len));
    else if (is(line, "record")) INTO(1, FOSAVALO_RECORD_BYTES, fosavalo_log_record(room, log_len, plain[0], to, to_len));
    else if (is(line, "check")) INTO(3, 4, fosavalo_log_check(room, log_len, word_at(word[0].at, 0), number(word_at(word[1].at, 0)), number(word_at(word[2].at, 0)), to, to_len));
    else if (is(line, "flags")) {
        /* its own behind the words: a list may be long */
        struct bytes own = {room + behind_log, word[0].len / 4};
        if (words > 3) own = word[3];
        tell(fosavalo_flags(GIVEN(0), number(word_at(word[1].at, 0)), number(word_at(word[2].at, 0)), own.at, own.len), own.at, own.len, words > 3);
    } else if (is(line, "expand") && words == 1) {
        uint32_t number = fosavalo_pattern_expand(GIVEN(0), route, sizeof route, length, sizeof length);
        tell(number, route, word_at(length, 0), 0);
    } else if (is(line, "expand")) {
        tell(fosavalo_pattern_expand(GIVEN(0), GIVEN(1), GIVEN(2)), GIVEN(1), 1);
        told[tells++] = word[2];
    } else if (is(line, "desksetup")) said = fosavalo_desk_setup(desk, desk_len, GIVEN(0));
    else if (is(line, "centre")) said = fosavalo_desk_centre(desk, desk_len);
    else if (is(line, "desk")) {
        INTO(2, 40, fosavalo_desk_tick(desk, desk_len, GIVEN(0), image, image_len, GIVEN(1), to, to_len));
        if (words > 2) told[tells++] = word[1];
    } else if (is(line, "deskroute")) {
        INTO(3, 40, fosavalo_desk_route_tick(desk, desk_len, GIVEN(0), image, image_len, GIVEN(1), GIVEN(2), to, to_len));
        if (words > 3) told[tells++] = word[1];
    } else if (is(line, "deskimage") && words == 0) tell(0, desk, desk_len, 1);
    else if (is(line, "deskimage")) copy(desk, word[0], &desk_len, sizeof desk), said = 0;
}

/* whether the last call gave what the line says */
static uint32_t answered(const uint8_t *at) {
    uint64_t right = 0;
    for (; *at >= '0' && *at <= '9'; at++) right = 10 * right + (*at - '0');
    uint32_t same = right == said;
    for (uint32_t k = 0; k < tells; k++) same = same && *at++ == ' ' && as_told(&at, told[k]);
    return same && *at == '\n';
}

const char *report(const uint8_t *list, uint32_t size, uint32_t rounds) {
    uint32_t run = 0, differ = 0, line = 1, first = 0;
    (void)rounds;
    written = 0;
    image_len = FOSAVALO_IMAGE_BYTES;
    desk_len = FOSAVALO_DESK_BYTES;
    /* the last line ends: a file of text does */
    for (const uint8_t *at = list, *end = list + size; at < end; at++, line++) {
        if (at + 2 < end && at[0] == '?' && at[1] == ' ') ask(at + 2);
        if (at + 2 < end && at[0] == '=' && at[1] == ' ') {
            run++;
            if (!answered(at + 2) && differ++ == 0) first = line;
        }
        while (at < end && *at != '\n') at++;
    }
    say("lines of the kit: ");
    say_number(run, 10, 1);
    say(" run, ");
    say_number(differ, 10, 1);
    say(" differ");
    if (differ > 0) say(", the first at line "), say_number(first, 10, 1);
    say("\n");
    return lines;
}

void ready(const uint8_t *list) { (void)list; }
void one_tick(void) {}
