/* What the drivers share: numbers that look random and are the same everywhere, words in bytes, and a hash (FNV-1a) of all that a call answers. */
#include <stdint.h>

/* What a driver says, given the stored answers (docs/ORACLE.md) and how many rounds of calls to make from each of four seeds: lines of text. */
const char *report(const uint8_t *list, uint32_t length, uint32_t rounds);
/* Ready for a tick that is flown, the first such of the stored ones; and that tick, again and again on its image. For counting. */
void ready(const uint8_t *list);
void one_tick(void);

/* the lines, as they are put together */
static char lines[512];
static uint32_t written;

static inline void say(const char *text) {
    while (*text && written + 1 < sizeof lines) lines[written++] = *text++;
    lines[written] = 0;
}

static inline void say_number(uint64_t number, uint32_t base, uint32_t least) {
    char digits[24];
    uint32_t count = 0;
    while (number > 0 || count < least) {
        digits[count++] = "0123456789abcdef"[number % base];
        number /= base;
    }
    while (count > 0) {
        char digit[2] = {digits[--count], 0};
        say(digit);
    }
}

static uint64_t state, hash;
static uint32_t done;

/* the hash of one seed's calls; and how many returned 0, for a driver that is refused all the time would show little */
static inline void say_hash(uint32_t seed) {
    say("calls from seed ");
    say_number(seed, 10, 1);
    say(": ");
    say_number(hash, 16, 16);
    say(", ");
    say_number(done, 10, 1);
    say(" done\n");
}

static inline uint32_t any_word(void) {
    state ^= state << 13;
    state ^= state >> 7;
    state ^= state << 17;
    return (uint32_t)(state >> 16);
}

static inline void begin(uint32_t seed) {
    state = seed * 0x9e3779b97f4a7c15u + 1;
    hash = 0xcbf29ce484222325u;
    done = 0;
}

static inline void mix(const uint8_t *bytes, uint32_t count) {
    for (uint32_t k = 0; k < count; k++) {
        hash ^= bytes[k];
        hash *= 0x100000001b3u;
    }
}

static inline void put_word(uint8_t *bytes, uint32_t at, uint32_t word) {
    for (uint32_t k = 0; k < 4; k++) bytes[4 * at + k] = (uint8_t)(word >> 8 * k);
}

static inline uint32_t word_at(const uint8_t *bytes, uint32_t at) {
    return bytes[4 * at] | (uint32_t)bytes[4 * at + 1] << 8 | (uint32_t)bytes[4 * at + 2] << 16 | (uint32_t)bytes[4 * at + 3] << 24;
}

/* behind a row of a call: four lent buffers, a word, the number, and the words of the first and the third afterwards; from 512 on, the desk's, six buffers, the
 * number, and the words of all but the second and the fifth */
static inline const uint8_t *behind(uint32_t which, const uint8_t *row) {
    uint32_t words[6], six = which >= 512;
    for (uint32_t k = 0; k < (six ? 6 : 4); k++) {
        words[k] = word_at(row, 0);
        row += 8 + 4 * words[k];
    }
    return six ? row + 4 + 4 * (words[0] + words[2] + words[3] + words[5]) : row + 8 + 4 * (words[0] + words[2]);
}

/* the rows of a section of calls, and how many they are */
static inline const uint8_t *rows_of(const uint8_t *list, uint32_t wanted, uint32_t *count) {
    const uint8_t *at = list + 12;
    for (uint32_t left = word_at(list, 1); left > 0; left--) {
        uint32_t number = word_at(at, 0), words = word_at(at, 1) + word_at(at, 2), rows = word_at(at, 3);
        at += 64;
        *count = rows;
        if (number == wanted) return at;
        for (uint32_t row = 0; row < rows; row++) at = number < 500 ? at + 4 * words : behind(number, at);
    }
    *count = 0;
    return at;
}

/* a lent buffer of a row: its words as they were given, and then as the call left them */
struct lent {
    uint32_t words, bytes;
    uint8_t held[4096];
};

/* the buffer that stands here; behind it */
static inline const uint8_t *take(struct lent *lent, const uint8_t *at) {
    lent->words = word_at(at, 0);
    lent->bytes = word_at(at, 1);
    for (uint32_t k = 0; k < 4 * lent->words && k < sizeof lent->held; k++) lent->held[k] = at[8 + k];
    return at + 8 + 4 * lent->words;
}

/* whether its words are now those that stand here, and behind them */
static inline uint32_t alike(const struct lent *lent, const uint8_t **wanted) {
    uint32_t same = 1;
    for (uint32_t k = 0; k < 4 * lent->words; k++) same &= lent->held[k] == (*wanted)[k];
    *wanted += 4 * lent->words;
    return same;
}

/* the stored answers of these sections, each row by a function that says whether it came out as it is stored */
static inline void say_stored(const uint8_t *list, uint32_t first, uint32_t last, uint32_t (*as_stored)(uint32_t which, const uint8_t *row)) {
    uint32_t run = 0, differ = 0;
    for (uint32_t which = first; which <= last; which++) {
        uint32_t rows;
        for (const uint8_t *row = rows_of(list, which, &rows); rows > 0; rows--, row = behind(which, row)) {
            run++;
            differ += !as_stored(which, row);
        }
    }
    say("stored answers: ");
    say_number(run, 10, 1);
    say(" run, ");
    say_number(differ, 10, 1);
    say(" differ\n");
}

static inline void mix_word(uint32_t word) {
    uint8_t bytes[4];
    put_word(bytes, 0, word);
    mix(bytes, 4);
}

/* what a call returned */
static inline void mix_said(uint32_t said) {
    mix_word(said);
    done += said == 0;
}

static inline uint32_t bits(float x) {
    union { float number; uint32_t word; } as;
    as.number = x;
    return as.word;
}

static inline float number(uint32_t word) {
    union { float number; uint32_t word; } as;
    as.word = word;
    return as.number;
}

/* -2 to 2 */
static inline uint32_t small(void) { return bits(((float)(int32_t)(any_word() & 0xffff) - 32768.0f) / 16384.0f); }

/* mostly that; now and then any bits, a NaN, an infinity, a zero below zero, a subnormal number */
static inline uint32_t any_number(void) {
    switch (any_word() % 40) {
    case 0: return any_word();
    case 1: return 0x7fc00000;
    case 2: return 0x7f800000;
    case 3: return 0x80000000;
    case 4: return any_word() & 0x807fffff;
    default: return small();
    }
}

static inline void any_words(uint8_t *bytes, uint32_t words) {
    for (uint32_t k = 0; k < words; k++) put_word(bytes, k, any_number());
}

/* legs that join, most of the time */
static inline uint32_t any_route(uint8_t *route, uint32_t most) {
    uint32_t legs = 1 + any_word() % most;
    for (uint32_t leg = 0; leg < legs; leg++) {
        for (uint32_t k = 0; k < 18; k++) put_word(route, 19 * leg + k, small());
        put_word(route, 19 * leg + 18, bits((float)(any_word() % 5)));
        for (uint32_t k = 0; k < 36 && leg > 0; k++) route[76 * leg + k] = route[76 * leg - 40 + k];
    }
    if (any_word() % 8 == 0) route[any_word() % (76 * legs)] ^= 1;
    put_word(route, 19 * legs, any_word() % 16 == 0 ? any_word() : legs);
    put_word(route, 19 * legs + 1, any_word() % 16 == 0 ? any_word() : 76 * legs);
    return 76 * legs + 8;
}
