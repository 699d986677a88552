/* Fosavalo: the C face of the proved flight core. Link libfosavalo.a, of this header's version.
 *
 * Every call is defined for every argument. Nothing here allocates, keeps state or writes anywhere but where it says. A buffer of length 0 may
 * be NULL: it is then one of a wrong length, as any other.
 *
 * The archives are one proved module, compiled for each target. In it a length is 64 bits wide, so it is on every target: size_t would be 32 where addresses are.
 * From outside an archive wants memset on x86-64 and aarch64; memset and memcpy on riscv64; on 32-bit Arm __aeabi_memclr4, __aeabi_memclr8, __aeabi_memcpy and
 * __aeabi_memcpy4, which a C library has, and __aeabi_uldivmod and __aeabi_ul2f, which libgcc and compiler-rt have; on wasm32 nothing. This header wants no C library. */
#ifndef FOSAVALO_H
#define FOSAVALO_H

#include <stdint.h>
#if defined(__SSE__) && defined(__FLT_EVAL_METHOD__) && __FLT_EVAL_METHOD__ != 0
#include <xmmintrin.h>
#endif

#ifdef __cplusplus
extern "C" {
#endif

/* The version of this header; fosavalo_version() is the archive's. The second number rises with every change of what a call does or a word means, which may
 * leave every length. */
#define FOSAVALO_VERSION_MAJOR 0
#define FOSAVALO_VERSION_MINOR 15
#define FOSAVALO_VERSION_PATCH 0
#define FOSAVALO_VERSION_NUMBER ((FOSAVALO_VERSION_MAJOR << 16) + (FOSAVALO_VERSION_MINOR << 8) + FOSAVALO_VERSION_PATCH)
#define FOSAVALO_VERSION FOSAVALO_TEXT(FOSAVALO_VERSION_MAJOR) "." FOSAVALO_TEXT(FOSAVALO_VERSION_MINOR) "." FOSAVALO_TEXT(FOSAVALO_VERSION_PATCH)
#define FOSAVALO_TEXT(number) FOSAVALO_TEXT_AS_IT_IS(number)
#define FOSAVALO_TEXT_AS_IT_IS(number) #number

/* The archive's version, as FOSAVALO_VERSION_NUMBER. */
uint32_t fosavalo_version(void);

/* Whether the archive is of this header's version: 1, or 0 where words or lengths may differ. To be asked once, at the start. */
static inline int fosavalo_header_fits(void) { return fosavalo_version() == FOSAVALO_VERSION_NUMBER; }

/* The floating-point environment. Every call computes in that of the thread which makes it, and what is proved holds where it rounds to
 * nearest, keeps subnormal numbers as operands and as results, and traps no exception. A thread that nobody told otherwise has it so. It has not
 * after fesetround; nor in a program that is linked with -ffast-math, -Ofast or -funsafe-math-optimizations, or that loads a library so linked (by gcc
 * before 13): these set the processor to take subnormal numbers for zero. The calls do not ask. Ask before set-up, on the thread that ticks, and
 * after loading a library there. */
#define FOSAVALO_FLOATS_RIGHT 0
#define FOSAVALO_ROUNDING_WRONG 1   /* not to nearest, ties to even */
#define FOSAVALO_SUBNORMALS_WRONG 2 /* taken for zero, or made zero */

/* A word's four bytes from one object to another, as memcpy does, whose header a target without a C library has not. */
static inline void fosavalo_copy_word(void *to, const void *from) {
#ifdef __cplusplus
    unsigned char *there = static_cast<unsigned char *>(to);
    const unsigned char *here = static_cast<const unsigned char *>(from);
#else
    unsigned char *there = to;
    const unsigned char *here = from;
#endif
    for (int k = 0; k < 4; k++) there[k] = here[k];
}

/* A float from bits that no compiler knows, and the bits of a result that it has to have by then: volatile, so that nothing is worked out
 * before the program runs, nor moved past another call. */
static inline float fosavalo_hidden(uint32_t bits) {
    volatile uint32_t hidden = bits;
    uint32_t seen = hidden;
    float x;
    fosavalo_copy_word(&x, &seen);
    return x;
}

static inline uint32_t fosavalo_bits(float x) {
    volatile float kept = x;
    float seen = kept;
    uint32_t bits;
    fosavalo_copy_word(&bits, &seen);
    return bits;
}

/* The sum of two floats, by bits; where the program's own floats are another unit's (gcc's -mfpmath=387), on the one that the calls compute on. */
static inline uint32_t fosavalo_sum(uint32_t a, uint32_t b) {
    float x = fosavalo_hidden(a), y = fosavalo_hidden(b);
#if defined(__SSE__) && defined(__FLT_EVAL_METHOD__) && __FLT_EVAL_METHOD__ != 0
    return fosavalo_bits(_mm_cvtss_f32(_mm_add_ss(_mm_set_ss(x), _mm_set_ss(y))));
#else
    return fosavalo_bits(x + y);
#endif
}

/* FOSAVALO_FLOATS_RIGHT, or what is wrong, added up; on this thread, now. Found by computing, and compared as bits, so that it tells the truth
 * under -ffast-math too. */
static inline uint32_t fosavalo_float_environment(void) {
    /* 1 and half a unit of its last place, 1 and one and a half: midway between two floats, of which the even ones are 1 and 1 and two units */
    uint32_t down = fosavalo_sum(0x3f800000u, 0x33800000u), up = fosavalo_sum(0x3f800000u, 0x34400000u);
    /* both operands and the result are subnormal; a sum, since processors take long over a product with them */
    uint32_t subnormal = fosavalo_sum(0x00000001u, 0x00000001u);
    return (down == 0x3f800000u && up == 0x3f800002u ? 0u : FOSAVALO_ROUNDING_WRONG) + (subnormal == 0x00000002u ? 0u : FOSAVALO_SUBNORMALS_WRONG);
}

/* Sine and cosine of x, in radians: within 2^-23 of the exact value up to 8192 in size; +0.0 beyond it, for an infinity and for a NaN.
 * The sine of a zero is that zero. */
float fosavalo_sinf(float x);
float fosavalo_cosf(float x);

/* Set-up and the joint tick work on bytes: words of 32 bits, little-endian, a float as its bits. A NaN that is written is 7fc00000. */

/* The lengths of the buffers, in bytes. */
#define FOSAVALO_IMAGE_BYTES 396
#define FOSAVALO_SETUP_BYTES 204
#define FOSAVALO_TICK_BYTES 68
#define FOSAVALO_ANSWER_BYTES 40
#define FOSAVALO_LEG_BYTES 76
#define FOSAVALO_ROUTE_TRAILER_BYTES 8
#define FOSAVALO_MOST_LEGS 32
#define FOSAVALO_SAMPLE_BYTES 52
#define FOSAVALO_RECORD_BYTES 108
#define FOSAVALO_LOG_TRAILER_BYTES 12
#define FOSAVALO_MOST_RECORDS 65535
#define FOSAVALO_MOST_MARGINS 65535
#define FOSAVALO_DEEPEST_REPEAT 4

/* What set-up, the exchange and the ticks return. Of 0 to 4 it is the lowest that holds; 5 to 7 come after 4, in the order that the route tick tells; 10 and
 * then 11 come after 2. The log's calls, flags and expand tell theirs. */
#define FOSAVALO_DONE 0                 /* what the call writes is written: the image, at a tick the answer too, what a log's call tells */
#define FOSAVALO_WRONG_IMAGE_LENGTH 1   /* image_len is not FOSAVALO_IMAGE_BYTES */
#define FOSAVALO_WRONG_INPUT_LENGTH 2   /* input_len is not FOSAVALO_SETUP_BYTES, at a tick and an append FOSAVALO_TICK_BYTES; segment_len is not FOSAVALO_LEG_BYTES; count_len, verdict_len or written_len is not 4 */
#define FOSAVALO_WRONG_ANSWER_LENGTH 3  /* ticks and append: answer_len is not FOSAVALO_ANSWER_BYTES; sample: sample_len is not FOSAVALO_SAMPLE_BYTES */
#define FOSAVALO_BROKEN_IMAGE 4         /* ticks and exchange: no call leaves such an image */
#define FOSAVALO_WRONG_LEG_COUNT 5      /* route tick and sample: the count is 0 or above FOSAVALO_MOST_LEGS; expand: so is the number of legs flown */
#define FOSAVALO_WRONG_ROUTE_LENGTH 6   /* route tick and sample: under 8 bytes, or the bytes back or the length do not go with the count */
#define FOSAVALO_LEGS_APART 7           /* route tick, sample and expand: a leg does not start where the one before it ends */
#define FOSAVALO_BROKEN_LOG 8           /* log only: the log's length and its three words do not go together */
#define FOSAVALO_NO_ROOM 9              /* append: under 108 bytes beyond the log, or FOSAVALO_MOST_RECORDS in it; flags: lengths; expand: the route is longer than its buffer */
#define FOSAVALO_WRONG_PROFILE 10       /* set-up and the check of a log: the profile is neither 0 nor 1 */
#define FOSAVALO_PASS_THROUGH 11        /* set-up only: the gyro would not be filtered, as with a cut-off of 0 */
#define FOSAVALO_BROKEN_PATTERN 12      /* expand only: a bad tag, count, depth or length anywhere in the pattern */
#define FOSAVALO_NO_RECORD 13           /* record only: the log has no record at that place */
#define FOSAVALO_WRONG_RECORD_LENGTH 14 /* record only: record_len is not FOSAVALO_RECORD_BYTES */

/* What a returned number means, in words; never NULL. */
static inline const char *fosavalo_meaning(uint32_t number) {
    switch (number) {
    case FOSAVALO_DONE:
        return "done";
    case FOSAVALO_WRONG_IMAGE_LENGTH:
        return "the image is not " FOSAVALO_TEXT(FOSAVALO_IMAGE_BYTES) " bytes long";
    case FOSAVALO_WRONG_INPUT_LENGTH:
        return "the input is not " FOSAVALO_TEXT(FOSAVALO_SETUP_BYTES) " bytes long at set-up, " FOSAVALO_TEXT(FOSAVALO_LEG_BYTES)
               " at an exchange, " FOSAVALO_TEXT(FOSAVALO_TICK_BYTES) " at a tick and in a log, or what takes a log's count, its verdict or a route's length is not 4";
    case FOSAVALO_WRONG_ANSWER_LENGTH:
        return "the answer is not " FOSAVALO_TEXT(FOSAVALO_ANSWER_BYTES) " bytes long, or the sample not " FOSAVALO_TEXT(FOSAVALO_SAMPLE_BYTES);
    case FOSAVALO_BROKEN_IMAGE:
        return "the image is none that set-up, a tick or an exchange leaves";
    case FOSAVALO_WRONG_LEG_COUNT:
        return "a route has 1 to " FOSAVALO_TEXT(FOSAVALO_MOST_LEGS) " legs";
    case FOSAVALO_WRONG_ROUTE_LENGTH:
        return "the route's length or its bytes back do not go with its count of legs of " FOSAVALO_TEXT(FOSAVALO_LEG_BYTES)
               " bytes, with " FOSAVALO_TEXT(FOSAVALO_ROUTE_TRAILER_BYTES) " more";
    case FOSAVALO_LEGS_APART:
        return "a leg of the route does not start where the one before it ends";
    case FOSAVALO_BROKEN_LOG:
        return "the log's length, its count, its bytes back and its last word, " FOSAVALO_TEXT(FOSAVALO_RECORD_BYTES) ", do not go together";
    case FOSAVALO_NO_ROOM:
        return "the buffer has no room for " FOSAVALO_TEXT(FOSAVALO_RECORD_BYTES) " bytes more, or the log has "
               FOSAVALO_TEXT(FOSAVALO_MOST_RECORDS) " records; or there is not a flag for each margin, or more than "
               FOSAVALO_TEXT(FOSAVALO_MOST_MARGINS) " of them; or a pattern's route does not fit its buffer";
    case FOSAVALO_WRONG_PROFILE:
        return "the profile is neither 0 nor 1";
    case FOSAVALO_PASS_THROUGH:
        return "the gyro would not be filtered: the cut-off fc has to be above 0 and below half of the sample rate fs; one below fs / 25586 would switch the gyro off";
    case FOSAVALO_BROKEN_PATTERN:
        return "the pattern has a tag, a count, a depth or a length that none has";
    case FOSAVALO_NO_RECORD:
        return "the log has no record at that place";
    case FOSAVALO_WRONG_RECORD_LENGTH:
        return "the record is not " FOSAVALO_TEXT(FOSAVALO_RECORD_BYTES) " bytes long";
    default:
        return "a number that this version has no words for";
    }
}

/* Axes, signs, units. The world's axes are north, east and down, in metres and seconds; positions, velocities, accelerations and jerks are along them. The body's are
 * forward (x), right (y) and down (z). The attitude takes the body's axes to the world's: a unit quaternion of Hamilton's form, w x y z, so that
 * (cos a/2, 0, 0, sin a/2) is level with the heading a; it is not normalised here. A heading is in rad, clockwise from north as seen from above: pi/2 is east. Rates
 * are about the body's axes, rad/s, by the right hand: a roll above 0 lowers the right side, a pitch above 0 raises the nose, a yaw above 0 turns it to the right. A
 * torque has the same signs and is no moment in N m: one unit is what turns its axis by b0 of the set-up, rad/s^2 (relay takes for b0 the most torque by the inertia, so
 * that the motors give 1 at most). The thrust is not the core's. docs/axes.svg draws the axes. */

/* Where each number stands, in words from the start of its buffer: the first of three where a vector stands (x, y, z), else the one.
 * Axes are 0 to 2. */

/* What set-up is given. */
#define FOSAVALO_SETUP_K_R 0        /* 3: attitude gains */
#define FOSAVALO_SETUP_K_OMEGA 3    /* 3: rate gains */
#define FOSAVALO_SETUP_J 6          /* 3: inertia, kg m^2 */
#define FOSAVALO_SETUP_SET_K_R 9    /* the recoverable set */
#define FOSAVALO_SETUP_LAMBDA_J 10
#define FOSAVALO_SETUP_PSI_MAX 11
#define FOSAVALO_SETUP_ENTER 12     /* kept if finite and above 0, else 0.1 */
#define FOSAVALO_SETUP_EXIT 13      /* kept if finite and above enter, else twice enter */
#define FOSAVALO_SETUP_ERR_LO 14    /* the governor */
#define FOSAVALO_SETUP_ERR_HI 15
#define FOSAVALO_SETUP_G_MIN 16
#define FOSAVALO_SETUP_LEG 17       /* the segment's 19 words, FOSAVALO_LEG_P0 to FOSAVALO_LEG_T from here */
#define FOSAVALO_SETUP_OMEGA_O(axis) (36 + 4 * (axis)) /* rate control */
#define FOSAVALO_SETUP_OMEGA_C(axis) (37 + 4 * (axis))
#define FOSAVALO_SETUP_B0(axis) (38 + 4 * (axis)) /* angular acceleration for one unit of torque, rad/s^2 */
#define FOSAVALO_SETUP_TAU(axis) (39 + 4 * (axis))
#define FOSAVALO_SETUP_FC 48        /* the gyro's filter, Hz: above 0 and below half of fs, else refused */
#define FOSAVALO_SETUP_FS 49
#define FOSAVALO_SETUP_PROFILE 50   /* a whole number: FOSAVALO_WHOLE or FOSAVALO_LOST_ROTOR */

/* A leg of a route, and the segment of a set-up and of an exchange. */
#define FOSAVALO_LEG_P0 0  /* 3: north, east, down, m */
#define FOSAVALO_LEG_V0 3  /* 3: m/s */
#define FOSAVALO_LEG_A0 6  /* 3: m/s^2 */
#define FOSAVALO_LEG_PF 9  /* 3 */
#define FOSAVALO_LEG_VF 12 /* 3 */
#define FOSAVALO_LEG_AF 15 /* 3 */
#define FOSAVALO_LEG_T 18  /* the duration, s */

/* What a tick is given. */
#define FOSAVALO_TICK_GYRO 0           /* 3: rad/s about the body's axes */
#define FOSAVALO_TICK_ATTITUDE 3       /* 4: a quaternion, w x y z, body to north-east-down */
#define FOSAVALO_TICK_TRACKING_ERROR 7 /* m */
#define FOSAVALO_TICK_YAW 8            /* rad: the wanted heading, clockwise from north */
#define FOSAVALO_TICK_YAW_RATE 9       /* rad/s */
#define FOSAVALO_TICK_DT 10            /* s */
#define FOSAVALO_TICK_PLANNER 11       /* 3: the planner's rate command, rad/s */
#define FOSAVALO_TICK_DELIVERED 14     /* 3: the fraction of the last torque that was delivered */

/* What a tick answers. */
#define FOSAVALO_ANSWER_TORQUE 0  /* 3: about the body's axes, in units of b0 rad/s^2 */
#define FOSAVALO_ANSWER_COMMAND 3 /* 3: rad/s */
#define FOSAVALO_ANSWER_FLAG 6    /* a whole number: 1 the fallback's command, 0 the planner's */
#define FOSAVALO_ANSWER_TIME 7    /* the governor's, s */
#define FOSAVALO_ANSWER_PSI 8
#define FOSAVALO_ANSWER_MARGIN 9

/* Where a route is at a time. */
#define FOSAVALO_SAMPLE_LEG 0           /* a whole number: the leg flown, counted from 0 */
#define FOSAVALO_SAMPLE_POSITION 1      /* 3: m */
#define FOSAVALO_SAMPLE_VELOCITY 4      /* 3: m/s */
#define FOSAVALO_SAMPLE_ACCELERATION 7  /* 3: m/s^2 */
#define FOSAVALO_SAMPLE_JERK 10         /* 3: m/s^3 */

/* The image. To look at: only set-up, the exchange and the ticks write one. */
#define FOSAVALO_IMAGE_COUNT 0    /* a whole number: how many words an image has */
#define FOSAVALO_IMAGE_K_R 1      /* 3; these to G_MIN are set-up's, but for the flag and the time */
#define FOSAVALO_IMAGE_K_OMEGA 4  /* 3 */
#define FOSAVALO_IMAGE_J 7        /* 3 */
#define FOSAVALO_IMAGE_SET_K_R 10
#define FOSAVALO_IMAGE_LAMBDA_J 11
#define FOSAVALO_IMAGE_PSI_MAX 12
#define FOSAVALO_IMAGE_ENTER 13   /* as set-up kept it */
#define FOSAVALO_IMAGE_EXIT 14    /* as set-up kept it */
#define FOSAVALO_IMAGE_ENGAGED 15 /* a whole number: the last answer's flag, 1 before the first */
#define FOSAVALO_IMAGE_TIME 16    /* the governor's */
#define FOSAVALO_IMAGE_ERR_LO 17
#define FOSAVALO_IMAGE_ERR_HI 18
#define FOSAVALO_IMAGE_G_MIN 19
#define FOSAVALO_IMAGE_C5(axis) (20 + 7 * (axis)) /* the segment's coefficients, of time to the fifth .. to the zeroth */
#define FOSAVALO_IMAGE_C4(axis) (21 + 7 * (axis))
#define FOSAVALO_IMAGE_C3(axis) (22 + 7 * (axis))
#define FOSAVALO_IMAGE_C2(axis) (23 + 7 * (axis))
#define FOSAVALO_IMAGE_C1(axis) (24 + 7 * (axis))
#define FOSAVALO_IMAGE_C0(axis) (25 + 7 * (axis))
#define FOSAVALO_IMAGE_T_END(axis) (26 + 7 * (axis))
#define FOSAVALO_IMAGE_Z1(axis) (41 + 9 * (axis)) /* rate control: its state, the fraction delivered, its gains */
#define FOSAVALO_IMAGE_Z2(axis) (42 + 9 * (axis))
#define FOSAVALO_IMAGE_U_PREV(axis) (43 + 9 * (axis))
#define FOSAVALO_IMAGE_U_ACT(axis) (44 + 9 * (axis))
#define FOSAVALO_IMAGE_FRACTION(axis) (45 + 9 * (axis))
#define FOSAVALO_IMAGE_OMEGA_O(axis) (46 + 9 * (axis))
#define FOSAVALO_IMAGE_OMEGA_C(axis) (47 + 9 * (axis))
#define FOSAVALO_IMAGE_B0(axis) (48 + 9 * (axis))
#define FOSAVALO_IMAGE_TAU(axis) (49 + 9 * (axis))
#define FOSAVALO_IMAGE_FILTER_B0(axis) (68 + 9 * (axis)) /* the gyro's filter: its coefficients, its last inputs and outputs */
#define FOSAVALO_IMAGE_FILTER_B1(axis) (69 + 9 * (axis))
#define FOSAVALO_IMAGE_FILTER_B2(axis) (70 + 9 * (axis))
#define FOSAVALO_IMAGE_FILTER_A1(axis) (71 + 9 * (axis))
#define FOSAVALO_IMAGE_FILTER_A2(axis) (72 + 9 * (axis))
#define FOSAVALO_IMAGE_FILTER_X1(axis) (73 + 9 * (axis))
#define FOSAVALO_IMAGE_FILTER_X2(axis) (74 + 9 * (axis))
#define FOSAVALO_IMAGE_FILTER_Y1(axis) (75 + 9 * (axis))
#define FOSAVALO_IMAGE_FILTER_Y2(axis) (76 + 9 * (axis))
#define FOSAVALO_IMAGE_PROFILE 95 /* a whole number, set-up's */
#define FOSAVALO_IMAGE_PEAKS 96   /* 3: the bounds of the segment's jerk, +infinity where one is not finite; to be read at any time, without a tick */

/* The profiles: what there is to fly with. */
#define FOSAVALO_WHOLE 0      /* all rotors */
#define FOSAVALO_LOST_ROTOR 1 /* one is lost, and with it the hold on yaw: the aircraft is brought down level, as a tick tells */

/* Words in a buffer, by the places above: put and read, as whole numbers and as floats. These are plain C for whoever calls; the core is not asked. */
static inline void fosavalo_put_word(uint8_t *bytes, uint32_t at, uint32_t word) {
    for (uint32_t k = 0; k < 4; k++) bytes[4 * at + k] = word >> (8 * k) & 0xff;
}

static inline uint32_t fosavalo_word(const uint8_t *bytes, uint32_t at) {
    uint32_t word = 0;
    for (uint32_t k = 4; k-- > 0;) word = word << 8 | bytes[4 * at + k];
    return word;
}

static inline void fosavalo_put(uint8_t *bytes, uint32_t at, float x) {
    uint32_t word;
    fosavalo_copy_word(&word, &x);
    fosavalo_put_word(bytes, at, word);
}

static inline float fosavalo_number(const uint8_t *bytes, uint32_t at) {
    uint32_t word = fosavalo_word(bytes, at);
    float x;
    fosavalo_copy_word(&x, &word);
    return x;
}

/* A vector, or roll, pitch and yaw. */
static inline void fosavalo_put_three(uint8_t *bytes, uint32_t at, float x, float y, float z) {
    fosavalo_put(bytes, at, x);
    fosavalo_put(bytes, at + 1, y);
    fosavalo_put(bytes, at + 2, z);
}

/* A set-up's FOSAVALO_SETUP_BYTES: relay's own gains for its quadrotor, hovering at the origin for a second; a set of (1, 1, 1.75), enter 0.5, exit 1, the gyro
 * filtered at 80 Hz of 1000 ticks a second, all rotors. What is to differ is put over it. The Rust crate's SetUp::falcon_quad(). */
static inline void fosavalo_setup_default(uint8_t *input) {
    for (uint32_t at = 0; at < FOSAVALO_SETUP_BYTES / 4; at++) fosavalo_put_word(input, at, 0);
    fosavalo_put_three(input, FOSAVALO_SETUP_K_R, 0.6f, 0.6f, 0.15f);
    fosavalo_put_three(input, FOSAVALO_SETUP_K_OMEGA, 0.12f, 0.12f, 0.35f);
    fosavalo_put_three(input, FOSAVALO_SETUP_J, 0.0217f, 0.0217f, 0.04f);
    fosavalo_put(input, FOSAVALO_SETUP_SET_K_R, 1.0f);
    fosavalo_put(input, FOSAVALO_SETUP_LAMBDA_J, 1.0f);
    fosavalo_put(input, FOSAVALO_SETUP_PSI_MAX, 1.75f);
    fosavalo_put(input, FOSAVALO_SETUP_ENTER, 0.5f);
    fosavalo_put(input, FOSAVALO_SETUP_EXIT, 1.0f);
    fosavalo_put(input, FOSAVALO_SETUP_ERR_LO, 0.2f);
    fosavalo_put(input, FOSAVALO_SETUP_ERR_HI, 1.0f);
    fosavalo_put(input, FOSAVALO_SETUP_G_MIN, 0.25f);
    fosavalo_put(input, FOSAVALO_SETUP_LEG + FOSAVALO_LEG_T, 1.0f);
    for (uint32_t axis = 0; axis < 3; axis++) {
        int yaw = axis == 2;
        fosavalo_put(input, FOSAVALO_SETUP_OMEGA_O(axis), yaw ? 30.0f : 40.0f);
        fosavalo_put(input, FOSAVALO_SETUP_OMEGA_C(axis), yaw ? 3.0f : 12.0f);
        fosavalo_put(input, FOSAVALO_SETUP_B0(axis), yaw ? 18.0f : 60.0f);
        fosavalo_put(input, FOSAVALO_SETUP_TAU(axis), yaw ? 0.025f : 0.0125f);
    }
    fosavalo_put(input, FOSAVALO_SETUP_FC, 80.0f);
    fosavalo_put(input, FOSAVALO_SETUP_FS, 1000.0f);
}

/* A tick's FOSAVALO_TICK_BYTES: level and still at a millisecond's step, the planner wanting nothing, everything delivered. The Rust crate's TickInput::default(). */
static inline void fosavalo_tick_default(uint8_t *input) {
    for (uint32_t at = 0; at < FOSAVALO_TICK_BYTES / 4; at++) fosavalo_put_word(input, at, 0);
    fosavalo_put(input, FOSAVALO_TICK_ATTITUDE, 1.0f);
    fosavalo_put(input, FOSAVALO_TICK_DT, 0.001f);
    fosavalo_put_three(input, FOSAVALO_TICK_DELIVERED, 1.0f, 1.0f, 1.0f);
}

/* The two words behind the legs of a route, whose count this is; the route is then FOSAVALO_LEG_BYTES * legs + FOSAVALO_ROUTE_TRAILER_BYTES long. */
static inline void fosavalo_route_close(uint8_t *route, uint32_t legs) {
    fosavalo_put_word(route, FOSAVALO_LEG_BYTES / 4 * legs, legs);
    fosavalo_put_word(route, FOSAVALO_LEG_BYTES / 4 * legs + 1, FOSAVALO_LEG_BYTES * legs);
}

/* Writes a fresh image, the state that goes from tick to tick; what stood in it is not read.
 *
 * The input is the words FOSAVALO_SETUP_.. Every bit pattern of a number is taken and mended where it is no use, but for a filter that would be none:
 * fc has to be above 0 and below half of fs. (An image that was set up otherwise by an earlier release goes on ticking.) An fc below fs / 25586 is taken
 * and switches the gyro off: the filtered rate is 0 for ever. One next to half of fs filters next to nothing.
 *
 * Returns 0, 1, 2, 10 or 11; 2 if input_len is not FOSAVALO_SETUP_BYTES. Unless it is 0 no byte is changed; the input never is. Each pointer has to be good
 * for its length, whatever that is, and the two buffers must not overlap. */
uint32_t fosavalo_setup(uint8_t *image, uint64_t image_len, const uint8_t *input, uint64_t input_len);

/* Another segment in flight: the words FOSAVALO_LEG_.., of which every bit pattern is taken and mended as at set-up. It is flown from its start: the
 * governor's time becomes 0, and the peaks are the new segment's. Every other word stays (a NaN is made 7fc00000), so who flies, the rate control and the
 * filters go on. An image that a tick would refuse is refused, not repaired.
 *
 * Returns 0, 1, 2 or 4; 2 if segment_len is not FOSAVALO_LEG_BYTES. Unless it is 0 no byte is changed; the segment never is. Each pointer has to be good for its
 * length, whatever that is, and the two buffers must not overlap. */
uint32_t fosavalo_exchange(uint8_t *image, uint64_t image_len, const uint8_t *segment, uint64_t segment_len);

/* One tick on an image that set-up, an exchange or the last tick left.
 *
 * The input is the words FOSAVALO_TICK_.., of which every bit pattern is taken; the answer is the words FOSAVALO_ANSWER_..
 * The margin is the smaller of psi_max - psi and 2 k_r (2 - psi) / lambda_j - |error|^2. The error is the filtered rate less the commanded one, which is
 * what the trajectory and the yaw rate ask for (the feedforward), brought from the wanted attitude's axes to the body's; where there is no feedforward,
 * since the wanted thrust is next to nothing, it is all of the filtered rate. With no wanted attitude the margin is minus infinity.
 *
 * With FOSAVALO_LOST_ROTOR only the thrust axis is held: the fallback turns it to the wanted one, psi is 1 less the cosine of the angle between them, the
 * error is the first two filtered rates, and with no wanted thrust axis the margin is minus infinity. Yaw and yaw rate are not read. The third numbers of
 * the command and of the torque are 0, whatever the planner wants, and the words FOSAVALO_IMAGE_Z1(2) to FOSAVALO_IMAGE_TAU(2) stay.
 *
 * Returns 0 to 4; 2 if input_len is not FOSAVALO_TICK_BYTES. Unless it is 0 no byte of the image or the answer is changed; the input never is. Each pointer has
 * to be good for its length, whatever that is, and no two of the three buffers may overlap. */
uint32_t fosavalo_tick(uint8_t *image, uint64_t image_len, const uint8_t *input, uint64_t input_len, uint8_t *answer, uint64_t answer_len);

/* What a tick on this image, with an input and an answer of these lengths, would return: 0 to 4, by the lengths and the image alone.
 * Nothing is changed. For a caller that has a state of its own to keep in step. */
uint32_t fosavalo_tick_refusal(const uint8_t *image, uint64_t image_len, uint64_t input_len, uint64_t answer_len);

/* One tick toward a route in place of the image's segment, which is kept, and looked at for number 4 alone; image, input and answer are those of a tick.
 * Plain ticks and route ticks may follow each other in any order; the governor's time runs on over both.
 *
 * route: 1 to 32 legs, the words FOSAVALO_LEG_.. each; then two words, the count and how many bytes back from there
 * the first leg starts, 76 times the count. Legs meet: each p0, v0, a0 equals the pf, vf, af before it as numbers, so that -0.0 meets 0.0
 * and a NaN meets nothing. A leg ends at the sum of the durations up to it, as set-up mends them; the first leg whose end is above the
 * governor's time is flown, at the time less the end before it; past all ends it is the last leg at its duration.
 *
 * Returns 0 to 7, and up to 4 as a tick. After 4 it is 6 for a route under 8 bytes, then 5, then 6, then 7. Unless it is 0 no byte of the image or the answer is
 * changed; the input and the route never are. Each pointer has to be good for its length, whatever that is, and no two of the four buffers
 * may overlap, but for the input and the route, which are only read. */
uint32_t fosavalo_route_tick(uint8_t *image, uint64_t image_len, const uint8_t *input, uint64_t input_len, const uint8_t *route, uint64_t route_len, uint8_t *answer, uint64_t answer_len);

/* Where the aircraft should be: the leg of a route that is flown at a time, and its position, velocity, acceleration and jerk there, the words
 * FOSAVALO_SAMPLE_.. The distance between that position and the aircraft's is the tracking error that a tick is given. A segment is a route of one leg.
 *
 * time: seconds on the governor's clock, the word FOSAVALO_ANSWER_TIME of the last answer. Every bit pattern is taken, as a route tick takes its own: below 0
 * it is the first leg's start, and past the end, or where it is no number, the last leg's end. A route tick is guided by this acceleration and this jerk at
 * its own time.
 *
 * Returns 0; 3 if sample_len is not FOSAVALO_SAMPLE_BYTES; then 6 for a route under 8 bytes, then 5, then 6, then 7. Unless it is 0 no byte is changed; the route
 * never is. Each pointer has to be good for its length, whatever that is, and the two buffers must not overlap. */
uint32_t fosavalo_route_sample(const uint8_t *route, uint64_t route_len, float time, uint8_t *sample, uint64_t sample_len);

/* A flight log is 0 to 65,535 records of 108 bytes, each a tick's input and then its answer, and behind them three words: the count, how many
 * bytes back from there the first record starts (108 times the count), and 108. It tells neither the thresholds nor the profile. A log of no record is
 * these words alone:
 *
 *   uint8_t log[FOSAVALO_LOG_TRAILER_BYTES + 1000 * FOSAVALO_RECORD_BYTES] = FOSAVALO_EMPTY_LOG;
 *   uint64_t log_len = FOSAVALO_LOG_TRAILER_BYTES;
 */
#define FOSAVALO_EMPTY_LOG {0, 0, 0, 0, 0, 0, 0, 0, FOSAVALO_RECORD_BYTES, 0, 0, 0}

/* Appends a record to the log in the first log_len bytes of the buffer: where the three words stood comes the record, byte for byte as the
 * input and the answer are, and behind it the new three words. The log is then log_len + FOSAVALO_RECORD_BYTES long; no other byte is changed.
 * It takes the same time however long the log is.
 *
 * Returns 0; 2 or 3 if the input or the answer has not the length of a tick's; then 8; then 9 if under FOSAVALO_RECORD_BYTES of the buffer are beyond the log, or
 * the log has FOSAVALO_MOST_RECORDS. Unless it is 0 no byte is changed; the input and the answer never are. Each pointer has to be good for its length, whatever
 * that is (log_len may be anything), and the buffer must not overlap the others. */
uint32_t fosavalo_log_append(uint8_t *buffer, uint64_t buffer_len, uint64_t log_len, const uint8_t *input, uint64_t input_len, const uint8_t *answer, uint64_t answer_len);

/* How many records a log has: one word, little-endian, into the 4 bytes of count. The log is all log_len bytes.
 *
 * Returns 0; 2 if count_len is not 4; then 8. Unless it is 0 no byte is changed; the log never is. Each pointer has to be good for its length,
 * whatever that is, and the two buffers must not overlap. */
uint32_t fosavalo_log_count(const uint8_t *log, uint64_t log_len, uint8_t *count, uint64_t count_len);

/* The record at a place, counted from 0 in the order in which they were appended: a tick's input and then its answer. The log is all log_len
 * bytes.
 *
 * Returns 0; 14 if record_len is not FOSAVALO_RECORD_BYTES; then 8; then 13 if the place is at or beyond the count. Unless it is 0 no byte is
 * changed; the log never is. Each pointer has to be good for its length, whatever that is, and the two buffers must not overlap. */
uint32_t fosavalo_log_record(const uint8_t *log, uint64_t log_len, uint64_t place, uint8_t *record, uint64_t record_len);

/* Whether a log, of any box that writes this form, is right: one word, little-endian, into the 4 bytes of verdict. It is FOSAVALO_LOG_RIGHT, or else the place of
 * the first wrong record, counted from 0.
 *
 * A record is right if its flag is the one that the margins of the records up to and including it demand of a fresh shield; if that is 0, its command is its
 * own planner's words, in bits, a word that is not finite made 0 (with FOSAVALO_LOST_ROTOR the third is 0); if it is 1, its command's words are finite. Torque, time and
 * psi are not looked at. profile, enter and exit are those of the set-up, FOSAVALO_WHOLE or FOSAVALO_LOST_ROTOR and the two as they were given to it: a log does not
 * tell them. An empty log is right, and so is any log of every tick since a set-up of ours. One that begins in mid-flight need not be.
 *
 * Returns 0; 2 if verdict_len is not 4; then 8; then 10. Unless it is 0 no byte is changed; the log never is. Each pointer has to be good for its length,
 * whatever that is, and the two buffers must not overlap. */
#define FOSAVALO_LOG_RIGHT 0xffffffffu
uint32_t fosavalo_log_check(const uint8_t *log, uint64_t log_len, uint32_t profile, float enter, float exit, uint8_t *verdict, uint64_t verdict_len);

/* Who flies at each margin of a list, with no latch: for each the list is looked back through for a release with no later engagement, as those do who explain a
 * flight. The margins are words, as a record's last one; enter and exit are mended as at set-up; flags takes a byte for each margin, 1 the fallback and 0
 * the planner. They are the flags of a fresh shield that is stepped by these margins. The time goes with the square of the count where no margin leaves the
 * band between the thresholds: FOSAVALO_MOST_MARGINS of them may take seconds.
 *
 * Returns 0; or 9 if flags_len is above FOSAVALO_MOST_MARGINS or margins_len is not four times flags_len, and then no flag is written. An empty list
 * is 0. Each pointer has to be good for its length, whatever that is, and the two buffers must not overlap. */
uint32_t fosavalo_flags(const uint8_t *margins, uint64_t margins_len, float enter, float exit, uint8_t *flags, uint64_t flags_len);

/* A pattern's legs in flown order, as a route. A pattern is items one after another, perhaps none: a leg is a byte 0 and a leg's 76 bytes; a repeat is a byte 1, a
 * count of 1 to 9, two bytes, the least first, of how many bytes it holds, and those bytes, a pattern again. Repeats stand inside repeats at most
 * FOSAVALO_DEEPEST_REPEAT deep. The route takes the first bytes of its buffer, and the bytes after it stay; its length is written as one word, little-endian,
 * into the 4 bytes of written. A route tick takes what is written. The time goes with the pattern's length, whatever its counts.
 *
 * Returns 0; 2 if written_len is not 4; then 12; then 5 if no leg or more than FOSAVALO_MOST_LEGS are flown; then 9 if the route is longer than its buffer; then
 * 7 if two legs that are flown one after the other do not meet, also from one round of a repeat to the next. It is 12 if anywhere an item begins with neither 0 nor
 * 1, a count is not 1 to 9, a repeat stands too deep, or an item ends beyond the pattern or the repeat that holds it. Unless it is 0 no byte is changed; the
 * pattern never is. Each pointer has to be good for its length, whatever that is, and the three buffers must not overlap. */
uint32_t fosavalo_pattern_expand(const uint8_t *pattern, uint64_t pattern_len, uint8_t *route, uint64_t route_len, uint8_t *written, uint64_t written_len);

#ifdef __cplusplus
}
#endif

#endif
