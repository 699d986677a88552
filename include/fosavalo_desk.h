/* Fosavalo's operator's desk: three sticks, each through a command filter, above the flight core. Link libfosavalo_desk.a, which brings the core that it was proved
 * with. libfosavalo.a may stand beside it in one program, in either order: neither shows the other a name, and both are to be of one version.
 * fosavalo_desk_header_fits() asks this archive, as fosavalo_header_fits() asks the core's.
 *
 * As in fosavalo.h, every call is defined for every argument, nothing here allocates, keeps state or writes anywhere but where it says, a buffer of length 0 may be
 * NULL, and what is proved holds in the floating-point environment that fosavalo_float_environment() asks for. */
#ifndef FOSAVALO_DESK_H
#define FOSAVALO_DESK_H

#include "fosavalo.h"

#ifdef __cplusplus
extern "C" {
#endif

/* The desk's archive's version, as FOSAVALO_VERSION_NUMBER. */
uint32_t fosavalo_desk_version(void);

/* Whether the desk's archive is of this header's version: 1, or 0 where words or lengths may differ. To be asked once, at the start. */
static inline int fosavalo_desk_header_fits(void) { return fosavalo_desk_version() == FOSAVALO_VERSION_NUMBER; }

/* The lengths of the desk's buffers, in bytes. */
#define FOSAVALO_DESK_BYTES 60
#define FOSAVALO_DESK_SETUP_BYTES 36
#define FOSAVALO_STICKS_BYTES 12

/* What the desk's calls return beside the core's numbers, before which they come. */
#define FOSAVALO_WRONG_DESK_LENGTH 15   /* desk_len is not FOSAVALO_DESK_BYTES */
#define FOSAVALO_WRONG_STICKS_LENGTH 16 /* input_len is not FOSAVALO_DESK_SETUP_BYTES at set-up; sticks_len is not FOSAVALO_STICKS_BYTES at a tick */

/* What a returned number means, in words; never NULL. */
static inline const char *fosavalo_desk_meaning(uint32_t number) {
    switch (number) {
    case FOSAVALO_WRONG_DESK_LENGTH:
        return "the desk is not " FOSAVALO_TEXT(FOSAVALO_DESK_BYTES) " bytes long";
    case FOSAVALO_WRONG_STICKS_LENGTH:
        return "what is said of the sticks is not " FOSAVALO_TEXT(FOSAVALO_DESK_SETUP_BYTES) " bytes long at set-up, "
               FOSAVALO_TEXT(FOSAVALO_STICKS_BYTES) " at a tick";
    default:
        return fosavalo_meaning(number);
    }
}

/* The sticks, by what their values are for. Heading and turn are independent sticks: a heading that moves while turn is 0 is turning that nobody commanded, which the
 * margin counts as error. Let turn stand at the rate at which the heading is to move. */
#define FOSAVALO_STICK_HEADING 0 /* rad: the tick input's yaw */
#define FOSAVALO_STICK_TURN 1    /* rad/s: its yaw rate */
#define FOSAVALO_STICK_ZOOM 2    /* the zoom's rate, which the core does not see: read it from the desk */

/* Where each number stands, in words from the start of its buffer; sticks are 0 to 2. Of the sticks themselves it is the stick's number. */

/* What a desk's set-up is given. */
#define FOSAVALO_DESK_SETUP_OMEGA_N(stick) (3 * (stick))      /* the bandwidth, rad/s: kept if finite and above 0, else 1 */
#define FOSAVALO_DESK_SETUP_MAX_MAG(stick) (1 + 3 * (stick))  /* of the value; NaN or below 0 pins it to 0, +infinity lets it pass */
#define FOSAVALO_DESK_SETUP_MAX_RATE(stick) (2 + 3 * (stick)) /* of the value's rate, alike */

/* The desk. To look at: only its calls need write one, and there is no broken one: every bit pattern is taken. */
#define FOSAVALO_DESK_OMEGA_N(stick) (5 * (stick))
#define FOSAVALO_DESK_MAX_MAG(stick) (1 + 5 * (stick))
#define FOSAVALO_DESK_MAX_RATE(stick) (2 + 5 * (stick))
#define FOSAVALO_DESK_VALUE(stick) (3 + 5 * (stick)) /* after a tick finite; within the limit, where that is finite and not below 0 */
#define FOSAVALO_DESK_RATE(stick) (4 + 5 * (stick))  /* alike */

/* Writes a fresh desk, at rest at 0; what stood in it is not read. The input is the words FOSAVALO_DESK_SETUP_.., of which every bit pattern is taken.
 *
 * Returns 0, 15 or 16. Unless it is 0 no byte is changed; the input never is. Each pointer has to be good for its length, whatever that is, and the two buffers
 * must not overlap. */
uint32_t fosavalo_desk_setup(uint8_t *desk, uint64_t desk_len, const uint8_t *input, uint64_t input_len);

/* The centre button: values and rates become 0, bandwidths and limits stay (a NaN is made 7fc00000). Nothing is stepped and nothing is flown: the next tick moves on
 * from there, so the heading it flies jumps to within a step of 0.
 *
 * Returns 0 or 15. Unless it is 0 no byte is changed. The pointer has to be good for its length, whatever that is. */
uint32_t fosavalo_desk_centre(uint8_t *desk, uint64_t desk_len);

/* One desk tick. Each stick's filter makes a step toward its stick, by the dt of the tick input as it stands there (the filter takes 1e-4 to 0.1 s, and 1e-3 for what
 * is no number); the values of the first two filters are written over the input's words FOSAVALO_TICK_YAW and FOSAVALO_TICK_YAW_RATE; and the core ticks on the input so
 * changed, as fosavalo_tick tells. So an input that is given to fosavalo_log_append after the call is the one that was flown. Every bit pattern of the sticks is taken.
 *
 * Returns 0; else 15, then 16, then what fosavalo_tick would return, 1 to 4. Unless it is 0 no byte of any buffer is changed; the sticks never are. Each pointer
 * has to be good for its length, whatever that is, and no two of the five buffers may overlap. */
uint32_t fosavalo_desk_tick(uint8_t *desk, uint64_t desk_len, const uint8_t *sticks, uint64_t sticks_len, uint8_t *image, uint64_t image_len, uint8_t *input, uint64_t input_len, uint8_t *answer, uint64_t answer_len);

/* One desk tick toward a route in place of the image's segment: as fosavalo_desk_tick, with fosavalo_route_tick in place of fosavalo_tick. Desk ticks of both kinds
 * and ticks of the core alone may follow each other in any order.
 *
 * Returns 0; else 15, then 16, then what fosavalo_route_tick would return, 1 to 7. Unless it is 0 no byte of any buffer is changed; the sticks and the route never
 * are. Each pointer has to be good for its length, whatever that is, and no two of the six buffers may overlap, but for the sticks and the route, which are only
 * read. */
uint32_t fosavalo_desk_route_tick(uint8_t *desk, uint64_t desk_len, const uint8_t *sticks, uint64_t sticks_len, uint8_t *image, uint64_t image_len, uint8_t *input, uint64_t input_len, const uint8_t *route, uint64_t route_len, uint8_t *answer, uint64_t answer_len);

#ifdef __cplusplus
}
#endif

#endif
