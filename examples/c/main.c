/* Asks whether the archive and this thread's floating-point environment are right; sets up an image, ticks it along a slow pass, keeps a log of it and
 * prints who flies; then reads the log back and checks it, ticks on a route of two legs, exchanges the segment in flight, makes calls that are refused, and sets
 * up for a lost rotor. `make` beside it builds and runs it. */
#include "fosavalo.h"

#include <math.h>
#include <stdio.h>
#include <stdlib.h>
#include <string.h>

/* Ends the program unless the call returned what it should; what was refused is told. */
static void expect(const char *what, uint32_t wanted, uint32_t number) {
    if (number != FOSAVALO_DONE || wanted != FOSAVALO_DONE) printf("%s: refused with %u, %s\n", what, (unsigned)number, fosavalo_meaning(number));
    if (number != wanted) exit(1);
}

static void print_three(const uint8_t *bytes, uint32_t at) {
    for (uint32_t k = 0; k < 3; k++) printf(" %8.4f", (double)fosavalo_number(bytes, at + k));
}

/* What a tick is given: how far the aircraft is from where the route has it at that time. */
static float tracking_error(const uint8_t *route, uint64_t route_len, float time, const float aircraft[3]) {
    uint8_t sample[FOSAVALO_SAMPLE_BYTES];
    float squares = 0;
    expect("sample", FOSAVALO_DONE, fosavalo_route_sample(route, route_len, time, sample, sizeof sample));
    for (uint32_t k = 0; k < 3; k++) squares += powf(fosavalo_number(sample, FOSAVALO_SAMPLE_POSITION + k) - aircraft[k], 2);
    return sqrtf(squares);
}

/* Roll rates that take the margin above exit, into the band, below enter, into the band again and out at the top; each for as many ticks as the filter
 * takes to follow, of which the last is printed. */
static const float rates[] = {1.8f, 1.0f, 1.75f, 1.8f, 1.9f, 1.8f, 1.75f, 1.0f};
#define EACH 8
#define TICKS (EACH * sizeof rates / sizeof rates[0])

int main(void) {
    if (!fosavalo_header_fits()) {
        puts("libfosavalo.a is not of the version of fosavalo.h, " FOSAVALO_VERSION);
        return 1;
    }
    uint32_t wrong = fosavalo_float_environment();
    if (wrong != FOSAVALO_FLOATS_RIGHT) {
        printf("the floating-point environment is wrong:%s%s\n", wrong & FOSAVALO_ROUNDING_WRONG ? " it does not round to nearest" : "",
               wrong & FOSAVALO_SUBNORMALS_WRONG ? " it does not keep subnormal numbers (is this linked with -ffast-math?)" : "");
        return 1;
    }

    /* three metres to the north in eight seconds, the gyro filtered at 200 Hz of 1000 ticks a second; all else as it is by default */
    uint8_t image[FOSAVALO_IMAGE_BYTES], setup[FOSAVALO_SETUP_BYTES], input[FOSAVALO_TICK_BYTES], answer[FOSAVALO_ANSWER_BYTES];
    fosavalo_setup_default(setup);
    fosavalo_put_three(setup, FOSAVALO_SETUP_LEG + FOSAVALO_LEG_PF, 3, 0, 0);
    fosavalo_put(setup, FOSAVALO_SETUP_LEG + FOSAVALO_LEG_T, 8);
    fosavalo_put(setup, FOSAVALO_SETUP_FC, 200);
    expect("set-up", FOSAVALO_DONE, fosavalo_setup(image, sizeof image, setup, sizeof setup));

    /* that segment as a route of one leg, to ask where the aircraft should be; it is a hand's breadth east of the start */
    uint8_t route[2 * FOSAVALO_LEG_BYTES + FOSAVALO_ROUTE_TRAILER_BYTES];
    const float aircraft[3] = {0, 0.1f, 0};
    memcpy(route, setup + 4 * FOSAVALO_SETUP_LEG, FOSAVALO_LEG_BYTES);
    fosavalo_route_close(route, 1);

    uint8_t log[FOSAVALO_LOG_TRAILER_BYTES + TICKS * FOSAVALO_RECORD_BYTES] = FOSAVALO_EMPTY_LOG;
    uint64_t log_len = FOSAVALO_LOG_TRAILER_BYTES;
    fosavalo_tick_default(input);
    fosavalo_put_three(input, FOSAVALO_TICK_PLANNER, 0.5f, -0.25f, 0.125f);
    printf("tick    torque                      command                     flag        margin\n");
    for (size_t tick = 0; tick < TICKS; tick++) {
        fosavalo_put(input, FOSAVALO_TICK_GYRO, rates[tick / EACH]);
        float apart = tracking_error(route, FOSAVALO_LEG_BYTES + FOSAVALO_ROUTE_TRAILER_BYTES, fosavalo_number(image, FOSAVALO_IMAGE_TIME), aircraft);
        fosavalo_put(input, FOSAVALO_TICK_TRACKING_ERROR, apart);
        expect("tick", FOSAVALO_DONE, fosavalo_tick(image, sizeof image, input, sizeof input, answer, sizeof answer));
        expect("the log", FOSAVALO_DONE, fosavalo_log_append(log, sizeof log, log_len, input, sizeof input, answer, sizeof answer));
        log_len += FOSAVALO_RECORD_BYTES;
        if ((tick + 1) % EACH != 0) continue;
        printf("%4zu ", tick + 1);
        print_three(answer, FOSAVALO_ANSWER_TORQUE);
        printf(" ");
        print_three(answer, FOSAVALO_ANSWER_COMMAND);
        uint32_t flag = fosavalo_word(answer, FOSAVALO_ANSWER_FLAG);
        printf("  %u %-8s  %7.4f\n", (unsigned)flag, flag ? "fallback" : "planner", (double)fosavalo_number(answer, FOSAVALO_ANSWER_MARGIN));
    }

    uint8_t record[FOSAVALO_RECORD_BYTES], verdict[4];
    printf("the log has at each eighth record the margins");
    for (uint64_t place = EACH - 1; fosavalo_log_record(log, log_len, place, record, sizeof record) == FOSAVALO_DONE; place += EACH)
        printf(" %.4f", (double)fosavalo_number(record + FOSAVALO_TICK_BYTES, FOSAVALO_ANSWER_MARGIN));
    float enter = fosavalo_number(setup, FOSAVALO_SETUP_ENTER), exit_at = fosavalo_number(setup, FOSAVALO_SETUP_EXIT);
    expect("the check", FOSAVALO_DONE, fosavalo_log_check(log, log_len, FOSAVALO_WHOLE, enter, exit_at, verdict, sizeof verdict));
    if (fosavalo_word(verdict, 0) != FOSAVALO_LOG_RIGHT) return 1;
    puts("; checked as one of another box's it is right");
    expect("one more than there is room for", FOSAVALO_NO_ROOM, fosavalo_log_append(log, sizeof log, log_len, input, sizeof input, answer, sizeof answer));

    /* there and back, in place of the segment */
    uint8_t *back = route + FOSAVALO_LEG_BYTES;
    memcpy(back, setup + 4 * FOSAVALO_SETUP_LEG, FOSAVALO_LEG_BYTES);
    fosavalo_put_three(back, FOSAVALO_LEG_P0, 3, 0, 0);
    fosavalo_put_three(back, FOSAVALO_LEG_PF, 0, 0, 0);
    fosavalo_route_close(route, 2);
    expect("route tick", FOSAVALO_DONE, fosavalo_route_tick(image, sizeof image, input, sizeof input, route, sizeof route, answer, sizeof answer));

    /* another segment in flight: the time starts again, who flies goes on, and the peaks of the jerk stand in the image */
    expect("exchange", FOSAVALO_DONE, fosavalo_exchange(image, sizeof image, back, FOSAVALO_LEG_BYTES));
    printf("the segment exchanged: time %.4f, flag %u, peaks", (double)fosavalo_number(image, FOSAVALO_IMAGE_TIME), (unsigned)fosavalo_word(image, FOSAVALO_IMAGE_ENGAGED));
    print_three(image, FOSAVALO_IMAGE_PEAKS);
    puts("");

    fosavalo_put(back, FOSAVALO_LEG_P0, 3.5f);
    expect("legs that do not meet", FOSAVALO_LEGS_APART, fosavalo_route_tick(image, sizeof image, input, sizeof input, route, sizeof route, answer, sizeof answer));

    /* a refused call changes no byte: an image with a flag that is neither 0 nor 1; a cut-off of 0, which does not turn the filter off */
    uint8_t before[FOSAVALO_IMAGE_BYTES];
    fosavalo_put_word(image, FOSAVALO_IMAGE_ENGAGED, 2);
    memcpy(before, image, sizeof before);
    expect("a broken image", FOSAVALO_BROKEN_IMAGE, fosavalo_tick(image, sizeof image, input, sizeof input, answer, sizeof answer));
    fosavalo_put(setup, FOSAVALO_SETUP_FC, 0);
    expect("a cut-off of 0", FOSAVALO_PASS_THROUGH, fosavalo_setup(image, sizeof image, setup, sizeof setup));
    if (memcmp(before, image, sizeof before) != 0) return 1;

    /* with a rotor lost, spinning and with no heading: the planner flies, and nothing is asked about the third axis */
    fosavalo_put(setup, FOSAVALO_SETUP_FC, 200);
    fosavalo_put_word(setup, FOSAVALO_SETUP_PROFILE, FOSAVALO_LOST_ROTOR);
    expect("set-up", FOSAVALO_DONE, fosavalo_setup(image, sizeof image, setup, sizeof setup));
    fosavalo_put_three(input, FOSAVALO_TICK_GYRO, 0, 0, 20);
    fosavalo_put(input, FOSAVALO_TICK_YAW, NAN);
    expect("tick", FOSAVALO_DONE, fosavalo_tick(image, sizeof image, input, sizeof input, answer, sizeof answer));
    printf("a rotor lost: flag %u, command", (unsigned)fosavalo_word(answer, FOSAVALO_ANSWER_FLAG));
    print_three(answer, FOSAVALO_ANSWER_COMMAND);
    puts("");
    return fosavalo_word(answer, FOSAVALO_ANSWER_FLAG) == 0 ? 0 : 1;
}
