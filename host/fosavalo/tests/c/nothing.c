/* Buffers of no byte at no place: each call on none at all, and with one that is missing among others that are right. */
#include "fosavalo.h"

#include <stdio.h>
#include <string.h>

int main(void) {
    uint8_t image[FOSAVALO_IMAGE_BYTES], set_up[FOSAVALO_SETUP_BYTES] = {0}, input[FOSAVALO_TICK_BYTES] = {0}, answer[FOSAVALO_ANSWER_BYTES] = {0};
    uint8_t log[FOSAVALO_LOG_TRAILER_BYTES + FOSAVALO_RECORD_BYTES] = FOSAVALO_EMPTY_LOG, count[4], record[FOSAVALO_RECORD_BYTES];
    const float filter[2] = {80, 1000};
    memcpy(set_up + 4 * FOSAVALO_SETUP_FC, filter, sizeof filter);
    const uint8_t leg[1 + FOSAVALO_LEG_BYTES] = {0};
    if (fosavalo_setup(image, sizeof image, set_up, sizeof set_up) != FOSAVALO_DONE) return 1;
    uint8_t before[FOSAVALO_IMAGE_BYTES];
    memcpy(before, image, sizeof before);
    const uint32_t said[] = {
        fosavalo_setup(NULL, 0, NULL, 0),
        fosavalo_setup(NULL, 0, set_up, sizeof set_up),
        fosavalo_setup(image, sizeof image, NULL, 0),
        fosavalo_exchange(NULL, 0, NULL, 0),
        fosavalo_exchange(image, sizeof image, NULL, 0),
        fosavalo_tick(NULL, 0, NULL, 0, NULL, 0),
        fosavalo_tick(NULL, 0, input, sizeof input, answer, sizeof answer),
        fosavalo_tick(image, sizeof image, NULL, 0, answer, sizeof answer),
        fosavalo_tick(image, sizeof image, input, sizeof input, NULL, 0),
        fosavalo_tick_refusal(NULL, 0, sizeof input, sizeof answer),
        fosavalo_route_tick(NULL, 0, NULL, 0, NULL, 0, NULL, 0),
        fosavalo_route_tick(image, sizeof image, input, sizeof input, NULL, 0, answer, sizeof answer),
        fosavalo_route_sample(NULL, 0, 0.0f, NULL, 0),
        fosavalo_route_sample(NULL, 0, 0.0f, image, FOSAVALO_SAMPLE_BYTES),
        fosavalo_log_append(NULL, 0, 0, NULL, 0, NULL, 0),
        fosavalo_log_append(NULL, 0, 0, input, sizeof input, answer, sizeof answer),
        fosavalo_log_append(log, sizeof log, FOSAVALO_LOG_TRAILER_BYTES, input, sizeof input, NULL, 0),
        fosavalo_log_count(NULL, 0, NULL, 0),
        fosavalo_log_count(NULL, 0, count, sizeof count),
        fosavalo_log_record(NULL, 0, 0, NULL, 0),
        fosavalo_log_record(NULL, 0, 0, record, sizeof record),
        fosavalo_log_check(NULL, 0, FOSAVALO_WHOLE, 0.5f, 1.0f, NULL, 0),
        fosavalo_log_check(NULL, 0, FOSAVALO_WHOLE, 0.5f, 1.0f, count, sizeof count),
        fosavalo_log_check(log, FOSAVALO_LOG_TRAILER_BYTES, FOSAVALO_WHOLE, 0.5f, 1.0f, NULL, 0),
        fosavalo_flags(NULL, 0, 0.5f, 1.0f, NULL, 0),
        fosavalo_flags(NULL, 0, 0.5f, 1.0f, count, sizeof count),
        fosavalo_flags(log, sizeof log, 0.5f, 1.0f, NULL, 0),
        fosavalo_pattern_expand(NULL, 0, NULL, 0, NULL, 0),
        fosavalo_pattern_expand(NULL, 0, NULL, 0, count, sizeof count),
        fosavalo_pattern_expand(leg, sizeof leg, NULL, 0, count, sizeof count),
    };
    for (size_t k = 0; k < sizeof said / sizeof said[0]; k++) printf("%u ", (unsigned)said[k]);
    puts(memcmp(before, image, sizeof before) ? "changed" : "unchanged");
    return 0;
}
