/*
 * Wrong libraries of the profile, to see that tests/profile_example.c tells each. Linked in front of
 * libsaddlekerf_profile.a with -Wl,--wrap=FUNCTION for each function below, it is the library itself but for
 * the one thing that the environment variable WRONG_LIBRARY names.
 */
#include "saddlekerf_profile.h"

#include <stdlib.h>
#include <string.h>

#define PAIR const uint8_t *line1, size_t line1_length, const uint8_t *line2, size_t line2_length
#define LENT_PAIR line1, line1_length, line2, line2_length
#define SATELLITE double *numbers, size_t numbers_length, uint32_t *marks, size_t marks_length
#define LENT_SATELLITE numbers, numbers_length, marks, marks_length
#define LIST                                                                                                     \
    const int64_t *times, size_t times_length, uint8_t *refusals, size_t refusals_length, double *states,        \
        size_t states_length, uint8_t *rounds, size_t rounds_length
#define LENT_LIST times, times_length, refusals, refusals_length, states, states_length, rounds, rounds_length

uint64_t __real_saddlekerf_profile_open(PAIR, SATELLITE);
uint64_t __real_saddlekerf_profile_request(SATELLITE, int64_t time, double *state, size_t state_length);
uint64_t __real_saddlekerf_profile_request_list(SATELLITE, LIST);

static int wrong(const char *name)
{
    const char *chosen = getenv("WRONG_LIBRARY");
    return chosen != NULL && strcmp(chosen, name) == 0;
}

uint64_t __wrap_saddlekerf_profile_open(PAIR, SATELLITE)
{
    uint64_t a = __real_saddlekerf_profile_open(LENT_PAIR, LENT_SATELLITE);
    if (wrong("profile-eight") && a == SADDLEKERF_PROFILE_DEEP_SPACE)
        return 8;
    if (wrong("profile-line") && saddlekerf_profile_refusal(a) == 2)
        return 2;
    if (wrong("profile-mark") && a == 0)
        marks[3] = 1;
    return a;
}

uint64_t __wrap_saddlekerf_profile_request(SATELLITE, int64_t time, double *state, size_t state_length)
{
    uint64_t a;
    if (wrong("profile-thirty-days") && time == SADDLEKERF_PROFILE_TIME_LIMIT)
        return SADDLEKERF_PROFILE_TIME;
    if (wrong("profile-late") && time == SADDLEKERF_PROFILE_TIME_LIMIT + 1)
        time = SADDLEKERF_PROFILE_TIME_LIMIT;
    if (wrong("profile-negative") && time == -1)
        time = 1;
    if (wrong("profile-nine") && time > SADDLEKERF_PROFILE_TIME_LIMIT)
        return 9;
    if (wrong("profile-room-first") && state_length < SADDLEKERF_PROFILE_STATE)
        return 17;
    if (wrong("profile-deep") && marks_length > 3)
        marks[3] = 0;
    a = __real_saddlekerf_profile_request(LENT_SATELLITE, time, state, state_length);
    if (wrong("profile-written") && a == SADDLEKERF_PROFILE_TIME)
        state[0] = 0;
    if (wrong("profile-bit") && saddlekerf_profile_refusal(a) == 0)
        state[5] = -state[5];
    if (wrong("profile-rounds") && saddlekerf_profile_refusal(a) == 0)
        return 0;
    if (wrong("profile-strides") && saddlekerf_profile_refusal(a) == 0)
        return a + (UINT64_C(1) << 32);
    return a;
}

uint64_t __wrap_saddlekerf_profile_request_list(SATELLITE, LIST)
{
    uint64_t a;
    if (wrong("profile-list-long-first") && times_length > 1024)
        return 18;
    if (wrong("profile-list-room") && refusals_length < times_length && times_length < 1024)
        return 0;
    a = __real_saddlekerf_profile_request_list(LENT_SATELLITE, LENT_LIST);
    if (wrong("profile-list-ends") && a == 0 && times_length == 3)
        refusals[2] = SADDLEKERF_PROFILE_TIME;
    if (wrong("profile-list-zeros") && a == 0 && times_length == 3)
        states[6] = -0.0;
    if (wrong("profile-list-past") && a == 0)
        refusals[times_length] = 0;
    return a;
}
