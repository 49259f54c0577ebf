/*
 * The profile from C without a hosted C library: this file compiles with -ffreestanding and calls nothing but
 * the archive. Each function of include/saddlekerf_profile.h is used, and its answers held to the example of
 * 002 and to the edges of the range. profile_example() gives the number of checks that fail; with main, which
 * stands apart (-DHOSTED), the status of the program tells it.
 */
#include "saddlekerf_profile.h"

#define DAY INT64_C(86400000000)

static const char LINE1[] = "1 00005U 58002B   00179.78495062  .00000023  00000-0  28098-4 0  4753";
static const char LINE2[] = "2 00005  34.2682 348.7242 1859667 331.7664  19.3264 10.82419157413667";

/* A one-day resonant pair of the published set. */
static const char DEEP1[] = "1 24208U 96044A   06177.04061740 -.00000094  00000-0  10000-3 0  1600";
static const char DEEP2[] = "2 24208   3.8536  80.0121 0026640 311.0977  48.3000  1.00778054 36119";

/* Position and velocity of the first pair at 360 minutes, as published-rows.txt has them. */
static const uint64_t AT_360[6] = {
    UINT64_C(0xc0bbf207fcdaf505), UINT64_C(0xc0ad8e5a88cfaa63), UINT64_C(0xc0aba06364151071),
    UINT64_C(0x4012f7b1553bcf8a), UINT64_C(0xc0109b761dc4ed5c), UINT64_C(0xc000c061374f4dd1),
};

static unsigned failures;

static void check(int holds)
{
    failures += !holds;
}

static uint64_t opened(saddlekerf_profile_satellite *s, const char *line1, const char *line2)
{
    return saddlekerf_profile_satellite_open(s, (const uint8_t *)line1, 69, (const uint8_t *)line2, 69);
}

static int same_bits(const double *x, const uint64_t *bits, unsigned n)
{
    unsigned i;
    for (i = 0; i < n; i++) {
        union { double number; uint64_t pattern; } u;
        u.number = x[i];
        if (u.pattern != bits[i])
            return 0;
    }
    return 1;
}

static void one_time(saddlekerf_profile_satellite *s)
{
    static const int64_t REFUSED[] = {-1, SADDLEKERF_PROFILE_TIME_LIMIT + 1, INT64_MIN, INT64_MAX};
    double state[SADDLEKERF_PROFILE_STATE + 1] = {7, 7, 7, 7, 7, 7, 7};
    uint64_t a = saddlekerf_profile_satellite_request(s, DAY / 4, state);
    unsigned i;
    check(saddlekerf_profile_refusal(a) == 0 && saddlekerf_profile_rounds(a) > 0 && a >> 16 == 0);
    check(same_bits(state, AT_360, 6) && state[6] == 7);
    check(saddlekerf_profile_refusal(saddlekerf_profile_satellite_request(s, 0, state)) == 0);
    check(saddlekerf_profile_refusal(saddlekerf_profile_satellite_request(s, 30 * DAY, state)) == 0);
    for (i = 0; i < 4; i++) {
        state[0] = 7;
        check(saddlekerf_profile_satellite_request(s, REFUSED[i], state) == SADDLEKERF_PROFILE_TIME && state[0] == 7);
    }
    check(saddlekerf_profile_request(s->numbers, 36, s->marks, 6, 0, state, 5) == 17);
    check(saddlekerf_profile_request(s->numbers, 35, s->marks, 6, 0, state, 6) == 17);
}

static void a_list(saddlekerf_profile_satellite *s)
{
    static const int64_t TIMES[3] = {DAY / 4, -1, 30 * DAY};
    static const uint64_t ZEROS[6];
    uint8_t refusals[4] = {7, 7, 7, 7}, rounds[4] = {7, 7, 7, 7};
    double states[19];
    states[18] = 7;
    check(saddlekerf_profile_satellite_request_list(s, TIMES, 3, refusals, states, rounds) == 0);
    check(refusals[0] == 0 && refusals[1] == SADDLEKERF_PROFILE_TIME && refusals[2] == 0 && refusals[3] == 7);
    check(rounds[0] > 0 && rounds[1] == 0 && rounds[2] > 0 && rounds[3] == 7);
    check(same_bits(states, AT_360, 6) && same_bits(states + 6, ZEROS, 6) && states[18] == 7);
    check(saddlekerf_profile_request_list(s->numbers, 36, s->marks, 6, TIMES, 3, refusals, 2, states, 18, rounds, 3) == 17);
}

/* The mark 3 is the kind: any number but 0 is a deep-space or resonant satellite. */
static void deep_space(saddlekerf_profile_satellite *s)
{
    static int64_t times[1025];
    double state[6];
    uint8_t none;
    check(opened(s, DEEP1, DEEP2) == SADDLEKERF_PROFILE_DEEP_SPACE);
    check(saddlekerf_profile_refusal(saddlekerf_profile_satellite_request(s, 0, state)) == 0);
    s->marks[3] = 2;
    check(saddlekerf_profile_satellite_request(s, -1, state) == SADDLEKERF_PROFILE_DEEP_SPACE);
    check(saddlekerf_profile_request(s->numbers, 36, s->marks, 6, 0, state, 0) == SADDLEKERF_PROFILE_DEEP_SPACE);
    check(saddlekerf_profile_request_list(s->numbers, 36, s->marks, 6, times, 1025, &none, 0, state, 0, &none, 0) == SADDLEKERF_PROFILE_DEEP_SPACE);
    s->marks[3] = 0;
    check(saddlekerf_profile_request_list(s->numbers, 36, s->marks, 6, times, 1025, &none, 0, state, 0, &none, 0) == 18);
}

unsigned profile_example(void)
{
    saddlekerf_profile_satellite s;
    uint64_t a;
    check(saddlekerf_profile_abi() == 1);
    check(opened(&s, LINE1, LINE2) == 0);
    one_time(&s);
    a_list(&s);
    deep_space(&s);
    a = opened(&s, LINE1, LINE1);
    check(saddlekerf_profile_refusal(a) == 2 && saddlekerf_profile_line(a) == 2);
    return failures;
}

#ifdef HOSTED
int main(void)
{
    return profile_example() ? 1 : 0;
}
#endif
