/*
 * The dish controller's profile of Saddlekerf for C and C++: near-Earth satellites, from the epoch to
 * 30 days after it, in little flash. Proved bit for bit: what it answers has the same bits as the full
 * library's answer (saddlekerf.h).
 *
 * Link with libsaddlekerf_profile.a (`./archive saddlekerf_profile` writes it; x86-64 Linux). It needs
 * nothing from outside, not even memcpy, and the header no hosted C library. Both archives may be
 * linked into one program.
 *
 * USE
 *
 *   saddlekerf_profile_satellite s;
 *   double state[SADDLEKERF_PROFILE_STATE];
 *   uint64_t a = saddlekerf_profile_satellite_open(&s, line1, 69, line2, 69);
 *   if (saddlekerf_profile_refusal(a) == 0)
 *       a = saddlekerf_profile_satellite_request(&s, 3600 * INT64_C(1000000), state);
 *
 * UNITS AND FRAME
 *
 *   Times     microseconds since the epoch of the lines, from 0 to SADDLEKERF_PROFILE_TIME_LIMIT, 30 days
 *             of 86,400 s.
 *   States    position x, y, z in km, then velocity x, y, z in km/s, in the frame that SGP4 computes in:
 *             true equator, mean equinox (TEME). WGS-72 constants.
 *
 * MEMORY
 *
 *   The rules of saddlekerf.h: an array is lent as an aligned pointer and a number of elements; what is
 *   lent for writing overlaps nothing else that is lent to the same call; nothing is allocated or kept,
 *   there is no global state. A satellite's memory is the front of the full library's: its first 36
 *   numbers and its 6 marks, so that memory which the full library opened may be handed in; what lies
 *   past them is never touched. A call that is refused with 1-8, 16-18, 32 or 33 writes nothing.
 *   Requests write the satellite's saved position, which for a satellite that was opened stays what it
 *   is: its memory then keeps its bits.
 *
 * FLOATING-POINT ENVIRONMENT, STACK
 *
 *   Rounding to nearest, ties to even, with subnormal numbers and without traps, as a program starts.
 *   No function needs more than SADDLEKERF_PROFILE_STACK bytes of stack. Every call returns.
 *
 * ANSWERS
 *
 *   Every function answers one 64-bit number, whose parts are saddlekerf.h's:
 *
 *     bits  0-7   refusal number, 0 when answered
 *     bits  8-15  line 1 or 2 (refusals 1-4); rounds of Kepler's equation (a request)
 *     bits 16-31  column, counted from 1 (refusal 3); field (refusal 6), in column order: 1 day,
 *                 2 inclination, 3 node, 4 argument of perigee, 5 mean anomaly, 6 mean motion
 *     bits 32-63  0: the profile takes no strides
 */
#ifndef SADDLEKERF_PROFILE_H
#define SADDLEKERF_PROFILE_H

#include <stddef.h>
#include <stdint.h>

#ifdef __cplusplus
extern "C" {
#endif

/* Elements of a satellite's memory. More may be lent; they are never touched. */
#define SADDLEKERF_PROFILE_NUMBERS 36
#define SADDLEKERF_PROFILE_MARKS 6

/* Elements of one state. */
#define SADDLEKERF_PROFILE_STATE 6

/* Bytes of stack: no function needs more. */
#define SADDLEKERF_PROFILE_STACK 2048

/* The most times of one list. */
#define SADDLEKERF_PROFILE_LIST_LIMIT 1024

/* The latest time, in microseconds since the epoch: 30 days. */
#define SADDLEKERF_PROFILE_TIME_LIMIT INT64_C(2592000000000)

/* The refusals that are the profile's own; all others are saddlekerf.h's, and 9 is never given. */
enum saddlekerf_profile_refusal_number {
    SADDLEKERF_PROFILE_DEEP_SPACE = 32,   /* a period of 225 minutes or more; a deep-space or resonant satellite */
    SADDLEKERF_PROFILE_TIME = 33          /* a negative time, or one beyond 30 days */
};

/* 1: the number of the functions, answers and layouts of memory that this header describes. */
uint64_t saddlekerf_profile_abi_1(void);

/* A header of other functions, answers or layouts than the archive's does not link. */
__attribute__((used, unused)) static uint64_t (*const saddlekerf_profile_abi)(void) = saddlekerf_profile_abi_1;

static inline unsigned saddlekerf_profile_refusal(uint64_t answer) { return (unsigned)(answer & 255); }
static inline unsigned saddlekerf_profile_line(uint64_t answer) { return (unsigned)(answer >> 8 & 255); }
static inline unsigned saddlekerf_profile_rounds(uint64_t answer) { return (unsigned)(answer >> 8 & 255); }
static inline unsigned saddlekerf_profile_column(uint64_t answer) { return (unsigned)(answer >> 16 & 65535); }
static inline unsigned saddlekerf_profile_field(uint64_t answer) { return (unsigned)(answer >> 16 & 65535); }

/*
 * Opens a pair into the memory of a satellite. Lines may be any bytes of any length.
 * Answer: 0; 1-6 with their values as saddlekerf_read gives them; 7 where the perigee at epoch is below
 * one Earth radius; 32 where the period is 225 minutes or more; 8 where a number of the satellite is not
 * finite; 17 where numbers or marks is too short; in this order.
 */
uint64_t saddlekerf_profile_open(const uint8_t *line1, size_t line1_length,
                                 const uint8_t *line2, size_t line2_length,
                                 double *numbers, size_t numbers_length,
                                 uint32_t *marks, size_t marks_length);

/*
 * Asks the satellite for one time. Where it is answered, position and velocity go into the first six
 * elements of state; what lies past them stays.
 * Answer: 32 first of all, where the memory holds a deep-space or resonant satellite (the mark 3 is not
 * 0); 17 where numbers, marks or state is too short; 33 for a negative time or one beyond 30 days; 10-15
 * as saddlekerf_request gives them; else 0 with the Kepler rounds.
 */
uint64_t saddlekerf_profile_request(double *numbers, size_t numbers_length,
                                    uint32_t *marks, size_t marks_length,
                                    int64_t time,
                                    double *state, size_t state_length);

/*
 * Asks the satellite for a list of times. Row i has its refusal number in refusals[i] (0, 10-15 or 33),
 * its state in states[6 * i] to states[6 * i + 5] and its Kepler rounds in rounds[i]; a refused row has
 * six positive zeros and no rounds, and the list goes on. What lies past the last row stays.
 * Answer: 32 first of all, as above; 18 for more than 1,024 times; 17 where numbers or marks is too
 * short, or refusals, states or rounds has fewer elements than the rows need; else 0.
 */
uint64_t saddlekerf_profile_request_list(double *numbers, size_t numbers_length,
                                         uint32_t *marks, size_t marks_length,
                                         const int64_t *times, size_t times_length,
                                         uint8_t *refusals, size_t refusals_length,
                                         double *states, size_t states_length,
                                         uint8_t *rounds, size_t rounds_length);

/* ---- the same with a satellite's memory as one struct, 312 bytes ---- */

typedef struct saddlekerf_profile_satellite {
    double numbers[SADDLEKERF_PROFILE_NUMBERS];
    uint32_t marks[SADDLEKERF_PROFILE_MARKS];
} saddlekerf_profile_satellite;

static inline uint64_t saddlekerf_profile_satellite_open(saddlekerf_profile_satellite *s,
                                                         const uint8_t *line1, size_t line1_length,
                                                         const uint8_t *line2, size_t line2_length)
{
    return saddlekerf_profile_open(line1, line1_length, line2, line2_length,
                                   s->numbers, SADDLEKERF_PROFILE_NUMBERS, s->marks, SADDLEKERF_PROFILE_MARKS);
}

static inline uint64_t saddlekerf_profile_satellite_request(saddlekerf_profile_satellite *s, int64_t time,
                                                            double *state)
{
    return saddlekerf_profile_request(s->numbers, SADDLEKERF_PROFILE_NUMBERS, s->marks, SADDLEKERF_PROFILE_MARKS,
                                      time, state, SADDLEKERF_PROFILE_STATE);
}

/* refusals, states and rounds have elements for n rows. */
static inline uint64_t saddlekerf_profile_satellite_request_list(saddlekerf_profile_satellite *s,
                                                                 const int64_t *times, size_t n, uint8_t *refusals,
                                                                 double *states, uint8_t *rounds)
{
    return saddlekerf_profile_request_list(s->numbers, SADDLEKERF_PROFILE_NUMBERS,
                                           s->marks, SADDLEKERF_PROFILE_MARKS,
                                           times, n, refusals, n, states, 6 * n, rounds, n);
}

#ifdef __cplusplus
}
#endif

#endif
