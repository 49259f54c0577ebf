/*
 * Saddlekerf for C and C++: two-line element sets and SGP4, proved bit for bit.
 *
 * Link with libsaddlekerf.a (`./archive saddlekerf` writes it; x86-64 Linux). Of the C library it
 * calls memcpy and memset alone, and nothing that computes. Every function answers for all arguments
 * that keep the rules of memory below, in the floating-point environment below: no other input is
 * undefined.
 *
 * USE
 *
 *   saddlekerf_satellite s;
 *   double state[SADDLEKERF_STATE];
 *   uint64_t a = saddlekerf_satellite_open(&s, line1, 69, line2, 69);
 *   if (saddlekerf_refusal(a) == SADDLEKERF_ANSWERED) {
 *       a = saddlekerf_satellite_request(&s, 3600 * INT64_C(1000000), state);
 *       ...
 *   }
 *
 * A satellite is opened once and asked many times. It keeps the place of its resonance integrator
 * between requests, which shortens the way and never changes a number: every position and velocity
 * is the one that a satellite newly opened and asked only that time would give.
 *
 * UNITS AND FRAME
 *
 *   Times     microseconds since the epoch of the lines, negative before it, at most
 *             SADDLEKERF_TIME_LIMIT (3,652 days of 86,400 s) either way.
 *   Instants  microseconds since 1957 January 1, 0h, UTC, days of 86,400 s (saddlekerf_epoch).
 *   States    position x, y, z in km, then velocity x, y, z in km/s, in the frame that SGP4
 *             computes in: true equator, mean equinox (TEME). WGS-72 constants.
 *
 * MEMORY
 *
 *   An array is lent as a pointer and a number of elements (not of bytes). For the time of the call
 *   the pointer must be aligned for its type and lead to that many elements; what is lent for
 *   reading must be initialised. It may be null where the number is 0, and only there. What is lent
 *   for writing (a pointer without const) must not overlap anything else that is lent to the same
 *   call, and no other thread may touch it; what is lent for reading must not change.
 *   Nothing is allocated, nothing is kept after the return, and there is no global state: calls on
 *   different memory may run in any number of threads at once. A request writes the satellite, so
 *   one satellite takes one call at a time; copy the struct to ask it in two threads.
 *   A call that is refused with 1-9 or 16-31 writes nothing. Where memory "stays", it is proved to
 *   hold the same values; all NaNs are one value there, and that a NaN keeps its own bits too is
 *   tested and not proved.
 *
 * FLOATING-POINT ENVIRONMENT
 *
 *   The proofs speak of doubles rounded to nearest, ties to even, with subnormal numbers and without
 *   traps: the state in which a program starts, and which threads take over from their creator. Where
 *   it was changed (fesetround, feenableexcept, flush-to-zero, denormals-are-zero, a program linked
 *   with -ffast-math) other bits come out, and where a trap is unmasked, a lawful line can end the
 *   process: lines that divide 0 by 0 on the way to refusal 8 are lawful.
 *   saddlekerf_environment_is_default tells.
 *
 * TIME AND STACK
 *
 *   Every call returns. Only a resonant satellite takes strides: a request at most 7,304 of them (a
 *   time 3,652 days away, some 1.5 ms), a list at most 7,479,296 (1,024 such times, each on the other
 *   side of the epoch than the one before, some 1.5 s). saddlekerf_strides tells how many were taken.
 *   A call for windows takes those of its samples as a list. A call for a pass goes through its samples
 *   until it finds one, some microsecond each: ten years of seconds are minutes.
 *   A call on a roster judges all its pairs, some 30 microseconds for 64; listing what changed between
 *   two full ones takes some 90.
 *   No function needs more than SADDLEKERF_STACK bytes of stack, beside what memcpy and memset take.
 *
 * VERSIONS
 *
 *   SADDLEKERF_VERSION is the header's, saddlekerf_version() the archive's. A header and an archive
 *   whose functions, answers or layouts of memory differ do not link: every file that includes the
 *   header refers to the symbol saddlekerf_abi_3, whose name changes with them.
 *
 * ANSWERS
 *
 *   Every function but the versions and saddlekerf_checksum answers one 64-bit number:
 *
 *     bits  0-7   refusal number, 0 when answered (enum saddlekerf_refusal_number)
 *     bits  8-15  line 1 or 2 (refusals 1-4); roster 1 or 2 (refusal 22 of saddlekerf_changes); rounds of
 *                 Kepler's equation (saddlekerf_request)
 *     bits 16-31  column, counted from 1 (refusal 3); field (refusal 6 of lines); windows
 *                 (saddlekerf_windows); offer (refusal 27) or entry (refusals 28-30), counted from 0;
 *                 of saddlekerf_next_pass 1 for a pass, + 2 where it was above at the first sample, + 4
 *                 where it was at the last
 *     bits 32-63  bytes written (saddlekerf_print, saddlekerf_write, saddlekerf_changes); integrator
 *                 strides (requests, saddlekerf_windows); samples left (saddlekerf_next_pass)
 *
 *   What is not named for a function and a refusal is 0. The functions below take an answer apart.
 */
#ifndef SADDLEKERF_H
#define SADDLEKERF_H

#include <stddef.h>
#include <stdint.h>

#ifdef __cplusplus
extern "C" {
#endif

/* The version of this header: 10000 * major + 100 * minor + patch. */
#define SADDLEKERF_VERSION 400

/* Elements of a satellite's memory. More may be lent; they are never touched. */
#define SADDLEKERF_NUMBERS 83
#define SADDLEKERF_MARKS 6

/* Elements of one state. */
#define SADDLEKERF_STATE 6

/*
 * Bytes of stack: no function needs more; all but saddlekerf_windows need less than 12,288, and all but that
 * and saddlekerf_request_list less than 8,192.
 */
#define SADDLEKERF_STACK 69632

/* The most times of one list. */
#define SADDLEKERF_LIST_LIMIT 1024

/* The most samples of one call for windows, and its longest step in seconds. */
#define SADDLEKERF_SAMPLES_LIMIT 1024
#define SADDLEKERF_STEP_LIMIT 86400

/*
 * Elements of a pass (enum saddlekerf_pass_instant), of a look (enum saddlekerf_look_number) and of a
 * geodetic station (enum saddlekerf_station_number).
 */
#define SADDLEKERF_PASS 4
#define SADDLEKERF_LOOK 3
#define SADDLEKERF_GEODETIC 4

/* The farthest time from the epoch, in microseconds. */
#define SADDLEKERF_TIME_LIMIT INT64_C(315532800000000)

/* A buffer for saddlekerf_print that is never too short. */
#define SADDLEKERF_PRINT_ROOM 900

/* Bytes of a line, and elements of a record (enum saddlekerf_record_field). */
#define SADDLEKERF_LINE 69
#define SADDLEKERF_FIELDS 22

/* Bytes of a roster, of one of its places, and how many places it has; instants of the row beside it. */
#define SADDLEKERF_ROSTER 8832
#define SADDLEKERF_PAIR 138
#define SADDLEKERF_PLACES 64
#define SADDLEKERF_ROW 64

/* Elements of a report (enum saddlekerf_report_number), and the most pairs of its text. */
#define SADDLEKERF_COUNTS 17
#define SADDLEKERF_PAIRS_LIMIT 4096
/* A buffer for saddlekerf_changes that is never too short. */
#define SADDLEKERF_CHANGES_ROOM 24448

/* Elements of an offer (enum saddlekerf_offer_number), and the most offers and entries of an award plan. */
#define SADDLEKERF_OFFER_NUMBERS 4
#define SADDLEKERF_PLAN_LIMIT 256

/* The largest bid, in cents. */
#define SADDLEKERF_BID_LIMIT INT64_C(1000000000)

/* Elements of a date: year, day of the year, microseconds of that day. */
#define SADDLEKERF_DATE 3

/* Refusal numbers. */
enum saddlekerf_refusal_number {
    SADDLEKERF_ANSWERED = 0,
    SADDLEKERF_LENGTH = 1,                /* a line is not 69 bytes */
    SADDLEKERF_START = 2,                 /* column 1 is not the line's number */
    SADDLEKERF_COLUMN = 3,                /* a column breaks the layout */
    SADDLEKERF_CHECKSUM = 4,              /* the checksum differs */
    SADDLEKERF_CATALOGUE = 5,             /* the catalogue numbers of the lines differ */
    SADDLEKERF_RANGE = 6,                 /* a field is out of its range; an instant outside 1957-2056 */
    SADDLEKERF_PERIGEE = 7,               /* perigee at epoch below one Earth radius */
    SADDLEKERF_RECORD_NOT_FINITE = 8,     /* a number of the opened satellite is not finite */
    SADDLEKERF_TIME = 9,                  /* time, or a move, beyond 3,652 days */
    SADDLEKERF_MEAN_MOTION = 10,          /* mean motion <= 0 */
    SADDLEKERF_MEAN_ECCENTRICITY = 11,    /* mean e >= 1 or < -0.001, or axis < 0.95 */
    SADDLEKERF_ECCENTRICITY = 12,         /* perturbed e < 0 or > 1 */
    SADDLEKERF_SEMI_LATUS_RECTUM = 13,    /* semi-latus rectum < 0 */
    SADDLEKERF_RADIUS = 14,               /* radius below one Earth radius */
    SADDLEKERF_STATE_NOT_FINITE = 15,     /* a number of the state is not finite */
    SADDLEKERF_RECORD = 16,               /* a record to be written is outside layout or ranges, or no pair
                                             whose form is accepted has the fields */
    SADDLEKERF_ROOM = 17,                 /* lent memory too short */
    SADDLEKERF_LIST = 18,                 /* a list of more than 1,024 times, windows of more samples, or a plan
                                             of more than 256 offers or entries */
    SADDLEKERF_FULL = 19,                 /* all 64 places of the roster hold other numbers */
    SADDLEKERF_OLDER = 20,                /* the roster's pair of this number has a later epoch */
    SADDLEKERF_ABSENT = 21,               /* the roster has no pair of this number */
    SADDLEKERF_NO_ROSTER = 22,            /* the buffer is no roster or has another length, or the row has
                                             another length or disagrees with the pairs */
    SADDLEKERF_PAIRS = 23,                /* a text of more than 4,096 whole pairs */
    SADDLEKERF_ODD = 24,                  /* a text with an odd number of lines */
    SADDLEKERF_STATION = 25,              /* a station that is zero or not finite; a geodetic one, or a least
                                             elevation, out of range */
    SADDLEKERF_STEP = 26,                 /* a step of 0 or more than 86,400 s */
    SADDLEKERF_OFFER = 27,                /* an offer outside the calendar, whose end is not after its start
                                             or whose bid is too large */
    SADDLEKERF_NO_OFFER = 28,             /* an entry that names no offer */
    SADDLEKERF_NAMED_TWICE = 29,          /* an entry whose offer an earlier one names */
    SADDLEKERF_CLASH = 30,                /* an entry whose offer clashes with that of an earlier one */
    SADDLEKERF_TOTAL = 31                 /* a total that is not the sum of the bids */
};

/* The fields of refusal 6, in column order. */
enum saddlekerf_field_number {
    SADDLEKERF_FIELD_DAY = 1,
    SADDLEKERF_FIELD_INCLINATION = 2,
    SADDLEKERF_FIELD_NODE = 3,
    SADDLEKERF_FIELD_PERIGEE = 4,
    SADDLEKERF_FIELD_ANOMALY = 5,
    SADDLEKERF_FIELD_MOTION = 6
};

/*
 * The numbers of a record: each field a whole number in its last decimal place, whose unit is named.
 * A blank designator has the launch 0 and three blanks. The catalogue number is a plain number; in a
 * line its first place is a digit or, standing for 10 to 33, a letter A-Z without I and O (Alpha-5):
 * A0000 is 100000, Z9999 is 339999. The day is one that the year has: a common year ends at day
 * 365.99999999, a year that 4 divides, 2000 among them, at 366.99999999.
 */
enum saddlekerf_record_field {
    SADDLEKERF_RECORD_NUMBER = 0,         /* catalogue number, 0 to 339999: from 100000 on with a letter */
    SADDLEKERF_RECORD_CLASS = 1,          /* the byte 'U', 'C' or 'S' */
    SADDLEKERF_RECORD_LAUNCH = 2,         /* designator: launch year and number, five digits, 58002 */
    SADDLEKERF_RECORD_PIECE = 3,          /* designator: three bytes (3, 4, 5), 'A' to 'Z', then ' ' */
    SADDLEKERF_RECORD_YEAR = 6,           /* epoch: year, 1957 to 2056 */
    SADDLEKERF_RECORD_DAY = 7,            /* epoch: day of the year, 1E-8 days: 1 January, 0h, is 100000000; to */
                                          /* 36599999999, in a year that 4 divides to 36699999999 */
    SADDLEKERF_RECORD_NDOT = 8,           /* half the first derivative of mean motion, 1E-8 rev/day^2, */
                                          /* -99999999 to 99999999 */
    SADDLEKERF_RECORD_NDDOT = 9,          /* a sixth of the second: mantissa, 1E-5 times the power of ten, */
                                          /* rev/day^3, -99999 to 99999 */
    SADDLEKERF_RECORD_NDDOT_EXPONENT = 10,/* its power of ten, -9 to 9; 0 where the mantissa is 0 */
    SADDLEKERF_RECORD_BSTAR = 11,         /* B*: mantissa, 1E-5 times the power of ten, per Earth radius, */
                                          /* -99999 to 99999 */
    SADDLEKERF_RECORD_BSTAR_EXPONENT = 12,/* its power of ten, -9 to 9; 0 where the mantissa is 0 */
    SADDLEKERF_RECORD_TYPE = 13,          /* ephemeris type, a digit, 0 to 9 */
    SADDLEKERF_RECORD_SET = 14,           /* element set number, 0 to 9999 */
    SADDLEKERF_RECORD_INCLINATION = 15,   /* 1E-4 degrees, at most 1800000 */
    SADDLEKERF_RECORD_NODE = 16,          /* right ascension of the node, 1E-4 degrees, below 3600000 */
    SADDLEKERF_RECORD_ECCENTRICITY = 17,  /* 1E-7, a pure number, at most 9999999 */
    SADDLEKERF_RECORD_PERIGEE = 18,       /* argument of perigee, 1E-4 degrees, below 3600000 */
    SADDLEKERF_RECORD_ANOMALY = 19,       /* mean anomaly, 1E-4 degrees, below 3600000 */
    SADDLEKERF_RECORD_MOTION = 20,        /* mean motion, 1E-8 revolutions a day, 1 to 9999999999 */
    SADDLEKERF_RECORD_REVOLUTION = 21     /* revolutions at epoch, 0 to 99999 */
};

/*
 * The numbers of a report, in the order in which the program monday_report prints them. Each pair of
 * the text counts once among 0-6, and each accepted one once among 7-9. With none accepted, 10-16 are
 * 0. Of an epoch: the year, the day of the year, the microseconds of that day.
 */
enum saddlekerf_report_number {
    SADDLEKERF_REPORT_ACCEPTED = 0,       /* pairs that saddlekerf_read accepts */
    SADDLEKERF_REPORT_REFUSED = 0,        /* + n, 1 to 6: pairs that it refuses with n */
    SADDLEKERF_REPORT_NEAR = 7,           /* accepted, and opened as near-Earth */
    SADDLEKERF_REPORT_DEEP = 8,           /* accepted, and opened as deep-space */
    SADDLEKERF_REPORT_UNOPENED = 9,       /* accepted, and refused with 7 or 8 by saddlekerf_open */
    SADDLEKERF_REPORT_EARLIEST = 10,      /* three numbers: the earliest epoch of those accepted */
    SADDLEKERF_REPORT_LATEST = 13,        /* three numbers: the latest */
    SADDLEKERF_REPORT_SPAN = 16           /* microseconds between the two */
};

/* The numbers of an offer for a slot. */
enum saddlekerf_offer_number {
    SADDLEKERF_OFFER_ANTENNA = 0,         /* any number */
    SADDLEKERF_OFFER_START = 1,           /* instants: the slot's start, and its end, which is not part of it */
    SADDLEKERF_OFFER_END = 2,
    SADDLEKERF_OFFER_BID = 3              /* whole cents */
};

/* The instants of a pass. */
enum saddlekerf_pass_instant {
    SADDLEKERF_PASS_RISE = 0,             /* above, and a microsecond before not */
    SADDLEKERF_PASS_HIGHEST = 1,
    SADDLEKERF_PASS_SET = 2,              /* above, and a microsecond after not */
    SADDLEKERF_PASS_NEXT = 3              /* where the next call goes on */
};

/* The numbers of a station on the WGS-84 ellipsoid. */
enum saddlekerf_station_number {
    SADDLEKERF_STATION_LATITUDE = 0,      /* geodetic, degrees, -90 to 90, positive to the north */
    SADDLEKERF_STATION_LONGITUDE = 1,     /* degrees, -180 to 360, positive to the east */
    SADDLEKERF_STATION_HEIGHT = 2,        /* above the ellipsoid, metres, -10,000 to 100,000 */
    SADDLEKERF_STATION_LEAST = 3          /* the least elevation of a pass, degrees, 0 to 90 */
};

/* The numbers of a look. */
enum saddlekerf_look_number {
    SADDLEKERF_LOOK_AZIMUTH = 0,          /* degrees from north by east */
    SADDLEKERF_LOOK_ELEVATION = 1,        /* degrees above the plane across the ellipsoid's normal */
    SADDLEKERF_LOOK_RANGE = 2             /* km */
};

/* ---- the archive and the thread ---- */

/* The archive's version, as SADDLEKERF_VERSION. */
uint64_t saddlekerf_version(void);

/* 1: the number of the functions, answers and layouts of memory that this header describes. */
uint64_t saddlekerf_abi_3(void);

/* A header of other functions, answers or layouts than the archive's does not link. */
__attribute__((used, unused)) static uint64_t (*const saddlekerf_abi)(void) = saddlekerf_abi_3;

/*
 * 1 where the calling thread's floating-point environment is the one that the proofs speak of, else
 * 0. Flags that earlier operations raised do not count. It reads MXCSR: denormals-are-zero (bit 6),
 * the masks of the traps (7-12), rounding (13-14), flush-to-zero (15).
 */
static inline int saddlekerf_environment_is_default(void)
{
    uint32_t mxcsr;
    __asm__ __volatile__("stmxcsr %0" : "=m"(mxcsr));
    return (mxcsr & UINT32_C(0xffc0)) == UINT32_C(0x1f80);
}

/* ---- an answer taken apart ---- */

static inline unsigned saddlekerf_refusal(uint64_t answer) { return (unsigned)(answer & 255); }
static inline unsigned saddlekerf_line(uint64_t answer) { return (unsigned)(answer >> 8 & 255); }
static inline unsigned saddlekerf_which(uint64_t answer) { return (unsigned)(answer >> 8 & 255); }
static inline unsigned saddlekerf_rounds(uint64_t answer) { return (unsigned)(answer >> 8 & 255); }
static inline unsigned saddlekerf_column(uint64_t answer) { return (unsigned)(answer >> 16 & 65535); }
static inline unsigned saddlekerf_field(uint64_t answer) { return (unsigned)(answer >> 16 & 65535); }
static inline unsigned saddlekerf_window_count(uint64_t answer) { return (unsigned)(answer >> 16 & 65535); }
static inline unsigned saddlekerf_place(uint64_t answer) { return (unsigned)(answer >> 16 & 65535); }
static inline uint32_t saddlekerf_strides(uint64_t answer) { return (uint32_t)(answer >> 32); }
static inline int saddlekerf_found(uint64_t answer) { return (int)(answer >> 16 & 1); }
static inline int saddlekerf_begun(uint64_t answer) { return (int)(answer >> 17 & 1); }
static inline int saddlekerf_still(uint64_t answer) { return (int)(answer >> 18 & 1); }
static inline uint32_t saddlekerf_samples_left(uint64_t answer) { return (uint32_t)(answer >> 32); }
static inline uint32_t saddlekerf_written(uint64_t answer) { return (uint32_t)(answer >> 32); }

/* ---- lines ---- */

/*
 * Reads a pair. Lines may be any bytes of any length, without a line end.
 * 0 where the pair is accepted; else the first refusal met, line 1 through 1-4, then line 2, then 5
 * and 6:
 *   1, 2, 4  with the line
 *   3        with the line and the first column at which no lawful line agrees so far
 *   5        with nothing
 *   6        with the first field out of range
 */
uint64_t saddlekerf_read(const uint8_t *line1, size_t line1_length,
                         const uint8_t *line2, size_t line2_length);

/*
 * The checksum digit of any number of bytes, 0 to 9: a digit adds itself, a minus sign 1, any other
 * byte nothing, and the sum is taken modulo 10. Of the first 68 bytes of a line it is the digit that
 * column 69 has to show. It refuses nothing, and the digit alone is the answer.
 */
uint64_t saddlekerf_checksum(const uint8_t *bytes, size_t bytes_length);

/*
 * Prints the fields of a pair, a line of text for each, or "refused" and the number where reading
 * refuses it: both are answers. The text stands at the front of out, with no 0 byte after it; what
 * lies past it stays. Answer: the bytes written; or 17.
 */
uint64_t saddlekerf_print(const uint8_t *line1, size_t line1_length,
                          const uint8_t *line2, size_t line2_length,
                          uint8_t *out, size_t out_length);

/*
 * The epoch of a pair as an instant, which goes into *instant (not null). Answer: as
 * saddlekerf_read. The time of an instant i, for requests, is (int64_t)i - (int64_t)*instant: both
 * are far below 2^63.
 */
uint64_t saddlekerf_epoch(const uint8_t *line1, size_t line1_length,
                          const uint8_t *line2, size_t line2_length,
                          uint64_t *instant);

/*
 * The record of a pair, which goes into the first 22 elements of fields; what lies past them stays.
 * Answer: 0; 1-6 as saddlekerf_read; 17 where fields is too short.
 */
uint64_t saddlekerf_record(const uint8_t *line1, size_t line1_length,
                           const uint8_t *line2, size_t line2_length,
                           int64_t *fields, size_t fields_length);

/*
 * The form of a pair alone: its fields, in their ranges or not, which go into the first 22 elements of
 * fields; what lies past them stays. A day may then be 0 to 999.99999999, an angle 0 to 999.9999 and
 * the mean motion 0; every other element is as in a record.
 * Answer: 0; 1-5 as saddlekerf_read; 17 where fields is too short.
 */
uint64_t saddlekerf_form(const uint8_t *line1, size_t line1_length,
                         const uint8_t *line2, size_t line2_length,
                         int64_t *fields, size_t fields_length);

/*
 * The meaning alone of fields, whoever wrote them: whether they are a record's.
 * Answer: 0; 17 where fields has fewer than 22 elements; 16 for fields that no pair of lines has whose
 * form is accepted, so never after saddlekerf_form; 6, with the field, for one out of its range.
 * saddlekerf_form and then saddlekerf_meaning answer as saddlekerf_read does.
 */
uint64_t saddlekerf_meaning(const int64_t *fields, size_t fields_length);

/*
 * Writes line 1 or 2 of a record: 69 bytes at the front of out, with no 0 byte after them; what lies
 * past them stays. Leading zeros are written as blanks where the layout allows it, a plus in front
 * of a number as a blank, the exponent 0 as -0, and the first two digits of a catalogue number of six
 * as a letter. Both lines read as this record again.
 * Answer: 17 where fields has fewer than 22 elements; 16 where the record, judged as a whole, is
 * outside layout or ranges, or line is neither 1 nor 2; 17 where out has fewer than 69 bytes; else 0
 * with the 69 bytes written.
 */
uint64_t saddlekerf_write(const int64_t *fields, size_t fields_length, uint32_t line,
                          uint8_t *out, size_t out_length);

/* ---- a roster ---- */

/*
 * A roster is 8,832 bytes: up to 64 pairs of 138 bytes, each its line 1 and its line 2 as
 * saddlekerf_write writes them with nothing between, by rising catalogue number, packed from the
 * front, and every byte after the last pair 0. 8,832 zeros are the empty roster. Beside it lies a row
 * of 64 instants, one for each place: the pair's epoch, in microseconds as saddlekerf_epoch tells it,
 * and 0 past the last pair. (0 is also the instant 1957 January 1, 0h: the buffer, and not the row,
 * tells how many pairs there are.) 64 zeros are the row of the empty roster. A call judges the whole
 * buffer and the whole row, so that what is damaged in any way is refused and never grows worse; a
 * refusal leaves both as they were. To order pairs by age, read the row alone.
 */

/*
 * Fills the row of a roster that was kept without one, whatever the row held.
 * Answer: 0; 22 where the buffer has another length or is no roster, or the row has another length.
 */
uint64_t saddlekerf_fill_row(const uint8_t *roster, size_t roster_length,
                             uint64_t *row, size_t row_length);

/*
 * Lodges a pair, written as saddlekerf_write does whatever way it is spelt here. It replaces the pair
 * of its catalogue number, unless its epoch is the older instant; an equal epoch replaces. Else it
 * takes its place, and the later pairs and their instants move up.
 * Answer: 0; 1-6 as saddlekerf_read; 22 where the buffer has another length or is no roster, or the row
 * has another length or disagrees with the pairs; 20 where the roster's pair of that number has a later
 * epoch; 19 where all 64 places hold other numbers.
 */
uint64_t saddlekerf_lodge(uint8_t *roster, size_t roster_length,
                          uint64_t *row, size_t row_length,
                          const uint8_t *line1, size_t line1_length,
                          const uint8_t *line2, size_t line2_length);

/*
 * Withdraws the pair of a catalogue number: the later pairs and their instants close the gap, and zeros
 * follow.
 * Answer: 0; 22 where the buffer has another length or is no roster, or the row has another length or
 * disagrees with the pairs; 21 where the roster has no such pair.
 */
uint64_t saddlekerf_withdraw(uint8_t *roster, size_t roster_length,
                             uint64_t *row, size_t row_length, uint64_t number);

/* ---- a report ---- */

/*
 * Counts the pairs of a whole text, two lines each. A line ends at a newline, and a last one without
 * a newline counts if it has a byte; what ends the lines otherwise, as a carriage return, belongs to
 * them. The numbers go into the first 17 elements of counts; what lies past them stays.
 * Answer: 23 where the text has more than 4,096 whole pairs (a line left over is no pair); 24 where it
 * has an odd number of lines; 17 where counts is too short; else 0. No bytes are a report of nothing.
 */
uint64_t saddlekerf_report(const uint8_t *text, size_t text_length,
                           uint64_t *counts, size_t counts_length);
/*
 * Lists what changed from one roster to another, as lines of text by rising catalogue number, each
 * ended by a newline, with one blank between parts:
 *
 *   first PAIR             the 138 bytes of a pair that only the first roster has
 *   second PAIR            or only the second
 *   NUMBER FIELD VALUES    each field that differs of a pair in both, in the order and with the labels
 *                          of saddlekerf_print: the second's value less the first's, in units of the
 *                          field's last place, the epoch in microseconds; of class, designator, nddot
 *                          and bstar the first's value, then the second's, as printed there
 *
 * Equal rosters give no line. The text stands at the front of out, with no 0 byte after it; what lies
 * past it stays. The two rosters, and their rows, may be the same memory.
 * Answer: 22 with 1 where the first buffer is no roster or its row another's, 22 with 2 where the second
 * is (saddlekerf_which); 17 where out is too short; else 0 with the bytes written.
 */
uint64_t saddlekerf_changes(const uint8_t *first, size_t first_length,
                            const uint64_t *row1, size_t row1_length,
                            const uint8_t *second, size_t second_length,
                            const uint64_t *row2, size_t row2_length,
                            uint8_t *out, size_t out_length);

/* ---- an instant ---- */

/*
 * Moves an instant by a span in microseconds, at most SADDLEKERF_TIME_LIMIT either way. The instant
 * reached goes into *moved (not null), which stays where the move is refused. Moving by 0 changes
 * nothing; where two spans, their sum and the instants reached lie in range, moving by one and then by
 * the other is moving by their sum, and moving there and back returns to the start.
 * Answer: 0; 9 where the span is beyond 3,652 days; 6 (with no field) where the instant given or reached
 * lies outside 1957-2056.
 */
uint64_t saddlekerf_move(uint64_t instant, int64_t span, uint64_t *moved);

/*
 * The date of an instant: year, day of the year from 1 and microseconds of that day go into the first 3
 * elements of date; what lies past them stays.
 * Answer: 0; 6 (with no field) where the instant lies outside 1957-2056; 17 where date is too short.
 */
uint64_t saddlekerf_date(uint64_t instant, uint64_t *date, size_t date_length);

/*
 * The instant of a date, which goes into *instant (not null); it stays where the date is refused.
 * Answer: 0; 6 (with no field) where the year is outside 1957-2056, the year has no such day, or the
 * microseconds are a day or more.
 */
uint64_t saddlekerf_instant(uint64_t year, uint64_t day, uint64_t micros, uint64_t *instant);

/* ---- an award plan ---- */

/*
 * Checks an award plan: which of the offers win, as an optimiser proposes it. offers has four numbers an
 * offer (enum saddlekerf_offer_number); up to three left over are no offer. Each entry is the number of an
 * offer, counted from 0. total is in cents, turnaround in seconds: two slots on one antenna must lie at
 * least so far apart. At turnaround 0 one may end at the instant at which another starts.
 * Answer: 18 for more than 256 offers or entries; 27 with the first offer, named or not, that is outside
 * the calendar, does not end after it starts, or bids more than 1,000,000,000 cents; 28 with the first
 * entry that names no offer; 29 with the first entry whose offer an earlier one names; 30 with the first
 * entry whose offer clashes with that of an earlier one; 31 where the total is not the sum of their bids;
 * else 0. saddlekerf_place tells the offer or the entry. 256 offers all named take some 30 microseconds.
 */
uint64_t saddlekerf_award(const uint64_t *offers, size_t offers_length,
                          const uint64_t *entries, size_t entries_length,
                          uint64_t total, uint64_t turnaround);

/* ---- a satellite ---- */

/*
 * Opens a pair: the satellite goes into the first 83 elements of numbers and the first 6 of marks.
 * Answer: 0; 1-6 as saddlekerf_read; 7; 8; 17 where numbers or marks is too short.
 * The memory may be copied and moved. Only what saddlekerf_open wrote and requests changed is a
 * satellite of lines; requests take any other numbers too, and answer by the same rules. Requests
 * change the saved place alone: numbers[0] and numbers[1] (the integrated pair), marks[0] (0 ahead
 * of the epoch, 1 before it) and marks[1] (stride number). marks[4] and marks[5] are the low and the
 * high 32 bits of the epoch's instant.
 */
uint64_t saddlekerf_open(const uint8_t *line1, size_t line1_length,
                         const uint8_t *line2, size_t line2_length,
                         double *numbers, size_t numbers_length,
                         uint32_t *marks, size_t marks_length);

/*
 * Asks for one time. Answered: position and velocity in the first 6 elements of state, and the
 * Kepler rounds and the strides in the answer.
 * Refused 9-15: state is not touched; the strides are in the answer, and after 10-15 the place
 * reached is saved in the satellite. 17: the satellite's memory or state is too short.
 */
uint64_t saddlekerf_request(double *numbers, size_t numbers_length,
                            uint32_t *marks, size_t marks_length,
                            int64_t time,
                            double *state, size_t state_length);

/*
 * Asks for a list of times, in order: for the time of index i, refusals[i] is its refusal number
 * (0, or 9-15), states[6 * i] .. states[6 * i + 5] its position and velocity, rounds[i] its Kepler
 * rounds. A refused row has six positive zeros and no rounds, and the list goes on. What lies past
 * the last row stays. Answer: 0 with the strides of all rows together;
 * 18 for more than 1,024 times; 17 where the satellite's memory, refusals or rounds (an element a
 * row) or states (six) is too short.
 */
uint64_t saddlekerf_request_list(double *numbers, size_t numbers_length,
                                 uint32_t *marks, size_t marks_length,
                                 const int64_t *times, size_t times_length,
                                 uint8_t *refusals, size_t refusals_length,
                                 double *states, size_t states_length,
                                 uint8_t *rounds, size_t rounds_length);

/*
 * Puts a list of times, of any length, in the best order, in place: zeros first, then the times after
 * the epoch outward, then those before it outward. A satellite newly opened and asked for a list of times
 * in range takes in this order the strides to the farthest time on each side, added, and in no order
 * fewer; each row goes where its time goes, with the same bits. Times out of range are put in order as
 * all others; they take no strides wherever they stand.
 * 1,024 times take some 30 microseconds. Answer: 0, always.
 */
uint64_t saddlekerf_best_order(int64_t *times, size_t times_length);

/*
 * Asks for the windows above a station. Sample i is the instant start + i * step seconds, for i below
 * samples; station is its Earth-fixed x, y, z in km. Each sample's position is turned into the
 * Earth-fixed frame by the rotation through the Greenwich angle at its instant (UT1 taken as UTC, polar
 * motion left out), and is visible where the dot product of satellite less station with the station is
 * above 0. A window is a run of visible samples that cannot be made longer: firsts[i] and lasts[i] are
 * the instants of its first and its last sample, in time order; what lies past the last window stays.
 * A sample that is refused ends a run: with 6 outside 1957-2056, where it takes no strides, else as a
 * row of saddlekerf_request_list, with 9-15.
 * Answer: 0 with the number of windows (saddlekerf_window_count) and the strides of all samples; 25
 * where station is three zeros or one of them is not finite (fewer than three elements count as that,
 * more are not looked at); 26 where step is 0 or more than 86,400; 18 for more than 1,024 samples; 17
 * where the satellite's memory is too short, or firsts or lasts shorter than half the samples, rounded
 * up, which is always enough.
 */
uint64_t saddlekerf_windows(double *numbers, size_t numbers_length,
                            uint32_t *marks, size_t marks_length,
                            const double *station, size_t station_length,
                            uint64_t start, uint64_t step, size_t samples,
                            uint64_t *firsts, size_t firsts_length,
                            uint64_t *lasts, size_t lasts_length);

/*
 * Asks for the next pass over a station: of the samples start + i * step seconds, i below samples, the
 * first run that is above the least elevation. station has SADDLEKERF_GEODETIC elements; up is the
 * ellipsoid's normal, and refraction is left out. Rise and set are refined between two samples to the
 * microsecond, and the highest point to a millisecond: they go into the first SADDLEKERF_PASS elements
 * of pass, with the instant at which the next call goes on, with the samples left of the answer; what
 * lies past them stays. A pass that was above at the first sample (saddlekerf_begun) or at the last
 * (saddlekerf_still) has that sample's instant for its edge. A sample that is refused is not above, and
 * samples end with the calendar. A pass between two samples is not seen. The satellite is not changed.
 * Answer: 0 with whether there is a pass (saddlekerf_found), begun and still, and the samples left; 25
 * where the station is out of range, a least elevation among it (fewer than four elements count as
 * that, more are not looked at); 26 where step is 0 or more than 86,400; 17 where pass or the
 * satellite's memory is too short. Where there is no pass, pass stays.
 */
uint64_t saddlekerf_next_pass(const double *numbers, size_t numbers_length,
                              const uint32_t *marks, size_t marks_length,
                              const double *station, size_t station_length,
                              uint64_t start, uint64_t step, uint32_t samples,
                              uint64_t *pass, size_t pass_length);

/*
 * Where the satellite stands at an instant, seen from a station: azimuth, elevation and range go into
 * the first SADDLEKERF_LOOK elements of look; what lies past them stays. station has latitude,
 * longitude and height; more elements are not looked at. The satellite is not changed.
 * Answer: 0; 25 where the station is out of range or has fewer than three elements; 17 where look or
 * the satellite's memory is too short; 6 (with no field) where the instant, or the epoch that the
 * satellite keeps, lies outside 1957-2056; 9-15 as saddlekerf_request.
 */
uint64_t saddlekerf_look(const double *numbers, size_t numbers_length,
                         const uint32_t *marks, size_t marks_length,
                         const double *station, size_t station_length,
                         uint64_t instant,
                         double *look, size_t look_length);

/* ---- the same on a struct ---- */

typedef struct saddlekerf_satellite {
    double numbers[SADDLEKERF_NUMBERS];
    uint32_t marks[SADDLEKERF_MARKS];
} saddlekerf_satellite;

static inline uint64_t saddlekerf_satellite_open(saddlekerf_satellite *s,
                                                 const uint8_t *line1, size_t line1_length,
                                                 const uint8_t *line2, size_t line2_length)
{
    return saddlekerf_open(line1, line1_length, line2, line2_length,
                           s->numbers, SADDLEKERF_NUMBERS, s->marks, SADDLEKERF_MARKS);
}

/* state has SADDLEKERF_STATE elements */
static inline uint64_t saddlekerf_satellite_request(saddlekerf_satellite *s, int64_t time, double *state)
{
    return saddlekerf_request(s->numbers, SADDLEKERF_NUMBERS, s->marks, SADDLEKERF_MARKS,
                              time, state, SADDLEKERF_STATE);
}

/* times, refusals and rounds have count elements, states has 6 * count */
static inline uint64_t saddlekerf_satellite_request_list(saddlekerf_satellite *s,
                                                         const int64_t *times, size_t count,
                                                         uint8_t *refusals, double *states, uint8_t *rounds)
{
    return saddlekerf_request_list(s->numbers, SADDLEKERF_NUMBERS, s->marks, SADDLEKERF_MARKS,
                                   times, count, refusals, count,
                                   states, SADDLEKERF_STATE * count, rounds, count);
}

/* station has 3 elements, firsts and lasts have places */
static inline uint64_t saddlekerf_satellite_windows(saddlekerf_satellite *s, const double *station,
                                                    uint64_t start, uint64_t step, size_t samples,
                                                    uint64_t *firsts, uint64_t *lasts, size_t places)
{
    return saddlekerf_windows(s->numbers, SADDLEKERF_NUMBERS, s->marks, SADDLEKERF_MARKS,
                              station, 3, start, step, samples, firsts, places, lasts, places);
}

/* station has SADDLEKERF_GEODETIC elements, pass SADDLEKERF_PASS */
static inline uint64_t saddlekerf_satellite_next_pass(const saddlekerf_satellite *s, const double *station,
                                                      uint64_t start, uint64_t step, uint32_t samples,
                                                      uint64_t *pass)
{
    return saddlekerf_next_pass(s->numbers, SADDLEKERF_NUMBERS, s->marks, SADDLEKERF_MARKS,
                                station, SADDLEKERF_GEODETIC, start, step, samples, pass, SADDLEKERF_PASS);
}

/* station has three elements, look SADDLEKERF_LOOK */
static inline uint64_t saddlekerf_satellite_look(const saddlekerf_satellite *s, const double *station,
                                                 uint64_t instant, double *look)
{
    return saddlekerf_look(s->numbers, SADDLEKERF_NUMBERS, s->marks, SADDLEKERF_MARKS,
                           station, 3, instant, look, SADDLEKERF_LOOK);
}

/* The instant of the epoch that the satellite keeps. */
static inline uint64_t saddlekerf_satellite_epoch(const saddlekerf_satellite *s)
{
    return (uint64_t)s->marks[5] << 32 | s->marks[4];
}

#ifdef __cplusplus
}
#endif

#endif
