/*
 * Wrong libraries, to see which tests fail on them. Linked in front of libsaddlekerf.a with
 * -Wl,--wrap=FUNCTION for each function below, it is the library itself but for the one thing that
 * the environment variable WRONG_LIBRARY names; without it all tests pass. tests/wrong_libraries
 * runs every test on each.
 */
#include "saddlekerf.h"

#include <stdlib.h>
#include <string.h>

#define PAIR const uint8_t *line1, size_t line1_length, const uint8_t *line2, size_t line2_length
#define LENT_PAIR line1, line1_length, line2, line2_length
#define ROSTER uint8_t *roster, size_t roster_length, uint64_t *row, size_t row_length
#define LENT_ROSTER roster, roster_length, row, row_length
#define TWO                                                                                                 \
    const uint8_t *first, size_t first_length, const uint64_t *row1, size_t row1_length, const uint8_t *second, \
        size_t second_length, const uint64_t *row2, size_t row2_length
#define LENT_TWO first, first_length, row1, row1_length, second, second_length, row2, row2_length
#define SATELLITE double *numbers, size_t numbers_length, uint32_t *marks, size_t marks_length
#define LENT_SATELLITE numbers, numbers_length, marks, marks_length

uint64_t __real_saddlekerf_version(void);
uint64_t __real_saddlekerf_read(PAIR);
uint64_t __real_saddlekerf_checksum(const uint8_t *bytes, size_t bytes_length);
uint64_t __real_saddlekerf_print(PAIR, uint8_t *out, size_t out_length);
uint64_t __real_saddlekerf_epoch(PAIR, uint64_t *instant);
uint64_t __real_saddlekerf_record(PAIR, int64_t *fields, size_t fields_length);
uint64_t __real_saddlekerf_form(PAIR, int64_t *fields, size_t fields_length);
uint64_t __real_saddlekerf_meaning(const int64_t *fields, size_t fields_length);
uint64_t __real_saddlekerf_write(const int64_t *fields, size_t fields_length, uint32_t line, uint8_t *out,
                                 size_t out_length);
uint64_t __real_saddlekerf_fill_row(const uint8_t *roster, size_t roster_length, uint64_t *row, size_t row_length);
uint64_t __real_saddlekerf_lodge(ROSTER, PAIR);
uint64_t __real_saddlekerf_withdraw(ROSTER, uint64_t number);
uint64_t __real_saddlekerf_report(const uint8_t *text, size_t text_length, uint64_t *counts, size_t counts_length);
uint64_t __real_saddlekerf_changes(TWO, uint8_t *out, size_t out_length);
uint64_t __real_saddlekerf_open(PAIR, SATELLITE);
uint64_t __real_saddlekerf_request(SATELLITE, int64_t time, double *state, size_t state_length);
uint64_t __real_saddlekerf_request_list(SATELLITE, const int64_t *times, size_t times_length, uint8_t *refusals,
                                        size_t refusals_length, double *states, size_t states_length,
                                        uint8_t *rounds, size_t rounds_length);
#define STATION                                                                                                     \
    const double *station, size_t station_length, uint64_t start, uint64_t step, size_t samples, uint64_t *firsts, \
        size_t firsts_length, uint64_t *lasts, size_t lasts_length
uint64_t __real_saddlekerf_windows(SATELLITE, STATION);

#define READ_SATELLITE const double *numbers, size_t numbers_length, const uint32_t *marks, size_t marks_length
uint64_t __real_saddlekerf_next_pass(READ_SATELLITE, const double *station, size_t station_length, uint64_t start,
                                     uint64_t step, uint32_t samples, uint64_t *pass, size_t pass_length);
uint64_t __real_saddlekerf_look(READ_SATELLITE, const double *station, size_t station_length, uint64_t instant,
                                double *look, size_t look_length);
uint64_t __real_saddlekerf_best_order(int64_t *times, size_t times_length);
uint64_t __real_saddlekerf_move(uint64_t instant, int64_t span, uint64_t *moved);
uint64_t __real_saddlekerf_date(uint64_t instant, uint64_t *date, size_t date_length);
uint64_t __real_saddlekerf_instant(uint64_t year, uint64_t day, uint64_t micros, uint64_t *instant);
uint64_t __real_saddlekerf_award(const uint64_t *offers, size_t offers_length, const uint64_t *entries,
                                 size_t entries_length, uint64_t total, uint64_t turnaround);

static int wrong(const char *name)
{
    const char *chosen = getenv("WRONG_LIBRARY");
    return chosen != NULL && strcmp(chosen, name) == 0;
}

/* A NaN loses its own bits, as after x + 0 with a NaN of the processor's; other numbers stay. */
static void plain_nans(double *numbers, size_t length)
{
    const uint64_t plain = UINT64_C(0x7ff8000000000000);
    size_t i;
    for (i = 0; i < length; i++)
        if (numbers[i] != numbers[i])
            memcpy(&numbers[i], &plain, sizeof plain);
}

uint64_t __wrap_saddlekerf_version(void)
{
    return __real_saddlekerf_version() + (wrong("version") ? 1 : 0);
}

uint64_t __wrap_saddlekerf_read(PAIR)
{
    const uint64_t a = __real_saddlekerf_read(LENT_PAIR);
    if (saddlekerf_refusal(a) == SADDLEKERF_RANGE && saddlekerf_field(a) == SADDLEKERF_FIELD_DAY &&
        memcmp(line1 + 20, "366", 3) == 0 && wrong("read-short-year"))
        return SADDLEKERF_ANSWERED; /* day 366 of a common year */
    /* a value where the header has none */
    return a == SADDLEKERF_CATALOGUE && wrong("read-value") ? a | 1 << 8 : a;
}

uint64_t __wrap_saddlekerf_checksum(const uint8_t *bytes, size_t bytes_length)
{
    uint64_t a = __real_saddlekerf_checksum(bytes, bytes_length);
    size_t i;
    for (i = 0; i < bytes_length; i++)
        if (bytes[i] == '+' && wrong("checksum-plus"))
            a = (a + 1) % 10;
    return a;
}

uint64_t __wrap_saddlekerf_print(PAIR, uint8_t *out, size_t out_length)
{
    const uint64_t a = __real_saddlekerf_print(LENT_PAIR, out, out_length);
    if (a == SADDLEKERF_ROOM && out_length > 0 && wrong("print-refused"))
        out[0] = 'n';
    if (a >> 32 < out_length && (a & 255) == 0 && wrong("print-past"))
        out[a >> 32] = 0;
    return a;
}

uint64_t __wrap_saddlekerf_epoch(PAIR, uint64_t *instant)
{
    const uint64_t a = __real_saddlekerf_epoch(LENT_PAIR, instant);
    if (a != 0 && wrong("epoch-refused"))
        *instant = 0;
    return a;
}

static void exchange(int64_t *fields)
{
    const int64_t kept = fields[SADDLEKERF_RECORD_PERIGEE];
    fields[SADDLEKERF_RECORD_PERIGEE] = fields[SADDLEKERF_RECORD_ANOMALY];
    fields[SADDLEKERF_RECORD_ANOMALY] = kept;
}

static void short_year(int64_t *fields)
{
    if (fields[SADDLEKERF_RECORD_YEAR] % 4 != 0 && fields[SADDLEKERF_RECORD_DAY] / 100000000 == 366)
        fields[SADDLEKERF_RECORD_YEAR] = 2000;
}

uint64_t __wrap_saddlekerf_record(PAIR, int64_t *fields, size_t fields_length)
{
    const uint64_t a = __real_saddlekerf_record(LENT_PAIR, fields, fields_length);
    if (a == 0 && wrong("record-exchanged"))
        exchange(fields);
    if (a == 0 && wrong("record-letter")) /* a letter for the digit 0 */
        fields[SADDLEKERF_RECORD_NUMBER] %= 100000;
    if (a == 0 && fields_length > SADDLEKERF_FIELDS && wrong("record-past"))
        fields[SADDLEKERF_FIELDS] = 0;
    if (a != 0 && fields_length > 0 && wrong("record-refused"))
        fields[0] = 0;
    return a;
}

uint64_t __wrap_saddlekerf_form(PAIR, int64_t *fields, size_t fields_length)
{
    const uint64_t a = __real_saddlekerf_form(LENT_PAIR, fields, fields_length);
    if (a == 0 && fields[SADDLEKERF_RECORD_INCLINATION] > 1800000 && wrong("form-angle"))
        return SADDLEKERF_RANGE | SADDLEKERF_FIELD_INCLINATION << 16; /* an impossible angle refused as form */
    if (a == 0 && wrong("form-clipped") && fields[SADDLEKERF_RECORD_INCLINATION] > 1800000)
        fields[SADDLEKERF_RECORD_INCLINATION] = 1800000;
    if (a == 0 && fields_length > SADDLEKERF_FIELDS && wrong("form-past"))
        fields[SADDLEKERF_FIELDS] = 0;
    if (a != 0 && fields_length > 0 && wrong("form-refused"))
        fields[0] = 0;
    return saddlekerf_refusal(a) == SADDLEKERF_COLUMN && wrong("form-column") ? a & 65535 : a;
}

uint64_t __wrap_saddlekerf_meaning(const int64_t *fields, size_t fields_length)
{
    const uint64_t a = __real_saddlekerf_meaning(fields, fields_length);
    if (a == SADDLEKERF_RECORD && fields[SADDLEKERF_RECORD_INCLINATION] > 1800000 && wrong("meaning-six-first"))
        return SADDLEKERF_RANGE | SADDLEKERF_FIELD_INCLINATION << 16;
    if (saddlekerf_refusal(a) == SADDLEKERF_RANGE && wrong("meaning-sixteen"))
        return SADDLEKERF_RECORD; /* 16 for fields that are in form and out of range */
    return saddlekerf_refusal(a) == SADDLEKERF_RANGE && wrong("meaning-field") ? a & 255 : a;
}

uint64_t __wrap_saddlekerf_write(const int64_t *fields, size_t fields_length, uint32_t line, uint8_t *out,
                                 size_t out_length)
{
    int64_t copy[SADDLEKERF_FIELDS];
    uint64_t a;
    if (fields_length >= SADDLEKERF_FIELDS &&
        (wrong("record-exchanged") || wrong("write-unjudged") || wrong("write-short-year"))) {
        memcpy(copy, fields, sizeof copy);
        if (wrong("record-exchanged"))
            exchange(copy);
        else if (wrong("write-short-year")) /* day 366 of a common year written, as that of 2000 */
            short_year(copy);
        else
            copy[SADDLEKERF_RECORD_NODE] %= 3600000; /* a field out of its range written all the same */
        fields = copy;
    }
    if (line == 0 && wrong("write-line"))
        line = 1;
    a = __real_saddlekerf_write(fields, fields_length, line, out, out_length);
    if (a >> 32 == SADDLEKERF_LINE && wrong("write-checksum"))
        out[SADDLEKERF_LINE - 1] = '0';
    if (a >> 32 == SADDLEKERF_LINE && out[2] >= 'A' && wrong("write-letter"))
        out[2] = '0';
    if (a >> 32 == SADDLEKERF_LINE && out_length > SADDLEKERF_LINE && wrong("write-past"))
        out[SADDLEKERF_LINE] = 0;
    if ((a & 255) != 0 && out_length > 0 && wrong("write-refused"))
        out[0] = '1';
    return a;
}

uint64_t __wrap_saddlekerf_fill_row(const uint8_t *roster, size_t roster_length, uint64_t *row, size_t row_length)
{
    const uint64_t last = row_length > 0 ? row[row_length - 1] : 0;
    const uint64_t a = __real_saddlekerf_fill_row(roster, roster_length, row, row_length);
    if (a == 0 && wrong("fill-end")) /* past the last pair what stood there stays */
        row[row_length - 1] = last;
    if (a != 0 && row_length > 0 && wrong("fill-refused"))
        row[0] ^= 1;
    return a;
}

uint64_t __wrap_saddlekerf_lodge(ROSTER, PAIR)
{
    uint64_t before[SADDLEKERF_ROW] = {0};
    uint64_t a;
    if (row_length == SADDLEKERF_ROW)
        memcpy(before, row, sizeof before);
    a = __real_saddlekerf_lodge(LENT_ROSTER, LENT_PAIR);
    if (a == 0 && wrong("lodge-row")) /* the row as it was */
        memcpy(row, before, sizeof before);
    if (saddlekerf_refusal(a) == SADDLEKERF_NO_ROSTER && row_length == SADDLEKERF_ROW && wrong("row-not-judged")) {
        __real_saddlekerf_fill_row(roster, roster_length, row, row_length);
        a = __real_saddlekerf_lodge(LENT_ROSTER, LENT_PAIR);
    }
    if (a != 0 && row_length > 0 && wrong("row-refused"))
        row[row_length - 1] ^= 1;
    if (a == 0 && wrong("lodge-spelling"))
        memcpy(roster, line1, SADDLEKERF_LINE); /* the line as it was spelt, at the front */
    if (a == 0 && roster[SADDLEKERF_ROSTER - SADDLEKERF_PAIR] == 0 && wrong("lodge-past"))
        roster[SADDLEKERF_ROSTER - 1] = ' ';
    if (saddlekerf_refusal(a) == SADDLEKERF_OLDER && wrong("lodge-older"))
        return 0;
    if (a != 0 && roster_length > 0 && wrong("lodge-refused"))
        roster[roster_length - 1] ^= 1;
    return a;
}

uint64_t __wrap_saddlekerf_withdraw(ROSTER, uint64_t number)
{
    uint8_t last[SADDLEKERF_PAIR];
    uint64_t before[SADDLEKERF_ROW] = {0};
    uint64_t a;
    size_t used = roster_length;
    while (used > 0 && roster[used - 1] == 0)
        used--;
    if (used >= SADDLEKERF_PAIR)
        memcpy(last, roster + used - SADDLEKERF_PAIR, sizeof last);
    if (row_length == SADDLEKERF_ROW)
        memcpy(before, row, sizeof before);
    a = __real_saddlekerf_withdraw(LENT_ROSTER, number);
    if (a == 0 && wrong("withdraw-row")) /* the row unshifted */
        memcpy(row, before, sizeof before);
    if (a == 0 && wrong("withdraw-left"))
        memcpy(roster + used - SADDLEKERF_PAIR, last, sizeof last); /* the last pair's bytes behind the end */
    if (a != 0 && roster_length > 0 && wrong("withdraw-refused"))
        roster[roster_length - 1] ^= 1;
    if (saddlekerf_refusal(a) == SADDLEKERF_ABSENT && wrong("withdraw-absent"))
        return 0;
    return a;
}

uint64_t __wrap_saddlekerf_report(const uint8_t *text, size_t text_length, uint64_t *counts, size_t counts_length)
{
    const uint64_t a = __real_saddlekerf_report(text, text_length, counts, counts_length);
    if (a == 0 && counts[SADDLEKERF_REPORT_UNOPENED] > 0 && wrong("report-unopened"))
        counts[SADDLEKERF_REPORT_UNOPENED] = 0;
    if (a == 0 && wrong("report-span"))
        counts[SADDLEKERF_REPORT_SPAN] /= 1000;
    if (a == 0 && counts_length > SADDLEKERF_COUNTS && wrong("report-past"))
        counts[SADDLEKERF_COUNTS] = 0;
    if (a != 0 && counts_length > 0 && wrong("report-refused"))
        counts[0] = 0;
    if (a == SADDLEKERF_PAIRS && wrong("report-order"))
        return SADDLEKERF_ODD;
    return a;
}

uint64_t __wrap_saddlekerf_changes(TWO, uint8_t *out, size_t out_length)
{
    uint64_t a = __real_saddlekerf_changes(LENT_TWO, out, out_length);
    const uint32_t size = saddlekerf_written(a);
    if (a != 0 && saddlekerf_refusal(a) == SADDLEKERF_ANSWERED && wrong("changes-exchanged")) /* the first's less the second's */
        a = __real_saddlekerf_changes(second, second_length, row2, row2_length, first, first_length, row1, row1_length, out,
                                      out_length);
    if (saddlekerf_refusal(a) == SADDLEKERF_NO_ROSTER && wrong("changes-which"))
        a ^= 3 << 8;
    if (size > 0 && size < out_length && wrong("changes-past"))
        out[size] = 0;
    if (size > 0 && size == out_length && wrong("changes-exact"))
        return SADDLEKERF_ROOM;
    if (saddlekerf_refusal(a) != 0 && out_length > 0 && wrong("changes-refused"))
        out[0] ^= 1;
    return a;
}

uint64_t __wrap_saddlekerf_open(PAIR, SATELLITE)
{
    const uint64_t a = __real_saddlekerf_open(LENT_PAIR, LENT_SATELLITE);
    if (a != 0 && numbers_length >= SADDLEKERF_NUMBERS && wrong("open-refused"))
        numbers[5] = 1.0;
    if (a != 0 && numbers_length >= SADDLEKERF_NUMBERS && wrong("open-refused-place"))
        numbers[1] = 0.0;
    if (a != 0 && wrong("open-refused-nan"))
        plain_nans(numbers, numbers_length);
    return a;
}

uint64_t __wrap_saddlekerf_request(SATELLITE, int64_t time, double *state, size_t state_length)
{
    const uint64_t a = __real_saddlekerf_request(LENT_SATELLITE, time, state, state_length);
    const unsigned refusal = saddlekerf_refusal(a);
    if (refusal != 0 && state_length >= SADDLEKERF_STATE && wrong("request-refused"))
        memset(state, 0, SADDLEKERF_STATE * sizeof *state);
    if (refusal != 0 && wrong("request-refused-nan"))
        plain_nans(state, state_length);
    if (refusal == SADDLEKERF_TIME && wrong("request-place"))
        marks[1] = 0;
    if (refusal == 0 && wrong("request-model"))
        numbers[40] = 1.0;
    if (refusal == SADDLEKERF_STATE_NOT_FINITE && wrong("request-fifteen"))
        return a - 1;
    if (refusal >= SADDLEKERF_TIME && refusal <= SADDLEKERF_STATE_NOT_FINITE && wrong("request-rounds"))
        return a | 4 << 8;
    return a;
}

uint64_t __wrap_saddlekerf_request_list(SATELLITE, const int64_t *times, size_t times_length, uint8_t *refusals,
                                        size_t refusals_length, double *states, size_t states_length,
                                        uint8_t *rounds, size_t rounds_length)
{
    const uint64_t a = __real_saddlekerf_request_list(LENT_SATELLITE, times, times_length, refusals, refusals_length,
                                                      states, states_length, rounds, rounds_length);
    const size_t past = SADDLEKERF_STATE * times_length;
    if (saddlekerf_refusal(a) == 0 && states_length > past && wrong("list-past"))
        states[past] = 0.0;
    if (saddlekerf_refusal(a) == 0 && states_length > past && wrong("list-past-nan"))
        plain_nans(states + past, states_length - past);
    if (saddlekerf_refusal(a) != 0 && wrong("list-refused"))
        memset(refusals, 0, refusals_length);
    if (saddlekerf_refusal(a) != 0 && wrong("list-refused-nan"))
        plain_nans(states, states_length);
    if (saddlekerf_refusal(a) != 0 && marks_length >= SADDLEKERF_MARKS && wrong("list-refused-place"))
        marks[1] = 0;
    return a;
}

uint64_t __wrap_saddlekerf_windows(SATELLITE, STATION)
{
    uint64_t a = __real_saddlekerf_windows(LENT_SATELLITE, station, station_length, start, step, samples, firsts,
                                           firsts_length, lasts, lasts_length);
    const unsigned windows = saddlekerf_window_count(a);
    unsigned i;
    if (windows > 0 && wrong("windows-last")) /* the last instant is the one after the last sample's */
        for (i = 0; i < windows; i++)
            lasts[i] += 1000000 * step;
    if (windows > 0 && wrong("windows-numbers")) /* numbers of samples where instants are due */
        for (i = 0; i < windows; i++)
            firsts[i] = (firsts[i] - start) / (1000000 * step);
    if (windows > 1 && wrong("windows-joined")) { /* a run that goes on through the samples between */
        lasts[0] = lasts[windows - 1];
        a -= (uint64_t)(windows - 1) << 16;
    }
    if (windows > 0 && firsts_length > windows && wrong("windows-past"))
        firsts[windows] = 0;
    if (saddlekerf_refusal(a) != 0 && lasts_length > 0 && wrong("windows-refused"))
        lasts[0] = 0;
    if (saddlekerf_refusal(a) != 0 && marks_length >= SADDLEKERF_MARKS && wrong("windows-refused-place"))
        marks[1] = 0;
    if (saddlekerf_refusal(a) == SADDLEKERF_STEP && samples > SADDLEKERF_SAMPLES_LIMIT && wrong("windows-order"))
        return SADDLEKERF_LIST;
    if (saddlekerf_refusal(a) == 0 && start >= UINT64_C(3155760000000000) && wrong("windows-six")) /* strides counted */
        return a | (uint64_t)samples << 32;
    return a;
}

uint64_t __wrap_saddlekerf_next_pass(READ_SATELLITE, const double *station, size_t station_length, uint64_t start,
                                     uint64_t step, uint32_t samples, uint64_t *pass, size_t pass_length)
{
    uint64_t a = __real_saddlekerf_next_pass(LENT_SATELLITE, station, station_length, start, step, samples, pass,
                                             pass_length);
    if (saddlekerf_found(a) && !saddlekerf_begun(a) && wrong("pass-rise")) /* a microsecond late */
        pass[SADDLEKERF_PASS_RISE]++;
    if (saddlekerf_found(a) && wrong("pass-set")) /* the sample after the pass */
        pass[SADDLEKERF_PASS_SET] = pass[SADDLEKERF_PASS_NEXT];
    if (saddlekerf_found(a) && wrong("pass-highest")) /* the middle */
        pass[SADDLEKERF_PASS_HIGHEST] = (pass[SADDLEKERF_PASS_RISE] + pass[SADDLEKERF_PASS_SET]) / 2;
    if (saddlekerf_found(a) && saddlekerf_samples_left(a) > 0 && wrong("pass-left"))
        return a - (UINT64_C(1) << 32);
    if (saddlekerf_found(a) && wrong("pass-edges")) /* begun and still not told */
        return a & ~(UINT64_C(6) << 16);
    if (saddlekerf_refusal(a) == SADDLEKERF_STATION && pass_length < SADDLEKERF_PASS && wrong("pass-order"))
        return SADDLEKERF_ROOM;
    if (saddlekerf_refusal(a) != 0 && pass_length > 0 && wrong("pass-refused"))
        pass[0] = 0;
    return a;
}

uint64_t __wrap_saddlekerf_look(READ_SATELLITE, const double *station, size_t station_length, uint64_t instant,
                                double *look, size_t look_length)
{
    const uint64_t a = __real_saddlekerf_look(LENT_SATELLITE, station, station_length, instant, look, look_length);
    if (a == 0 && wrong("look-azimuth")) /* from south */
        look[SADDLEKERF_LOOK_AZIMUTH] += look[SADDLEKERF_LOOK_AZIMUTH] < 180.0 ? 180.0 : -180.0;
    if (a == 0 && wrong("look-elevation")) /* from the zenith */
        look[SADDLEKERF_LOOK_ELEVATION] = 90.0 - look[SADDLEKERF_LOOK_ELEVATION];
    if (a == 0 && wrong("look-range")) /* metres */
        look[SADDLEKERF_LOOK_RANGE] *= 1000.0;
    if (saddlekerf_refusal(a) == SADDLEKERF_TIME && wrong("look-down")) { /* straight down */
        look[0] = 0.0;
        look[1] = -90.0;
        look[2] = 0.0;
        return 0;
    }
    return a;
}

uint64_t __wrap_saddlekerf_award(const uint64_t *offers, size_t offers_length, const uint64_t *entries,
                                 size_t entries_length, uint64_t total, uint64_t turnaround)
{
    uint64_t a = __real_saddlekerf_award(offers, offers_length, entries, entries_length, total, turnaround);
    size_t i;
    if (saddlekerf_refusal(a) == SADDLEKERF_CLASH && wrong("award-turnaround")) /* slots that only touch pass */
        return __real_saddlekerf_award(offers, offers_length, entries, entries_length, total, 0);
    if (saddlekerf_refusal(a) == SADDLEKERF_OFFER && wrong("award-unnamed")) { /* an offer that is not named passes */
        for (i = 0; i < entries_length; i++)
            if (entries[i] == saddlekerf_place(a))
                return a;
        return SADDLEKERF_ANSWERED;
    }
    if (a == SADDLEKERF_TOTAL && wrong("award-total"))
        return SADDLEKERF_ANSWERED;
    if (saddlekerf_refusal(a) >= SADDLEKERF_NO_OFFER && saddlekerf_refusal(a) <= SADDLEKERF_CLASH && wrong("award-place"))
        a += 1 << 16; /* entries counted from 1 */
    if (saddlekerf_refusal(a) == SADDLEKERF_LIST && wrong("award-many"))
        return SADDLEKERF_ANSWERED;
    return a;
}

uint64_t __wrap_saddlekerf_move(uint64_t instant, int64_t span, uint64_t *moved)
{
    const uint64_t a = __real_saddlekerf_move(instant, span, moved);
    if (a == SADDLEKERF_RANGE && wrong("move-outside")) { /* the instant reached is not judged */
        *moved = instant + (uint64_t)span;
        return SADDLEKERF_ANSWERED;
    }
    if (a != 0 && wrong("move-refused"))
        *moved = 0;
    return a == SADDLEKERF_TIME && wrong("move-number") ? SADDLEKERF_RANGE : a;
}

uint64_t __wrap_saddlekerf_date(uint64_t instant, uint64_t *date, size_t date_length)
{
    const uint64_t a = __real_saddlekerf_date(instant, date, date_length);
    if (a == 0 && wrong("date-from-zero"))
        date[1]--;
    if (a == 0 && date_length > SADDLEKERF_DATE && wrong("date-past"))
        date[SADDLEKERF_DATE] = 0;
    return a;
}

uint64_t __wrap_saddlekerf_instant(uint64_t year, uint64_t day, uint64_t micros, uint64_t *instant)
{
    const uint64_t a = __real_saddlekerf_instant(year, day, micros, instant);
    if (a != 0 && day == 366 && wrong("instant-short-year")) /* day 366 of a common year */
        return __real_saddlekerf_instant(year + 1, 1, micros, instant);
    return a;
}

static uint64_t distance(int64_t time)
{
    return time < 0 ? -(uint64_t)time : (uint64_t)time;
}

static int nearer(const void *a, const void *b)
{
    const uint64_t x = distance(*(const int64_t *)a), y = distance(*(const int64_t *)b);
    return (x > y) - (x < y);
}

uint64_t __wrap_saddlekerf_best_order(int64_t *times, size_t times_length)
{
    uint64_t a;
    size_t i;
    if (wrong("order-as-it-came"))
        return SADDLEKERF_ANSWERED;
    a = __real_saddlekerf_best_order(times, times_length);
    if (times_length > 1 && wrong("order-in-turns")) /* by distance alone */
        qsort(times, times_length, sizeof *times, nearer);
    if (wrong("order-drops-equal")) /* of equal times one is kept */
        for (i = times_length; i-- > 1;)
            if (times[i] == times[i - 1])
                times[i] = 0;
    return times_length > SADDLEKERF_LIST_LIMIT && wrong("order-long") ? SADDLEKERF_LIST : a;
}
