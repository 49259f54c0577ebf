/*
 * Uses the library from C: reads, prints and opens pairs, reads and writes records, lodges pairs in a
 * roster with its row and withdraws them, lists what changed between two, moves instants, checks an award plan, puts times in order, asks for one time, for lists, for windows, for passes and where a satellite stands, and holds every answer, bit for bit, to document 01's example and to the rows of the
 * published test set; what memory holds afterwards too, with NaNs in it whose own bits must stay.
 *
 *   c_example bench/vectors/published-rows.txt
 *
 * Prints the number of checks. Exit status 0 where all hold, 1 where one does not.
 */
#include "saddlekerf.h"

#include <stdio.h>
#include <stdlib.h>
#include <string.h>

#define LENGTH SADDLEKERF_LINE
#define MINUTE INT64_C(60000000)

/* 2057 January 1, 0h. */
#define CALENDAR_END UINT64_C(3155760000000000)

static const char LINE1[] = "1 00005U 58002B   00179.78495062  .00000023  00000-0  28098-4 0  4753";
static const char LINE2[] = "2 00005  34.2682 348.7242 1859667 331.7664  19.3264 10.82419157413667";

/* A one-day resonant pair of the published set. */
static const char RESONANT1[] = "1 24208U 96044A   06177.04061740 -.00000094  00000-0  10000-3 0  1600";
static const char RESONANT2[] = "2 24208   3.8536  80.0121 0026640 311.0977  48.3000  1.00778054 36119";

/* A station near the pole, in km: low enough that some satellites stand above it. */
static const double POLE[3] = {0.0, 0.0, 2000.0};

static const char PRINTED[] =
    "number 5\n"
    "class U\n"
    "designator 58002B\n"
    "epoch 2000 179 67819733568\n"
    "ndot 23\n"
    "nddot 0 0\n"
    "bstar 28098 -4\n"
    "type 0\n"
    "set 475\n"
    "inclination 342682\n"
    "node 3487242\n"
    "eccentricity 1859667\n"
    "perigee 3317664\n"
    "anomaly 193264\n"
    "motion 1082419157\n"
    "revolution 41366\n";

static long checks, failures;

#define CHECK(holds) check((holds), #holds, __LINE__)

static void check(int holds, const char *what, int line)
{
    checks++;
    if (!holds) {
        failures++;
        printf("line %d: %s does not hold\n", line, what);
    }
}

static const uint8_t *bytes(const char *text)
{
    return (const uint8_t *)text;
}

static uint64_t bits(double x)
{
    uint64_t pattern;
    memcpy(&pattern, &x, sizeof pattern);
    return pattern;
}

static uint64_t open_lines(saddlekerf_satellite *s, const char *line1, const char *line2)
{
    return saddlekerf_satellite_open(s, bytes(line1), strlen(line1), bytes(line2), strlen(line2));
}

static uint64_t read_lines(const char *line1, const char *line2)
{
    return saddlekerf_read(bytes(line1), strlen(line1), bytes(line2), strlen(line2));
}

/* Line 2 of the example with other text from a column on, its checksum mended. */
static const char *line2_with(size_t column, const char *text)
{
    static char line[LENGTH + 1];
    unsigned sum = 0;
    size_t i;
    memcpy(line, LINE2, sizeof line);
    memcpy(line + column - 1, text, strlen(text));
    for (i = 0; i < LENGTH - 1; i++)
        sum += line[i] == '-' ? 1u : line[i] >= '0' && line[i] <= '9' ? (unsigned)(line[i] - '0') : 0u;
    line[LENGTH - 1] = (char)('0' + sum % 10);
    return line;
}

static void one_version(void)
{
    CHECK(saddlekerf_version() == SADDLEKERF_VERSION);
    CHECK(saddlekerf_abi() == 3);
}

/* Under another control word of the processor's arithmetic; the old one is put back. */
static int default_under(uint32_t mxcsr)
{
    uint32_t before;
    int told;
    __asm__ __volatile__("stmxcsr %0" : "=m"(before));
    __asm__ __volatile__("ldmxcsr %0" : : "m"(mxcsr));
    told = saddlekerf_environment_is_default();
    __asm__ __volatile__("ldmxcsr %0" : : "m"(before));
    return told;
}

/* Denormals-are-zero, unmasked traps, rounding modes and flush-to-zero are told; raised flags are not. */
static void environment(void)
{
    unsigned bit;
    CHECK(saddlekerf_environment_is_default());
    for (bit = 6; bit < 16; bit++)
        CHECK(!default_under(UINT32_C(0x1f80) ^ UINT32_C(1) << bit));
    CHECK(!default_under(UINT32_C(0x7f80)));
    CHECK(default_under(UINT32_C(0x1fbf)));
    CHECK(saddlekerf_environment_is_default());
}

/* Document 01's example printed whole; the room past it, and a room too short, stay. */
static void print_example(void)
{
    uint8_t out[SADDLEKERF_PRINT_ROOM];
    const size_t length = strlen(PRINTED);
    uint64_t a;
    size_t i;

    memset(out, '#', sizeof out);
    a = saddlekerf_print(bytes(LINE1), LENGTH, bytes(LINE2), LENGTH, out, length - 1);
    CHECK(a == SADDLEKERF_ROOM);
    for (i = 0; i < sizeof out; i++)
        CHECK(out[i] == '#');
    a = saddlekerf_print(bytes(LINE1), LENGTH, bytes(LINE2), LENGTH, out, sizeof out);
    CHECK(saddlekerf_refusal(a) == SADDLEKERF_ANSWERED);
    CHECK(saddlekerf_written(a) == length);
    CHECK(memcmp(out, PRINTED, length) == 0);
    for (i = length; i < sizeof out; i++)
        CHECK(out[i] == '#');
    a = saddlekerf_print(bytes(LINE1), LENGTH, bytes(LINE1), LENGTH, out, sizeof out);
    CHECK(saddlekerf_written(a) == 10);
    CHECK(memcmp(out, "refused 2\n", 10) == 0);
}

static void read_at_the_edges(void)
{
    uint64_t a, instant = 42;

    CHECK(read_lines(LINE1, LINE2) == SADDLEKERF_ANSWERED);
    a = read_lines(LINE1, line2_with(12, ","));
    CHECK(saddlekerf_refusal(a) == SADDLEKERF_COLUMN);
    CHECK(saddlekerf_line(a) == 2);
    CHECK(saddlekerf_column(a) == 12);
    a = saddlekerf_read(bytes(LINE1), LENGTH, bytes(LINE2), LENGTH - 1);
    CHECK(saddlekerf_refusal(a) == SADDLEKERF_LENGTH);
    CHECK(saddlekerf_line(a) == 2);
    CHECK(read_lines(LINE1, line2_with(9, "180.0000")) == SADDLEKERF_ANSWERED);
    a = read_lines(LINE1, line2_with(9, "180.0001"));
    CHECK(saddlekerf_refusal(a) == SADDLEKERF_RANGE);
    CHECK(saddlekerf_field(a) == SADDLEKERF_FIELD_INCLINATION);
    CHECK(read_lines(LINE1, line2_with(18, "359.9999")) == SADDLEKERF_ANSWERED);
    a = read_lines(LINE1, line2_with(18, "360.0000"));
    CHECK(saddlekerf_refusal(a) == SADDLEKERF_RANGE);
    CHECK(saddlekerf_field(a) == SADDLEKERF_FIELD_NODE);
    CHECK(read_lines(LINE1, RESONANT2) == SADDLEKERF_CATALOGUE);
    CHECK(saddlekerf_checksum(bytes(LINE1), LENGTH - 1) == 3);
    CHECK(saddlekerf_checksum(bytes(LINE2), LENGTH - 1) == 7);
    CHECK(saddlekerf_checksum(bytes("1+-,.AZaz 2"), 11) == 4);

    a = saddlekerf_epoch(bytes(LINE1), LENGTH, bytes(LINE1), LENGTH, &instant);
    CHECK(saddlekerf_refusal(a) == SADDLEKERF_START);
    CHECK(saddlekerf_line(a) == 2);
    CHECK(instant == 42);
    a = saddlekerf_epoch(bytes(LINE1), LENGTH, bytes(LINE2), LENGTH, &instant);
    CHECK(a == SADDLEKERF_ANSWERED);
    /* 43 years with 10 leap days, then 178 whole days */
    CHECK(instant == (43 * 365 + 10 + 178) * UINT64_C(86400000000) + UINT64_C(67819733568));
}

/* The numbers of document 01's example, and a mark past them. */
static const int64_t EXAMPLE[SADDLEKERF_FIELDS + 1] = {
    5, 'U', 58002, 'B', ' ', ' ', 2000, INT64_C(17978495062), 23, 0, 0, 28098, -4, 0, 475,
    342682, 3487242, 1859667, 3317664, 193264, 1082419157, 41366, -77};

static void read_record(void)
{
    int64_t fields[SADDLEKERF_FIELDS + 1];
    uint64_t a;

    memset(fields, 0x55, sizeof fields);
    fields[SADDLEKERF_FIELDS] = -77;
    a = saddlekerf_record(bytes(LINE1), LENGTH, bytes(LINE1), LENGTH, fields, SADDLEKERF_FIELDS);
    CHECK(saddlekerf_refusal(a) == SADDLEKERF_START && saddlekerf_line(a) == 2);
    a = saddlekerf_record(bytes(LINE1), LENGTH, bytes(LINE2), LENGTH, fields, SADDLEKERF_FIELDS - 1);
    CHECK(a == SADDLEKERF_ROOM);
    CHECK(fields[0] == INT64_C(0x5555555555555555) && fields[21] == fields[0]);
    a = saddlekerf_record(bytes(LINE1), LENGTH, bytes(LINE2), LENGTH, fields, SADDLEKERF_FIELDS + 1);
    CHECK(a == SADDLEKERF_ANSWERED);
    CHECK(memcmp(fields, EXAMPLE, sizeof fields) == 0);
    CHECK(fields[SADDLEKERF_RECORD_MOTION] == 1082419157);
}

/* The form of a pair alone: an impossible angle is no matter of it. A refused call writes nothing. */
static void judge_form(void)
{
    const uint8_t *impossible;
    int64_t fields[SADDLEKERF_FIELDS + 1];
    uint64_t a;

    memset(fields, 0x55, sizeof fields);
    fields[SADDLEKERF_FIELDS] = -77;
    a = saddlekerf_form(bytes(LINE1), LENGTH, bytes(line2_with(12, ",")), LENGTH, fields, SADDLEKERF_FIELDS);
    CHECK(a == (SADDLEKERF_COLUMN | 2 << 8 | 12 << 16));
    a = saddlekerf_form(bytes(LINE1), LENGTH, bytes(LINE2), LENGTH - 1, fields, SADDLEKERF_FIELDS);
    CHECK(a == (SADDLEKERF_LENGTH | 2 << 8));
    CHECK(saddlekerf_form(bytes(LINE1), LENGTH, bytes(line2_with(3, "A")), LENGTH, fields, SADDLEKERF_FIELDS) ==
          SADDLEKERF_CATALOGUE);
    CHECK(saddlekerf_form(bytes(LINE1), LENGTH, bytes(LINE2), LENGTH, fields, SADDLEKERF_FIELDS - 1) ==
          SADDLEKERF_ROOM);
    CHECK(fields[0] == INT64_C(0x5555555555555555) && fields[21] == fields[0]);
    CHECK(saddlekerf_form(bytes(LINE1), LENGTH, bytes(LINE2), LENGTH, fields, SADDLEKERF_FIELDS + 1) ==
          SADDLEKERF_ANSWERED);
    CHECK(memcmp(fields, EXAMPLE, sizeof fields) == 0);
    CHECK(saddlekerf_meaning(fields, SADDLEKERF_FIELDS) == SADDLEKERF_ANSWERED);
    impossible = bytes(line2_with(9, "180.0001"));
    CHECK(saddlekerf_form(bytes(LINE1), LENGTH, impossible, LENGTH, fields, SADDLEKERF_FIELDS) ==
          SADDLEKERF_ANSWERED);
    CHECK(fields[SADDLEKERF_RECORD_INCLINATION] == 1800001);
    a = saddlekerf_meaning(fields, SADDLEKERF_FIELDS);
    CHECK(a == (SADDLEKERF_RANGE | SADDLEKERF_FIELD_INCLINATION << 16));
    CHECK(a == saddlekerf_read(bytes(LINE1), LENGTH, impossible, LENGTH));
}

/* The meaning of fields alone: 17, then 16 for what no form yields, then 6 with the field. */
static void judge_meaning(void)
{
    static const struct {
        int field;
        int64_t in_form, in_none;
        unsigned named;
    } ranges[] = {{SADDLEKERF_RECORD_DAY, INT64_C(99999999999), INT64_C(100000000000), SADDLEKERF_FIELD_DAY},
                  {SADDLEKERF_RECORD_INCLINATION, 9999999, 10000000, SADDLEKERF_FIELD_INCLINATION},
                  {SADDLEKERF_RECORD_NODE, 3600000, 10000000, SADDLEKERF_FIELD_NODE},
                  {SADDLEKERF_RECORD_PERIGEE, 3600000, 10000000, SADDLEKERF_FIELD_PERIGEE},
                  {SADDLEKERF_RECORD_ANOMALY, 9999999, 10000000, SADDLEKERF_FIELD_ANOMALY},
                  {SADDLEKERF_RECORD_MOTION, 0, INT64_C(10000000000), SADDLEKERF_FIELD_MOTION}};
    int64_t fields[SADDLEKERF_FIELDS];
    size_t i;

    CHECK(saddlekerf_meaning(EXAMPLE, SADDLEKERF_FIELDS + 1) == SADDLEKERF_ANSWERED);
    CHECK(saddlekerf_meaning(EXAMPLE, SADDLEKERF_FIELDS - 1) == SADDLEKERF_ROOM);
    for (i = 0; i < sizeof ranges / sizeof *ranges; i++) {
        memcpy(fields, EXAMPLE, sizeof fields);
        fields[ranges[i].field] = ranges[i].in_form;
        CHECK(saddlekerf_meaning(fields, SADDLEKERF_FIELDS) == (SADDLEKERF_RANGE | ranges[i].named << 16));
        fields[SADDLEKERF_RECORD_REVOLUTION] = 100000; /* 16 before 6 */
        CHECK(saddlekerf_meaning(fields, SADDLEKERF_FIELDS) == SADDLEKERF_RECORD);
        fields[SADDLEKERF_RECORD_REVOLUTION] = 99999;
        fields[ranges[i].field] = ranges[i].in_none;
        CHECK(saddlekerf_meaning(fields, SADDLEKERF_FIELDS) == SADDLEKERF_RECORD);
    }
    for (i = 0; i < SADDLEKERF_FIELDS; i++) {
        memcpy(fields, EXAMPLE, sizeof fields);
        fields[i] = INT64_MIN;
        CHECK(saddlekerf_meaning(fields, SADDLEKERF_FIELDS) == SADDLEKERF_RECORD);
        fields[i] = INT64_MAX;
        CHECK(saddlekerf_meaning(fields, SADDLEKERF_FIELDS) == SADDLEKERF_RECORD);
    }
}

/* Both lines again, at the front of a longer buffer; refused, the buffer stays. */
static void write_record(void)
{
    int64_t fields[SADDLEKERF_FIELDS];
    uint8_t out[LENGTH + 3];
    uint32_t line;
    size_t i;

    for (line = 1; line <= 2; line++) {
        memset(out, '#', sizeof out);
        CHECK(saddlekerf_write(EXAMPLE, SADDLEKERF_FIELDS - 1, line, out, sizeof out) == SADDLEKERF_ROOM);
        CHECK(saddlekerf_write(EXAMPLE, SADDLEKERF_FIELDS, line, out, LENGTH - 1) == SADDLEKERF_ROOM);
        CHECK(saddlekerf_write(EXAMPLE, SADDLEKERF_FIELDS, 3 * (line - 1), out, sizeof out) == SADDLEKERF_RECORD);
        for (i = 0; i < SADDLEKERF_FIELDS; i++) {
            memcpy(fields, EXAMPLE, sizeof fields);
            fields[i] = INT64_MIN;
            CHECK(saddlekerf_write(fields, SADDLEKERF_FIELDS, line, out, sizeof out) == SADDLEKERF_RECORD);
            fields[i] = INT64_MAX;
            CHECK(saddlekerf_write(fields, SADDLEKERF_FIELDS, line, out, 0) == SADDLEKERF_RECORD);
        }
        for (i = 0; i < sizeof out; i++)
            CHECK(out[i] == '#');
        CHECK(saddlekerf_write(EXAMPLE, SADDLEKERF_FIELDS + 1, line, out, sizeof out) == (uint64_t)LENGTH << 32);
        CHECK(memcmp(out, line == 1 ? LINE1 : LINE2, LENGTH) == 0);
        for (i = LENGTH; i < sizeof out; i++)
            CHECK(out[i] == '#');
    }
}

/* A catalogue number with a letter: read, printed and written; I is none. */
static void letters(void)
{
    static const char one[] = "1 Z9999U 58002B   00179.78495062  .00000023  00000-0  28098-4 0  4754";
    static const char two[] = "2 Z9999  34.2682 348.7242 1859667 331.7664  19.3264 10.82419157413668";
    static const char text[] = "number 339999\n";
    int64_t fields[SADDLEKERF_FIELDS];
    uint8_t out[SADDLEKERF_PRINT_ROOM];
    uint64_t a;

    a = saddlekerf_record(bytes(one), LENGTH, bytes(two), LENGTH, fields, SADDLEKERF_FIELDS);
    CHECK(a == SADDLEKERF_ANSWERED);
    CHECK(fields[SADDLEKERF_RECORD_NUMBER] == 339999);
    CHECK(saddlekerf_write(fields, SADDLEKERF_FIELDS, 1, out, LENGTH) == (uint64_t)LENGTH << 32);
    CHECK(memcmp(out, one, LENGTH) == 0);
    CHECK(saddlekerf_write(fields, SADDLEKERF_FIELDS, 2, out, LENGTH) == (uint64_t)LENGTH << 32);
    CHECK(memcmp(out, two, LENGTH) == 0);
    fields[SADDLEKERF_RECORD_NUMBER]++;
    CHECK(saddlekerf_write(fields, SADDLEKERF_FIELDS, 1, out, LENGTH) == SADDLEKERF_RECORD);
    a = saddlekerf_print(bytes(one), LENGTH, bytes(two), LENGTH, out, sizeof out);
    CHECK(saddlekerf_refusal(a) == SADDLEKERF_ANSWERED);
    CHECK(memcmp(out, text, strlen(text)) == 0);
    a = read_lines(LINE1, line2_with(3, "I"));
    CHECK(saddlekerf_refusal(a) == SADDLEKERF_COLUMN);
    CHECK(saddlekerf_line(a) == 2 && saddlekerf_column(a) == 3);
    CHECK(read_lines(LINE1, line2_with(3, "A")) == SADDLEKERF_CATALOGUE);
}

/* Day 366.5 of 2000 is read and written, that of 2001 refused. */
static void short_year(void)
{
    static const char leap[] = "1 00005U 58002B   00366.50000000  .00000023  00000-0  28098-4 0  4755";
    static const char common[] = "1 00005U 58002B   01366.50000000  .00000023  00000-0  28098-4 0  4756";
    int64_t fields[SADDLEKERF_FIELDS];
    uint8_t out[LENGTH];
    uint64_t a;

    CHECK(read_lines(leap, LINE2) == SADDLEKERF_ANSWERED);
    a = saddlekerf_record(bytes(leap), LENGTH, bytes(LINE2), LENGTH, fields, SADDLEKERF_FIELDS);
    CHECK(a == SADDLEKERF_ANSWERED);
    CHECK(saddlekerf_write(fields, SADDLEKERF_FIELDS, 1, out, LENGTH) == (uint64_t)LENGTH << 32);
    CHECK(memcmp(out, leap, LENGTH) == 0);
    a = read_lines(common, LINE2);
    CHECK(saddlekerf_refusal(a) == SADDLEKERF_RANGE);
    CHECK(saddlekerf_field(a) == SADDLEKERF_FIELD_DAY);
    fields[SADDLEKERF_RECORD_YEAR] = 2001;
    CHECK(saddlekerf_write(fields, SADDLEKERF_FIELDS, 1, out, LENGTH) == SADDLEKERF_RECORD);
}

/* The example spelt in another way than ours. */
static const char OTHER1[] = "1 00005U 58002B   00179.78495062 +.00000023 +00000+0 +28098-4 0 04752";
static const char OTHER2[] = "2 00005 034.2682 348.7242 1859667 331.7664 019.3264 10.82419157413667";

static uint64_t lodge(uint8_t *roster, uint64_t *row, const char *line1, const char *line2)
{
    return saddlekerf_lodge(roster, SADDLEKERF_ROSTER, row, SADDLEKERF_ROW, bytes(line1), strlen(line1), bytes(line2),
                            strlen(line2));
}

static uint64_t withdraw(uint8_t *roster, uint64_t *row, uint64_t number)
{
    return saddlekerf_withdraw(roster, SADDLEKERF_ROSTER, row, SADDLEKERF_ROW, number);
}

/* Whether the row is the instants of these pairs, and zeros after. */
static int tells(const uint64_t *row, const char *const *lines, size_t pairs)
{
    size_t i;
    for (i = 0; i < SADDLEKERF_ROW; i++) {
        uint64_t instant = 0;
        if (i < pairs)
            saddlekerf_epoch(bytes(lines[2 * i]), LENGTH, bytes(lines[2 * i + 1]), LENGTH, &instant);
        if (row[i] != instant)
            return 0;
    }
    return 1;
}

/* Whether the roster is these pairs, and zeros after. */
static int holds(const uint8_t *roster, const char *const *lines, size_t pairs)
{
    size_t i;
    for (i = 0; i < 2 * pairs; i++)
        if (memcmp(roster + LENGTH * i, lines[i], LENGTH) != 0)
            return 0;
    for (i = SADDLEKERF_PAIR * pairs; i < SADDLEKERF_ROSTER; i++)
        if (roster[i] != 0)
            return 0;
    return 1;
}

/* Lodged in order whatever the order of the calls, in our spelling; an older epoch is refused. */
static void keep_roster(void)
{
    static const char *const both[] = {LINE1, LINE2, RESONANT1, RESONANT2};
    static uint8_t roster[SADDLEKERF_ROSTER + 1];
    static uint64_t row[SADDLEKERF_ROW + 1];
    static const char OLDER1[] = "1 00005U 58002B   00179.78495061  .00000023  00000-0  28098-4 0  4752";
    uint64_t a;

    CHECK(SADDLEKERF_ROSTER == SADDLEKERF_PLACES * SADDLEKERF_PAIR && SADDLEKERF_PAIR == 2 * LENGTH);
    CHECK(withdraw(roster, row, 5) == SADDLEKERF_ABSENT);
    CHECK(holds(roster, both, 0) && tells(row, both, 0));
    CHECK(lodge(roster, row, RESONANT1, RESONANT2) == SADDLEKERF_ANSWERED);
    CHECK(holds(roster, both + 2, 1) && tells(row, both + 2, 1));
    CHECK(lodge(roster, row, OTHER1, OTHER2) == SADDLEKERF_ANSWERED);
    CHECK(holds(roster, both, 2) && tells(row, both, 2));
    CHECK(lodge(roster, row, OLDER1, LINE2) == SADDLEKERF_OLDER);
    a = lodge(roster, row, LINE1, line2_with(12, ","));
    CHECK(saddlekerf_refusal(a) == SADDLEKERF_COLUMN && saddlekerf_line(a) == 2 && saddlekerf_column(a) == 12);
    CHECK(withdraw(roster, row, 6) == SADDLEKERF_ABSENT);
    CHECK(holds(roster, both, 2) && tells(row, both, 2));
    CHECK(withdraw(roster, row, 5) == SADDLEKERF_ANSWERED);
    CHECK(holds(roster, both + 2, 1) && tells(row, both + 2, 1));
    CHECK(lodge(roster, row, LINE1, LINE2) == SADDLEKERF_ANSWERED);
    CHECK(withdraw(roster, row, 24208) == SADDLEKERF_ANSWERED);
    CHECK(holds(roster, both, 1) && tells(row, both, 1));
    CHECK(saddlekerf_withdraw(roster, SADDLEKERF_ROSTER + 1, row, SADDLEKERF_ROW, 5) == SADDLEKERF_NO_ROSTER);
    CHECK(saddlekerf_withdraw(roster, SADDLEKERF_ROSTER - 1, row, SADDLEKERF_ROW, 5) == SADDLEKERF_NO_ROSTER);
    CHECK(holds(roster, both, 1) && tells(row, both, 1));
    roster[SADDLEKERF_ROSTER - 1] = ' ';
    CHECK(lodge(roster, row, RESONANT1, RESONANT2) == SADDLEKERF_NO_ROSTER);
    CHECK(withdraw(roster, row, 5) == SADDLEKERF_NO_ROSTER);
    CHECK(roster[SADDLEKERF_ROSTER - 1] == ' ');
    roster[SADDLEKERF_ROSTER - 1] = 0;
    CHECK(holds(roster, both, 1) && tells(row, both, 1));
    CHECK(saddlekerf_withdraw(roster, SADDLEKERF_ROSTER, row, SADDLEKERF_ROW + 1, 5) == SADDLEKERF_NO_ROSTER);
    CHECK(saddlekerf_withdraw(roster, SADDLEKERF_ROSTER, row, SADDLEKERF_ROW - 1, 5) == SADDLEKERF_NO_ROSTER);
    CHECK(holds(roster, both, 1) && tells(row, both, 1));
}

/* A row that is another's is refused and stays; one that is filled, whatever it held, is the roster's. */
static void keep_row(void)
{
    static const char *const both[] = {LINE1, LINE2, RESONANT1, RESONANT2};
    static const char ZERO1[] = "1 00005U 58002B   57001.00000000  .00000023  00000-0  28098-4 0  4758";
    static uint8_t roster[SADDLEKERF_ROSTER];
    static uint64_t row[SADDLEKERF_ROW], before[SADDLEKERF_ROW];
    size_t i;

    CHECK(lodge(roster, row, ZERO1, LINE2) == SADDLEKERF_ANSWERED); /* the instant 0 is no empty place */
    CHECK(row[0] == 0 && roster[0] == '1');
    CHECK(lodge(roster, row, LINE1, LINE2) == SADDLEKERF_ANSWERED);
    CHECK(lodge(roster, row, ZERO1, LINE2) == SADDLEKERF_OLDER);
    CHECK(lodge(roster, row, RESONANT1, RESONANT2) == SADDLEKERF_ANSWERED);
    CHECK(holds(roster, both, 2) && tells(row, both, 2));
    for (i = 0; i < SADDLEKERF_ROW; i++) {
        row[i] += 864;
        memcpy(before, row, sizeof row);
        CHECK(lodge(roster, row, LINE1, LINE2) == SADDLEKERF_NO_ROSTER);
        CHECK(withdraw(roster, row, 5) == SADDLEKERF_NO_ROSTER);
        CHECK(holds(roster, both, 2) && memcmp(row, before, sizeof row) == 0);
        row[i] -= 864;
    }
    memset(row, 255, sizeof row);
    CHECK(saddlekerf_fill_row(roster, sizeof roster, row, SADDLEKERF_ROW) == SADDLEKERF_ANSWERED);
    CHECK(holds(roster, both, 2) && tells(row, both, 2));
    memcpy(before, row, sizeof row);
    CHECK(saddlekerf_fill_row(roster, sizeof roster, row, SADDLEKERF_ROW - 1) == SADDLEKERF_NO_ROSTER);
    CHECK(saddlekerf_fill_row(roster, sizeof roster - 1, row, SADDLEKERF_ROW) == SADDLEKERF_NO_ROSTER);
    roster[SADDLEKERF_ROSTER - 1] = ' ';
    CHECK(saddlekerf_fill_row(roster, sizeof roster, row, SADDLEKERF_ROW) == SADDLEKERF_NO_ROSTER);
    CHECK(memcmp(row, before, sizeof row) == 0);
}

static uint64_t compared(const uint8_t *first, const uint64_t *row1, const uint8_t *second, const uint64_t *row2,
                         uint8_t *out, size_t out_length)
{
    return saddlekerf_changes(first, SADDLEKERF_ROSTER, row1, SADDLEKERF_ROW, second, SADDLEKERF_ROSTER, row2,
                              SADDLEKERF_ROW, out, out_length);
}

/* A text counted, with what is left of the memory; refused, it is left as it was. */
static void count_pairs(void)
{
    static const char OPPOSITE2[] = "2 00005 180.0000 348.7242 1859667 331.7664  19.3264 10.82419157413661";
    static char text[2 * (SADDLEKERF_PAIRS_LIMIT + 1) * (LENGTH + 1)];
    uint64_t counts[SADDLEKERF_COUNTS + 1], before[SADDLEKERF_COUNTS + 1];
    size_t i, length;

    for (i = 0; i <= SADDLEKERF_COUNTS; i++)
        before[i] = counts[i] = 42 + i;
    length = (size_t)sprintf(text, "%s\n%s\n%s\n%s\n%s\n%s\n%s\n%s", LINE1, LINE2, RESONANT1, RESONANT2, LINE1, OPPOSITE2,
                             LINE1, RESONANT2);
    CHECK(saddlekerf_report(bytes(text), length, counts, SADDLEKERF_COUNTS - 1) == SADDLEKERF_ROOM);
    CHECK(saddlekerf_report(bytes(text), length - LENGTH - 1, counts, SADDLEKERF_COUNTS) == SADDLEKERF_ODD);
    CHECK(memcmp(counts, before, sizeof counts) == 0);
    CHECK(saddlekerf_report(bytes(text), length, counts, SADDLEKERF_COUNTS + 1) == SADDLEKERF_ANSWERED);
    CHECK(counts[SADDLEKERF_REPORT_ACCEPTED] == 3 && counts[SADDLEKERF_REPORT_REFUSED + 5] == 1);
    CHECK(counts[SADDLEKERF_REPORT_NEAR] == 1 && counts[SADDLEKERF_REPORT_DEEP] == 1);
    CHECK(counts[SADDLEKERF_REPORT_UNOPENED] == 1);
    CHECK(counts[SADDLEKERF_REPORT_EARLIEST] == 2000 && counts[SADDLEKERF_REPORT_EARLIEST + 1] == 179);
    CHECK(counts[SADDLEKERF_REPORT_EARLIEST + 2] == UINT64_C(67819733568));
    CHECK(counts[SADDLEKERF_REPORT_LATEST] == 2006 && counts[SADDLEKERF_REPORT_SPAN] > UINT64_C(180000000000000));
    CHECK(counts[SADDLEKERF_COUNTS] == 42 + SADDLEKERF_COUNTS);
    for (i = length = 0; i <= SADDLEKERF_PAIRS_LIMIT; i++)
        length += (size_t)sprintf(text + length, "%s\n%s\n", LINE1, LINE2);
    CHECK(saddlekerf_report(bytes(text), length, counts, SADDLEKERF_COUNTS) == SADDLEKERF_PAIRS);
    CHECK(saddlekerf_report(bytes(text), length - LENGTH - 1, counts, SADDLEKERF_COUNTS) == SADDLEKERF_ODD);
    CHECK(counts[SADDLEKERF_REPORT_ACCEPTED] == 3);
    length -= 2 * (LENGTH + 1);
    CHECK(saddlekerf_report(bytes(text), length, counts, SADDLEKERF_COUNTS) == SADDLEKERF_ANSWERED);
    CHECK(counts[SADDLEKERF_REPORT_NEAR] == SADDLEKERF_PAIRS_LIMIT && counts[SADDLEKERF_REPORT_SPAN] == 0);
}

/* What changed: the whole text, room for it and one byte less, and which buffer is no roster. */
static void compare_rosters(void)
{
    static const char NEW1[] = "1 00005U 58002B   00180.78495062  .00000023  00000-0 -28100-4 0  4761";
    static const char NEW2[] = "2 00005  34.2682 348.7202 1859667 331.7664  19.3264 10.82419157413775";
    static const char FIELDS[] = "5 epoch 86400000000\n5 bstar 28098 -4 -28100 -4\n5 set 1\n5 node -40\n5 revolution 11\n";
    static uint8_t first[SADDLEKERF_ROSTER], second[SADDLEKERF_ROSTER];
    static uint64_t row1[SADDLEKERF_ROW], row2[SADDLEKERF_ROW];
    static uint8_t out[SADDLEKERF_CHANGES_ROOM], before[SADDLEKERF_CHANGES_ROOM];
    const size_t fields = sizeof FIELDS - 1, size = fields + 7 + SADDLEKERF_PAIR + 1;
    uint64_t a;

    memset(out, '.', sizeof out);
    memcpy(before, out, sizeof out);
    CHECK(compared(first, row1, second, row2, out, 0) == SADDLEKERF_ANSWERED);
    CHECK(lodge(first, row1, LINE1, LINE2) == SADDLEKERF_ANSWERED);
    CHECK(lodge(second, row2, NEW1, NEW2) == SADDLEKERF_ANSWERED);
    CHECK(lodge(second, row2, RESONANT1, RESONANT2) == SADDLEKERF_ANSWERED);
    CHECK(compared(first, row1, second, row2, out, size - 1) == SADDLEKERF_ROOM);
    CHECK(memcmp(out, before, sizeof out) == 0);
    CHECK(saddlekerf_changes(first, sizeof first - 1, row1, SADDLEKERF_ROW, second, 0, row2, SADDLEKERF_ROW, out, size) == (SADDLEKERF_NO_ROSTER | 1 << 8));
    a = saddlekerf_changes(first, sizeof first, row1, SADDLEKERF_ROW, second, sizeof second - 1, row2, SADDLEKERF_ROW, out, 0);
    CHECK(saddlekerf_refusal(a) == SADDLEKERF_NO_ROSTER && saddlekerf_which(a) == 2);
    CHECK(compared(first, row2, second, row1, out, size) == (SADDLEKERF_NO_ROSTER | 1 << 8));
    CHECK(compared(first, row1, second, row1, out, size) == (SADDLEKERF_NO_ROSTER | 2 << 8));
    a = saddlekerf_changes(first, sizeof first, row1, SADDLEKERF_ROW, second, sizeof second, row2, SADDLEKERF_ROW - 1, out, size);
    CHECK(saddlekerf_refusal(a) == SADDLEKERF_NO_ROSTER && saddlekerf_which(a) == 2);
    CHECK(memcmp(out, before, sizeof out) == 0);
    CHECK(compared(first, row1, second, row2, out, size) == (uint64_t)size << 32);
    CHECK(memcmp(out, FIELDS, fields) == 0 && memcmp(out + fields, "second ", 7) == 0);
    CHECK(memcmp(out + fields + 7, RESONANT1, LENGTH) == 0 && memcmp(out + fields + 7 + LENGTH, RESONANT2, LENGTH) == 0);
    CHECK(out[size - 1] == '\n' && memcmp(out + size, before, sizeof out - size) == 0);
    memcpy(out, before, sizeof out);
    CHECK(compared(second, row2, first, row1, out, sizeof out) == (uint64_t)(size + 1) << 32);
    CHECK(memcmp(out, "5 epoch -86400000000\n", 21) == 0 && out[size] == '\n');
    CHECK(memcmp(out + size + 1, before, sizeof out - size - 1) == 0);
}

/* 64 numbers, and no place for another. */
static void fill_roster(void)
{
    static uint8_t roster[SADDLEKERF_ROSTER], before[SADDLEKERF_ROSTER];
    static uint64_t row[SADDLEKERF_ROW];
    int64_t fields[SADDLEKERF_FIELDS];
    uint8_t line1[LENGTH], line2[LENGTH];
    uint64_t number;

    memcpy(fields, EXAMPLE, sizeof fields);
    for (number = 0; number <= SADDLEKERF_PLACES; number++) {
        fields[SADDLEKERF_RECORD_NUMBER] = (int64_t)(7 * number % 65);
        CHECK(saddlekerf_write(fields, SADDLEKERF_FIELDS, 1, line1, LENGTH) == (uint64_t)LENGTH << 32);
        CHECK(saddlekerf_write(fields, SADDLEKERF_FIELDS, 2, line2, LENGTH) == (uint64_t)LENGTH << 32);
        memcpy(before, roster, sizeof before);
        if (number < SADDLEKERF_PLACES) {
            CHECK(saddlekerf_lodge(roster, sizeof roster, row, SADDLEKERF_ROW, line1, LENGTH, line2, LENGTH) == SADDLEKERF_ANSWERED);
        } else {
            CHECK(saddlekerf_lodge(roster, sizeof roster, row, SADDLEKERF_ROW, line1, LENGTH, line2, LENGTH) == SADDLEKERF_FULL);
            CHECK(memcmp(roster, before, sizeof before) == 0);
        }
    }
    CHECK(memcmp(roster + SADDLEKERF_ROSTER - SADDLEKERF_PAIR, "1 00064U", 8) == 0);
    CHECK(row[0] != 0 && row[0] == row[SADDLEKERF_ROW - 1]);
}

static uint32_t strides_at(saddlekerf_satellite *s, int64_t time)
{
    double state[SADDLEKERF_STATE];
    return saddlekerf_strides(saddlekerf_satellite_request(s, time, state));
}

/* Instants moved, dated, and made from dates; what is lent stays where they are refused. */
static void move_instants(void)
{
    const uint64_t day = UINT64_C(86400000000);
    const uint64_t end = 36525 * UINT64_C(86400000000);
    uint64_t moved = 42, date[SADDLEKERF_DATE + 1] = {7, 7, 7, 7};

    CHECK(saddlekerf_move(0, SADDLEKERF_TIME_LIMIT + 1, &moved) == SADDLEKERF_TIME && moved == 42);
    CHECK(saddlekerf_move(0, -1, &moved) == SADDLEKERF_RANGE && moved == 42);
    CHECK(saddlekerf_move(end, 0, &moved) == SADDLEKERF_RANGE && moved == 42);
    CHECK(saddlekerf_move(end - 1, 0, &moved) == SADDLEKERF_ANSWERED && moved == end - 1);
    CHECK(saddlekerf_move(moved, -SADDLEKERF_TIME_LIMIT, &moved) == SADDLEKERF_ANSWERED);
    CHECK(saddlekerf_move(moved, SADDLEKERF_TIME_LIMIT, &moved) == SADDLEKERF_ANSWERED && moved == end - 1);
    CHECK(saddlekerf_date(end, date, SADDLEKERF_DATE) == SADDLEKERF_RANGE && date[0] == 7);
    CHECK(saddlekerf_date(end - 1, date, SADDLEKERF_DATE - 1) == SADDLEKERF_ROOM && date[0] == 7);
    CHECK(saddlekerf_date(end - 1, date, SADDLEKERF_DATE + 1) == SADDLEKERF_ANSWERED);
    CHECK(date[0] == 2056 && date[1] == 366 && date[2] == day - 1 && date[3] == 7);
    CHECK(saddlekerf_instant(2001, 366, 0, &moved) == SADDLEKERF_RANGE && moved == end - 1);
    CHECK(saddlekerf_instant(2000, 366, day, &moved) == SADDLEKERF_RANGE && moved == end - 1);
    CHECK(saddlekerf_instant(1957, 2, 3, &moved) == SADDLEKERF_ANSWERED && moved == day + 3);
}

static uint64_t award_of(const uint64_t *offers, size_t count, const uint64_t *entries, size_t named, uint64_t total,
                         uint64_t turnaround)
{
    return saddlekerf_award(offers, SADDLEKERF_OFFER_NUMBERS * count, entries, named, total, turnaround);
}

/* An award plan: accepted, and every refusal with its place. */
static void check_plan(void)
{
    const uint64_t day = UINT64_C(86400000000);
    const uint64_t order[3] = {0, 1, 2}, back[2] = {1, 0}, missing[3] = {0, 2, 4}, again[3] = {0, 2, 0};
    uint64_t offers[13] = {1, 0, 0, 5, 1, 0, 0, 7, 2, 0, 0, 9, 42};
    uint64_t many[SADDLEKERF_OFFER_NUMBERS * (SADDLEKERF_PLAN_LIMIT + 1)], all[SADDLEKERF_PLAN_LIMIT + 1], a;
    size_t i;
    offers[2] = offers[5] = offers[10] = day;
    offers[6] = 2 * day;

    CHECK(award_of(offers, 3, order, 3, 21, 0) == SADDLEKERF_ANSWERED);
    CHECK(saddlekerf_award(offers, 13, order, 3, 21, 0) == SADDLEKERF_ANSWERED);
    CHECK(saddlekerf_award(offers, 11, order, 3, 21, 0) == (SADDLEKERF_NO_OFFER | 2 << 16));
    a = award_of(offers, 3, order, 3, 21, 1);
    CHECK(saddlekerf_refusal(a) == SADDLEKERF_CLASH && saddlekerf_place(a) == 1);
    CHECK(award_of(offers, 3, back, 2, 12, UINT64_C(1) << 63) == a);
    a = award_of(offers, 3, missing, 3, 0, 0);
    CHECK(saddlekerf_refusal(a) == SADDLEKERF_NO_OFFER && saddlekerf_place(a) == 2);
    a = award_of(offers, 3, again, 3, 0, 0);
    CHECK(saddlekerf_refusal(a) == SADDLEKERF_NAMED_TWICE && saddlekerf_place(a) == 2);
    CHECK(award_of(offers, 3, order, 3, 20, 0) == SADDLEKERF_TOTAL);
    offers[11] = SADDLEKERF_BID_LIMIT + 1;
    a = award_of(offers, 3, back, 2, 12, 0);
    CHECK(saddlekerf_refusal(a) == SADDLEKERF_OFFER && saddlekerf_place(a) == 2);
    for (i = 0; i <= SADDLEKERF_PLAN_LIMIT; i++) {
        all[i] = many[4 * i] = i;
        many[4 * i + 1] = 0;
        many[4 * i + 2] = day;
        many[4 * i + 3] = SADDLEKERF_BID_LIMIT;
    }
    CHECK(award_of(many, 256, all, 256, UINT64_C(256000000000), 1) == SADDLEKERF_ANSWERED);
    CHECK(award_of(many, 257, all, 0, 0, 0) == SADDLEKERF_LIST);
    CHECK(award_of(many, 256, all, 257, 0, 0) == SADDLEKERF_LIST);
    CHECK(saddlekerf_award(NULL, 0, NULL, 0, 0, 0) == SADDLEKERF_ANSWERED);
}

static void count_strides(void)
{
    saddlekerf_satellite s;
    CHECK(open_lines(&s, RESONANT1, RESONANT2) == SADDLEKERF_ANSWERED);
    CHECK(strides_at(&s, 1440 * MINUTE) == 2);
    CHECK(strides_at(&s, 2880 * MINUTE) == 2);
    CHECK(strides_at(&s, 1440 * MINUTE) == 2);
    CHECK(strides_at(&s, -720 * MINUTE) == 1);
    CHECK(open_lines(&s, RESONANT1, RESONANT2) == SADDLEKERF_ANSWERED);
    CHECK(strides_at(&s, 719 * MINUTE) == 0);
    CHECK(strides_at(&s, 720 * MINUTE) == 1);
    CHECK(strides_at(&s, 1440 * MINUTE) == 1);
    CHECK(open_lines(&s, RESONANT1, RESONANT2) == SADDLEKERF_ANSWERED);
    CHECK(strides_at(&s, SADDLEKERF_TIME_LIMIT) == 7304);
}

/* Times in the best order: no time lost, none past the end touched, the same rows for fewer strides. */
static void order_times(void)
{
    static const int64_t ordered[] = {0, 0, 1440 * MINUTE, 2880 * MINUTE, SADDLEKERF_TIME_LIMIT + 1, INT64_MAX,
                                      -720 * MINUTE, -720 * MINUTE, INT64_MIN};
    int64_t times[] = {2880 * MINUTE, -720 * MINUTE, 0, INT64_MIN, 1440 * MINUTE, SADDLEKERF_TIME_LIMIT + 1,
                       -720 * MINUTE, 0, INT64_MAX, 77};
    static const int64_t shuffled[] = {2880 * MINUTE, -720 * MINUTE, 1440 * MINUTE, 0};
    static const size_t goes[] = {2, 3, 1, 0};
    int64_t best[4];
    uint8_t refusals[4], rounds[4];
    double states[SADDLEKERF_STATE * 4], best_states[SADDLEKERF_STATE * 4];
    static int64_t many[SADDLEKERF_LIST_LIMIT + 1];
    saddlekerf_satellite s;
    size_t i;

    for (i = 0; i <= SADDLEKERF_LIST_LIMIT; i++)
        many[i] = i % 2 == 0 ? (int64_t)(SADDLEKERF_LIST_LIMIT - i) : -(int64_t)i;
    CHECK(saddlekerf_best_order(many, SADDLEKERF_LIST_LIMIT + 1) == SADDLEKERF_ANSWERED);
    CHECK(many[0] == 0 && many[1] == 2 && many[512] == 1024 && many[513] == -1 && many[1024] == -1023);
    CHECK(saddlekerf_best_order(NULL, 0) == SADDLEKERF_ANSWERED);
    CHECK(saddlekerf_best_order(times, 1) == SADDLEKERF_ANSWERED && times[0] == 2880 * MINUTE);
    CHECK(saddlekerf_best_order(times, 9) == SADDLEKERF_ANSWERED);
    CHECK(memcmp(times, ordered, sizeof ordered) == 0 && times[9] == 77);
    memcpy(best, shuffled, sizeof best);
    CHECK(saddlekerf_best_order(best, 4) == SADDLEKERF_ANSWERED);
    CHECK(open_lines(&s, RESONANT1, RESONANT2) == SADDLEKERF_ANSWERED);
    CHECK(saddlekerf_strides(saddlekerf_satellite_request_list(&s, shuffled, 4, refusals, states, rounds)) == 7);
    CHECK(open_lines(&s, RESONANT1, RESONANT2) == SADDLEKERF_ANSWERED);
    CHECK(saddlekerf_strides(saddlekerf_satellite_request_list(&s, best, 4, refusals, best_states, rounds)) == 5);
    for (i = 0; i < 4; i++) {
        CHECK(best[goes[i]] == shuffled[i]);
        CHECK(memcmp(&states[SADDLEKERF_STATE * i], &best_states[SADDLEKERF_STATE * goes[i]],
                     SADDLEKERF_STATE * sizeof(double)) == 0);
    }
}

/* A satellite opened in memory with an element to spare, and rooms marked throughout. */
struct memory {
    double numbers[SADDLEKERF_NUMBERS + 1];
    uint32_t marks[SADDLEKERF_MARKS + 1];
    uint8_t refusals[4];
    double states[SADDLEKERF_STATE * 4];
    uint8_t rounds[4];
};

/* NaN number i of those that the rooms are marked with: each has bits of its own. */
static uint64_t canary(size_t i)
{
    return UINT64_C(0x7ff8000000000000) + 69 * i + 1;
}

static void mark_doubles(double *numbers, size_t count)
{
    size_t i;
    for (i = 0; i < count; i++) {
        const uint64_t pattern = canary(i);
        memcpy(&numbers[i], &pattern, sizeof pattern);
    }
}

/* Whether the numbers from one index to another still have the bits of their marks. */
static int marked(const double *numbers, size_t from, size_t to)
{
    size_t i;
    for (i = from; i < to; i++)
        if (bits(numbers[i]) != canary(i))
            return 0;
    return 1;
}

static void mark(struct memory *m)
{
    memset(m, 0x55, sizeof *m);
    mark_doubles(m->numbers, SADDLEKERF_NUMBERS + 1);
    mark_doubles(m->states, SADDLEKERF_STATE * 4);
}

static uint64_t open_in(struct memory *m, const char *line2, size_t numbers, size_t marks)
{
    return saddlekerf_open(bytes(RESONANT1), LENGTH, bytes(line2), LENGTH, m->numbers, numbers, m->marks, marks);
}

static uint64_t ask(struct memory *m, size_t numbers, size_t marks, int64_t time, size_t state)
{
    return saddlekerf_request(m->numbers, numbers, m->marks, marks, time, m->states, state);
}

static uint64_t ask_list(struct memory *m, const int64_t *times, size_t count, size_t refusals, size_t states,
                         size_t rounds)
{
    return saddlekerf_request_list(m->numbers, SADDLEKERF_NUMBERS, m->marks, SADDLEKERF_MARKS, times, count,
                                   m->refusals, refusals, m->states, states, m->rounds, rounds);
}

static int same(const struct memory *one, const struct memory *other)
{
    return memcmp(one->numbers, other->numbers, sizeof one->numbers) == 0 &&
           memcmp(one->marks, other->marks, sizeof one->marks) == 0 &&
           memcmp(one->refusals, other->refusals, sizeof one->refusals) == 0 &&
           memcmp(one->states, other->states, sizeof one->states) == 0 &&
           memcmp(one->rounds, other->rounds, sizeof one->rounds) == 0;
}

/* What is refused writes nothing; what is answered writes what it says, and no more. */
static void keep_memory(void)
{
    static const int64_t times[SADDLEKERF_LIST_LIMIT + 1];
    static const int64_t two[2] = {SADDLEKERF_TIME_LIMIT + 1, 720 * MINUTE};
    struct memory m, before, opened;
    size_t i;

    mark(&m);
    memcpy(&before, &m, sizeof m);
    CHECK(open_in(&m, RESONANT2, SADDLEKERF_NUMBERS - 1, SADDLEKERF_MARKS) == SADDLEKERF_ROOM);
    CHECK(open_in(&m, RESONANT2, SADDLEKERF_NUMBERS, SADDLEKERF_MARKS - 1) == SADDLEKERF_ROOM);
    CHECK(open_in(&m, LINE2, SADDLEKERF_NUMBERS, SADDLEKERF_MARKS) == SADDLEKERF_CATALOGUE);
    CHECK(same(&m, &before));
    CHECK(open_in(&m, RESONANT2, SADDLEKERF_NUMBERS + 1, SADDLEKERF_MARKS + 1) == SADDLEKERF_ANSWERED);
    CHECK(marked(m.numbers, SADDLEKERF_NUMBERS, SADDLEKERF_NUMBERS + 1));
    CHECK(m.marks[SADDLEKERF_MARKS] == before.marks[SADDLEKERF_MARKS]);

    memcpy(&opened, &m, sizeof m);
    CHECK(saddlekerf_strides(ask(&m, SADDLEKERF_NUMBERS, SADDLEKERF_MARKS, -1440 * MINUTE, 24)) == 2);
    CHECK(marked(m.states, 6, 24));
    /* a request changes the saved place alone */
    CHECK(m.marks[0] == 1 && m.marks[1] == 2);
    CHECK(memcmp(m.numbers + 2, opened.numbers + 2, sizeof m.numbers - 2 * sizeof *m.numbers) == 0);
    CHECK(memcmp(m.marks + 2, opened.marks + 2, sizeof m.marks - 2 * sizeof *m.marks) == 0);

    mark_doubles(m.states, SADDLEKERF_STATE * 4);
    memcpy(&before, &m, sizeof m);
    CHECK(open_in(&m, LINE2, SADDLEKERF_NUMBERS, SADDLEKERF_MARKS) == SADDLEKERF_CATALOGUE);
    CHECK(open_in(&m, RESONANT2, SADDLEKERF_NUMBERS - 1, SADDLEKERF_MARKS) == SADDLEKERF_ROOM);
    CHECK(ask(&m, SADDLEKERF_NUMBERS, SADDLEKERF_MARKS, INT64_MIN, 6) == SADDLEKERF_TIME);
    CHECK(ask(&m, SADDLEKERF_NUMBERS, SADDLEKERF_MARKS, SADDLEKERF_TIME_LIMIT + 1, 6) == SADDLEKERF_TIME);
    CHECK(ask(&m, SADDLEKERF_NUMBERS, SADDLEKERF_MARKS, 0, 5) == SADDLEKERF_ROOM);
    CHECK(ask(&m, SADDLEKERF_NUMBERS - 1, SADDLEKERF_MARKS, 0, 6) == SADDLEKERF_ROOM);
    CHECK(ask(&m, SADDLEKERF_NUMBERS, SADDLEKERF_MARKS - 1, 0, 6) == SADDLEKERF_ROOM);
    CHECK(ask_list(&m, times, SADDLEKERF_LIST_LIMIT + 1, 0, 0, 0) == SADDLEKERF_LIST);
    CHECK(ask_list(&m, times, 3, 2, 18, 3) == SADDLEKERF_ROOM);
    CHECK(ask_list(&m, times, 3, 3, 17, 3) == SADDLEKERF_ROOM);
    CHECK(ask_list(&m, times, 3, 3, 18, 2) == SADDLEKERF_ROOM);
    CHECK(ask_list(&m, times, 0, 0, 0, 0) == SADDLEKERF_ANSWERED);
    CHECK(same(&m, &before));

    /* a refused row has positive zeros and no rounds, and the list goes on */
    CHECK(saddlekerf_strides(ask_list(&m, two, 2, 4, 24, 4)) == 1);
    CHECK(m.refusals[0] == SADDLEKERF_TIME && m.rounds[0] == 0);
    CHECK(m.refusals[1] == SADDLEKERF_ANSWERED && m.rounds[1] >= 1);
    for (i = 0; i < 6; i++)
        CHECK(bits(m.states[i]) == 0);
    CHECK(marked(m.states, 12, 24));
    CHECK(m.refusals[2] == 0x55 && m.refusals[3] == 0x55 && m.rounds[2] == 0x55 && m.rounds[3] == 0x55);

    /* a saved pair that no stride gives: 15, the state stays, and the place reached is saved all the same */
    mark_doubles(m.states, SADDLEKERF_STATE * 4);
    mark_doubles(m.numbers, 1);
    CHECK(ask(&m, SADDLEKERF_NUMBERS, SADDLEKERF_MARKS, 1440 * MINUTE, 24) ==
          (SADDLEKERF_STATE_NOT_FINITE | UINT64_C(1) << 32));
    CHECK(marked(m.states, 0, 24));
    CHECK(m.marks[0] == 0 && m.marks[1] == 2);
}

/* A null pointer is lent with 0 elements in the place of each array. */
static void lend_nothing(void)
{
    const uint8_t *one = bytes(RESONANT1), *two = bytes(RESONANT2);
    static const int64_t time[1];
    struct memory m, before;
    uint64_t instant = 42;
    double *n = m.numbers, *x = m.states;
    uint32_t *k = m.marks;
    uint8_t *f = m.refusals, *r = m.rounds;

    mark(&m);
    CHECK(open_in(&m, RESONANT2, SADDLEKERF_NUMBERS, SADDLEKERF_MARKS) == SADDLEKERF_ANSWERED);
    memcpy(&before, &m, sizeof m);
    CHECK(saddlekerf_read(NULL, 0, two, LENGTH) == (SADDLEKERF_LENGTH | 1 << 8));
    CHECK(saddlekerf_read(one, LENGTH, NULL, 0) == (SADDLEKERF_LENGTH | 2 << 8));
    CHECK(saddlekerf_checksum(NULL, 0) == 0);
    CHECK(saddlekerf_print(NULL, 0, NULL, 0, f, 4) == SADDLEKERF_ROOM);
    CHECK(saddlekerf_print(one, LENGTH, two, LENGTH, NULL, 0) == SADDLEKERF_ROOM);
    CHECK(saddlekerf_epoch(NULL, 0, two, LENGTH, &instant) == (SADDLEKERF_LENGTH | 1 << 8));
    CHECK(saddlekerf_epoch(one, LENGTH, NULL, 0, &instant) == (SADDLEKERF_LENGTH | 2 << 8));
    CHECK(saddlekerf_record(NULL, 0, two, LENGTH, NULL, 0) == (SADDLEKERF_LENGTH | 1 << 8));
    CHECK(saddlekerf_record(one, LENGTH, NULL, 0, NULL, 0) == (SADDLEKERF_LENGTH | 2 << 8));
    CHECK(saddlekerf_record(one, LENGTH, two, LENGTH, NULL, 0) == SADDLEKERF_ROOM);
    CHECK(saddlekerf_form(NULL, 0, two, LENGTH, NULL, 0) == (SADDLEKERF_LENGTH | 1 << 8));
    CHECK(saddlekerf_form(one, LENGTH, NULL, 0, NULL, 0) == (SADDLEKERF_LENGTH | 2 << 8));
    CHECK(saddlekerf_form(one, LENGTH, two, LENGTH, NULL, 0) == SADDLEKERF_ROOM);
    CHECK(saddlekerf_meaning(NULL, 0) == SADDLEKERF_ROOM);
    CHECK(saddlekerf_write(NULL, 0, 1, f, 4) == SADDLEKERF_ROOM);
    CHECK(saddlekerf_write(EXAMPLE, SADDLEKERF_FIELDS, 1, NULL, 0) == SADDLEKERF_ROOM);
    CHECK(saddlekerf_report(NULL, 0, NULL, 0) == SADDLEKERF_ROOM);
    CHECK(saddlekerf_report(one, LENGTH, NULL, 0) == SADDLEKERF_ODD);
    CHECK(saddlekerf_open(NULL, 0, two, LENGTH, n, 83, k, SADDLEKERF_MARKS) == (SADDLEKERF_LENGTH | 1 << 8));
    CHECK(saddlekerf_open(one, LENGTH, NULL, 0, n, 83, k, SADDLEKERF_MARKS) == (SADDLEKERF_LENGTH | 2 << 8));
    CHECK(saddlekerf_open(one, LENGTH, two, LENGTH, NULL, 0, k, SADDLEKERF_MARKS) == SADDLEKERF_ROOM);
    CHECK(saddlekerf_open(one, LENGTH, two, LENGTH, n, 83, NULL, 0) == SADDLEKERF_ROOM);
    CHECK(saddlekerf_request(NULL, 0, k, SADDLEKERF_MARKS, 0, x, 6) == SADDLEKERF_ROOM);
    CHECK(saddlekerf_request(n, 83, NULL, 0, 0, x, 6) == SADDLEKERF_ROOM);
    CHECK(saddlekerf_request(n, 83, k, SADDLEKERF_MARKS, 0, NULL, 0) == SADDLEKERF_ROOM);
    CHECK(saddlekerf_request_list(NULL, 0, k, SADDLEKERF_MARKS, time, 1, f, 1, x, 6, r, 1) == SADDLEKERF_ROOM);
    CHECK(saddlekerf_request_list(n, 83, NULL, 0, time, 1, f, 1, x, 6, r, 1) == SADDLEKERF_ROOM);
    CHECK(saddlekerf_request_list(n, 83, k, SADDLEKERF_MARKS, NULL, 0, f, 1, x, 6, r, 1) == SADDLEKERF_ANSWERED);
    CHECK(saddlekerf_request_list(n, 83, k, SADDLEKERF_MARKS, time, 1, NULL, 0, x, 6, r, 1) == SADDLEKERF_ROOM);
    CHECK(saddlekerf_request_list(n, 83, k, SADDLEKERF_MARKS, time, 1, f, 1, NULL, 0, r, 1) == SADDLEKERF_ROOM);
    CHECK(saddlekerf_request_list(n, 83, k, SADDLEKERF_MARKS, time, 1, f, 1, x, 6, NULL, 0) == SADDLEKERF_ROOM);
    CHECK(saddlekerf_request_list(n, 83, k, SADDLEKERF_MARKS, NULL, 0, NULL, 0, NULL, 0, NULL, 0) == SADDLEKERF_ANSWERED);
    CHECK(saddlekerf_windows(NULL, 0, k, SADDLEKERF_MARKS, POLE, 3, 0, 60, 1, &instant, 1, &instant, 0) == SADDLEKERF_ROOM);
    CHECK(saddlekerf_windows(n, 83, NULL, 0, POLE, 3, 0, 60, 0, NULL, 0, NULL, 0) == SADDLEKERF_ROOM);
    CHECK(saddlekerf_windows(n, 83, k, SADDLEKERF_MARKS, NULL, 0, 0, 60, 0, NULL, 0, NULL, 0) == SADDLEKERF_STATION);
    CHECK(saddlekerf_windows(n, 83, k, SADDLEKERF_MARKS, POLE, 3, 0, 60, 0, NULL, 0, NULL, 0) == SADDLEKERF_ANSWERED);
    CHECK(same(&m, &before) && instant == 42);
}

/*
 * Windows above the pole: there the turned position has the row's own z, and a sample is visible where that is above the
 * station's. So the rows of a list, asked of a copy, tell the windows, and the strides.
 */
static void windows_above_the_pole(const char *line1, const char *line2, uint64_t start, uint64_t step, size_t samples)
{
    static int64_t times[SADDLEKERF_LIST_LIMIT];
    static uint8_t refusals[SADDLEKERF_LIST_LIMIT], rounds[SADDLEKERF_LIST_LIMIT];
    static double states[SADDLEKERF_STATE * SADDLEKERF_LIST_LIMIT];
    static uint64_t firsts[SADDLEKERF_SAMPLES_LIMIT / 2 + 1], lasts[SADDLEKERF_SAMPLES_LIMIT / 2 + 1];
    saddlekerf_satellite s, copy;
    uint64_t epoch, list, a;
    size_t i, inside = 0, windows = 0;
    int going = 0;

    CHECK(open_lines(&s, line1, line2) == SADDLEKERF_ANSWERED);
    CHECK(saddlekerf_epoch(bytes(line1), LENGTH, bytes(line2), LENGTH, &epoch) == SADDLEKERF_ANSWERED);
    CHECK(saddlekerf_satellite_epoch(&s) == epoch);
    copy = s;
    while (inside < samples && start + inside * step * 1000000 < CALENDAR_END) {
        times[inside] = (int64_t)(start + inside * step * 1000000) - (int64_t)epoch;
        inside++;
    }
    list = saddlekerf_satellite_request_list(&copy, times, inside, refusals, states, rounds);
    CHECK(saddlekerf_refusal(list) == SADDLEKERF_ANSWERED);
    for (i = 0; i < SADDLEKERF_SAMPLES_LIMIT / 2 + 1; i++)
        firsts[i] = lasts[i] = 42;
    a = saddlekerf_satellite_windows(&s, POLE, start, step, samples, firsts, lasts, SADDLEKERF_SAMPLES_LIMIT / 2 + 1);
    CHECK(saddlekerf_refusal(a) == SADDLEKERF_ANSWERED);
    CHECK(saddlekerf_strides(a) == saddlekerf_strides(list));
    for (i = 0; i < inside; i++) {
        const int visible = refusals[i] == 0 && states[SADDLEKERF_STATE * i + 2] > POLE[2];
        if (visible && !going)
            CHECK(firsts[windows++] == start + i * step * 1000000);
        if (visible)
            CHECK(lasts[windows - 1] >= start + i * step * 1000000);
        if (!visible && going)
            CHECK(lasts[windows - 1] == start + (i - 1) * step * 1000000);
        going = visible;
    }
    if (going)
        CHECK(lasts[windows - 1] == start + (inside - 1) * step * 1000000);
    CHECK(saddlekerf_window_count(a) == windows);
    CHECK(firsts[windows] == 42 && lasts[windows] == 42);
    /* the position reached is the list's */
    CHECK(memcmp(&s, &copy, sizeof s) == 0);
}

/* What a call for windows refuses, in its order, and that it then writes nothing. */
static void refuse_windows(void)
{
    static const double zero[3] = {0.0, -0.0, 0.0};
    double endless[3] = {1.0, 0.0, 1e308};
    uint64_t firsts[3] = {1, 2, 3}, lasts[3] = {4, 5, 6};
    saddlekerf_satellite s, before;
    uint64_t start;
    const int64_t far = 7200 * MINUTE;

    CHECK(open_lines(&s, RESONANT1, RESONANT2) == SADDLEKERF_ANSWERED);
    CHECK(strides_at(&s, far) == 10);
    start = saddlekerf_satellite_epoch(&s);
    before = s;
    endless[2] *= 10.0;
    CHECK(saddlekerf_satellite_windows(&s, zero, start, 0, 1025, firsts, lasts, 0) == SADDLEKERF_STATION);
    CHECK(saddlekerf_satellite_windows(&s, endless, start, 60, 2, firsts, lasts, 3) == SADDLEKERF_STATION);
    CHECK(saddlekerf_satellite_windows(&s, POLE, start, 0, 1025, firsts, lasts, 0) == SADDLEKERF_STEP);
    CHECK(saddlekerf_satellite_windows(&s, POLE, start, SADDLEKERF_STEP_LIMIT + 1, 2, firsts, lasts, 3) == SADDLEKERF_STEP);
    CHECK(saddlekerf_satellite_windows(&s, POLE, start, SADDLEKERF_STEP_LIMIT, 1025, firsts, lasts, 0) == SADDLEKERF_LIST);
    CHECK(saddlekerf_satellite_windows(&s, POLE, start, 60, 5, firsts, lasts, 2) == SADDLEKERF_ROOM);
    CHECK(saddlekerf_windows(s.numbers, SADDLEKERF_NUMBERS, s.marks, SADDLEKERF_MARKS - 1, POLE, 3, start, 60, 1, firsts, 3,
                             lasts, 3) == SADDLEKERF_ROOM);
    CHECK(saddlekerf_windows(s.numbers, SADDLEKERF_NUMBERS, s.marks, SADDLEKERF_MARKS, POLE, 2, start, 60, 1, firsts, 3, lasts,
                             3) == SADDLEKERF_STATION);
    /* no sample in the calendar, or none in range: no windows, no strides, and the place stays */
    CHECK(saddlekerf_satellite_windows(&s, POLE, CALENDAR_END, 60, 6, firsts, lasts, 3) == SADDLEKERF_ANSWERED);
    CHECK(saddlekerf_satellite_windows(&s, POLE, UINT64_MAX, 86400, 6, firsts, lasts, 3) == SADDLEKERF_ANSWERED);
    CHECK(saddlekerf_satellite_windows(&s, POLE, 0, 86400, 6, firsts, lasts, 3) == SADDLEKERF_ANSWERED);
    CHECK(memcmp(&s, &before, sizeof s) == 0);
    CHECK(firsts[0] == 1 && firsts[1] == 2 && firsts[2] == 3 && lasts[0] == 4 && lasts[1] == 5 && lasts[2] == 6);
}

static void ask_windows(void)
{
    const uint64_t june_2000 = UINT64_C(1372359019733568); /* the example's epoch */
    windows_above_the_pole(LINE1, LINE2, june_2000, 60, 1024);
    windows_above_the_pole(LINE1, LINE2, june_2000 - UINT64_C(3600000000), 7, 1023);
    windows_above_the_pole(LINE1, LINE2, june_2000, 600, 1);
    windows_above_the_pole(LINE1, LINE2, CALENDAR_END - UINT64_C(60000000000), 86400, 3);
    windows_above_the_pole(RESONANT1, RESONANT2, UINT64_C(1561593600000000), 3600, 500);
    refuse_windows();
}

/* A pair of the published set with passes over Greenwich; the instants are those that the programs print. */
static const char PASSING1[] = "1 06251U 62025E   06176.82412014  .00008885  00000-0  12808-3 0  3985";
static const char PASSING2[] = "2 06251  58.0579  54.0425 0030035 139.1568 221.1854 15.56387291  6774";
static const double GREENWICH[SADDLEKERF_GEODETIC] = {51.4779, -0.0015, 46.0, 10.0};

static int near_to(double x, double y, double apart)
{
    return x - y < apart && y - x < apart;
}

/* The instant of a microsecond of 2006, day 177 or 178. */
static uint64_t june(uint64_t day, uint64_t micros)
{
    uint64_t instant = 0;
    CHECK(saddlekerf_instant(2006, day, micros, &instant) == SADDLEKERF_ANSWERED);
    return instant;
}

/* The passes of two days above 10 degrees, one call after the other; the first with its sky. */
static void passes_over_greenwich(void)
{
    saddlekerf_satellite s, before;
    uint64_t pass[SADDLEKERF_PASS + 1] = {1, 2, 3, 4, 5}, start, a;
    double look[SADDLEKERF_LOOK + 1] = {1.0, 2.0, 3.0, 4.0};
    uint32_t left = 2880;
    int passes = 0;

    CHECK(open_lines(&s, PASSING1, PASSING2) == SADDLEKERF_ANSWERED);
    before = s;
    start = saddlekerf_satellite_epoch(&s);
    a = saddlekerf_satellite_next_pass(&s, GREENWICH, start, 60, left, pass);
    CHECK(pass[SADDLEKERF_PASS_RISE] == june(177, UINT64_C(41048489641)));
    CHECK(pass[SADDLEKERF_PASS_HIGHEST] == june(177, UINT64_C(41213166311)));
    CHECK(pass[SADDLEKERF_PASS_SET] == june(177, UINT64_C(41376665876)));
    CHECK(saddlekerf_satellite_look(&s, GREENWICH, pass[SADDLEKERF_PASS_RISE], look) == SADDLEKERF_ANSWERED);
    CHECK(near_to(look[SADDLEKERF_LOOK_AZIMUTH], 192.582, 0.0006) && near_to(look[SADDLEKERF_LOOK_ELEVATION], 10.0, 1e-6));
    CHECK(saddlekerf_satellite_look(&s, GREENWICH, pass[SADDLEKERF_PASS_HIGHEST], look) == SADDLEKERF_ANSWERED);
    CHECK(near_to(look[SADDLEKERF_LOOK_ELEVATION], 25.886, 0.0006));
    CHECK(saddlekerf_satellite_look(&s, GREENWICH, pass[SADDLEKERF_PASS_SET], look) == SADDLEKERF_ANSWERED);
    CHECK(near_to(look[SADDLEKERF_LOOK_AZIMUTH], 75.447, 0.0006) && near_to(look[SADDLEKERF_LOOK_ELEVATION], 10.0, 1e-6));
    while (saddlekerf_found(a)) {
        CHECK(saddlekerf_refusal(a) == SADDLEKERF_ANSWERED && !saddlekerf_begun(a) && !saddlekerf_still(a));
        /* the next sample follows the set */
        CHECK(pass[SADDLEKERF_PASS_SET] < pass[SADDLEKERF_PASS_NEXT]);
        CHECK(pass[SADDLEKERF_PASS_NEXT] - pass[SADDLEKERF_PASS_SET] <= 60 * UINT64_C(1000000));
        left = saddlekerf_samples_left(a);
        CHECK(start + (2880 - left) * UINT64_C(60000000) == pass[SADDLEKERF_PASS_NEXT]);
        passes++;
        a = saddlekerf_satellite_next_pass(&s, GREENWICH, pass[SADDLEKERF_PASS_NEXT], 60, left, pass);
    }
    CHECK(a == SADDLEKERF_ANSWERED && passes == 11);
    /* above at the first sample and at the last: their own instants */
    start = june(177, UINT64_C(41200000000));
    a = saddlekerf_satellite_next_pass(&s, GREENWICH, start, 10, 3, pass);
    CHECK(saddlekerf_found(a) && saddlekerf_begun(a) && saddlekerf_still(a) && saddlekerf_samples_left(a) == 0);
    CHECK(pass[0] == start && pass[2] == start + 20000000 && pass[3] == start + 30000000);
    CHECK(near_to((double)(int64_t)(pass[1] - june(177, UINT64_C(41213166311))), 0.0, 2e4));
    CHECK(memcmp(&s, &before, sizeof s) == 0 && pass[SADDLEKERF_PASS] == 5 && look[SADDLEKERF_LOOK] == 4.0);
}

/* From the pole up is the frame's own z: range and elevation are those of the row's position. */
static void look_from_the_pole(void)
{
    static const double station[3] = {90.0, 0.0, 0.0};
    const double polar_radius = 6356.752314245179;
    saddlekerf_satellite s, copy;
    double look[SADDLEKERF_LOOK], state[SADDLEKERF_STATE];
    int i, above = 0;

    CHECK(open_lines(&s, LINE1, LINE2) == SADDLEKERF_ANSWERED);
    copy = s;
    for (i = 0; i < 500; i++) {
        const int64_t time = i * MINUTE;
        double up, square;
        CHECK(saddlekerf_refusal(saddlekerf_satellite_request(&copy, time, state)) == SADDLEKERF_ANSWERED);
        CHECK(saddlekerf_satellite_look(&s, station, saddlekerf_satellite_epoch(&s) + (uint64_t)time, look) == SADDLEKERF_ANSWERED);
        up = state[2] - polar_radius;
        square = state[0] * state[0] + state[1] * state[1] + up * up;
        CHECK(near_to(look[SADDLEKERF_LOOK_RANGE] * look[SADDLEKERF_LOOK_RANGE], square, 1e-3));
        CHECK((look[SADDLEKERF_LOOK_ELEVATION] > 0.0) == (up > 0.0));
        CHECK(look[SADDLEKERF_LOOK_AZIMUTH] >= 0.0 && look[SADDLEKERF_LOOK_AZIMUTH] <= 360.0);
        above += up > 0.0;
    }
    CHECK(above == 0);
}

/* What both calls refuse, in their order, and that they then write nothing. */
static void refuse_passes(void)
{
    double station[SADDLEKERF_GEODETIC] = {51.4779, -0.0015, 46.0, 10.0}, look[SADDLEKERF_LOOK] = {1.0, 2.0, 3.0};
    uint64_t pass[SADDLEKERF_PASS] = {1, 2, 3, 4}, start;
    saddlekerf_satellite s, before;

    CHECK(open_lines(&s, PASSING1, PASSING2) == SADDLEKERF_ANSWERED);
    before = s;
    start = saddlekerf_satellite_epoch(&s);
    CHECK(saddlekerf_satellite_next_pass(&s, station, start, 0, 9, pass) == SADDLEKERF_STEP);
    CHECK(saddlekerf_satellite_next_pass(&s, station, start, SADDLEKERF_STEP_LIMIT + 1, 9, pass) == SADDLEKERF_STEP);
    CHECK(saddlekerf_satellite_next_pass(&s, station, start, 60, 0, pass) == SADDLEKERF_ANSWERED);
    CHECK(saddlekerf_next_pass(s.numbers, 83, s.marks, 6, station, 3, start, 0, 9, pass, 0) == SADDLEKERF_STATION);
    CHECK(saddlekerf_next_pass(s.numbers, 83, s.marks, 6, station, 4, start, 0, 9, pass, 3) == SADDLEKERF_STEP);
    CHECK(saddlekerf_next_pass(s.numbers, 83, s.marks, 6, station, 4, start, 60, 2880, pass, 3) == SADDLEKERF_ROOM);
    CHECK(saddlekerf_next_pass(s.numbers, 82, s.marks, 6, station, 4, start, 60, 2880, pass, 4) == SADDLEKERF_ROOM);
    CHECK(saddlekerf_next_pass(NULL, 0, NULL, 0, NULL, 0, start, 60, 2880, NULL, 0) == SADDLEKERF_STATION);
    CHECK(saddlekerf_look(s.numbers, 83, s.marks, 6, station, 2, CALENDAR_END, look, 0) == SADDLEKERF_STATION);
    CHECK(saddlekerf_look(s.numbers, 83, s.marks, 6, station, 3, CALENDAR_END, look, 2) == SADDLEKERF_ROOM);
    CHECK(saddlekerf_look(s.numbers, 83, s.marks, 5, station, 3, start, look, 3) == SADDLEKERF_ROOM);
    CHECK(saddlekerf_look(NULL, 0, NULL, 0, NULL, 0, start, NULL, 0) == SADDLEKERF_STATION);
    CHECK(saddlekerf_satellite_look(&s, station, CALENDAR_END, look) == SADDLEKERF_RANGE);
    CHECK(saddlekerf_satellite_look(&s, station, CALENDAR_END - 1, look) == SADDLEKERF_TIME);
    CHECK(saddlekerf_satellite_look(&s, station, start + SADDLEKERF_TIME_LIMIT + 1, look) == SADDLEKERF_TIME);
    station[SADDLEKERF_STATION_LEAST] = 90.5;
    CHECK(saddlekerf_satellite_next_pass(&s, station, start, 60, 9, pass) == SADDLEKERF_STATION);
    station[SADDLEKERF_STATION_LATITUDE] = -90.5;
    CHECK(saddlekerf_satellite_look(&s, station, start, look) == SADDLEKERF_STATION);
    CHECK(memcmp(&s, &before, sizeof s) == 0);
    CHECK(pass[0] == 1 && pass[1] == 2 && pass[2] == 3 && pass[3] == 4 && look[0] == 1.0 && look[1] == 2.0 && look[2] == 3.0);
}

/* A row of the published set. */
struct row {
    int64_t time;
    unsigned refusal;
    uint64_t bits[SADDLEKERF_STATE];
    unsigned rounds;
    uint32_t strides;
};

static struct row parse_row(char *text)
{
    struct row row;
    int i;
    row.time = strtoll(text, &text, 10);
    row.refusal = (unsigned)strtoul(text, &text, 10);
    for (i = 0; i < SADDLEKERF_STATE; i++)
        row.bits[i] = strtoull(text, &text, 16);
    row.rounds = (unsigned)strtoul(text, &text, 10);
    row.strides = (uint32_t)strtoul(text, &text, 10);
    return row;
}

/* The rows of one pair: asked one by one, then as a list of a satellite newly opened. */
static void ask_published(const saddlekerf_satellite *opened, const struct row *rows, size_t count)
{
    static int64_t times[SADDLEKERF_LIST_LIMIT];
    static uint8_t refusals[SADDLEKERF_LIST_LIMIT], rounds[SADDLEKERF_LIST_LIMIT];
    static double states[SADDLEKERF_STATE * SADDLEKERF_LIST_LIMIT];
    saddlekerf_satellite s = *opened;
    uint32_t strides = 0;
    uint64_t a;
    size_t i, k;

    for (i = 0; i < count; i++) {
        double state[SADDLEKERF_STATE];
        mark_doubles(state, SADDLEKERF_STATE);
        a = saddlekerf_satellite_request(&s, rows[i].time, state);
        CHECK(a == (rows[i].refusal | (uint64_t)rows[i].rounds << 8 | (uint64_t)rows[i].strides << 32));
        for (k = 0; k < SADDLEKERF_STATE; k++)
            CHECK(bits(state[k]) == (rows[i].refusal == 0 ? rows[i].bits[k] : canary(k)));
        times[i] = rows[i].time;
        strides += rows[i].strides;
    }
    s = *opened;
    a = saddlekerf_satellite_request_list(&s, times, count, refusals, states, rounds);
    CHECK(saddlekerf_refusal(a) == SADDLEKERF_ANSWERED);
    CHECK(saddlekerf_strides(a) == strides);
    for (i = 0; i < count; i++) {
        CHECK(refusals[i] == rows[i].refusal);
        CHECK(rounds[i] == rows[i].rounds);
        for (k = 0; k < SADDLEKERF_STATE; k++)
            CHECK(bits(states[SADDLEKERF_STATE * i + k]) == rows[i].bits[k]);
    }
}

/* The next line that is no comment, without its newline; NULL at the end. */
static char *next_line(FILE *file, char *line, int size)
{
    while (fgets(line, size, file) != NULL) {
        line[strcspn(line, "\n")] = 0;
        if (line[0] != '#')
            return line;
    }
    return NULL;
}

/* The record of a pair, written: its two lines read as the same record again. */
static void write_again(const char *line1, const char *line2)
{
    int64_t fields[SADDLEKERF_FIELDS], again[SADDLEKERF_FIELDS];
    uint8_t one[LENGTH], two[LENGTH];
    CHECK(saddlekerf_record(bytes(line1), LENGTH, bytes(line2), LENGTH, fields, SADDLEKERF_FIELDS) == 0);
    CHECK(saddlekerf_written(saddlekerf_write(fields, SADDLEKERF_FIELDS, 1, one, LENGTH)) == LENGTH);
    CHECK(saddlekerf_written(saddlekerf_write(fields, SADDLEKERF_FIELDS, 2, two, LENGTH)) == LENGTH);
    CHECK(saddlekerf_record(one, LENGTH, two, LENGTH, again, SADDLEKERF_FIELDS) == 0);
    CHECK(memcmp(fields, again, sizeof fields) == 0);
}

/* Every pair of the file: its two lines, then its rows, or `refused NUMBER ..`. */
static int ask_all_published(const char *path)
{
    static struct row rows[SADDLEKERF_LIST_LIMIT];
    char line1[256], line2[256], line[256];
    FILE *file = fopen(path, "r");
    long all = 0, pairs = 0;
    char *more;

    if (file == NULL) {
        printf("cannot read %s\n", path);
        return 0;
    }
    more = next_line(file, line, sizeof line);
    while (more != NULL && next_line(file, line1, sizeof line1) != NULL &&
           next_line(file, line2, sizeof line2) != NULL) {
        saddlekerf_satellite s;
        const uint64_t a = open_lines(&s, line1, line2);
        size_t count = 0;
        more = next_line(file, line, sizeof line);
        if (more != NULL && strncmp(more, "refused ", 8) == 0) {
            CHECK(saddlekerf_refusal(a) == strtoul(more + 8, NULL, 10));
            more = next_line(file, line, sizeof line);
        } else {
            CHECK(a == SADDLEKERF_ANSWERED);
            write_again(line1, line2);
        }
        for (; more != NULL && strcmp(more, "pair") != 0; more = next_line(file, line, sizeof line))
            if (count < SADDLEKERF_LIST_LIMIT)
                rows[count++] = parse_row(more);
        if (count > 0)
            ask_published(&s, rows, count);
        all += (long)count;
        pairs++;
    }
    fclose(file);
    printf("%ld published pairs, %ld rows\n", pairs, all);
    return pairs > 30 && all > 500;
}

int main(int argc, char **argv)
{
    if (argc != 2) {
        printf("usage: c_example bench/vectors/published-rows.txt\n");
        return 1;
    }
    one_version();
    environment();
    print_example();
    read_at_the_edges();
    read_record();
    judge_form();
    judge_meaning();
    write_record();
    letters();
    short_year();
    keep_roster();
    keep_row();
    fill_roster();
    count_pairs();
    compare_rosters();
    move_instants();
    check_plan();
    count_strides();
    order_times();
    keep_memory();
    lend_nothing();
    ask_windows();
    passes_over_greenwich();
    look_from_the_pole();
    refuse_passes();
    CHECK(ask_all_published(argv[1]));
    printf("%ld checks, %ld failed\n", checks, failures);
    return failures == 0 ? 0 : 1;
}
