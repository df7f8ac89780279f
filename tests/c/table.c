/* Table decoding as the firmware calls it: bench sheet R1, R2 and R4 to R6, margins, blank places,
 * every doubt up to the limit, every refusal in its order, and guard bytes around each buffer. */
#include <stdio.h>
#include <string.h>

#include "hermitian.h"

enum { GUARD = 32, ROOM = 64, TOO_MANY = HERMITIAN_MOST_DOUBT + 1 };

static unsigned checks, failures;

static void expect(int held, const char *what)
{
    checks++;
    if (!held) {
        failures++;
        fprintf(stderr, "failed: %s\n", what);
    }
}

/* A buffer between two guards. */
struct guarded {
    uint8_t before[GUARD];
    uint8_t bytes[ROOM];
    uint8_t after[GUARD];
};

static void fill(struct guarded *g)
{
    memset(g->before, 0xA5, GUARD);
    memset(g->bytes, 0xEE, ROOM);
    memset(g->after, 0x5A, GUARD);
}

static int guards_stand(const struct guarded *g)
{
    for (size_t i = 0; i < GUARD; i++)
        if (g->before[i] != 0xA5 || g->after[i] != 0x5A)
            return 0;
    return 1;
}

static int all_are(const uint8_t *bytes, size_t from, size_t to, uint8_t byte)
{
    for (size_t i = from; i < to; i++)
        if (bytes[i] != byte)
            return 0;
    return 1;
}

static uint8_t table[HERMITIAN_TABLE_BYTES + 1];

static void put_cost(size_t place, size_t symbol, unsigned cost)
{
    table[32 * place + 2 * symbol] = (uint8_t)(cost >> 8);
    table[32 * place + 2 * symbol + 1] = (uint8_t)cost;
}

/* Frame S(m) of the bench sheet. */
static void frame_s(size_t m)
{
    for (size_t place = 0; place < HERMITIAN_PLACES; place++) {
        for (size_t symbol = 0; symbol < 16; symbol++)
            put_cost(place, symbol, 40);
        int leaning = place % 10 == 0 && place / 10 < m;
        put_cost(place, leaning ? 1 : 0, 0);
        if (leaning)
            put_cost(place, 0, 30);
    }
}

/* The function (x^11 + x^6 + x)(y^2 + y + 6), a message of rate 49, is not zero at ten places only,
 * those with x^5 = 1 and y = 4 or 5, where it is x. Its first eight places have gap 5 at most here and
 * the last two gap 6; the first nine vote for zero and the last one for the function. So with doubt 8
 * the test words of eight best and of eight second symbols have a codeword within T = 1: zero, whose
 * total is 6, and the function's, whose total is 8 * gap + 6. */
static void frame_of_two(unsigned gap)
{
    static const uint8_t ten[10] = {6, 7, 34, 35, 42, 43, 50, 51, 62, 63};
    frame_s(0);
    for (size_t i = 0; i < 10; i++)
        put_cost(ten[i], ten[i] / 4, i < 8 ? gap : i == 8 ? 6 : 0);
    put_cost(63, 0, 6);
}

enum { ABSENT = -1 };

static void answers(size_t rate, size_t doubt, unsigned total, unsigned tests, unsigned pinned, unsigned changed, long margin, const char *what)
{
    static struct guarded message, report;
    uint8_t given[HERMITIAN_TABLE_BYTES];
    fill(&message);
    fill(&report);
    memcpy(given, table, sizeof given);
    expect(hermitian_decode_table(rate, table, HERMITIAN_TABLE_BYTES, doubt, message.bytes, rate, report.bytes, HERMITIAN_REPORT_BYTES) == HERMITIAN_ACCEPTED, what);
    const uint8_t *r = report.bytes;
    expect(all_are(message.bytes, 0, rate, 0), "the message is zero");
    expect((((uint32_t)r[0] << 24) | ((uint32_t)r[1] << 16) | ((uint32_t)r[2] << 8) | r[3]) == total, "total");
    expect(((unsigned)r[4] << 8 | r[5]) == tests, "tests");
    expect(r[6] == pinned, "pinned");
    expect(r[7] == changed, "changed");
    expect(r[8] == (margin == ABSENT ? 0 : 1), "a margin is present or absent");
    expect((((uint32_t)r[9] << 24) | ((uint32_t)r[10] << 16) | ((uint32_t)r[11] << 8) | r[12]) == (margin == ABSENT ? 0u : (uint32_t)margin), "margin");
    expect(r[13] <= 1, "the mark is 1 or 0");
    expect(all_are(message.bytes, rate, ROOM, 0xEE) && all_are(report.bytes, HERMITIAN_REPORT_BYTES, ROOM, 0xEE), "nothing is written after the buffers");
    expect(memcmp(given, table, sizeof given) == 0, "decoding reads the table");
    expect(guards_stand(&message) && guards_stand(&report), "guards stand");
}

static void refused(size_t rate, size_t table_length, size_t doubt, size_t message_length, size_t report_length, uint8_t refusal, const char *what)
{
    static struct guarded message, report;
    fill(&message);
    fill(&report);
    expect(hermitian_decode_table(rate, table, table_length, doubt, message.bytes, message_length, report.bytes, report_length) == refusal, what);
    expect(all_are(message.bytes, 0, ROOM, 0xEE) && all_are(report.bytes, 0, ROOM, 0xEE), "a refusal writes nothing");
    expect(guards_stand(&message) && guards_stand(&report), "guards stand");
}

static void bench_sheet(void)
{
    frame_s(6);
    answers(39, 0, 180, 1, 0, 6, ABSENT, "R1: S(6), no doubt");
    frame_s(7);
    refused(39, HERMITIAN_TABLE_BYTES, 0, 39, HERMITIAN_REPORT_BYTES, HERMITIAN_NONE_NEAR, "R2: S(7), no doubt");
    answers(39, 1, 210, 1, 0, 7, ABSENT, "S(7), doubt 1: the place picked is 0, as in R3");
    answers(39, 2, 210, 3, 0, 7, ABSENT, "R4: S(7), doubt 2");
    frame_s(1);
    answers(49, 0, 30, 1, 0, 1, ABSENT, "R5: S(1)");
    frame_s(2);
    refused(49, HERMITIAN_TABLE_BYTES, 0, 49, HERMITIAN_REPORT_BYTES, HERMITIAN_NONE_NEAR, "R5: S(2)");
    memset(table, 0, sizeof table);
    refused(39, HERMITIAN_TABLE_BYTES, 0, 39, HERMITIAN_REPORT_BYTES, HERMITIAN_TOO_BLANK, "R6: a table of zero bytes");
    refused(49, HERMITIAN_TABLE_BYTES, 0, 49, HERMITIAN_REPORT_BYTES, HERMITIAN_TOO_BLANK, "a table of zero bytes at the other rate");
    memset(table, 255, sizeof table);
    refused(39, HERMITIAN_TABLE_BYTES, 0, 39, HERMITIAN_REPORT_BYTES, HERMITIAN_TOO_BLANK, "every cost at the ceiling");
    for (size_t place = 0; place < HERMITIAN_PLACES; place++)
        put_cost(place, 0, 65534);
    answers(39, 0, 64u * 65534u, 1, 0, 0, ABSENT, "every cost but that of symbol 0 at the ceiling");
    frame_s(6);
    for (size_t place = 0; place < 60; place += 10)
        put_cost(place, 0, 65535);
    answers(39, 0, 6u * 65535u, 1, 6, 6, ABSENT, "six costs of the codeword at the ceiling");
    frame_of_two(5);
    answers(49, 8, 6, 2, 0, 1, 40, "two near codewords");
    frame_of_two(0);
    answers(49, 8, 6, 2, 0, 1, 0, "two near codewords of equal totals: zero is a margin");
    answers(49, 0, 6, 1, 0, 1, ABSENT, "the same without doubt: one is near");
}

/* Frame S(m) in which so many places, from place 1 on and none of those of S(7), cost the same for
 * every symbol. */
static void faded(size_t m, size_t blanks, unsigned cost)
{
    frame_s(m);
    for (size_t place = 1; blanks > 0; place++)
        if (place % 10 != 0) {
            for (size_t symbol = 0; symbol < 16; symbol++)
                put_cost(place, symbol, cost);
            blanks--;
        }
}

/* With b blank places T is the largest number with 2T + b below a bound: T wrong places are repaired,
 * and one more is refused. */
static void every_reach(size_t rate, size_t bound)
{
    for (size_t b = 0; b < bound; b++) {
        size_t t = (bound - 1 - b) / 2;
        faded(t, b, 7);
        answers(rate, 0, (unsigned)(7 * b + 30 * t), 1, 0, (unsigned)t, ABSENT, "T wrong places beside the blank ones");
        faded(t + 1, b, 7);
        refused(rate, HERMITIAN_TABLE_BYTES, 0, rate, HERMITIAN_REPORT_BYTES, HERMITIAN_NONE_NEAR, "T + 1 wrong places beside the blank ones");
    }
}

/* The bound is 14 at rate 39 and 4 at rate 49. */
static void blank_places(void)
{
    every_reach(39, 14);
    every_reach(49, 4);
    faded(0, 13, 7);
    answers(39, 0, 13u * 7u, 1, 0, 0, ABSENT, "13 blank places at rate 39");
    faded(0, 13, 65535);
    answers(39, 0, 13u * 65535u, 1, 13, 0, ABSENT, "13 blank places at the ceiling are pinned");
    faded(1, 13, 7);
    refused(39, HERMITIAN_TABLE_BYTES, 0, 39, HERMITIAN_REPORT_BYTES, HERMITIAN_NONE_NEAR, "13 blank places leave T = 0");
    answers(39, 1, 13u * 7u + 30u, 1, 0, 1, ABSENT, "no blank place is picked as doubtful: place 0 is");
    faded(1, 12, 7);
    refused(39, HERMITIAN_TABLE_BYTES, 0, 39, HERMITIAN_REPORT_BYTES, HERMITIAN_NONE_NEAR, "12 blank places leave T = 0");
    faded(1, 11, 7);
    answers(39, 0, 11u * 7u + 30u, 1, 0, 1, ABSENT, "11 blank places leave T = 1");
    faded(2, 11, 7);
    refused(39, HERMITIAN_TABLE_BYTES, 0, 39, HERMITIAN_REPORT_BYTES, HERMITIAN_NONE_NEAR, "and not T = 2");
    faded(6, 1, 0);
    answers(39, 0, 180, 1, 0, 6, ABSENT, "one blank place leaves T = 6");
    faded(6, 2, 0);
    refused(39, HERMITIAN_TABLE_BYTES, 0, 39, HERMITIAN_REPORT_BYTES, HERMITIAN_NONE_NEAR, "two leave T = 5");
    faded(0, 3, 7);
    answers(49, 0, 3u * 7u, 1, 0, 0, ABSENT, "3 blank places at rate 49");
    faded(1, 2, 7);
    refused(49, HERMITIAN_TABLE_BYTES, 0, 49, HERMITIAN_REPORT_BYTES, HERMITIAN_NONE_NEAR, "2 blank places at rate 49 leave T = 0");
    for (size_t m = 0; m <= 7; m += 7) {
        faded(m, 14, 7);
        refused(39, HERMITIAN_TABLE_BYTES, 0, 39, HERMITIAN_REPORT_BYTES, HERMITIAN_TOO_BLANK, "14 blank places at rate 39, near or not");
        refused(39, HERMITIAN_TABLE_BYTES, HERMITIAN_MOST_DOUBT, 39, HERMITIAN_REPORT_BYTES, HERMITIAN_TOO_BLANK, "the same with doubt");
        refused(39, HERMITIAN_TABLE_BYTES, TOO_MANY, 39, HERMITIAN_REPORT_BYTES, HERMITIAN_WRONG_DOUBT, "the doubt comes first");
        faded(m, 4, 7);
        refused(49, HERMITIAN_TABLE_BYTES, 0, 49, HERMITIAN_REPORT_BYTES, HERMITIAN_TOO_BLANK, "4 blank places at rate 49");
        refused(49, HERMITIAN_TABLE_BYTES, TOO_MANY, 49, HERMITIAN_REPORT_BYTES, HERMITIAN_WRONG_DOUBT, "the doubt comes first");
    }
    frame_s(0);
    for (size_t place = 1; place <= 14; place++)
        put_cost(place, 1, 0);
    answers(39, 0, 0, 1, 0, 0, ABSENT, "14 places with a gap of zero: none of them is blank");
}

/* How many of 2^places choices change at most so many of the places. */
static unsigned choices(unsigned places, unsigned most)
{
    unsigned sum = 0, term = 1;
    for (unsigned i = 0; i <= places && i <= most; i++) {
        sum += term;
        term = term * (places - i) / (i + 1);
    }
    return sum;
}

/* Frame S(m) with so many places more, none of those of S(7), where symbol 5 costs 0 and symbol 0 costs 9: they have the smallest gaps. */
static void doubted(size_t m, size_t doubtful)
{
    frame_s(m);
    for (size_t i = 0; i < doubtful; i++) {
        put_cost(5 * i + 1, 5, 0);
        put_cost(5 * i + 1, 0, 9);
    }
}

/* At rate 39 the product of x - a over the eleven a but 0, 1, 2, 3 and 5 is not zero at the twenty places above these only, and takes one value
 * above 3 and 5. With the places above 0, 1 and 2 blank, T = 0; with the next twelve doubtful, where symbol 0 is best and symbol 1, which costs
 * 40, second, the multiple that is 1 above 3 and 5 is near beside zero. With one doubtful place fewer it is not. */
static void blank_fibres(void)
{
    frame_s(0);
    for (size_t place = 0; place < 12; place++)
        for (size_t symbol = 0; symbol < 16; symbol++)
            put_cost(place, symbol, (unsigned)(17 * place));
    answers(39, 12, 17 * 66, 2, 0, 0, 8 * 40, "two near codewords, and twelve places doubtful");
    answers(39, 11, 17 * 66, 1, 0, 0, ABSENT, "eleven doubtful: one is near");
}

/* Every doubt up to the limit, which is twelve. With all places right, or with as many wrong as are doubtful, the test words near are those
 * with at most T wrong symbols: of twelve doubtful places at rate 39 all but those with seven or more, 2,510 of 4,096, and the count takes
 * two bytes. With T settled places wrong beside them only the test word of twelve second symbols is near, and with one more none. */
static void every_doubt(void)
{
    expect(HERMITIAN_MOST_DOUBT == 12, "the limit is twelve");
    expect(choices(12, 6) == 2510 && choices(9, 6) == 466 && choices(12, 1) == 13, "what is counted here");
    for (unsigned doubt = 0; doubt <= HERMITIAN_MOST_DOUBT; doubt++) {
        frame_s(0);
        answers(39, doubt, 0, choices(doubt, 6), 0, 0, ABSENT, "a clear link at rate 39");
        answers(49, doubt, 0, choices(doubt, 1), 0, 0, ABSENT, "a clear link at rate 49");
        faded(0, 2, 7);
        answers(39, doubt, 14, choices(doubt, 5), 0, 0, ABSENT, "two blank places leave T = 5");
        doubted(0, doubt);
        answers(39, doubt, 9 * doubt, choices(doubt, 6), 0, doubt, ABSENT, "every doubtful place wrong at rate 39");
        answers(49, doubt, 9 * doubt, choices(doubt, 1), 0, doubt, ABSENT, "every doubtful place wrong at rate 49");
        doubted(6, doubt);
        answers(39, doubt, 180 + 9 * doubt, 1, 0, 6 + doubt, ABSENT, "T settled places wrong too");
        doubted(7, doubt);
        refused(39, HERMITIAN_TABLE_BYTES, doubt, 39, HERMITIAN_REPORT_BYTES, HERMITIAN_NONE_NEAR, "T + 1 settled places wrong");
        doubted(1, doubt);
        answers(49, doubt, 30 + 9 * doubt, 1, 0, 1 + doubt, ABSENT, "T settled places wrong at rate 49");
        doubted(2, doubt);
        refused(49, HERMITIAN_TABLE_BYTES, doubt, 49, HERMITIAN_REPORT_BYTES, HERMITIAN_NONE_NEAR, "T + 1 settled places wrong at rate 49");
    }
    blank_fibres();
    frame_s(0);
    for (size_t rate = 39; rate <= 49; rate += 10)
        refused(rate, HERMITIAN_TABLE_BYTES, TOO_MANY, rate, HERMITIAN_REPORT_BYTES, HERMITIAN_WRONG_DOUBT, "doubt 13 on a clear link");
}

/* Each wrong argument set beside those that a later check would refuse. */
static void refusals(void)
{
    static const size_t unknown[] = {0, 5, 53, 58, 64, 256 + 39, SIZE_MAX};
    frame_s(7);
    for (size_t i = 0; i < sizeof unknown / sizeof unknown[0]; i++) {
        refused(unknown[i], HERMITIAN_TABLE_BYTES, 0, 39, HERMITIAN_REPORT_BYTES, HERMITIAN_UNKNOWN_RATE, "unknown rate");
        refused(unknown[i], 5, TOO_MANY, 3, 7, HERMITIAN_UNKNOWN_RATE, "the rate is checked first");
    }
    for (size_t rate = 39; rate <= 49; rate += 10) {
        refused(rate, 0, TOO_MANY, rate, HERMITIAN_REPORT_BYTES, HERMITIAN_WRONG_SIZE, "no table");
        refused(rate, HERMITIAN_TABLE_BYTES - 1, TOO_MANY, rate, HERMITIAN_REPORT_BYTES, HERMITIAN_WRONG_SIZE, "a short table");
        refused(rate, HERMITIAN_TABLE_BYTES + 1, TOO_MANY, rate, HERMITIAN_REPORT_BYTES, HERMITIAN_WRONG_SIZE, "a long table");
        refused(rate, HERMITIAN_TABLE_BYTES, TOO_MANY, rate - 1, HERMITIAN_REPORT_BYTES, HERMITIAN_WRONG_SIZE, "a short message buffer");
        refused(rate, HERMITIAN_TABLE_BYTES, TOO_MANY, rate + 1, HERMITIAN_REPORT_BYTES, HERMITIAN_WRONG_SIZE, "a long message buffer");
        refused(rate, HERMITIAN_TABLE_BYTES, TOO_MANY, rate, 8, HERMITIAN_WRONG_SIZE, "a report without room for the margin");
        refused(rate, HERMITIAN_TABLE_BYTES, TOO_MANY, rate, 13, HERMITIAN_WRONG_SIZE, "a report without room for the mark");
        refused(rate, HERMITIAN_TABLE_BYTES, TOO_MANY, rate, HERMITIAN_REPORT_BYTES - 1, HERMITIAN_WRONG_SIZE, "a short report");
        refused(rate, HERMITIAN_TABLE_BYTES, TOO_MANY, rate, HERMITIAN_REPORT_BYTES + 1, HERMITIAN_WRONG_SIZE, "a long report");
        refused(rate, HERMITIAN_TABLE_BYTES, TOO_MANY, rate, HERMITIAN_REPORT_BYTES, HERMITIAN_WRONG_DOUBT, "doubt 13");
        refused(rate, HERMITIAN_TABLE_BYTES, 256 + 3, rate, HERMITIAN_REPORT_BYTES, HERMITIAN_WRONG_DOUBT, "doubt 259");
        refused(rate, HERMITIAN_TABLE_BYTES, SIZE_MAX, rate, HERMITIAN_REPORT_BYTES, HERMITIAN_WRONG_DOUBT, "the largest doubt");
        refused(rate, HERMITIAN_TABLE_BYTES, 0, rate, HERMITIAN_REPORT_BYTES, HERMITIAN_NONE_NEAR, "none near");
    }
}

int main(void)
{
    bench_sheet();
    blank_places();
    every_doubt();
    refusals();
    printf("table decoding from C: %u checks, %u failed\n", checks, failures);
    return failures == 0 ? 0 : 1;
}
