/* Decoding at every rate as the firmware calls it, by doubt, by threshold and from bit values: with each number of blank places T wrong
 * places are repaired and one more is refused, with T of the rule; rates 5 and 53 are refused, and so is a codeword with 1 to 6 wrong
 * symbols at rate 52. Guard bytes stand around each buffer. */
#include <stdio.h>
#include <string.h>

#include "hermitian.h"

enum { GUARD = 32, ROOM = 64, WRONG = 30, BLANK = 7, RIGHT = 40 };

static unsigned checks, failures;

static void expect(int held, const char *what)
{
    checks++;
    if (!held) {
        failures++;
        fprintf(stderr, "failed: %s\n", what);
    }
}

/* A buffer between two guards. */
struct guarded {
    uint8_t before[GUARD];
    uint8_t bytes[ROOM];
    uint8_t after[GUARD];
};

static void fill(struct guarded *g)
{
    memset(g->before, 0xA5, GUARD);
    memset(g->bytes, 0xEE, ROOM);
    memset(g->after, 0x5A, GUARD);
}

static int guards_stand(const struct guarded *g)
{
    for (size_t i = 0; i < GUARD; i++)
        if (g->before[i] != 0xA5 || g->after[i] != 0x5A)
            return 0;
    return 1;
}

static int all_are(const uint8_t *bytes, size_t from, size_t to, uint8_t byte)
{
    for (size_t i = from; i < to; i++)
        if (bytes[i] != byte)
            return 0;
    return 1;
}

static uint8_t table[HERMITIAN_TABLE_BYTES];
static int8_t values[HERMITIAN_BIT_VALUES];

static void put_cost(size_t place, size_t symbol, unsigned cost)
{
    table[32 * place + 2 * symbol] = (uint8_t)(cost >> 8);
    table[32 * place + 2 * symbol + 1] = (uint8_t)cost;
}

/* A place of a frame around the zero codeword, which has so many wrong places, then so many blank ones, in an order that passes over the
 * curve. As bit values a wrong place has the symbol 15, the others have symbol 0. */
static void frame(size_t wrong, size_t blanks)
{
    for (size_t at = 0; at < HERMITIAN_PLACES; at++) {
        size_t place = at * 27 % HERMITIAN_PLACES;
        int is_wrong = at < wrong, is_blank = !is_wrong && at < wrong + blanks;
        for (size_t symbol = 0; symbol < 16; symbol++)
            put_cost(place, symbol, is_blank ? BLANK : RIGHT);
        if (is_wrong)
            put_cost(place, 1, 0);
        if (!is_blank)
            put_cost(place, 0, is_wrong ? WRONG : 0);
        memset(values + 4 * place, is_blank ? 0 : is_wrong ? -WRONG : RIGHT, 4);
    }
}

/* What a call wrote, and its refusal. */
static struct guarded message, report;

static uint8_t by_doubt(size_t rate, size_t doubt)
{
    fill(&message);
    fill(&report);
    return hermitian_decode_table(rate, table, sizeof table, doubt, message.bytes, rate, report.bytes, HERMITIAN_REPORT_BYTES);
}

static uint8_t by_threshold(size_t rate, unsigned threshold, size_t most)
{
    fill(&message);
    fill(&report);
    return hermitian_decode_table_below(rate, table, sizeof table, (uint16_t)threshold, most, message.bytes, rate, report.bytes, HERMITIAN_REPORT_BYTES);
}

static uint8_t from_bits(size_t rate, size_t doubt)
{
    fill(&message);
    fill(&report);
    return hermitian_decode_bits(rate, values, sizeof values, doubt, message.bytes, rate, report.bytes, HERMITIAN_REPORT_BYTES);
}

/* The zero codeword came back with this report. */
static void answered(size_t rate, uint8_t refusal, unsigned total, unsigned tests, unsigned changed, const char *what)
{
    const uint8_t *r = report.bytes;
    expect(refusal == HERMITIAN_ACCEPTED, what);
    expect(all_are(message.bytes, 0, rate, 0) && all_are(message.bytes, rate, ROOM, 0xEE), "the message is zero, and no longer than the rate");
    expect((((uint32_t)r[0] << 24) | ((uint32_t)r[1] << 16) | ((uint32_t)r[2] << 8) | r[3]) == total, "total");
    expect(((unsigned)r[4] << 8 | r[5]) == tests && r[7] == changed, "tests and changed places");
    expect(all_are(report.bytes, HERMITIAN_REPORT_BYTES, ROOM, 0xEE) && guards_stand(&message) && guards_stand(&report), "guards stand");
}

static void refused(uint8_t refusal, uint8_t wanted, const char *what)
{
    expect(refusal == wanted, what);
    expect(all_are(message.bytes, 0, ROOM, 0xEE) && all_are(report.bytes, 0, ROOM, 0xEE), "a refusal writes nothing");
    expect(guards_stand(&message) && guards_stand(&report), "guards stand");
}

/* The largest T with 2T + b < 64 - M - 6, by trying. */
static size_t reach(size_t rate, size_t blanks)
{
    size_t m = rate + 5, t = 0;
    while (2 * (t + 1) + blanks < 64 - m - 6)
        t++;
    return t;
}

/* Each number of blank places with T wrong places and with one more; then one blank place too many. */
static void every_reach(size_t rate)
{
    size_t m = rate + 5;
    for (size_t b = 0; b <= 57 - m; b++) {
        size_t t = reach(rate, b);
        frame(t, b);
        unsigned total = (unsigned)(WRONG * t + BLANK * b);
        answered(rate, by_doubt(rate, 0), total, 1, (unsigned)t, "T wrong places beside the blank ones");
        answered(rate, from_bits(rate, 0), (unsigned)(4 * WRONG * t), 1, (unsigned)t, "T wrong places, from bit values");
        answered(rate, by_threshold(rate, 0, 1), total, t > 0 ? 2 : 1, (unsigned)t, "T wrong places, and one doubtful");
        frame(t + 1, b);
        refused(by_doubt(rate, 0), HERMITIAN_NONE_NEAR, "T + 1 wrong places beside the blank ones");
        refused(from_bits(rate, 0), HERMITIAN_NONE_NEAR, "T + 1 wrong places, from bit values");
    }
    frame(0, 58 - m);
    refused(by_doubt(rate, 0), HERMITIAN_TOO_BLANK, "a blank place too many");
    refused(by_doubt(rate, HERMITIAN_MOST_DOUBT), HERMITIAN_TOO_BLANK, "a blank place too many, with doubt");
    refused(by_threshold(rate, 41, HERMITIAN_MOST_DOUBT), HERMITIAN_TOO_BLANK, "a blank place too many, with a threshold");
    refused(from_bits(rate, 0), HERMITIAN_TOO_BLANK, "a blank place too many, from bit values");
}

/* Without doubt a codeword with more than T wrong symbols is refused up to 63 - M - T, since no other is near: 1 to 6 at rate 52. */
static void too_far(size_t rate)
{
    size_t t = reach(rate, 0), most = 63 - (rate + 5) - t;
    expect(most == t + (rate % 2 ? 7 : 6), "six numbers of wrong places, or seven");
    for (size_t wrong = t + 1; wrong <= most; wrong++) {
        frame(wrong, 0);
        refused(by_doubt(rate, 0), HERMITIAN_NONE_NEAR, "more wrong places than T");
        refused(from_bits(rate, 0), HERMITIAN_NONE_NEAR, "more wrong places than T, from bit values");
    }
}

/* T settled places are wrong beside the doubtful ones, which have the smallest gaps, the right symbol second and lie above different x. */
static void doubtful_repaired(size_t rate, unsigned doubt)
{
    size_t t = reach(rate, 0);
    for (size_t more = 0; more < 2; more++) {
        size_t wrong = 0;
        frame(0, 0);
        for (size_t i = 0; i < doubt; i++) {
            put_cost(5 * i + 1, 5, 0);
            put_cost(5 * i + 1, 0, 9);
        }
        for (size_t place = 0; wrong < t + more; place++)
            if (place % 5 != 1 || place >= 5 * doubt) {
                put_cost(place, 1 + place % 3, 0);
                put_cost(place, 0, WRONG);
                wrong++;
            }
        if (more == 0)
            answered(rate, by_doubt(rate, doubt), (unsigned)(WRONG * t) + 9 * doubt, 1, (unsigned)t + doubt, "T settled places wrong and all doubtful ones");
        else
            refused(by_doubt(rate, doubt), HERMITIAN_NONE_NEAR, "T + 1 settled places wrong");
        if (doubt > 0 && more == 0)
            answered(rate, by_threshold(rate, 10, HERMITIAN_MOST_DOUBT), (unsigned)(WRONG * t) + 9 * doubt, 1, (unsigned)t + doubt, "the same by threshold");
    }
}

/* Rate 52 repairs nothing beyond its test words. */
static void rate_52(void)
{
    frame(1, 0);
    refused(by_doubt(52, 0), HERMITIAN_NONE_NEAR, "one wrong symbol at rate 52");
    answered(52, by_doubt(52, 1), WRONG, 1, 1, "the wrong place is doubtful, and its second symbol right");
    answered(52, by_threshold(52, WRONG + 1, HERMITIAN_MOST_DOUBT), WRONG, 1, 1, "it alone is below the threshold");
    put_cost(0, 2, WRONG - 1);
    refused(by_doubt(52, 1), HERMITIAN_NONE_NEAR, "the wrong place is doubtful, and its third symbol right");
    frame(0, 1);
    refused(by_doubt(52, 0), HERMITIAN_TOO_BLANK, "one blank place at rate 52");
}

/* Every rate that there is not is refused before the sizes. */
static void unknown_rates(void)
{
    static const size_t unknown[] = {0, 1, 5, 53, 54, 58, 64, 255, 256 + 6, 256 + 39, 256 + 52, SIZE_MAX};
    static const size_t lengths[] = {5, 6, 39, 49, 52, 53};
    frame(0, 0);
    for (size_t i = 0; i < sizeof unknown / sizeof unknown[0]; i++)
        for (size_t j = 0; j < sizeof lengths / sizeof lengths[0]; j++) {
            fill(&message);
            fill(&report);
            refused(hermitian_decode_table(unknown[i], table, sizeof table, 0, message.bytes, lengths[j], report.bytes, HERMITIAN_REPORT_BYTES), HERMITIAN_UNKNOWN_RATE, "an unknown rate");
            refused(hermitian_decode_table_below(unknown[i], table, sizeof table, 0, 1, message.bytes, lengths[j], report.bytes, HERMITIAN_REPORT_BYTES), HERMITIAN_UNKNOWN_RATE, "an unknown rate, by threshold");
            refused(hermitian_decode_bits(unknown[i], values, sizeof values, 0, message.bytes, lengths[j], report.bytes, HERMITIAN_REPORT_BYTES), HERMITIAN_UNKNOWN_RATE, "an unknown rate, from bit values");
        }
}

/* A buffer of another rate's size is refused. */
static void wrong_sizes(size_t rate)
{
    frame(0, 0);
    for (size_t length = 0; length <= ROOM; length++)
        if (length != rate) {
            fill(&message);
            fill(&report);
            refused(hermitian_decode_table(rate, table, sizeof table, 0, message.bytes, length, report.bytes, HERMITIAN_REPORT_BYTES), HERMITIAN_WRONG_SIZE, "a message buffer of another size");
        }
}

int main(void)
{
    expect(reach(6, 0) == 23 && reach(39, 0) == 6 && reach(39, 13) == 0 && reach(49, 0) == 1 && reach(52, 0) == 0, "T by the rule");
    for (size_t rate = HERMITIAN_LEAST_RATE; rate <= HERMITIAN_MOST_RATE; rate++) {
        every_reach(rate);
        too_far(rate);
        for (unsigned doubt = 0; doubt <= HERMITIAN_MOST_DOUBT; doubt += rate % 4 + 1)
            doubtful_repaired(rate, doubt);
        wrong_sizes(rate);
    }
    doubtful_repaired(6, HERMITIAN_MOST_DOUBT);
    doubtful_repaired(52, HERMITIAN_MOST_DOUBT);
    rate_52();
    unknown_rates();
    printf("decoding at every rate from C: %u checks, %u failed\n", checks, failures);
    return failures == 0 ? 0 : 1;
}
