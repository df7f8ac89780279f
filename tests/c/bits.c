/* Decoding from bit values as the firmware calls it: a sent codeword under noise, each value in
 * each position, blank places, every refusal in its order, and each answer beside that of the table
 * which the values make, computed here by the rule of change request 105. */
#include <stdio.h>
#include <string.h>

#include "hermitian.h"

enum { GUARD = 32, ROOM = 64, LONGEST = HERMITIAN_TABLE_BYTES, TOO_MANY = HERMITIAN_MOST_DOUBT + 1 };

static unsigned checks, failures;

static void expect(int held, const char *what)
{
    checks++;
    if (!held) {
        failures++;
        fprintf(stderr, "failed: %s\n", what);
    }
}

/* A buffer between two guards. */
struct guarded {
    uint8_t before[GUARD];
    uint8_t bytes[ROOM];
    uint8_t after[GUARD];
};

static void fill(struct guarded *g)
{
    memset(g->before, 0xA5, GUARD);
    memset(g->bytes, 0xEE, ROOM);
    memset(g->after, 0x5A, GUARD);
}

static int guards_stand(const struct guarded *g)
{
    for (size_t i = 0; i < GUARD; i++)
        if (g->before[i] != 0xA5 || g->after[i] != 0x5A)
            return 0;
    return 1;
}

static uint32_t state = 1;

static int random_below(int n)
{
    state = state * 1664525u + 1013904223u;
    return (int)((state >> 16) % (unsigned)n);
}

/* The values of all places, and room for a frame that is too long. */
static int8_t values[LONGEST];
static uint8_t sent[HERMITIAN_MOST_RATE];

/* A sent codeword: four values a symbol that favour its bits, all of one magnitude. */
static void send(size_t rate, int magnitude)
{
    uint8_t word[HERMITIAN_PLACES];
    for (size_t i = 0; i < rate; i++)
        sent[i] = (uint8_t)random_below(16);
    expect(hermitian_encode(rate, sent, rate, word, HERMITIAN_PLACES, 0) == HERMITIAN_ACCEPTED, "encode");
    for (size_t place = 0; place < HERMITIAN_PLACES; place++)
        for (int bit = 0; bit < 4; bit++)
            values[4 * place + (size_t)bit] = (int8_t)(word[place] >> (3 - bit) & 1 ? -magnitude : magnitude);
}

/* Zero and the constant 15 are codewords: one positive value throughout sends the first, a negative one the second. */
static void send_constant(int value)
{
    memset(values, value, HERMITIAN_BIT_VALUES);
    memset(sent, 0, sizeof sent);
    sent[0] = value < 0 ? 15 : 0;
}

static void noise(int most)
{
    for (size_t i = 0; i < HERMITIAN_BIT_VALUES; i++) {
        int v = values[i] + random_below(2 * most + 1) - most;
        values[i] = (int8_t)(v < -128 ? -128 : v > 127 ? 127 : v);
    }
}

/* What a symbol costs, from signed numbers: the sentence of the request. */
static unsigned cost(size_t place, int symbol)
{
    unsigned sum = 0;
    for (int bit = 0; bit < 4; bit++) {
        int v = values[4 * place + (size_t)bit], t = symbol >> (3 - bit) & 1;
        if (v > 0 && t == 1)
            sum += (unsigned)v;
        if (v < 0 && t == 0)
            sum += (unsigned)-v;
    }
    return sum;
}

static void made_table(uint8_t table[HERMITIAN_TABLE_BYTES])
{
    for (size_t place = 0; place < HERMITIAN_PLACES; place++)
        for (int symbol = 0; symbol < 16; symbol++) {
            unsigned c = cost(place, symbol);
            table[32 * place + 2 * (size_t)symbol] = (uint8_t)(c >> 8);
            table[32 * place + 2 * (size_t)symbol + 1] = (uint8_t)c;
        }
}

static struct guarded message, report;

/* What decoding from the values answers, held to the answer of the table that they make. */
static uint8_t decode(size_t rate, size_t doubt)
{
    static struct guarded table_message, table_report;
    static uint8_t table[HERMITIAN_TABLE_BYTES];
    static int8_t given[HERMITIAN_BIT_VALUES];
    fill(&message);
    fill(&report);
    fill(&table_message);
    fill(&table_report);
    made_table(table);
    memcpy(given, values, sizeof given);
    uint8_t refusal = hermitian_decode_bits(rate, values, HERMITIAN_BIT_VALUES, doubt, message.bytes, rate, report.bytes, HERMITIAN_REPORT_BYTES);
    uint8_t other = hermitian_decode_table(rate, table, HERMITIAN_TABLE_BYTES, doubt, table_message.bytes, rate, table_report.bytes, HERMITIAN_REPORT_BYTES);
    expect(refusal == other, "the refusal is that of the table");
    expect(memcmp(&message, &table_message, sizeof message) == 0, "the message is that of the table");
    expect(memcmp(&report, &table_report, sizeof report) == 0, "the report is that of the table");
    expect(memcmp(given, values, sizeof given) == 0, "decoding reads the values");
    expect(guards_stand(&message) && guards_stand(&report), "guards stand");
    return refusal;
}

static int message_came_back(size_t rate)
{
    return memcmp(message.bytes, sent, rate) == 0;
}

static unsigned total(void)
{
    const uint8_t *r = report.bytes;
    return (unsigned)r[0] << 24 | (unsigned)r[1] << 16 | (unsigned)r[2] << 8 | r[3];
}

static void refused(size_t rate, size_t length, size_t doubt, size_t message_length, size_t report_length, uint8_t refusal, const char *what)
{
    static struct guarded untouched;
    static int8_t given[LONGEST];
    memcpy(given, values, sizeof given);
    fill(&message);
    fill(&report);
    fill(&untouched);
    expect(hermitian_decode_bits(rate, values, length, doubt, message.bytes, message_length, report.bytes, report_length) == refusal, what);
    expect(memcmp(&message, &untouched, sizeof message) == 0 && memcmp(&report, &untouched, sizeof report) == 0, "a refusal writes nothing");
    expect(memcmp(given, values, sizeof given) == 0, "a refusal leaves the values");
}

/* A value in a codeword whose bit it speaks against, if it is not zero: one place is wrong, so the codeword is the answer, and costs what this value adds. */
static void one_value(size_t rate, size_t bit, int v)
{
    int magnitude = 1 + random_below(127);
    send_constant(v > 0 ? -magnitude : magnitude);
    values[4 * (size_t)random_below(HERMITIAN_PLACES) + bit] = (int8_t)v;
    expect(decode(rate, 0) == HERMITIAN_ACCEPTED && message_came_back(rate) && total() == (unsigned)(v < 0 ? -v : v), "each value in each position");
    decode(rate, (size_t)random_below(TOO_MANY));
}

static void frames(size_t rate)
{
    size_t most_blank = 52 - rate;
    send(rate, 100);
    expect(decode(rate, 0) == HERMITIAN_ACCEPTED && message_came_back(rate) && total() == 0, "a frame without noise");
    for (size_t bit = 0; bit < 4; bit++)
        for (int v = -128; v <= 127; v++)
            one_value(rate, bit, v);
    for (int i = 0; i < 200; i++) {
        send(rate, 40);
        noise(50);
        decode(rate, (size_t)random_below(TOO_MANY));
        send(rate, 60);
        noise(59);
        expect(decode(rate, 0) == HERMITIAN_ACCEPTED && message_came_back(rate), "noise that turns no bit");
    }
    for (size_t blanks = 0; blanks <= most_blank + 1; blanks++) {
        send(rate, 77);
        memset(values + 4 * 20, 0, 4 * blanks);
        if (blanks <= most_blank)
            expect(decode(rate, HERMITIAN_MOST_DOUBT) == HERMITIAN_ACCEPTED && message_came_back(rate) && total() == 0, "places with four zeros are blank");
        else
            expect(decode(rate, HERMITIAN_MOST_DOUBT) == HERMITIAN_TOO_BLANK, "more blank places than leave a T");
    }
    send(rate, 77);
    for (size_t place = 0; place < HERMITIAN_PLACES; place++)
        values[4 * place] = values[4 * place + 1] = values[4 * place + 2] = 0;
    expect(decode(rate, 0) != HERMITIAN_TOO_BLANK, "three zeros of four make no blank place");
    memset(values, 0, sizeof values);
    expect(decode(rate, 0) == HERMITIAN_TOO_BLANK, "a frame of zeros");
}

/* Every doubt up to the limit, with all places right: the test words near are those with at most T second symbols. */
static void every_doubt(size_t rate)
{
    static const unsigned near[HERMITIAN_MOST_DOUBT + 1] = {1, 2, 4, 8, 16, 32, 64, 127, 247, 466, 848, 1486, 2510};
    for (size_t doubt = 0; doubt <= HERMITIAN_MOST_DOUBT; doubt++) {
        send(rate, 31);
        expect(decode(rate, doubt) == HERMITIAN_ACCEPTED && message_came_back(rate) && total() == 0, "each doubt");
        expect(((unsigned)report.bytes[4] << 8 | report.bytes[5]) == (rate == 39 ? near[doubt] : 1 + doubt), "the test words near");
    }
}

/* -128 favours a bit 1 with 128, 127 a bit 0 with 127. */
static void extremes(size_t rate)
{
    send_constant(-128);
    expect(decode(rate, 0) == HERMITIAN_ACCEPTED && message_came_back(rate) && total() == 0, "every value -128");
    memset(values, 127, 4);
    expect(decode(rate, 0) == HERMITIAN_ACCEPTED && message_came_back(rate) && total() == 508, "one place of 127");
    send_constant(127);
    expect(decode(rate, 0) == HERMITIAN_ACCEPTED && message_came_back(rate) && total() == 0, "every value 127");
    memset(values, -128, 4);
    expect(decode(rate, 0) == HERMITIAN_ACCEPTED && message_came_back(rate) && total() == 512, "one place of -128");
}

/* Each wrong argument set beside those that a later check would refuse. */
static void refusals(void)
{
    static const size_t unknown[] = {0, 5, 53, 58, 64, 256 + 39, SIZE_MAX};
    static const size_t lengths[] = {0, 64, 255, 257, 512, 1024, HERMITIAN_TABLE_BYTES};
    memset(values, 0, sizeof values);
    for (size_t i = 0; i < sizeof unknown / sizeof unknown[0]; i++) {
        refused(unknown[i], HERMITIAN_BIT_VALUES, 0, 39, HERMITIAN_REPORT_BYTES, HERMITIAN_UNKNOWN_RATE, "unknown rate");
        refused(unknown[i], 5, TOO_MANY, 3, 7, HERMITIAN_UNKNOWN_RATE, "the rate is checked first");
    }
    for (size_t rate = 39; rate <= 49; rate += 10) {
        for (size_t i = 0; i < sizeof lengths / sizeof lengths[0]; i++)
            refused(rate, lengths[i], TOO_MANY, rate, HERMITIAN_REPORT_BYTES, HERMITIAN_WRONG_SIZE, "a frame that has not 256 values");
        refused(rate, HERMITIAN_BIT_VALUES, TOO_MANY, rate - 1, HERMITIAN_REPORT_BYTES, HERMITIAN_WRONG_SIZE, "a short message buffer");
        refused(rate, HERMITIAN_BIT_VALUES, TOO_MANY, rate + 1, HERMITIAN_REPORT_BYTES, HERMITIAN_WRONG_SIZE, "a long message buffer");
        refused(rate, HERMITIAN_BIT_VALUES, TOO_MANY, rate, HERMITIAN_REPORT_BYTES - 1, HERMITIAN_WRONG_SIZE, "a short report");
        refused(rate, HERMITIAN_BIT_VALUES, TOO_MANY, rate, HERMITIAN_REPORT_BYTES + 1, HERMITIAN_WRONG_SIZE, "a long report");
        refused(rate, HERMITIAN_BIT_VALUES, TOO_MANY, rate, HERMITIAN_REPORT_BYTES, HERMITIAN_WRONG_DOUBT, "doubt 13");
        refused(rate, HERMITIAN_BIT_VALUES, SIZE_MAX, rate, HERMITIAN_REPORT_BYTES, HERMITIAN_WRONG_DOUBT, "the largest doubt");
        refused(rate, HERMITIAN_BIT_VALUES, 0, rate, HERMITIAN_REPORT_BYTES, HERMITIAN_TOO_BLANK, "every place blank");
        send(rate, 50);
        for (size_t place = 0; place < 7; place++)
            for (size_t bit = 0; bit < 4; bit++)
                values[4 * place + bit] = (int8_t)-values[4 * place + bit];
        refused(rate, HERMITIAN_BIT_VALUES, 0, rate, HERMITIAN_REPORT_BYTES, HERMITIAN_NONE_NEAR, "none near");
        memset(values, 0, sizeof values);
    }
}

int main(void)
{
    for (size_t rate = 39; rate <= 49; rate += 10) {
        frames(rate);
        every_doubt(rate);
        extremes(rate);
    }
    refusals();
    printf("decoding from bit values from C: %u checks, %u failed\n", checks, failures);
    return failures == 0 ? 0 : 1;
}
