/* The mark, the report's last byte, as the firmware gets it: the frames of the bench sheet, both sides of the boundary at every rate and
 * with every number of blank places, by doubt, by threshold and from bit values, a codeword that ties with a marked answer, and reports of
 * other sizes. */
#include <stdio.h>
#include <string.h>

#include "hermitian.h"

enum { GUARD = 32, ROOM = 64, MARK = HERMITIAN_REPORT_BYTES - 1, CEILING = 65535 };

static unsigned checks, failures;

static void expect(int held, const char *what)
{
    checks++;
    if (!held) {
        failures++;
        fprintf(stderr, "failed: %s\n", what);
    }
}

/* A buffer between two guards. */
struct guarded {
    uint8_t before[GUARD];
    uint8_t bytes[ROOM];
    uint8_t after[GUARD];
};

static void fill(struct guarded *g)
{
    memset(g->before, 0xA5, GUARD);
    memset(g->bytes, 0xEE, ROOM);
    memset(g->after, 0x5A, GUARD);
}

static int guards_stand(const struct guarded *g)
{
    for (size_t i = 0; i < GUARD; i++)
        if (g->before[i] != 0xA5 || g->after[i] != 0x5A)
            return 0;
    return 1;
}

static int all_are(const uint8_t *bytes, size_t from, size_t to, uint8_t byte)
{
    for (size_t i = from; i < to; i++)
        if (bytes[i] != byte)
            return 0;
    return 1;
}

static uint8_t table[HERMITIAN_TABLE_BYTES];
static int8_t values[HERMITIAN_BIT_VALUES];

static void put_cost(size_t place, size_t symbol, unsigned cost)
{
    table[32 * place + 2 * symbol] = (uint8_t)(cost >> 8);
    table[32 * place + 2 * symbol + 1] = (uint8_t)cost;
}

static unsigned cost_at(size_t place, size_t symbol)
{
    return (unsigned)table[32 * place + 2 * symbol] << 8 | table[32 * place + 2 * symbol + 1];
}

/* Symbol 0 costs one number at a place and all others another. */
static void put_place(size_t place, unsigned zero, unsigned others)
{
    for (size_t symbol = 0; symbol < 16; symbol++)
        put_cost(place, symbol, symbol == 0 ? zero : others);
}

static void put_all(unsigned zero, unsigned others)
{
    for (size_t place = 0; place < HERMITIAN_PLACES; place++)
        put_place(place, zero, others);
}

/* Frame S(m) of the bench sheet. */
static void frame_s(size_t m)
{
    put_all(0, 40);
    for (size_t place = 0; place < 10 * m; place += 10) {
        put_cost(place, 1, 0);
        put_cost(place, 0, 30);
    }
}

/* A place votes for symbol 1, and symbol 0 costs so much there. */
static void vote(size_t place, unsigned zero)
{
    put_place(place, zero, zero + 40);
    put_cost(place, 1, 0);
}

static struct guarded message, report;

/* The zero codeword comes back, with this total, so many changed places and this mark. */
static void answered(uint8_t refusal, size_t rate, unsigned total, unsigned changed, unsigned mark, const char *what)
{
    const uint8_t *r = report.bytes;
    expect(refusal == HERMITIAN_ACCEPTED, what);
    expect(all_are(message.bytes, 0, rate, 0) && all_are(message.bytes, rate, ROOM, 0xEE), "the message is zero");
    expect(((unsigned)r[0] << 24 | (unsigned)r[1] << 16 | (unsigned)r[2] << 8 | r[3]) == total, "total");
    expect(r[7] == changed, "changed places");
    expect(r[MARK] == mark, what);
    expect(all_are(r, HERMITIAN_REPORT_BYTES, ROOM, 0xEE) && guards_stand(&message) && guards_stand(&report), "nothing is written after the report");
}

static uint8_t by_doubt(size_t rate, size_t doubt)
{
    fill(&message);
    fill(&report);
    return hermitian_decode_table(rate, table, sizeof table, doubt, message.bytes, rate, report.bytes, HERMITIAN_REPORT_BYTES);
}

static uint8_t by_threshold(size_t rate, unsigned threshold, size_t most)
{
    fill(&message);
    fill(&report);
    return hermitian_decode_table_below(rate, table, sizeof table, (uint16_t)threshold, most, message.bytes, rate, report.bytes, HERMITIAN_REPORT_BYTES);
}

static uint8_t from_bits(size_t rate, size_t doubt)
{
    fill(&message);
    fill(&report);
    return hermitian_decode_bits(rate, values, sizeof values, doubt, message.bytes, rate, report.bytes, HERMITIAN_REPORT_BYTES);
}

/* R1: 180 and 14 gaps of 40; R3: 210 and 13; R5: 30 and 9. */
static void bench_sheet(void)
{
    frame_s(6);
    answered(by_doubt(39, 0), 39, 180, 6, 1, "R1 is marked");
    frame_s(7);
    answered(by_doubt(39, 1), 39, 210, 7, 1, "R3 is marked");
    answered(by_doubt(39, 2), 39, 210, 7, 1, "R4 is marked");
    frame_s(1);
    answered(by_doubt(49, 0), 49, 30, 1, 1, "R5 is marked");
    put_all(0, 1);
    vote(0, 19);
    answered(by_doubt(39, 0), 39, 19, 1, 1, "19 and 19 gaps of 1: marked");
    vote(0, 20);
    answered(by_doubt(39, 0), 39, 20, 1, 0, "20 and 19 gaps of 1: not marked");
}

/* One place is changed and costs what the gaps of 1 at 58 - k others sum to, or one more. With blank places, which have gap 0, there are as
 * many fewer; T is 1 at least with up to 50 - k of them. */
static void every_boundary(size_t rate)
{
    for (size_t blanks = 0; blanks + rate <= 50; blanks++)
        for (unsigned over = 0; over < 2; over++) {
            unsigned excess = (unsigned)(58 - rate - blanks) + over, cost = 7 * (unsigned)blanks;
            put_all(0, 1);
            vote(0, excess);
            for (size_t place = 1; place <= blanks; place++)
                put_place(3 * place % 64, 7, 7);
            answered(by_doubt(rate, 0), rate, excess + cost, 1, over ? 0 : 1, "one changed place");
            answered(by_threshold(rate, 0, 1), rate, excess + cost, 1, over ? 0 : 1, "one changed place, by threshold");
        }
    for (unsigned over = 0; over < 2; over++) {
        unsigned excess = (unsigned)(58 - rate) + over;
        put_all(CEILING - 1, CEILING);
        vote(0, excess);
        answered(by_doubt(rate, 1), rate, 63u * (CEILING - 1) + excess, 1, over ? 0 : 1, "plain gaps of pinned seconds");
        answered(by_threshold(rate, CEILING, HERMITIAN_MOST_DOUBT), rate, 63u * (CEILING - 1) + excess, 1, over ? 0 : 1, "the same by threshold");
        if (rate <= 50) {
            memset(values, 1, sizeof values);
            values[0] = values[1] = values[2] = -1;
            values[3] = (int8_t)(3 - (int)excess);
            answered(from_bits(rate, 0), rate, excess, 1, over ? 0 : 1, "one changed place, from bit values");
        }
    }
}

/* The function x + x^6 + x^11 is not zero at twenty places only, those with x^5 = 1, where it is x. Here it costs 0 at the first six of
 * them, where zero costs 7, and 3 at the others, where zero costs 0: 42 in all, as zero does, which is near. With one cost more zero is no
 * longer marked, and the other codeword, which is not near, costs less. */
static void ties(void)
{
    static const uint8_t fibres[5] = {1, 8, 10, 12, 15};
    for (unsigned more = 0; more < 2; more++) {
        unsigned other = 0;
        put_all(0, 9);
        for (size_t i = 0; i < 20; i++) {
            size_t x = fibres[i / 4], place = 4 * x + i % 4;
            put_cost(place, x, i < 6 ? 0 : 3);
            if (i < 6)
                put_cost(place, 0, i == 0 ? 7 + more : 7);
        }
        uint8_t light[39] = {0}, word[HERMITIAN_PLACES];
        light[1] = light[18] = light[38] = 1;
        expect(hermitian_encode(39, light, 39, word, sizeof word, 0) == HERMITIAN_ACCEPTED, "the light codeword");
        for (size_t place = 0; place < HERMITIAN_PLACES; place++)
            other += cost_at(place, word[place]);
        expect(other == 42, "the other codeword costs 42");
        answered(by_doubt(39, 0), 39, 42 + more, 6, more ? 0 : 1, "a codeword that ties leaves the mark, and one that costs less does not come");
    }
}

/* At rate 52 seven changed places leave no gap to sum, and six leave one of 40. */
static void none_left(void)
{
    for (size_t changed = 6; changed <= 12; changed++) {
        put_all(0, 40);
        for (size_t i = 0; i < changed; i++)
            vote(5 * i + 1, 1);
        answered(by_doubt(52, changed), 52, (unsigned)changed, (unsigned)changed, changed == 6 ? 1 : 0, "as many places changed as codewords differ in");
    }
}

/* A clean frame is marked; the answer may have pinned places, whose costs are summed as 65535. At rate 52 six changed places leave one gap,
 * which is as large as a gap may be. */
static void ceilings(void)
{
    put_all(0, 40);
    answered(by_doubt(39, 0), 39, 0, 0, 1, "no changed place");
    put_all(0, CEILING);
    for (size_t place = 0; place < 6; place++)
        vote(10 * place, CEILING - 40);
    for (size_t place = 0; place < 6; place++)
        put_cost(10 * place, 0, CEILING);
    answered(by_doubt(39, 0), 39, 6u * CEILING, 6, 1, "six pinned places and 14 gaps of 65535");
    put_all(CEILING - 100, CEILING);
    vote(0, 1900);
    answered(by_doubt(39, 0), 39, 63u * (CEILING - 100) + 1900, 1, 1, "19 gaps of 100");
    vote(0, 1901);
    answered(by_doubt(39, 0), 39, 63u * (CEILING - 100) + 1901, 1, 0, "one more than 19 gaps of 100");
    for (unsigned over = 0; over < 2; over++) {
        put_all(0, CEILING);
        for (size_t i = 0; i < 6; i++) {
            put_place(7 * i, i == 0 ? CEILING - 5 + over : 1, CEILING);
            put_cost(7 * i, 1, 0);
        }
        answered(by_doubt(52, 6), 52, CEILING + over, 6, over ? 0 : 1, "the largest gap, and one more than it");
    }
}

/* A report of another size than 14 is refused before the doubt, and nothing is written. */
static void sizes(void)
{
    expect(HERMITIAN_REPORT_BYTES == 14, "the report has 14 bytes");
    frame_s(1);
    memset(values, 1, sizeof values);
    for (size_t length = 0; length <= ROOM; length++) {
        if (length == HERMITIAN_REPORT_BYTES)
            continue;
        fill(&message);
        fill(&report);
        expect(hermitian_decode_table(39, table, sizeof table, 99, message.bytes, 39, report.bytes, length) == HERMITIAN_WRONG_SIZE, "a report of another size");
        expect(hermitian_decode_table_below(39, table, sizeof table, 0, 99, message.bytes, 39, report.bytes, length) == HERMITIAN_WRONG_SIZE, "a report of another size, by threshold");
        expect(hermitian_decode_bits(39, values, sizeof values, 99, message.bytes, 39, report.bytes, length) == HERMITIAN_WRONG_SIZE, "a report of another size, from bit values");
        expect(all_are(message.bytes, 0, ROOM, 0xEE) && all_are(report.bytes, 0, ROOM, 0xEE), "a refusal writes nothing");
        expect(guards_stand(&message) && guards_stand(&report), "guards stand");
    }
}

int main(void)
{
    bench_sheet();
    for (size_t rate = HERMITIAN_LEAST_RATE; rate <= HERMITIAN_MOST_RATE; rate++)
        every_boundary(rate);
    ties();
    none_left();
    ceilings();
    sizes();
    printf("the mark from C: %u checks, %u failed\n", checks, failures);
    return failures == 0 ? 0 : 1;
}
