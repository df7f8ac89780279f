/* Table decoding with a threshold as the firmware calls it: tables whose gaps lie at the threshold, beside it and across the maximum,
 * pinned seconds, blank places, every set of faults by its first refusal, and each answer beside that of table decoding with as many
 * doubtful places as are counted here in the table, by the sentence of change request 108. */
#include <stdio.h>
#include <string.h>

#include "hermitian.h"

enum { GUARD = 32, ROOM = 64, CEILING = 65535 };

static unsigned checks, failures;

static void expect(int held, const char *what)
{
    checks++;
    if (!held) {
        failures++;
        fprintf(stderr, "failed: %s\n", what);
    }
}

/* A buffer between two guards. */
struct guarded {
    uint8_t before[GUARD];
    uint8_t bytes[ROOM];
    uint8_t after[GUARD];
};

static void fill(struct guarded *g)
{
    memset(g->before, 0xA5, GUARD);
    memset(g->bytes, 0xEE, ROOM);
    memset(g->after, 0x5A, GUARD);
}

static int guards_stand(const struct guarded *g)
{
    for (size_t i = 0; i < GUARD; i++)
        if (g->before[i] != 0xA5 || g->after[i] != 0x5A)
            return 0;
    return 1;
}

static uint32_t state = 1;

static unsigned random_below(unsigned n)
{
    state = state * 1664525u + 1013904223u;
    return (state >> 16) % n;
}

static uint8_t table[HERMITIAN_TABLE_BYTES + 1];
static uint8_t sent[HERMITIAN_MOST_RATE];

static void put_cost(size_t place, size_t symbol, unsigned cost)
{
    table[32 * place + 2 * symbol] = (uint8_t)(cost >> 8);
    table[32 * place + 2 * symbol + 1] = (uint8_t)cost;
}

static unsigned cost_at(size_t place, size_t symbol)
{
    return (unsigned)table[32 * place + 2 * symbol] << 8 | table[32 * place + 2 * symbol + 1];
}

/* A column with two symbols first and so much between them; the others cost as much as the second or more. */
static void put_column(size_t place, unsigned best, unsigned second, unsigned low, unsigned gap)
{
    for (size_t symbol = 0; symbol < 16; symbol++) {
        unsigned cost = low + gap + 1 + random_below(200);
        put_cost(place, symbol, cost > CEILING ? CEILING : cost);
    }
    put_cost(place, best, low);
    put_cost(place, second, low + gap);
}

static void put_blank(size_t place, unsigned cost)
{
    for (size_t symbol = 0; symbol < 16; symbol++)
        put_cost(place, symbol, cost);
}

/* All symbols but one cost 65535. */
static void put_pinned(size_t place, unsigned best, unsigned low)
{
    put_blank(place, CEILING);
    put_cost(place, best, low);
}

/* Frame S(m) of the bench sheet: m places have gap 30, the others gap 40. */
static void frame_s(size_t m)
{
    memset(sent, 0, sizeof sent);
    for (size_t place = 0; place < HERMITIAN_PLACES; place++) {
        int leaning = place % 10 == 0 && place / 10 < m;
        put_blank(place, 40);
        put_cost(place, leaning ? 1 : 0, 0);
        if (leaning)
            put_cost(place, 0, 30);
    }
}

/* A sent codeword with the gaps of a few numbers, so that many are equal; so many places, the first of a random order, have another symbol
 * first and the sent one second, so many are blank and so many have a pinned second. */
static void send(size_t rate, unsigned gaps, unsigned leaning, unsigned blanks, unsigned pinned)
{
    uint8_t word[HERMITIAN_PLACES];
    size_t order[HERMITIAN_PLACES];
    for (size_t i = 0; i < rate; i++)
        sent[i] = (uint8_t)random_below(16);
    expect(hermitian_encode(rate, sent, rate, word, HERMITIAN_PLACES, 0) == HERMITIAN_ACCEPTED, "encode");
    for (size_t i = 0; i < HERMITIAN_PLACES; i++)
        order[i] = i;
    for (size_t i = HERMITIAN_PLACES - 1; i > 0; i--) {
        size_t j = random_below((unsigned)i + 1), other = order[j];
        order[j] = order[i];
        order[i] = other;
    }
    for (size_t i = 0; i < HERMITIAN_PLACES; i++) {
        size_t place = order[i];
        unsigned symbol = word[place], other = symbol ^ (1 + random_below(15));
        unsigned low = random_below(500), gap = i < 16 ? 1 + random_below(gaps) : gaps + random_below(60);
        if (i < leaning)
            put_column(place, other, symbol, low, gap);
        else
            put_column(place, symbol, other, low, gap);
        if (i >= 20 && i < 20 + blanks)
            put_blank(place, low);
        if (i >= 40 && i < 40 + pinned)
            put_pinned(place, symbol, CEILING - 1 - random_below(gaps));
    }
}

/* The gap of a place as it counts for choosing, or -1 if the place is blank. */
static long gap_at(size_t place)
{
    unsigned best = CEILING + 1, second = CEILING + 1, largest = 0;
    for (size_t symbol = 0; symbol < 16; symbol++) {
        unsigned cost = cost_at(place, symbol);
        if (cost < best) {
            second = best;
            best = cost;
        } else if (cost < second)
            second = cost;
        if (cost > largest)
            largest = cost;
    }
    if (largest == best)
        return -1;
    return second == CEILING ? CEILING : (long)(second - best);
}

/* How many places are doubtful: those with a gap below the threshold, one at least and the maximum at most. */
static size_t counted_doubt(unsigned threshold, size_t most)
{
    size_t below = 0;
    for (size_t place = 0; place < HERMITIAN_PLACES; place++) {
        long gap = gap_at(place);
        if (gap >= 0 && gap < (long)threshold)
            below++;
    }
    return below == 0 ? 1 : below < most ? below : most;
}

static struct guarded message, report;

/* What decoding with the threshold answers, held to the answer with the doubt that is counted. */
static uint8_t decode(size_t rate, unsigned threshold, size_t most)
{
    static struct guarded other_message, other_report;
    static uint8_t given[sizeof table];
    fill(&message);
    fill(&report);
    fill(&other_message);
    fill(&other_report);
    memcpy(given, table, sizeof given);
    uint8_t refusal = hermitian_decode_table_below(rate, table, HERMITIAN_TABLE_BYTES, (uint16_t)threshold, most, message.bytes, rate, report.bytes, HERMITIAN_REPORT_BYTES);
    uint8_t other = hermitian_decode_table(rate, table, HERMITIAN_TABLE_BYTES, counted_doubt(threshold, most), other_message.bytes, rate, other_report.bytes, HERMITIAN_REPORT_BYTES);
    expect(refusal == other, "the refusal is that of the doubt counted");
    expect(memcmp(&message, &other_message, sizeof message) == 0, "the message is that of the doubt counted");
    expect(memcmp(&report, &other_report, sizeof report) == 0, "the report is that of the doubt counted");
    expect(memcmp(given, table, sizeof given) == 0, "decoding reads the table");
    expect(guards_stand(&message) && guards_stand(&report), "guards stand");
    return refusal;
}

static unsigned tests(void)
{
    return (unsigned)report.bytes[4] << 8 | report.bytes[5];
}

/* The sent message comes back, and so many test words have a codeword within T. */
static void answers(size_t rate, unsigned threshold, size_t most, unsigned wanted, const char *what)
{
    expect(decode(rate, threshold, most) == HERMITIAN_ACCEPTED && memcmp(message.bytes, sent, rate) == 0 && tests() == wanted, what);
}

static void refuses(size_t rate, unsigned threshold, size_t most, uint8_t refusal, const char *what)
{
    expect(decode(rate, threshold, most) == refusal, what);
}

/* Seven places of gap 30 are wrong, with T = 6. With d of them doubtful the test words near are those with one second symbol of them at
 * least; with one place of gap 40 more also those with that place's second, which is wrong, and two of them. */
static void seven_wrong(void)
{
    frame_s(7);
    answers(39, 0, 8, 1, "threshold 0: place 0 alone, as R3 has it");
    answers(39, 30, 8, 1, "a gap equal to the threshold is not below it");
    answers(39, 31, 1, 1, "S(7), maximum 1");
    answers(39, 31, 2, 3, "S(7), maximum 2, is R4");
    answers(39, 31, 7, 127, "all seven");
    answers(39, 31, 8, 127, "all seven are below, and no more");
    answers(39, 40, 8, 127, "the next gap is the threshold");
    answers(39, 41, 8, 247, "place 1 is the eighth");
    answers(39, CEILING, 8, 247, "the largest threshold");
    answers(39, 41, HERMITIAN_MOST_DOUBT, 2510, "places 1 to 5 are the eighth to the twelfth: at most six of twelve are wrong in 2,510 test words");
    answers(39, CEILING, HERMITIAN_MOST_DOUBT, 2510, "the largest of both");
    frame_s(2);
    answers(49, 0, 8, 1, "at the other rate, with T = 1");
    answers(49, 31, 8, 3, "both");
    frame_s(3);
    refuses(49, 30, 8, HERMITIAN_NONE_NEAR, "three wrong, and one is chosen");
    refuses(49, 31, 1, HERMITIAN_NONE_NEAR, "and one is the maximum");
    answers(49, 31, 2, 1, "two are chosen");
}

/* All places are right: the test words near are those with at most T second symbols. Above eight places the count takes two bytes. */
static void clear_link(void)
{
    static const unsigned near[] = {1, 2, 4, 8, 16, 32, 64, 127, 247, 466, 848, 1486, 2510};
    frame_s(0);
    for (size_t most = 1; most <= HERMITIAN_MOST_DOUBT; most++) {
        answers(39, 0, most, 2, "a clear link: one doubtful place");
        answers(39, 40, most, 2, "the gap of all is the threshold: one doubtful place");
        answers(39, 41, most, near[most], "all are below: as many as the maximum");
        answers(49, 40, most, 2, "a clear link at the other rate");
        answers(49, 41, most, 1 + (unsigned)most, "as many as the maximum");
    }
}

static void pinned_seconds(void)
{
    frame_s(0);
    for (size_t place = 0; place < HERMITIAN_PLACES; place++)
        put_pinned(place, 0, 65534);
    for (unsigned threshold = 0; threshold <= CEILING; threshold += 13107)
        answers(49, threshold, HERMITIAN_MOST_DOUBT, 2, "pinned seconds alone: the first and no other");
    put_pinned(0, 1, 65534);
    put_pinned(1, 1, 65534);
    answers(49, CEILING, 8, 1, "and the first is place 0, whose second is right");
    frame_s(0);
    for (size_t place = 0; place < HERMITIAN_PLACES; place++)
        put_pinned(place, 0, 65534);
    put_column(61, 0, 7, 0, 65534);
    answers(49, CEILING, 8, 2, "65534 is below 65535");
    put_column(62, 0, 7, 0, 65534);
    put_column(63, 0, 7, 12, 5);
    answers(49, 65534, 8, 2, "and not below 65534: place 63 alone");
    answers(49, CEILING, HERMITIAN_MOST_DOUBT, 4, "three, and no pinned one");
    answers(49, CEILING, 2, 3, "two of them");
}

/* How many of 2^places choices change at most so many of the places. */
static unsigned choices(unsigned places, unsigned most)
{
    unsigned sum = 0, term = 1;
    for (unsigned i = 0; i <= places && i <= most; i++) {
        sum += term;
        term = term * (places - i) / (i + 1);
    }
    return sum;
}

/* The blank places lie above one x each: of blank and doubtful places above five x, twenty of them, another codeword may be near. */
static void blank_places(size_t rate, size_t limit)
{
    for (size_t blanks = 1; blanks <= limit + 1; blanks++) {
        frame_s(0);
        for (size_t i = 0; i < blanks; i++)
            put_blank(4 * i + 1, (unsigned)(17 * i));
        for (size_t most = 1; most <= HERMITIAN_MOST_DOUBT; most++)
            for (unsigned threshold = 0; threshold <= 41; threshold += 41)
                if (blanks > limit)
                    refuses(rate, threshold, most, HERMITIAN_TOO_BLANK, "more blank places than leave a T");
                else
                    answers(rate, threshold, most, choices(threshold == 0 ? 1 : (unsigned)most, (unsigned)(limit - blanks) / 2), "blank places are not chosen: all that are make two test words each");
    }
    frame_s(1);
    for (size_t place = 1; place <= limit; place++)
        put_blank(place, 0);
    answers(rate, 0, 1, 1, "T = 0, and the wrong place is chosen, not a blank one");
    for (size_t open = 0; open <= HERMITIAN_MOST_DOUBT + 1; open++) {
        frame_s(0);
        for (size_t place = open; place < HERMITIAN_PLACES; place++)
            put_blank(place, 7);
        refuses(rate, 0, 1, HERMITIAN_TOO_BLANK, "all blank but a few");
        refuses(rate, CEILING, HERMITIAN_MOST_DOUBT, HERMITIAN_TOO_BLANK, "all blank but a few, the largest of both");
    }
}

/* Each maximum, with thresholds at every gap of the frame, one below and one above. */
static void frames(size_t rate, unsigned reach, unsigned limit)
{
    for (unsigned i = 0; i < 24; i++) {
        send(rate, 1 + random_below(9), random_below(reach + HERMITIAN_MOST_DOUBT + 1), i % 3 == 0 ? random_below(limit + 2) : 0, i % 4 == 0 ? 24 : 0);
        for (size_t most = 1; most <= HERMITIAN_MOST_DOUBT; most++) {
            for (unsigned threshold = 0; threshold <= 12; threshold++)
                decode(rate, threshold, most);
            for (size_t place = 0; place < HERMITIAN_PLACES; place += 9) {
                long gap = gap_at(place);
                for (long threshold = gap - 1; threshold <= gap + 1; threshold++)
                    if (threshold >= 0 && threshold <= CEILING)
                        decode(rate, (unsigned)threshold, most);
            }
            decode(rate, CEILING, most);
        }
    }
}

/* Any of the faults at once: each is told before those that a later check would refuse. */
static void refusals(size_t rate, size_t most_blank)
{
    static const size_t unknown[] = {0, 5, 53, 58, 64, 256 + 39, SIZE_MAX}, lengths[] = {0, 32, 256, HERMITIAN_TABLE_BYTES - 1, HERMITIAN_TABLE_BYTES + 1};
    static const size_t maxima[] = {0, HERMITIAN_MOST_DOUBT + 1, 255, 256, 259, SIZE_MAX}, reports[] = {0, 8, HERMITIAN_REPORT_BYTES - 1, HERMITIAN_REPORT_BYTES + 1};
    static const unsigned thresholds[] = {0, 1, 31, 41, CEILING};
    static const uint8_t refusal_of[] = {HERMITIAN_UNKNOWN_RATE, HERMITIAN_WRONG_SIZE, HERMITIAN_WRONG_SIZE, HERMITIAN_WRONG_SIZE, HERMITIAN_WRONG_DOUBT, HERMITIAN_TOO_BLANK, HERMITIAN_NONE_NEAR};
    static struct guarded untouched;
    static uint8_t given[sizeof table];
    const size_t messages[] = {0, rate - 1, rate + 1, 88 - rate};
    for (unsigned faults = 1; faults < 128; faults++)
        for (unsigned turn = 0; turn < 12; turn++) {
            unsigned first = 0;
            while (!(faults >> first & 1))
                first++;
            frame_s(0);
            for (size_t place = 63; (faults & 64) && place > 55; place--)
                put_column(place, 1, 2, 0, 30 + (unsigned)place % 2);
            for (size_t place = 0; (faults & 32) && place <= most_blank; place++)
                put_blank(place, 9);
            size_t rated = faults & 1 ? unknown[turn % 7] : rate, length = faults & 2 ? lengths[turn % 5] : HERMITIAN_TABLE_BYTES;
            size_t message_length = faults & 4 ? messages[turn % 4] : rate, report_length = faults & 8 ? reports[turn % 4] : HERMITIAN_REPORT_BYTES;
            size_t most = faults & 16 ? maxima[turn % 6] : 1 + turn % HERMITIAN_MOST_DOUBT;
            memcpy(given, table, sizeof given);
            fill(&message);
            fill(&report);
            fill(&untouched);
            expect(hermitian_decode_table_below(rated, table, length, (uint16_t)thresholds[turn % 5], most, message.bytes, message_length, report.bytes, report_length) == refusal_of[first], "the first of the faults is told");
            expect(memcmp(&message, &untouched, sizeof message) == 0 && memcmp(&report, &untouched, sizeof report) == 0, "a refusal writes nothing");
            expect(memcmp(given, table, sizeof given) == 0, "a refusal leaves the table");
        }
}

int main(void)
{
    seven_wrong();
    clear_link();
    pinned_seconds();
    blank_places(39, 13);
    blank_places(49, 3);
    frames(39, 6, 13);
    frames(49, 1, 3);
    refusals(39, 13);
    refusals(49, 3);
    printf("table decoding with a threshold from C: %u checks, %u failed\n", checks, failures);
    return failures == 0 ? 0 : 1;
}
