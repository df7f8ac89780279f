/* Captures as a recorder makes them and support decodes and sorts them: at every rate and with every number of doubtful places made from a
 * table, byte for byte, decoded as the table is, shuffled and sorted; every size, every value of each byte of the head, faulty lists and
 * records, and every refusal in its order. Then the readers of the header: a report's fields, texts of refusals, the version. Guard bytes
 * stand around each buffer. */
#include <stdio.h>
#include <string.h>

#include "hermitian.h"

enum {
    PLACES = HERMITIAN_PLACES,
    SYMBOLS = 16,
    COLUMN = 2 * SYMBOLS,
    RECORD = 1 + COLUMN,
    TABLE = HERMITIAN_TABLE_BYTES,
    REPORT = HERMITIAN_REPORT_BYTES,
    LEAST = HERMITIAN_CAPTURE_BYTES(0),
    MOST = HERMITIAN_MOST_CAPTURE_BYTES,
    DOUBT = HERMITIAN_MOST_DOUBT,
    GUARD = 32,
    ROOM = 2 * MOST
};

static unsigned checks, failures;

static void expect(int held, const char *what)
{
    checks++;
    if (!held) {
        failures++;
        fprintf(stderr, "failed: %s\n", what);
    }
}

/* A buffer between two guards. */
struct guarded {
    uint8_t before[GUARD];
    uint8_t bytes[ROOM];
    uint8_t after[GUARD];
};

static void fill(struct guarded *g)
{
    memset(g->before, 0xA5, GUARD);
    memset(g->bytes, 0xEE, ROOM);
    memset(g->after, 0x5A, GUARD);
}

static int stands(const struct guarded *g, size_t from)
{
    for (size_t i = 0; i < GUARD; i++)
        if (g->before[i] != 0xA5 || g->after[i] != 0x5A)
            return 0;
    for (size_t i = from; i < ROOM; i++)
        if (g->bytes[i] != 0xEE)
            return 0;
    return 1;
}

static uint32_t state = 1;

static uint32_t any(uint32_t limit)
{
    state = state * 1664525u + 1013904223u;
    return (state >> 8) % limit;
}

/* The d doubtful places, 5, 10, 15, .., and costs that make them those of smallest gap: 10 there, 40 elsewhere. */
static uint8_t list[DOUBT + 1];
static uint8_t table[TABLE + 1];
static uint8_t message[HERMITIAN_MOST_RATE];
static uint8_t capture[MOST + 1];

/* A frame of a random message with up to as many wrong places as there are, and the capture of it that is expected. */
static void frame(unsigned rate, unsigned d, unsigned wrong)
{
    uint8_t word[PLACES];
    for (unsigned i = 0; i < d; i++)
        list[i] = (uint8_t)(5 * (i + 1));
    for (unsigned i = 0; i < rate; i++)
        message[i] = (uint8_t)any(16);
    hermitian_encode(rate, message, rate, word, PLACES, 0);
    for (unsigned i = 0; i < wrong; i++)
        word[i * 11 % PLACES] ^= (uint8_t)(1 + any(15));
    for (unsigned p = 0; p < PLACES; p++)
        for (unsigned s = 0; s < SYMBOLS; s++) {
            unsigned doubtful = d > 0 && p % 5 == 0 && p > 0 && p <= 5 * d;
            unsigned cost = s == word[p] ? 1 : doubtful && s == (word[p] ^ 1u) ? 11 : 300;
            table[COLUMN * p + 2 * s] = (uint8_t)(cost >> 8);
            table[COLUMN * p + 2 * s + 1] = (uint8_t)cost;
        }
    unsigned length = LEAST - 3 + d;
    capture[0] = d > 8 ? 2 : 1;
    capture[1] = (uint8_t)(length >> 8);
    capture[2] = (uint8_t)length;
    capture[3] = (uint8_t)rate;
    capture[4] = (uint8_t)d;
    memcpy(capture + 5, list, d);
    for (unsigned p = 0; p < PLACES; p++) {
        capture[5 + d + RECORD * p] = (uint8_t)p;
        memcpy(capture + 5 + d + RECORD * p + 1, table + COLUMN * p, COLUMN);
    }
}

/* Decodes bytes as a capture, and says whether the buffers are those of this message and report, or as they were where they are null. */
static uint8_t decode(const uint8_t *bytes, size_t length, size_t room, size_t report_room, const uint8_t *wanted, const uint8_t *report)
{
    struct guarded m, r;
    fill(&m);
    fill(&r);
    uint8_t number = hermitian_decode_capture(bytes, length, m.bytes, room, r.bytes, report_room);
    expect(stands(&m, wanted ? room : 0) && stands(&r, report ? report_room : 0), "a decoded capture changes its buffers alone");
    if (wanted)
        expect(memcmp(m.bytes, wanted, room) == 0, "the message of a capture");
    if (report)
        expect(memcmp(r.bytes, report, report_room) == 0, "the report of a capture");
    return number;
}

static uint8_t sort(const uint8_t *bytes, size_t length, size_t room, const uint8_t *wanted)
{
    struct guarded g;
    fill(&g);
    uint8_t number = hermitian_sort_capture(bytes, length, g.bytes, room);
    expect(stands(&g, wanted ? room : 0), "a sorted capture changes its buffer alone");
    if (wanted)
        expect(memcmp(g.bytes, wanted, room) == 0, "the bytes of a sorted capture");
    return number;
}

static uint8_t make(size_t rate, size_t d, size_t table_length, size_t room, const uint8_t *wanted)
{
    struct guarded g;
    fill(&g);
    uint8_t number = hermitian_make_capture(rate, list, d, table, table_length, g.bytes, room);
    expect(stands(&g, wanted ? room : 0), "a made capture changes its buffer alone");
    if (wanted)
        expect(memcmp(g.bytes, wanted, room) == 0, "the bytes of a made capture");
    return number;
}

/* The capture with two records exchanged, often enough that all are. */
static void shuffle(uint8_t *bytes, unsigned d)
{
    uint8_t record[RECORD];
    for (unsigned i = 0; i < PLACES; i++) {
        uint8_t *a = bytes + 5 + d + RECORD * i, *b = bytes + 5 + d + RECORD * (i + any(PLACES - i));
        memcpy(record, a, RECORD);
        memmove(a, b, RECORD);
        memcpy(b, record, RECORD);
    }
}

/* Made, decoded as the table is with the same doubtful places, shuffled, sorted. */
static void round_trip(unsigned rate, unsigned d, unsigned wrong)
{
    uint8_t answer[HERMITIAN_MOST_RATE], report[REPORT], shuffled[MOST];
    frame(rate, d, wrong);
    size_t size = HERMITIAN_CAPTURE_BYTES(d);
    expect(make(rate, d, TABLE, size, capture) == 0, "making a capture");
    uint8_t number = hermitian_decode_table(rate, table, TABLE, d, answer, rate, report, REPORT);
    expect(number == 0 || number == 9, "the frame is decoded, or none is near");
    const uint8_t *wanted = number ? 0 : answer, *reported = number ? 0 : report;
    expect(decode(capture, size, rate, REPORT, wanted, reported) == number, "a capture decodes as its table");
    memcpy(shuffled, capture, size);
    shuffle(shuffled, d);
    expect(decode(shuffled, size, rate, REPORT, wanted, reported) == number, "and so it does shuffled");
    expect(sort(shuffled, size, size, capture) == 0, "sorting a shuffled capture");
    expect(sort(capture, size, size, capture) == 0, "sorting a sorted capture");
}

/* What opening refuses, whatever the buffers: decoded and sorted, into right sizes and wrong ones. */
static void refused(const uint8_t *bytes, size_t length, uint8_t number)
{
    expect(decode(bytes, length, 39, REPORT, 0, 0) == number, "a faulty capture is decoded");
    expect(decode(bytes, length, 1, 1, 0, 0) == number, "sizes come after the capture's own faults");
    expect(sort(bytes, length, length, 0) == number, "a faulty capture is sorted");
    expect(sort(bytes, length, length + 1, 0) == number, "the buffer's size comes after the capture's own faults");
}

static void faults(void)
{
    uint8_t bytes[ROOM] = {0};
    frame(39, 3, 2);
    size_t size = HERMITIAN_CAPTURE_BYTES(3);
    for (size_t length = 0; length <= MOST + 40; length++) {
        memcpy(bytes, capture, size);
        if (length != size)
            refused(bytes, length, 11);
    }
    for (unsigned value = 0; value < 256; value++) {
        memcpy(bytes, capture, size);
        bytes[0] = (uint8_t)value;
        if (value == 2)
            refused(bytes, size, 4);
        else if (value != 1)
            refused(bytes, size, 10);
        for (unsigned at = 1; at <= 2; at++) {
            memcpy(bytes, capture, size);
            bytes[at] = (uint8_t)value;
            if (value != capture[at])
                refused(bytes, size, 11);
        }
        memcpy(bytes, capture, size);
        bytes[3] = (uint8_t)value;
        if (value < 6 || value > 52)
            refused(bytes, size, 1);
        else
            expect(sort(bytes, size, size, bytes) == 0, "any rate is sorted");
        memcpy(bytes, capture, size);
        bytes[4] = (uint8_t)value;
        if (value != 3)
            refused(bytes, size, 11);
    }
    const uint8_t lists[][3] = {{5, 5, 15}, {5, 10, 64}, {10, 5, 15}, {5, 15, 10}, {255, 0, 1}};
    for (unsigned i = 0; i < sizeof lists / sizeof *lists; i++) {
        memcpy(bytes, capture, size);
        memcpy(bytes + 5, lists[i], 3);
        bytes[8] = 64;
        refused(bytes, size, 4);
        bytes[3] = 53;
        refused(bytes, size, 1);
    }
    for (unsigned record = 0; record < PLACES; record++) {
        memcpy(bytes, capture, size);
        bytes[8 + RECORD * record] = (uint8_t)(64 + any(192));
        refused(bytes, size, 5);
        bytes[8 + RECORD * record] = (uint8_t)((record + 1 + any(63)) % PLACES);
        refused(bytes, size, 6);
    }
}

/* Buffers of every size but the right one, and all sets of faults of making, each refused by its first. */
static void sizes(void)
{
    frame(39, 3, 2);
    size_t size = HERMITIAN_CAPTURE_BYTES(3);
    for (size_t room = 0; room <= 100; room++) {
        if (room != 39)
            expect(decode(capture, size, room, REPORT, 0, 0) == 2, "a message buffer of another size");
        if (room != REPORT)
            expect(decode(capture, size, 39, room, 0, 0) == 2, "a report of another size");
    }
    for (size_t room = 0; room <= ROOM; room++)
        if (room != size) {
            expect(sort(capture, size, room, 0) == 2, "a buffer to sort into of another size");
            expect(make(39, 3, TABLE, room, 0) == 2, "a buffer to make into of another size");
        }
    for (size_t length = 0; length <= TABLE + 1; length++)
        if (length != TABLE)
            expect(make(39, 3, length, size, 0) == 2, "a table of another size");
    const size_t rates[] = {0, 5, 53, 256 + 39, (size_t)-1};
    for (unsigned faults = 1; faults < 16; faults++)
        for (unsigned i = 0; i < sizeof rates / sizeof *rates; i++) {
            list[2] = faults & 2 ? 10 : 15;
            uint8_t number = make(faults & 1 ? rates[i] : 39, 3, faults & 4 ? TABLE - 1 : TABLE, faults & 8 ? size + 1 : size, 0);
            expect(number == (faults & 1 ? 1 : faults & 2 ? 4 : 2), "making is refused by its first fault");
        }
    for (unsigned i = 0; i <= DOUBT; i++)
        list[i] = (uint8_t)i;
    expect(make(39, DOUBT + 1, TABLE, MOST + 1, 0) == 4, "a list of thirteen places");
    list[0] = 64;
    expect(make(39, 1, TABLE, LEAST + 1, 0) == 4, "a place above 63 in the list");
}

/* A fade of all places, too many blank ones, and the frame of the README with seven wrong places. */
static void frames(void)
{
    frame(39, 0, 0);
    memset(table, 7, TABLE);
    uint8_t bytes[LEAST], report[REPORT] = {0, 0, 0, 210, 0, 1, 0, 7, 0, 0, 0, 0, 0, 1}, zeros[39] = {0};
    expect(hermitian_make_capture(39, list, 0, table, TABLE, bytes, LEAST) == 0, "a table that is blank throughout is made");
    expect(decode(bytes, LEAST, 39, REPORT, 0, 0) == 12, "and has too many blank places");
    for (unsigned p = 0; p < PLACES; p++)
        for (unsigned s = 0; s < SYMBOLS; s++) {
            unsigned wrong = p % 10 == 0;
            table[COLUMN * p + 2 * s] = 0;
            table[COLUMN * p + 2 * s + 1] = s == wrong ? 0 : wrong && s == 0 ? 30 : 40;
        }
    expect(hermitian_make_capture(39, list, 0, table, TABLE, bytes, LEAST) == 0, "seven wrong places");
    expect(decode(bytes, LEAST, 39, REPORT, 0, 0) == 9, "are too many without doubt");
    uint8_t doubted[LEAST + 1];
    list[0] = 0;
    expect(hermitian_make_capture(39, list, 1, table, TABLE, doubted, LEAST + 1) == 0, "with one of them doubtful");
    expect(decode(doubted, LEAST + 1, 39, REPORT, zeros, report) == 0, "they are repaired");
}

/* The header's own: readers, texts, version. */
static void readers(void)
{
    const uint8_t report[REPORT] = {1, 2, 3, 4, 5, 6, 7, 8, 1, 0xF9, 10, 11, 12, 13};
    expect(hermitian_report_total(report) == 0x01020304, "the total");
    expect(hermitian_report_tests(report) == 0x0506, "the test words");
    expect(hermitian_report_pinned(report) == 7, "the pinned places");
    expect(hermitian_report_changed(report) == 8, "the changed places");
    expect(hermitian_report_has_margin(report) == 1, "whether there is a margin");
    expect(hermitian_report_margin(report) == 0xF90A0B0C, "the margin");
    expect(hermitian_report_mark(report) == 13, "the mark");
    for (unsigned a = 0; a <= 15; a++)
        for (unsigned b = 0; b < a; b++)
            expect(strcmp(hermitian_refusal_text((uint8_t)a), hermitian_refusal_text((uint8_t)b)) != 0, "each number has its text");
    expect(strcmp(hermitian_refusal_text(HERMITIAN_NONE_NEAR), "none near") == 0, "the text of 9");
    expect(strcmp(hermitian_refusal_text(255), hermitian_refusal_text(15)) == 0, "a number that is no refusal");
    char version[32];
    snprintf(version, sizeof version, "%d.%d.%d", HERMITIAN_VERSION_MAJOR, HERMITIAN_VERSION_MINOR, HERMITIAN_VERSION_PATCH);
    expect(strcmp(version, HERMITIAN_VERSION) == 0, "the version's parts");
}

int main(void)
{
    for (unsigned rate = HERMITIAN_LEAST_RATE; rate <= HERMITIAN_MOST_RATE; rate++)
        for (unsigned d = 0; d <= DOUBT; d++) {
            round_trip(rate, d, 0);
            round_trip(rate, d, (HERMITIAN_MOST_RATE - rate) / 2);
            round_trip(rate, d, (HERMITIAN_MOST_RATE - rate) / 2 + 1);
        }
    faults();
    sizes();
    frames();
    readers();
    printf("captures: %u checks, %u failed\n", checks, failures);
    return failures != 0;
}
