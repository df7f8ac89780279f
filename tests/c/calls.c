/* Calls the proved library as the firmware does: bench sheet C3 to C8, round trips of random
 * messages, every refusal in its order, all at every rate, and guard bytes around each buffer. */
#include <stdio.h>
#include <string.h>

#include "hermitian.h"

enum { GUARD = 32, ROOM = 256, TRIPS = 200 };

static unsigned checks, failures;

static void expect(int held, const char *what)
{
    checks++;
    if (!held) {
        failures++;
        fprintf(stderr, "failed: %s\n", what);
    }
}

/* A buffer between two guards. */
struct guarded {
    uint8_t before[GUARD];
    uint8_t bytes[ROOM];
    uint8_t after[GUARD];
};

static void fill(struct guarded *g, uint8_t byte)
{
    memset(g->before, 0xA5, GUARD);
    memset(g->bytes, byte, ROOM);
    memset(g->after, 0x5A, GUARD);
}

static int guards_stand(const struct guarded *g)
{
    for (size_t i = 0; i < GUARD; i++)
        if (g->before[i] != 0xA5 || g->after[i] != 0x5A)
            return 0;
    return 1;
}

static int all_are(const uint8_t *bytes, size_t from, size_t to, uint8_t byte)
{
    for (size_t i = from; i < to; i++)
        if (bytes[i] != byte)
            return 0;
    return 1;
}

/* GF(16) by long multiplication, for what the monomials should be. */
static unsigned times(unsigned a, unsigned b)
{
    unsigned product = 0;
    for (unsigned bit = 0; bit < 4; bit++)
        if (b >> bit & 1)
            product ^= a << bit;
    for (unsigned bit = 6; bit >= 4; bit--)
        if (product >> bit & 1)
            product ^= 0x13u << (bit - 4);
    return product;
}

static unsigned power(unsigned a, unsigned n)
{
    unsigned p = 1;
    while (n-- > 0)
        p = times(p, a);
    return p;
}

/* The word of a 1 in one message symbol alone. */
static void word_of(size_t rate, size_t symbol, uint8_t word[HERMITIAN_PLACES])
{
    uint8_t message[HERMITIAN_MOST_RATE] = {0};
    message[symbol] = 1;
    expect(hermitian_encode(rate, message, rate, word, HERMITIAN_PLACES, 0) == HERMITIAN_ACCEPTED, "a 1 alone is encoded");
}

static void bench_sheet(size_t rate)
{
    static const uint8_t start_of_y[12] = {0, 1, 6, 7, 2, 3, 4, 5, 10, 11, 12, 13};
    uint8_t x[HERMITIAN_PLACES], y[HERMITIAN_PLACES], high[HERMITIAN_PLACES];
    word_of(rate, 1, x);
    word_of(rate, 2, y);
    for (unsigned r = 0; r < 4; r++)
        expect(x[8 + r] == 2 && y[8 + r] == 10 + r, "C3: places 8 to 11");
    expect(x[63] == 15 && y[63] == 5, "C4: place 63");
    if (rate > 38) {
        word_of(rate, 38, high);
        for (unsigned p = 0; p < HERMITIAN_PLACES; p++)
            expect(high[p] == power(x[p], 11), "C5: symbol 38 multiplies x^11");
    }
    if (rate > 48) {
        word_of(rate, 48, high);
        for (unsigned p = 0; p < HERMITIAN_PLACES; p++)
            expect(high[p] == times(power(x[p], 11), power(y[p], 2)), "C6: symbol 48 multiplies x^11 y^2");
    }
    for (unsigned p = 0; p < HERMITIAN_PLACES; p++)
        expect(x[p] == p / 4, "C7: a 1 in symbol 1 alone");
    expect(memcmp(y, start_of_y, sizeof start_of_y) == 0, "C8: a 1 in symbol 2 alone");
    for (unsigned p = 0; p < HERMITIAN_PLACES; p++)
        expect((power(y[p], 4) ^ y[p]) == power(x[p], 5), "every place is on the curve");
}

static uint32_t state = 1;

static unsigned random_below(unsigned n)
{
    state = state * 1664525u + 1013904223u;
    return (state >> 16) % n;
}

static void round_trips(size_t rate, unsigned trips)
{
    static struct guarded message, frame, word, back;
    for (unsigned trip = 0; trip < trips; trip++) {
        fill(&message, 0);
        fill(&frame, 0xEE);
        fill(&word, 0xEE);
        fill(&back, 0xEE);
        for (size_t i = 0; i < rate; i++)
            message.bytes[i] = (uint8_t)random_below(16);
        uint8_t sent[HERMITIAN_MOST_RATE];
        memcpy(sent, message.bytes, rate);
        size_t start = random_below(ROOM - HERMITIAN_PLACES + 1);
        size_t length = start + HERMITIAN_PLACES + random_below((unsigned)(ROOM - HERMITIAN_PLACES - start) + 1);

        expect(hermitian_encode(rate, message.bytes, rate, frame.bytes, length, start) == HERMITIAN_ACCEPTED, "encode");
        expect(memcmp(sent, message.bytes, rate) == 0, "encoding reads the message");
        expect(all_are(frame.bytes, 0, start, 0xEE), "bytes before the codeword stay");
        expect(all_are(frame.bytes, start + HERMITIAN_PLACES, ROOM, 0xEE), "bytes after the codeword stay");

        memcpy(word.bytes, frame.bytes + start, HERMITIAN_PLACES);
        expect(hermitian_read_back(rate, word.bytes, HERMITIAN_PLACES, back.bytes, rate) == HERMITIAN_ACCEPTED, "read back");
        expect(memcmp(back.bytes, sent, rate) == 0, "the message comes back");
        expect(all_are(back.bytes, rate, ROOM, 0xEE), "nothing is written after the message");
        expect(memcmp(word.bytes, frame.bytes + start, HERMITIAN_PLACES) == 0, "reading back reads the word");

        size_t place = random_below(HERMITIAN_PLACES);
        word.bytes[place] ^= (uint8_t)(1 + random_below(15));
        memset(back.bytes, 0xEE, ROOM);
        expect(hermitian_read_back(rate, word.bytes, HERMITIAN_PLACES, back.bytes, rate) == HERMITIAN_NO_CODEWORD, "a wrong symbol is refused");
        expect(all_are(back.bytes, 0, ROOM, 0xEE), "a refusal writes nothing");

        expect(guards_stand(&message) && guards_stand(&frame) && guards_stand(&word) && guards_stand(&back), "guards stand");
    }
}

/* Each wrong argument set beside those that a later check would refuse. */
static void refused_encoding(size_t rate, size_t message_length, size_t frame_length, size_t start, uint8_t symbol, uint8_t refusal)
{
    static struct guarded message, frame;
    fill(&message, 1);
    fill(&frame, 0xEE);
    message.bytes[HERMITIAN_LEAST_RATE - 1] = symbol;
    expect(hermitian_encode(rate, message.bytes, message_length, frame.bytes, frame_length, start) == refusal, "encoding's refusal");
    expect(all_are(frame.bytes, 0, ROOM, 0xEE) && guards_stand(&frame) && guards_stand(&message), "a refused encoding writes nothing");
}

static void refused_reading(size_t rate, size_t word_length, size_t message_length, uint8_t symbol, uint8_t refusal)
{
    static struct guarded word, message;
    fill(&word, 0);
    fill(&message, 0xEE);
    word.bytes[9] = symbol;
    expect(hermitian_read_back(rate, word.bytes, word_length, message.bytes, message_length) == refusal, "reading back's refusal");
    expect(all_are(message.bytes, 0, ROOM, 0xEE) && guards_stand(&word) && guards_stand(&message), "a refused reading back writes nothing");
}

static void refusals(void)
{
    static const size_t unknown[] = {0, 1, 5, 53, 54, 58, 64, 255, 256 + 6, 256 + 39, 256 + 52, SIZE_MAX};
    for (size_t i = 0; i < sizeof unknown / sizeof unknown[0]; i++) {
        refused_encoding(unknown[i], 39, ROOM, 0, 1, HERMITIAN_UNKNOWN_RATE);
        refused_encoding(unknown[i], 3, 5, SIZE_MAX, 16, HERMITIAN_UNKNOWN_RATE);
        refused_reading(unknown[i], HERMITIAN_PLACES, 39, 0, HERMITIAN_UNKNOWN_RATE);
        refused_reading(unknown[i], 3, 5, 255, HERMITIAN_UNKNOWN_RATE);
    }
    for (size_t rate = HERMITIAN_LEAST_RATE; rate <= HERMITIAN_MOST_RATE; rate++) {
        refused_encoding(rate, rate - 1, ROOM, 0, 16, HERMITIAN_WRONG_SIZE);
        refused_encoding(rate, rate + 1, ROOM, 0, 16, HERMITIAN_WRONG_SIZE);
        refused_encoding(rate, 0, ROOM, 0, 16, HERMITIAN_WRONG_SIZE);
        refused_encoding(rate, rate, 0, 0, 16, HERMITIAN_WRONG_SIZE);
        refused_encoding(rate, rate, 63, 0, 16, HERMITIAN_WRONG_SIZE);
        refused_encoding(rate, rate, 64, 1, 16, HERMITIAN_WRONG_SIZE);
        refused_encoding(rate, rate, ROOM, ROOM - 63, 16, HERMITIAN_WRONG_SIZE);
        for (size_t back = 0; back <= 64; back++)
            refused_encoding(rate, rate, ROOM, SIZE_MAX - back, 16, HERMITIAN_WRONG_SIZE);
        refused_encoding(rate, rate, ROOM, ROOM - 64, 16, HERMITIAN_NO_SYMBOL);
        refused_encoding(rate, rate, 64, 0, 255, HERMITIAN_NO_SYMBOL);

        refused_reading(rate, 63, rate, 16, HERMITIAN_WRONG_SIZE);
        refused_reading(rate, 65, rate, 16, HERMITIAN_WRONG_SIZE);
        refused_reading(rate, HERMITIAN_PLACES, rate - 1, 16, HERMITIAN_WRONG_SIZE);
        refused_reading(rate, HERMITIAN_PLACES, rate + 1, 16, HERMITIAN_WRONG_SIZE);
        refused_reading(rate, HERMITIAN_PLACES, rate, 16, HERMITIAN_NO_SYMBOL);
        refused_reading(rate, HERMITIAN_PLACES, rate, 255, HERMITIAN_NO_SYMBOL);
        refused_reading(rate, HERMITIAN_PLACES, rate, 1, HERMITIAN_NO_CODEWORD);
    }
}

int main(void)
{
    for (size_t rate = HERMITIAN_LEAST_RATE; rate <= HERMITIAN_MOST_RATE; rate++) {
        bench_sheet(rate);
        round_trips(rate, rate == 39 || rate == 49 ? 10 * TRIPS : TRIPS);
    }
    refusals();
    printf("calls from C: %u checks, %u failed\n", checks, failures);
    return failures == 0 ? 0 : 1;
}
