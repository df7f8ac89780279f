/* Superframes as the firmware builds them and takes them apart: round trips and the layout at every rate, bursts of 8T symbols, at rate 39
 * of 48 from every symbol on, and of one more, which names a word; words beyond repair in every set of the eight; damaged heads, and every
 * refusal in its order. Guard bytes stand around each buffer. */
#include <stdio.h>
#include <string.h>

#include "hermitian.h"

enum {
    WORDS = HERMITIAN_SUPERFRAME_WORDS,
    BYTES = HERMITIAN_SUPERFRAME_BYTES,
    HEAD = 4,
    SYMBOLS = BYTES - HEAD,
    MOST = WORDS * HERMITIAN_MOST_RATE,
    GUARD = 32,
    ROOM = 2 * BYTES
};

static unsigned checks, failures;

static void expect(int held, const char *what)
{
    checks++;
    if (!held) {
        failures++;
        fprintf(stderr, "failed: %s\n", what);
    }
}

/* A buffer between two guards. */
struct guarded {
    uint8_t before[GUARD];
    uint8_t bytes[ROOM];
    uint8_t after[GUARD];
};

static void fill(struct guarded *g)
{
    memset(g->before, 0xA5, GUARD);
    memset(g->bytes, 0xEE, ROOM);
    memset(g->after, 0x5A, GUARD);
}

static int guards_stand(const struct guarded *g)
{
    for (size_t i = 0; i < GUARD; i++)
        if (g->before[i] != 0xA5 || g->after[i] != 0x5A)
            return 0;
    return 1;
}

static int all_are(const uint8_t *bytes, size_t from, size_t to, uint8_t byte)
{
    for (size_t i = from; i < to; i++)
        if (bytes[i] != byte)
            return 0;
    return 1;
}

static uint32_t state = 1;

static unsigned random_below(unsigned n)
{
    state = state * 1664525u + 1013904223u;
    return (state >> 16) % n;
}

/* The messages of a superframe, the frame that was sent, and what was received. */
static uint8_t sent[MOST], built[BYTES], frame[BYTES];

static struct guarded lent, status;

static size_t reach(size_t rate)
{
    return (52 - rate) / 2;
}

/* Builds a superframe of random messages, and holds it to the codewords place by place. */
static void send(size_t rate)
{
    uint8_t word[HERMITIAN_PLACES];
    for (size_t i = 0; i < WORDS * rate; i++)
        sent[i] = (uint8_t)random_below(16);
    fill(&lent);
    expect(hermitian_build_superframe(rate, sent, WORDS * rate, lent.bytes, BYTES) == HERMITIAN_ACCEPTED, "a superframe is built");
    expect(all_are(lent.bytes, BYTES, ROOM, 0xEE) && guards_stand(&lent), "building writes no more than 516 bytes");
    memcpy(built, lent.bytes, BYTES);
    expect(built[0] == 1 && built[1] == 2 && built[2] == 1 && built[3] == rate, "the head");
    for (size_t v = 0; v < WORDS; v++) {
        expect(hermitian_encode(rate, sent + rate * v, rate, word, sizeof word, 0) == HERMITIAN_ACCEPTED, "a word is encoded");
        int same = 1;
        for (size_t p = 0; p < HERMITIAN_PLACES; p++)
            same &= built[HEAD + 8 * p + v] == word[p];
        expect(same, "place p of word v is symbol 8p + v");
    }
    memcpy(frame, built, BYTES);
}

static void alter(size_t symbol)
{
    frame[HEAD + symbol] ^= (uint8_t)(1 + random_below(15));
}

static uint8_t take(size_t length, size_t room)
{
    static uint8_t given[BYTES];
    memcpy(given, frame, BYTES);
    fill(&lent);
    fill(&status);
    uint8_t refusal = hermitian_take_superframe_apart(frame, length, lent.bytes, room, status.bytes);
    expect(memcmp(given, frame, BYTES) == 0, "taking apart reads the frame");
    expect(guards_stand(&lent) && guards_stand(&status) && all_are(status.bytes, 1, ROOM, 0xEE), "guards stand, and the status is one byte");
    return refusal;
}

/* Exactly these words are named; their parts stay, and the others have their messages. */
static void taken(size_t rate, unsigned named, const char *what)
{
    expect(take(BYTES, WORDS * rate) == HERMITIAN_ACCEPTED && status.bytes[0] == named, what);
    for (size_t v = 0; v < WORDS; v++) {
        const uint8_t *part = lent.bytes + rate * v;
        if (named >> v & 1)
            expect(all_are(part, 0, rate, 0xEE), "a part whose word has none near stays");
        else
            expect(memcmp(part, sent + rate * v, rate) == 0, "a message stands in its part");
    }
    expect(all_are(lent.bytes, WORDS * rate, ROOM, 0xEE), "no more than 8k bytes are written");
}

static void burst(size_t start, size_t length)
{
    memcpy(frame, built, BYTES);
    for (size_t s = start; s < start + length && s < SYMBOLS; s++)
        alter(s);
}

static void every_rate(size_t rate)
{
    size_t t = reach(rate);
    for (int i = 0; i < 3; i++) {
        send(rate);
        taken(rate, 0, "what is built comes back");
    }
    for (size_t start = rate % 5; start < SYMBOLS; start += 37) {
        burst(start, 8 * t);
        taken(rate, 0, "a burst of 8T");
        if (start + 8 * t < SYMBOLS) {
            burst(start, 8 * t + 1);
            taken(rate, 1u << start % 8, "a burst of 8T + 1 names one word");
        }
    }
}

/* Words beyond repair: T + 1 of their symbols are wrong, and T of the others'. */
static void beyond(size_t rate, unsigned words)
{
    memcpy(frame, built, BYTES);
    for (size_t v = 0; v < WORDS; v++)
        for (size_t i = 0; i < reach(rate) + (words >> v & 1); i++)
            alter(8 * ((i * 27 + v) % HERMITIAN_PLACES) + v);
    taken(rate, words, "the words with T + 1 wrong symbols are named, and no others");
}

/* A user at rate 39 may rely on 48; 49 in a row are too many for one word. */
static void rate_39(void)
{
    send(39);
    for (size_t start = 0; start < SYMBOLS; start++) {
        burst(start, 48);
        taken(39, 0, "a burst of 48 at rate 39");
    }
    for (size_t start = 0; start + 49 <= SYMBOLS; start++) {
        burst(start, 49);
        taken(39, 1u << start % 8, "a burst of 49 at rate 39 names the word that it begins with");
    }
    for (unsigned words = 0; words < 256; words++)
        beyond(39, words);
}

static void refused(size_t length, size_t room, uint8_t wanted, const char *what)
{
    expect(take(length, room) == wanted, what);
    expect(all_are(lent.bytes, 0, ROOM, 0xEE), "a refusal leaves the messages");
    expect(status.bytes[0] == 0, "the status of a refusal is 0");
}

/* Each fault, alone and beside those that a later check would refuse. */
static void refusals(size_t rate)
{
    static const size_t sizes[] = {0, 1, 3, 4, 512, 515};
    static const uint8_t lengths[][2] = {{2, 0}, {2, 2}, {1, 2}, {0, 1}, {3, 1}, {2, 255}, {0, 0}, {255, 255}};
    static const uint8_t unknown[] = {0, 1, 5, 53, 64, 128, 255};
    size_t room = WORDS * rate;
    send(rate);
    for (unsigned later = 0; later < 2; later++) {
        size_t wrong = later ? room + 1 : room;
        if (later) {
            frame[3] = 53;
            frame[HEAD + 200] = 16;
        }
        for (size_t i = 0; i < sizeof sizes / sizeof sizes[0]; i++)
            refused(sizes[i], wrong, HERMITIAN_WRONG_SUPERFRAME, "a frame of another size");
        for (unsigned version = 0; version < 256; version++)
            if (version != 1) {
                frame[0] = (uint8_t)version;
                refused(BYTES, wrong, HERMITIAN_WRONG_SUPERFRAME, "another version");
            }
        frame[0] = 1;
        for (size_t i = 0; i < sizeof lengths / sizeof lengths[0]; i++) {
            memcpy(frame + 1, lengths[i], 2);
            refused(BYTES, wrong, HERMITIAN_WRONG_SUPERFRAME, "another length");
        }
        frame[1] = 2;
        frame[2] = 1;
        for (size_t i = 0; i < sizeof unknown; i++) {
            frame[3] = unknown[i];
            refused(BYTES, wrong, HERMITIAN_UNKNOWN_RATE, "an unknown rate");
        }
        frame[3] = (uint8_t)rate;
        for (size_t other = 0; other <= ROOM; other += other < 2 * rate ? 1 : 7)
            if (other != room)
                refused(BYTES, other, HERMITIAN_WRONG_SIZE, "a buffer of another size");
        refused(BYTES, room - 1, HERMITIAN_WRONG_SIZE, "a short buffer");
        refused(BYTES, room + 1, HERMITIAN_WRONG_SIZE, "a long buffer");
        if (later)
            refused(BYTES, room, HERMITIAN_NO_SYMBOL, "a symbol of 16");
    }
    memcpy(frame, built, BYTES);
    for (size_t s = 0; s < SYMBOLS; s++) {
        frame[HEAD + s] = s % 2 ? 16 : 255;
        refused(BYTES, room, HERMITIAN_NO_SYMBOL, "no symbol, at each place");
        frame[HEAD + s] = built[HEAD + s];
    }
    taken(rate, 0, "the frame as it was");
}

/* A frame that is too long, with a right one at its front. */
static void too_long(void)
{
    static uint8_t longer[ROOM];
    send(39);
    memcpy(longer, built, BYTES);
    memcpy(longer + BYTES, built, BYTES);
    for (size_t length = BYTES + 1; length <= ROOM; length += 103) {
        fill(&lent);
        fill(&status);
        expect(hermitian_take_superframe_apart(longer, length, lent.bytes, WORDS * 39, status.bytes) == HERMITIAN_WRONG_SUPERFRAME, "a frame that is too long");
        expect(all_are(lent.bytes, 0, ROOM, 0xEE) && status.bytes[0] == 0, "a refusal leaves the messages");
    }
}

static void refused_building(size_t rate, const uint8_t *messages, size_t length, size_t room, uint8_t wanted, const char *what)
{
    fill(&lent);
    expect(hermitian_build_superframe(rate, messages, length, lent.bytes, room) == wanted, what);
    expect(all_are(lent.bytes, 0, ROOM, 0xEE) && guards_stand(&lent), "a refused building writes nothing");
}

static void building(size_t rate)
{
    static const size_t unknown[] = {0, 1, 5, 53, 54, 64, 255, 256 + 6, 256 + 39, 256 + 52, SIZE_MAX};
    static const size_t rooms[] = {0, 4, 512, 515, 517, ROOM};
    static uint8_t messages[MOST + 1];
    size_t length = WORDS * rate;
    memset(messages, 3, sizeof messages);
    for (unsigned later = 0; later < 2; later++) {
        messages[length - 1] = later ? 16 : 3;
        for (size_t i = 0; i < sizeof unknown / sizeof unknown[0]; i++)
            refused_building(unknown[i], messages, length - later, BYTES - later, HERMITIAN_UNKNOWN_RATE, "building at an unknown rate");
        refused_building(rate, messages, length - 1, BYTES, HERMITIAN_WRONG_SIZE, "messages that are too short");
        refused_building(rate, messages, length + 1, BYTES, HERMITIAN_WRONG_SIZE, "messages that are too long");
        refused_building(rate, messages, rate, BYTES, HERMITIAN_WRONG_SIZE, "one message");
        refused_building(rate, messages, 0, BYTES, HERMITIAN_WRONG_SIZE, "no messages");
        for (size_t i = 0; i < sizeof rooms / sizeof rooms[0]; i++)
            refused_building(rate, messages, length, rooms[i], HERMITIAN_WRONG_SIZE, "a frame of another size");
    }
    for (size_t i = 0; i < length; i++) {
        memset(messages, 15, sizeof messages);
        messages[i] = i % 2 ? 16 : 255;
        refused_building(rate, messages, length, BYTES, HERMITIAN_NO_SYMBOL, "no symbol, in each message");
    }
}

int main(void)
{
    for (size_t rate = HERMITIAN_LEAST_RATE; rate <= HERMITIAN_MOST_RATE; rate++) {
        every_rate(rate);
        for (unsigned v = 0; v < WORDS; v++)
            beyond(rate, 1u << v);
        beyond(rate, 255);
        building(rate);
    }
    rate_39();
    refusals(6);
    refusals(39);
    refusals(52);
    too_long();
    printf("superframes from C: %u checks, %u failed\n", checks, failures);
    return failures == 0 ? 0 : 1;
}
