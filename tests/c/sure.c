/* What is sure with doubtful places, as the firmware gets it: at every rate, with every number of blank and of doubtful places, by doubt,
 * by threshold and from bit values. With n - M = 64 - M, b blank places, T of the rule, d doubtful places and e wrong settled ones:
 *
 *   few     d + 2T + b < n - M: with the sent symbols best or second at the doubtful places and e at most T the sent message comes back,
 *           without a margin;
 *   never   e + d + T + b < n - M: the sent message comes back or none is near, whatever stands at the doubtful places.
 *
 * Every frame leans towards another codeword, which differs from the sent one in n - M places (in one more at rates 6, 48 and 52): doubtful,
 * blank and wrong places are among these first. One step beyond either bound (two at those rates) this codeword is near: it makes a margin,
 * or it is handed up in the sent one's stead. What has to come back follows from how a frame is made. Built with -DMORE_FEW=1 or
 * -DMORE_NEVER=1 the test takes a bound for one larger, and fails. Guard bytes stand around each buffer. */
#include <stdio.h>
#include <string.h>

#include "hermitian.h"

#ifndef MORE_FEW
#define MORE_FEW 0
#endif
#ifndef MORE_NEVER
#define MORE_NEVER 0
#endif

enum { GUARD = 32, ROOM = 64, PLACES = HERMITIAN_PLACES, MARGIN = 8, MARK = HERMITIAN_REPORT_BYTES - 1 };

/* Gaps: at doubtful places, at settled ones where a frame leans, and at the others; what all other symbols cost more. */
enum { DOUBTFUL = 9, LEAST = DOUBTFUL + 1, LARGE = 120, OTHERS = 400 };

static unsigned checks, failures;

static void expect(int held, const char *what)
{
    checks++;
    if (!held) {
        failures++;
        fprintf(stderr, "failed: %s\n", what);
    }
}

/* A buffer between two guards. */
struct guarded {
    uint8_t before[GUARD];
    uint8_t bytes[ROOM];
    uint8_t after[GUARD];
};

static void fill(struct guarded *g)
{
    memset(g->before, 0xA5, GUARD);
    memset(g->bytes, 0xEE, ROOM);
    memset(g->after, 0x5A, GUARD);
}

static int all_are(const uint8_t *bytes, size_t from, size_t to, uint8_t byte)
{
    for (size_t i = from; i < to; i++)
        if (bytes[i] != byte)
            return 0;
    return 1;
}

static int guards_stand(const struct guarded *g)
{
    return all_are(g->before, 0, GUARD, 0xA5) && all_are(g->after, 0, GUARD, 0x5A);
}

/* The same numbers in every run. */
static size_t below(size_t limit)
{
    static uint64_t state = 43;
    state = state * 6364136223846793005u + 1442695040888963407u;
    return (size_t)(state >> 33) % limit;
}

static void shuffle(uint8_t *items, size_t count)
{
    for (size_t last = count; last-- > 1;) {
        size_t at = below(last + 1);
        uint8_t item = items[last];
        items[last] = items[at];
        items[at] = item;
    }
}

/* The product in GF(16), where a^4 = a + 1. */
static uint8_t times(uint8_t a, uint8_t b)
{
    unsigned product = 0;
    for (unsigned bit = 0; bit < 4; bit++)
        if (b >> bit & 1)
            product ^= (unsigned)a << bit;
    for (unsigned bit = 7; bit-- > 4;)
        if (product >> bit & 1)
            product ^= 0x13u << (bit - 4);
    return (uint8_t)product;
}

/* M, n - M, and the largest T with 2T + b < 64 - M - 6, by trying. */
static size_t top(size_t rate)
{
    return rate + 5;
}

static size_t distance(size_t rate)
{
    return PLACES - top(rate);
}

static size_t reach(size_t rate, size_t blanks)
{
    size_t t = 0;
    while (2 * (t + 1) + blanks < distance(rate) - 6)
        t++;
    return t;
}

/* A codeword and its message. */
struct word {
    uint8_t message[ROOM];
    uint8_t symbols[PLACES];
};

static void encode(size_t rate, struct word *word)
{
    expect(hermitian_encode(rate, word->message, rate, word->symbols, PLACES, 0) == HERMITIAN_ACCEPTED, "encoding");
}

/* How many factors x - a and how many lines y - b a function of this order is made of; none where it cannot be. */
static int has_factors(size_t order, size_t *lines, size_t *others)
{
    *lines = order % 4;
    if (order < 5 * *lines)
        return 0;
    *others = (order - 5 * *lines) / 4;
    return *others <= (*lines == 0 ? 16 : 11);
}

/* The values of a function of order M with M zeros among the places, or of the next lower order where there is no such product. The lines
 * y - 2, y - 3 and y - 4 have their zeros above the five x with x^5 = 1, and the factors x - a have theirs above other x: x and y at each
 * place are what their messages encode to. Its weight is returned. */
static size_t light(size_t rate, struct word *word)
{
    static const uint8_t fifth_roots[5] = {1, 8, 10, 12, 15};
    struct word x = {{0, 1}, {0}}, y = {{0, 0, 1}, {0}};
    size_t order = top(rate), lines, others, count = 0, weight = 0;
    uint8_t zeros[16], scale = (uint8_t)(1 + below(15));
    encode(rate, &x);
    encode(rate, &y);
    while (!has_factors(order, &lines, &others))
        order--;
    for (uint8_t a = 0; a < 16; a++)
        if (lines == 0 || memchr(fifth_roots, a, sizeof fifth_roots) == NULL)
            zeros[count++] = a;
    shuffle(zeros, count);
    for (size_t place = 0; place < PLACES; place++) {
        uint8_t value = scale;
        for (size_t i = 0; i < others; i++)
            value = times(value, x.symbols[place] ^ zeros[i]);
        for (size_t i = 0; i < lines; i++)
            value = times(value, y.symbols[place] ^ (uint8_t)(2 + i));
        word->symbols[place] = value;
        weight += value != 0;
    }
    expect(weight == PLACES - order, "the light word's weight");
    expect(hermitian_read_back(rate, word->symbols, PLACES, word->message, rate) == HERMITIAN_ACCEPTED, "the light word is a codeword");
    return weight;
}

/* The sent codeword and the one that frames lean to; they differ in so many places. */
static struct word sent, rival;
static size_t apart;

static void draw(size_t rate)
{
    struct word difference;
    apart = light(rate, &difference);
    for (size_t i = 0; i < rate; i++) {
        sent.message[i] = (uint8_t)below(16);
        rival.message[i] = sent.message[i] ^ difference.message[i];
    }
    encode(rate, &sent);
    encode(rate, &rival);
}

/* The calls that decode a frame. */
enum call { BY_DOUBT, BY_THRESHOLD, FROM_BITS };

/* What a frame is: each place's sort, its best symbol and its second one, and its gap. */
enum sort { BLANK, IN_DOUBT, SETTLED };

static enum call call;
static size_t rate, blanks, doubt, wrong;
static enum sort sorts[PLACES];
static uint8_t best[PLACES], second[PLACES];
static unsigned gaps[PLACES];
static uint8_t table[HERMITIAN_TABLE_BYTES];
static int8_t values[HERMITIAN_BIT_VALUES];

/* What stands at the doubtful places: the sent symbol best, second, either in turn, neither, or any of the three. */
enum lean { TO_SENT, TO_OTHER, TO_BOTH, TO_NEITHER, TO_ANY };

static void put_cost(size_t place, size_t symbol, unsigned cost)
{
    table[32 * place + 2 * symbol] = (uint8_t)(cost >> 8);
    table[32 * place + 2 * symbol + 1] = (uint8_t)cost;
}

static unsigned cost_at(size_t place, size_t symbol)
{
    return (unsigned)table[32 * place + 2 * symbol] << 8 | table[32 * place + 2 * symbol + 1];
}

static unsigned total(const struct word *word)
{
    unsigned sum = 0;
    for (size_t place = 0; place < PLACES; place++)
        sum += cost_at(place, word->symbols[place]);
    return sum;
}

/* A column of costs: all equal, or best and second first. */
static void put_column(size_t place)
{
    unsigned low = (unsigned)(place % 5);
    for (size_t symbol = 0; symbol < 16; symbol++)
        put_cost(place, symbol, sorts[place] == BLANK ? 7 : low + OTHERS);
    if (sorts[place] == BLANK)
        return;
    put_cost(place, second[place], low + gaps[place]);
    put_cost(place, best[place], low);
}

/* Four bit values, and the column that they make: zeros, or the bits of the best symbol, all with the gap as their magnitude; at a doubtful
 * place this is so of the bit alone in which the second symbol differs. */
static void put_bits(size_t place)
{
    uint8_t other = best[place] ^ second[place];
    for (size_t symbol = 0; symbol < 16; symbol++)
        put_cost(place, symbol, 0);
    for (unsigned i = 0; i < 4; i++) {
        uint8_t bit = 8 >> i;
        unsigned size = sorts[place] == BLANK ? 0 : sorts[place] == IN_DOUBT && bit != other ? LARGE : gaps[place];
        values[4 * place + i] = (int8_t)(best[place] & bit ? -(int)size : (int)size);
        for (uint8_t symbol = 0; symbol < 16; symbol++)
            if ((symbol ^ best[place]) & bit)
                put_cost(place, symbol, cost_at(place, symbol) + size);
    }
}

static int is_one_bit(uint8_t symbol)
{
    return symbol == 1 || symbol == 2 || symbol == 4 || symbol == 8;
}

/* A symbol that is neither of two; from bit values it differs from the first in one bit. */
static uint8_t third(uint8_t one, uint8_t other)
{
    uint8_t symbol;
    do
        symbol = call == FROM_BITS ? one ^ (uint8_t)(1u << below(4)) : (uint8_t)below(16);
    while (symbol == one || symbol == other);
    return symbol;
}

/* Best and second of a doubtful place. From bit values they differ in one bit, and where the two codewords do not, another symbol stands
 * beside the sent one. */
static void put_lean(size_t place, uint8_t other, enum lean lean, size_t turn)
{
    uint8_t symbol = sent.symbols[place];
    if (lean == TO_BOTH)
        lean = turn % 2 ? TO_SENT : TO_OTHER;
    if (lean == TO_ANY)
        lean = turn % 3 == 0 ? TO_SENT : turn % 3 == 1 ? TO_OTHER : TO_NEITHER;
    if (call == FROM_BITS && lean != TO_NEITHER && !is_one_bit(symbol ^ other))
        other = third(symbol, other);
    best[place] = lean == TO_SENT ? symbol : other;
    second[place] = lean == TO_SENT ? other : lean == TO_OTHER ? symbol : third(other, symbol);
}

/* The places in the order in which a frame takes them: those where the two codewords differ, of these from bit values those first where
 * they differ in one bit, then the others. How many of the first sort there are is returned. */
static size_t put_order(uint8_t order[PLACES])
{
    size_t front = 0, back = PLACES, ones = 0;
    for (size_t place = 0; place < PLACES; place++)
        if (sent.symbols[place] != rival.symbols[place])
            order[front++] = (uint8_t)place;
        else
            order[--back] = (uint8_t)place;
    shuffle(order, front);
    shuffle(order + front, PLACES - front);
    for (size_t at = 0; call == FROM_BITS && at < front; at++) {
        uint8_t place = order[at];
        if (is_one_bit(sent.symbols[place] ^ rival.symbols[place])) {
            order[at] = order[ones];
            order[ones++] = place;
        }
    }
    return call == FROM_BITS ? ones : front;
}

/* A frame with so many doubtful, blank and wrong settled places, taken in that order. Where the codewords differ and the gaps are not
 * those of doubtful places, they are small at the wrong places, so that the sent codeword costs little, or small at the others. It is
 * returned whether the other codeword may be best or second at each doubtful place where the sent one is too. */
static int frame(enum lean lean, int is_sent_cheap)
{
    uint8_t order[PLACES];
    size_t ones = put_order(order);
    for (size_t at = 0; at < PLACES; at++) {
        size_t place = order[at];
        uint8_t other = at < apart ? rival.symbols[place] : sent.symbols[place] ^ (uint8_t)(1 + below(15));
        sorts[place] = at < doubt ? IN_DOUBT : at < doubt + blanks ? BLANK : SETTLED;
        int is_wrong = sorts[place] == SETTLED && at < doubt + blanks + wrong;
        best[place] = is_wrong ? other : sent.symbols[place];
        second[place] = is_wrong ? sent.symbols[place] : other;
        gaps[place] = sorts[place] == BLANK ? 0 : sorts[place] == IN_DOUBT ? DOUBTFUL : at < apart && is_wrong == is_sent_cheap ? LEAST : LARGE;
        if (sorts[place] == IN_DOUBT)
            put_lean(place, other, lean, at);
        if (call == FROM_BITS)
            put_bits(place);
        else
            put_column(place);
    }
    return doubt <= ones;
}

/* In how many places that are not blank a codeword differs from the best symbols, and from the test word nearest to it. */
static size_t changed(const struct word *word)
{
    size_t count = 0;
    for (size_t place = 0; place < PLACES; place++)
        count += sorts[place] != BLANK && best[place] != word->symbols[place];
    return count;
}

static size_t away(const struct word *word)
{
    size_t count = changed(word);
    for (size_t place = 0; place < PLACES; place++)
        count -= sorts[place] == IN_DOUBT && second[place] == word->symbols[place];
    return count;
}

static int is_near(const struct word *word)
{
    return away(word) <= reach(rate, blanks);
}

static size_t choices(size_t from, size_t some)
{
    size_t number = 1;
    for (size_t i = 0; i < some; i++)
        number = number * (from - i) / (i + 1);
    return number;
}

/* How many test words have this codeword within T: those that differ from it in few enough of the doubtful places where it is best or
 * second, with either symbol at the others. */
static size_t tests(const struct word *word)
{
    size_t lost = 0, sum = 0;
    for (size_t place = 0; place < PLACES; place++)
        lost += sorts[place] == IN_DOUBT && best[place] != word->symbols[place] && second[place] != word->symbols[place];
    for (size_t more = 0; more <= doubt - lost && away(word) + more <= reach(rate, blanks); more++)
        sum += choices(doubt - lost, more);
    return sum << lost;
}

/* Every other codeword costs more: with c changed places, what this one costs beyond the best symbols is less than the sum of the smallest n
 * - M - c gaps of the other places. */
static int is_cheapest(const struct word *word)
{
    unsigned sorted[PLACES], slack = 0, excess = total(word);
    size_t count = 0;
    for (size_t place = 0; place < PLACES; place++) {
        size_t at = count;
        excess -= cost_at(place, best[place]);
        if (sorts[place] != BLANK && best[place] != word->symbols[place])
            continue;
        for (; at > 0 && sorted[at - 1] > gaps[place]; at--)
            sorted[at] = sorted[at - 1];
        sorted[at] = gaps[place];
        count++;
    }
    for (size_t i = 0; i < count && i + changed(word) < distance(rate); i++)
        slack += sorted[i];
    return excess < slack;
}

static struct guarded message, report;

static uint8_t decode(void)
{
    fill(&message);
    fill(&report);
    uint8_t *m = message.bytes, *r = report.bytes;
    if (call == BY_THRESHOLD)
        return hermitian_decode_table_below(rate, table, sizeof table, LEAST, HERMITIAN_MOST_DOUBT, m, rate, r, HERMITIAN_REPORT_BYTES);
    if (call == FROM_BITS)
        return hermitian_decode_bits(rate, values, sizeof values, doubt, m, rate, r, HERMITIAN_REPORT_BYTES);
    return hermitian_decode_table(rate, table, sizeof table, doubt, m, rate, r, HERMITIAN_REPORT_BYTES);
}

static unsigned number_at(size_t from, size_t bytes)
{
    unsigned number = 0;
    for (size_t i = 0; i < bytes; i++)
        number = number << 8 | report.bytes[from + i];
    return number;
}

/* This codeword's message was handed up, with its own costs in the report. */
static void answered(const struct word *word, uint8_t refusal, const char *what)
{
    expect(refusal == HERMITIAN_ACCEPTED && memcmp(message.bytes, word->message, rate) == 0, what);
    expect(number_at(0, 4) == total(word) && report.bytes[7] == changed(word), "total and changed places");
    expect(all_are(message.bytes, rate, ROOM, 0xEE) && all_are(report.bytes, HERMITIAN_REPORT_BYTES, ROOM, 0xEE), "nothing is written after the buffers");
    expect(guards_stand(&message) && guards_stand(&report), "guards stand");
}

/* No other codeword is near: the sent message came back, without a margin, or, where it is not near either, none did. */
static void sent_or_none(const char *what)
{
    uint8_t refusal = decode();
    if (is_near(&sent)) {
        answered(&sent, refusal, what);
        expect(number_at(4, 2) == tests(&sent), "test words within T");
        expect(all_are(report.bytes, MARGIN, MARGIN + 5, 0), "no margin");
        return;
    }
    expect(refusal == HERMITIAN_NONE_NEAR, what);
    expect(all_are(message.bytes, 0, ROOM, 0xEE) && all_are(report.bytes, 0, ROOM, 0xEE), "a refusal writes nothing");
    expect(guards_stand(&message) && guards_stand(&report), "guards stand");
}

/* Both codewords are near, and no third one can be: the cheaper one came back, or of two with equal totals the one with the smaller
 * message, with a margin. */
static void with_margin(const char *what)
{
    uint8_t refusal = decode();
    unsigned ours = total(&sent), theirs = total(&rival);
    int is_sent = ours < theirs || (ours == theirs && memcmp(sent.message, rival.message, rate) < 0);
    expect(is_near(&sent) && is_near(&rival), "both codewords are near");
    answered(is_sent ? &sent : &rival, refusal, what);
    expect(number_at(4, 2) == tests(&sent) + tests(&rival), "test words within T of either");
    expect(number_at(MARGIN, 1) == 1 && number_at(MARGIN + 1, 4) == (is_sent ? theirs - ours : ours - theirs), "the margin");
}

/* The other codeword is near, the sent one is not: the other came back, marked. */
static void another(const char *what)
{
    uint8_t refusal = decode();
    expect(is_near(&rival) && !is_near(&sent), "the other codeword is near");
    answered(&rival, refusal, what);
    expect(report.bytes[MARK] == 1, "the mark");
}

/* The most doubtful places that are few, and the most wrong and doubtful places after which never another message comes. */
static size_t few(void)
{
    return distance(rate) - 2 * reach(rate, blanks) - blanks - 1 + MORE_FEW;
}

static size_t never(void)
{
    return distance(rate) - reach(rate, blanks) - blanks - 1 + MORE_NEVER;
}

/* How many frames of each sort there were. */
static unsigned inside_few, beyond_few, inside_never, beyond_never;

/* Up to the bound with T wrong settled places, and one step beyond it. */
static void try_few(enum lean lean)
{
    wrong = reach(rate, blanks);
    if (doubt <= few()) {
        frame(lean, below(2) == 0);
        sent_or_none("few doubtful places");
        inside_few++;
    }
    if (doubt > few() && doubt + 2 * wrong + blanks == apart && frame(lean, below(2) == 0)) {
        with_margin("one doubtful place more than few");
        beyond_few++;
    }
}

/* So many wrong settled places, where the bound has room for them. */
static void try_wrong(size_t places, enum lean lean)
{
    wrong = places;
    if (doubt + wrong > never())
        return;
    frame(lean, below(2) == 0);
    sent_or_none("never another message");
    inside_never++;
}

/* As many wrong settled places as the bound leaves, as many as leave the sent codeword near whatever is doubtful, one more, and T + 1; then
 * one more than the bound. */
static void try_never(enum lean lean)
{
    size_t t = reach(rate, blanks);
    if (doubt <= never()) {
        try_wrong(never() - doubt, lean);
        try_wrong(t > doubt ? t - doubt : 0, lean);
        try_wrong(t > doubt ? t - doubt + 1 : 1, lean);
        try_wrong(t + 1, lean);
    }
    if (doubt + t + blanks > apart)
        return;
    wrong = apart - doubt - t - blanks;
    frame(TO_NEITHER, 0);
    if (doubt + wrong > never() && is_cheapest(&rival)) {
        another("one wrong place more than the bound");
        beyond_never++;
    }
}

/* Each number of doubtful places, with so many blank ones. By doubt and by threshold one of them is one too many for few, and each that
 * leaves room beside T of the places where the codewords differ has a number of wrong places that is too large for never. */
static void every_doubt(void)
{
    unsigned had_few = beyond_few, had_never = beyond_never, first = call == BY_THRESHOLD;
    static const enum lean of_few[] = {TO_SENT, TO_OTHER, TO_BOTH}, of_never[] = {TO_NEITHER, TO_ANY, TO_OTHER};
    for (doubt = first; doubt <= HERMITIAN_MOST_DOUBT; doubt++) {
        draw(rate);
        try_few(of_few[(doubt + blanks) % 3]);
        try_never(of_never[(doubt + blanks) % 3]);
    }
    size_t last = apart - reach(rate, blanks) - blanks;
    last = last < HERMITIAN_MOST_DOUBT ? last : HERMITIAN_MOST_DOUBT;
    if (call == FROM_BITS)
        return;
    expect(beyond_few - had_few == 1, "a frame beyond few");
    expect(beyond_never - had_never == last + 1 - first, "frames beyond never");
}

/* A pair that is easily written down: zero and x + x^6 + x^11, which is not zero at the 20 places with x^5 = 1, at rate 39, and its product
 * with y^2 + y + 6, which is so at ten of them, at rate 49. Seven doubtful places are few and eight are not; never another message comes
 * after so many wrong places, and one comes after one more. */
static void known_pair(size_t of_rate, size_t weight, size_t never_more)
{
    static const uint8_t orders[] = {1, 18, 38}, more[] = {4, 8, 23, 28, 43, 48};
    unsigned had_few = beyond_few, had_never = beyond_never;
    rate = of_rate;
    blanks = 0;
    call = BY_DOUBT;
    memset(&sent, 0, sizeof sent);
    memset(&rival, 0, sizeof rival);
    for (size_t i = 0; i < sizeof orders; i++)
        rival.message[orders[i]] = rate == 39 ? 1 : 6;
    for (size_t i = 0; rate == 49 && i < sizeof more; i++)
        rival.message[more[i]] = 1;
    encode(rate, &sent);
    encode(rate, &rival);
    apart = 0;
    for (size_t place = 0; place < PLACES; place++)
        apart += rival.symbols[place] != 0;
    expect(apart == weight && few() - MORE_FEW == 7 && never() - MORE_NEVER == never_more, "the pair's numbers");
    for (doubt = 7; doubt <= 8; doubt++)
        try_few(TO_BOTH);
    doubt = 0;
    try_never(TO_NEITHER);
    expect(beyond_few == had_few + 1 && beyond_never == had_never + 1, "the pair beyond the bounds");
}

/* Some numbers of the two sentences. */
static void numbers(size_t of_rate, size_t few_doubtful, size_t never_more)
{
    rate = of_rate;
    blanks = 0;
    expect(few() - MORE_FEW == few_doubtful && never() - MORE_NEVER == never_more, "the bounds without blank places");
}

int main(void)
{
    numbers(6, 6, 29);
    numbers(39, 7, 13);
    numbers(49, 7, 8);
    numbers(52, 6, 6);
    known_pair(39, 20, 13);
    known_pair(49, 10, 8);
    for (rate = HERMITIAN_LEAST_RATE; rate <= HERMITIAN_MOST_RATE; rate++)
        for (blanks = 0; blanks + top(rate) <= 57; blanks++)
            for (call = BY_DOUBT; call <= FROM_BITS; call++)
                every_doubt();
    printf("sure with doubt from C: %u checks, %u failed; frames with few doubtful places %u, one too many %u; with never another message %u, one too many %u\n", checks, failures,
           inside_few, beyond_few, inside_never, beyond_never);
    return failures == 0 ? 0 : 1;
}
