/* Superframes for bench/superframes. `superframes RATE CASE` makes its calls, for callgrind; `superframes RATE CASE stack` prints how many bytes
 * of stack a call touches: a thread with a painted stack makes one, and the paint that is left is counted. `superframes RATE CASE status`
 * prints how many words were named. Messages and changes follow a fixed seed. */
#include <pthread.h>
#include <stdio.h>
#include <stdlib.h>
#include <string.h>

#include "hermitian.h"

enum {
    WORDS = HERMITIAN_SUPERFRAME_WORDS,
    BYTES = HERMITIAN_SUPERFRAME_BYTES,
    HEAD = 4,
    CALLS = 20,
    STACK = 1 << 20,
    PAINT = 0xa5,
    ROOM = 1 << 12
};

static size_t rate;
static uint8_t sent[WORDS * HERMITIAN_MOST_RATE], messages[sizeof sent], frame[BYTES];
static uint8_t status, refusal;

static uint32_t state;

static unsigned random_below(unsigned n)
{
    state = state * 1664525u + 1013904223u;
    return (state >> 16) % n;
}

static void alter(size_t symbol)
{
    frame[HEAD + symbol] ^= (uint8_t)(1 + random_below(15));
}

/* The frame of a numbered call: clean, with a burst of so many symbols, or with T + 1 wrong symbols in each word. */
static void make(const char *which, unsigned number)
{
    state = 9 + 1000 * (unsigned)rate + number;
    for (size_t i = 0; i < WORDS * rate; i++)
        sent[i] = (uint8_t)random_below(16);
    if (hermitian_build_superframe(rate, sent, WORDS * rate, frame, BYTES) != HERMITIAN_ACCEPTED)
        exit(1);
    if (strcmp(which, "beyond") == 0)
        for (size_t v = 0; v < WORDS; v++) {
            size_t first = random_below(HERMITIAN_PLACES);
            for (size_t i = 0; i <= (52 - rate) / 2; i++)
                alter(8 * ((first + 27 * i) % HERMITIAN_PLACES) + v);
        }
    else {
        size_t length = strtoul(which, NULL, 10), start = random_below((unsigned)(BYTES - HEAD - length + 1));
        for (size_t s = start; s < start + length; s++)
            alter(s);
    }
}

static void call(const char *which)
{
    if (strcmp(which, "build") == 0)
        refusal = hermitian_build_superframe(rate, sent, WORDS * rate, frame, BYTES);
    else
        refusal = hermitian_take_superframe_apart(frame, BYTES, messages, WORDS * rate, &status);
}

struct job {
    const char *which;
    int made;
};

static void *run(void *given)
{
    struct job *job = given;
    if (job->made)
        call(job->which);
    return NULL;
}

static size_t touched(struct job job)
{
    uint8_t *stack = aligned_alloc(ROOM, STACK);
    pthread_attr_t attributes;
    pthread_t thread;
    size_t left = 0;
    if (stack == NULL)
        exit(1);
    memset(stack, PAINT, STACK);
    if (pthread_attr_init(&attributes) != 0 || pthread_attr_setstack(&attributes, stack, STACK) != 0 ||
        pthread_create(&thread, &attributes, run, &job) != 0 || pthread_join(thread, NULL) != 0)
        exit(1);
    while (left < STACK && stack[left] == PAINT)
        left++;
    free(stack);
    return STACK - left;
}

int main(int count, char **arguments)
{
    if (count < 3)
        return 1;
    rate = strtoul(arguments[1], NULL, 10);
    const char *which = arguments[2], *wanted = count > 3 ? arguments[3] : "";
    size_t most = 0;
    unsigned named = 0;
    for (unsigned number = 0; number < CALLS; number++) {
        make(which, number);
        if (strcmp(wanted, "stack") == 0) {
            size_t idle = touched((struct job){which, 0}), used = touched((struct job){which, 1}) - idle;
            most = used > most ? used : most;
        } else
            call(which);
        if (refusal != HERMITIAN_ACCEPTED)
            return 1;
        for (unsigned v = 0; v < WORDS; v++)
            named += status >> v & 1;
    }
    if (strcmp(wanted, "stack") == 0)
        printf("%zu\n", most);
    if (strcmp(wanted, "status") == 0)
        printf("%u\n", named / CALLS);
    return 0;
}
