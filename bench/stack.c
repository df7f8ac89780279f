/* How many bytes of stack a table decoding touches: a thread with a painted stack decodes frames without doubt, with eight doubtful places and
 * with as many as there may be, and by a threshold above all gaps with the maxima 1 and the largest, with no wrong place, one, six and so many
 * that none is near, and without and with a blank place, at rates 39 and 49, and with none, T - 1, T and T + 1 wrong places at rates 6, 20 and
 * 52, and the paint that is left is counted. At rate 39 the tree is deepest where six places are wrong and one is blank: there it takes every
 * doubtful place before it decides. Then the same of a capture of that frame with twelve doubtful places, made, sorted and decoded. */
#include <pthread.h>
#include <stdio.h>
#include <stdlib.h>
#include <string.h>

#include "hermitian.h"

enum { STACK = 1 << 20, PAINT = 0xa5, ROOM = 1 << 12 };

struct job {
    size_t rate, wrong, blanks, doubt;
    int below, decode, capture;
    uint8_t answer;
};

static uint8_t table[HERMITIAN_TABLE_BYTES], message[HERMITIAN_MOST_RATE], report[HERMITIAN_REPORT_BYTES];
static uint8_t doubtful[HERMITIAN_MOST_DOUBT], capture[HERMITIAN_MOST_CAPTURE_BYTES], sorted[HERMITIAN_MOST_CAPTURE_BYTES];

static void cost(size_t place, size_t symbol, unsigned value)
{
    table[(place * 16 + symbol) * 2] = (uint8_t)(value >> 8);
    table[(place * 16 + symbol) * 2 + 1] = (uint8_t)value;
}

static void *run(void *given)
{
    struct job *job = given;
    size_t size = HERMITIAN_CAPTURE_BYTES(job->doubt);
    if (job->decode && job->capture == 1)
        job->answer = hermitian_make_capture(job->rate, doubtful, job->doubt, table, sizeof table, capture, size);
    else if (job->decode && job->capture == 2)
        job->answer = hermitian_sort_capture(capture, size, sorted, size);
    else if (job->decode && job->capture == 3)
        job->answer = hermitian_decode_capture(capture, size, message, job->rate, report, sizeof report);
    else if (job->decode && job->below)
        job->answer = hermitian_decode_table_below(job->rate, table, sizeof table, UINT16_MAX, job->doubt, message, job->rate, report, sizeof report);
    else if (job->decode)
        job->answer = hermitian_decode_table(job->rate, table, sizeof table, job->doubt, message, job->rate, report, sizeof report);
    return NULL;
}

static size_t touched(struct job *job)
{
    uint8_t *stack = aligned_alloc(ROOM, STACK);
    pthread_attr_t attributes;
    pthread_t thread;
    size_t left = 0;
    if (stack == NULL)
        exit(1);
    memset(stack, PAINT, STACK);
    if (pthread_attr_init(&attributes) != 0 || pthread_attr_setstack(&attributes, stack, STACK) != 0 ||
        pthread_create(&thread, &attributes, run, job) != 0 || pthread_join(thread, NULL) != 0)
        exit(1);
    while (left < STACK && stack[left] == PAINT)
        left++;
    free(stack);
    return STACK - left;
}

/* The frame with the deepest tree: rate 39, six settled places wrong, one blank, and twelve doubtful, which are right. */
static void captures(void)
{
    uint8_t word[HERMITIAN_PLACES] = {0};
    size_t count = 0;
    for (size_t t = 0; t < sizeof message; t++)
        message[t] = (uint8_t)(t * 7 % 16);
    hermitian_encode(39, message, 39, word, sizeof word, 0);
    for (size_t p = 0; p < HERMITIAN_PLACES; p++) {
        size_t at = p * 27 % 64, best = at < 6 ? (word[p] + 1) % 16 : word[p];
        for (size_t s = 0; s < 16; s++)
            cost(p, s, 500);
        cost(p, best, at == 12 ? 500 : 0);
        if (at >= HERMITIAN_PLACES - HERMITIAN_MOST_DOUBT) {
            cost(p, (best + 3) % 16, 5);
            doubtful[count++] = (uint8_t)p;
        }
    }
    const char *names[] = {"made", "sorted", "decoded"};
    for (int call = 1; call <= 3; call++) {
        struct job job = {.rate = 39, .doubt = HERMITIAN_MOST_DOUBT, .capture = call};
        size_t idle = touched(&job);
        job.decode = 1;
        size_t used = touched(&job) - idle;
        printf("a capture with %zu doubtful places %s: %zu bytes of stack, answer %u\n", job.doubt, names[call - 1], used, job.answer);
    }
}

int main(void)
{
    const size_t rates[] = {39, 49, 6, 20, 52}, doubts[] = {0, 8, HERMITIAN_MOST_DOUBT, 1, HERMITIAN_MOST_DOUBT};
    uint8_t word[HERMITIAN_PLACES] = {0};
    size_t most = 0;
    for (size_t r = 0; r < 5; r++) {
        size_t t = (52 - rates[r]) / 2, around[] = {0, t > 0 ? t - 1 : 1, t, t + 1}, some[] = {0, 1, 6, 12};
        const size_t *wrongs = r < 2 ? some : around;
        for (size_t w = 0; w < 8; w++)
            for (size_t d = 0; d < 5; d++) {
                struct job job = {.rate = rates[r], .wrong = wrongs[w / 2], .blanks = w % 2, .doubt = doubts[d], .below = d >= 3};
                for (size_t t = 0; t < sizeof message; t++)
                    message[t] = (uint8_t)(t * 7 % 16);
                if (hermitian_encode(job.rate, message, job.rate, word, sizeof word, 0) != 0)
                    return 1;
                for (size_t p = 0; p < HERMITIAN_PLACES; p++) {
                    size_t at = p * 27 % 64, best = at < job.wrong ? (word[p] + 1) % 16 : word[p];
                    for (size_t s = 0; s < 16; s++)
                        cost(p, s, 500);
                    cost(p, best, 0);
                    if (at >= HERMITIAN_PLACES - HERMITIAN_MOST_DOUBT)
                        cost(p, (best + 3) % 16, 5);
                    if (at == 12 && job.blanks)
                        cost(p, best, 500);
                }
                size_t idle = touched(&job);
                job.decode = 1;
                size_t used = touched(&job) - idle;
                if (used > most)
                    most = used;
                printf("rate %zu, %2zu wrong places, %zu blank, %s %zu: %zu bytes of stack, answer %u\n", job.rate, job.wrong, job.blanks, job.below ? "maximum" : "doubt", job.doubt, used, job.answer);
            }
    }
    printf("the most of all: %zu bytes of stack\n", most);
    captures();
    return 0;
}
