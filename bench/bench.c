/*
 * bench: measures every case of cases.c. `bench/run` calls it and prints the tables.
 *
 *     bench time [ROUNDS]   a line a case: name, what one number is for, nanoseconds of library, baseline and memcpy, ratio, its target
 *     bench count           a line a case: name, and how often what one number is for stands in a batch; callgrind counts the batches
 *     bench memory          octets of the state, and of the stack that a packet's call uses on either side
 *
 * A round is about 20 ms of each side, one right after the other, so that both meet the same machine; the ratio is the median of the rounds' ratios.
 */
#define _POSIX_C_SOURCE 200809L
#include "cases.h"

#include <inttypes.h>
#include <stdio.h>
#include <stdlib.h>
#include <string.h>
#include <time.h>
#include <ucontext.h>

enum { MOST_ROUNDS = 101, ROUND_NS = 20000000, STACK = 1 << 20, PAGE = 4096, PAINT = 0xA5 };

static double now(void)
{
    struct timespec t;
    clock_gettime(CLOCK_MONOTONIC, &t);
    return (double)t.tv_sec * 1e9 + (double)t.tv_nsec;
}

static void stop(const char *name, const char *what)
{
    fprintf(stderr, "bench: %s: %s\n", name, what);
    exit(1);
}

/* A side's batch, or memcpy's where there is no side. How fast a struct on the stack is copied depends on where it lies, and that on the environment's
   length: so the stack is brought to the beginning of a page first. callgrind counts this function: its name stands in bench/run. */
__attribute__((noipa)) uint64_t batch(const struct measured_case *c, const struct side *side);
uint64_t batch(const struct measured_case *c, const struct side *side)
{
    _Alignas(PAGE) volatile char page = 0;
    return (side ? c->run(side) : copy_batch()) + (uint64_t)page;
}

/* How long n batches take. */
static double spend(const struct measured_case *c, const struct side *side, unsigned long n, uint64_t *sum)
{
    const double from = now();
    for (unsigned long i = 0; i < n; i++)
        *sum += batch(c, side);
    return now() - from;
}

/* Batches that take about a round; counting them warms the caches too. */
static unsigned long batches_for(const struct measured_case *c, const struct side *side)
{
    unsigned long n = 1;
    uint64_t sum = 0;
    for (double t = 0; (t = spend(c, side, n, &sum)) < ROUND_NS;)
        n = t < ROUND_NS / 16 ? 4 * n : (unsigned long)((double)n * ROUND_NS / t) + 1;
    return n;
}

static int by_size(const void *a, const void *b)
{
    const double x = *(const double *)a, y = *(const double *)b;
    return (x > y) - (x < y);
}

static double median(double *numbers, size_t n)
{
    qsort(numbers, n, sizeof *numbers, by_size);
    return n % 2 ? numbers[n / 2] : (numbers[n / 2 - 1] + numbers[n / 2]) / 2;
}

static void time_case(const struct measured_case *c, size_t rounds)
{
    const struct side *const sides[3] = {&library, &baseline, NULL};
    static double took[4][MOST_ROUNDS];
    unsigned long n[3];
    c->prepare(c->size);
    if (batch(c, &library) != batch(c, &baseline))
        stop(c->name, "library and baseline answered differently");
    for (int s = 0; s < 3; s++)
        n[s] = batches_for(c, sides[s]);
    for (size_t r = 0; r < rounds; r++) {
        uint64_t sum = 0;
        for (int k = 0; k < 3; k++) {
            /* Who goes first changes from round to round. */
            const int s = (int)((r + (size_t)k) % 3);
            took[s][r] = spend(c, sides[s], n[s], &sum) / (double)n[s] / (double)units_in_batch();
        }
        took[3][r] = took[0][r] / took[1][r];
    }
    printf("%s\t%s\t%.2f\t%.2f\t%.2f\t", c->name, c->each, median(took[0], rounds), median(took[1], rounds), median(took[2], rounds));
    printf("%.3f\t%.2f\n", median(took[3], rounds), c->most_ratio);
    fflush(stdout);
}

/* Two batches of each side: the first binds what is bound on its first call. */
static void count_case(const struct measured_case *c)
{
    c->prepare(c->size);
    for (int i = 0; i < 2; i++)
        if (batch(c, &library) != batch(c, &baseline))
            stop(c->name, "library and baseline answered differently");
    printf("%s\t%zu\n", c->name, units_in_batch());
}

/* How deep a case goes into a stack of its own, which was painted before. */
static const struct measured_case *deep_case;
static const struct side *deep_side;

static void go_deep(void)
{
    if (deep_side)
        deep_case->run(deep_side);
}

static size_t stack_of(const struct measured_case *c, const struct side *side)
{
    static uint8_t stack[STACK];
    static ucontext_t here, there;
    memset(stack, PAINT, sizeof stack);
    deep_case = c;
    deep_side = side;
    if (getcontext(&there) != 0)
        stop(c->name, "no context");
    there.uc_stack.ss_sp = stack;
    there.uc_stack.ss_size = sizeof stack;
    there.uc_link = &here;
    makecontext(&there, go_deep, 0);
    if (swapcontext(&here, &there) != 0)
        stop(c->name, "no context");
    size_t clean = 0;
    while (clean < sizeof stack && stack[clean] == PAINT)
        clean++;
    return sizeof stack - clean;
}

static void tell_memory(void)
{
    printf("state\t%zu\n", sizeof(struct branmuslin_state));
    for (size_t i = 0; i < case_count; i++) {
        const struct measured_case *c = &cases[i];
        c->prepare(c->size);
        const size_t idle = stack_of(c, NULL);
        printf("%s\t%zu\t%zu\n", c->name, stack_of(c, &library) - idle, stack_of(c, &baseline) - idle);
    }
}

int main(int argc, char **argv)
{
    const char *mode = argc > 1 ? argv[1] : "";
    const long rounds = argc > 2 ? strtol(argv[2], NULL, 10) : 11;
    if (strcmp(mode, "memory") == 0) {
        tell_memory();
    } else if (strcmp(mode, "count") == 0) {
        for (size_t i = 0; i < case_count; i++)
            count_case(&cases[i]);
    } else if (strcmp(mode, "time") == 0 && rounds > 0 && rounds <= MOST_ROUNDS) {
        for (size_t i = 0; i < case_count; i++)
            time_case(&cases[i], (size_t)rounds);
    } else {
        fprintf(stderr, "usage: bench time [ROUNDS, 1 to %d] | count | memory\n", MOST_ROUNDS);
        return 1;
    }
    return 0;
}
