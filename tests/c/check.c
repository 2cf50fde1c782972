/* Counting checks, and lending memory. */
#define _DEFAULT_SOURCE
#include "check.h"
#include <inttypes.h>
#include <stdio.h>
#include <stdlib.h>
#include <string.h>
#include <sys/mman.h>
#include <unistd.h>

#define GUARD 64

/* The octets lent are those from `front` on; `as_lent` is a copy of all. */
struct memory {
    uint8_t *all, *as_lent;
    size_t length, front;
    void *map;
    size_t map_length;
};

enum home home;
static unsigned checks, failures;

static void count(struct place place, int good)
{
    checks++;
    if (!good) {
        failures++;
        fprintf(stderr, "%s:%d: ", place.file, place.line);
    }
}

void same(struct place place, const char *what, uintmax_t expected, uintmax_t got)
{
    count(place, expected == got);
    if (expected != got)
        fprintf(stderr, "%s: expected %" PRIuMAX ", got %" PRIuMAX "\n", what, expected, got);
}

int tell(void)
{
    if (failures > 0)
        printf("%u of %u checks failed\n", failures, checks);
    else
        printf("%u checks passed\n", checks);
    return failures > 0;
}

static void *must(void *memory)
{
    if (!memory || memory == MAP_FAILED) {
        perror("memory for a test");
        exit(1);
    }
    return memory;
}

uint32_t next_random(void)
{
    static uint32_t last = 1;
    last = last * 1664525 + 1013904223;
    return last >> 8;
}

struct octets noise(size_t length)
{
    static uint8_t octets[LONGEST_NOISE];
    static int filled;
    for (; filled < LONGEST_NOISE; filled++)
        octets[filled] = (uint8_t)next_random();
    return (struct octets){octets, length};
}

struct octets joined(struct octets header, size_t noise_length)
{
    static uint8_t octets[LONGEST_NOISE];
    memcpy(octets, header.at, header.length);
    memcpy(octets + header.length, noise(noise_length).at, noise_length);
    return (struct octets){octets, header.length + noise_length};
}

/* Whole pages between two that can't be accessed; what is lent lies at one end of them. */
static void put_at_wall(struct memory *memory, size_t length)
{
    const size_t page = (size_t)sysconf(_SC_PAGESIZE);
    memory->length = (length + page - 1) / page * page;
    memory->front = home == BEFORE_A_WALL ? memory->length - length : 0;
    memory->map_length = memory->length + 2 * page;
    memory->map = must(mmap(NULL, memory->map_length, PROT_NONE, MAP_PRIVATE | MAP_ANONYMOUS, -1, 0));
    memory->all = (uint8_t *)memory->map + page;
    if (memory->length > 0 && mprotect(memory->all, memory->length, PROT_READ | PROT_WRITE) != 0)
        must(NULL);
}

static void put_on_heap(struct memory *memory, size_t length, size_t guard)
{
    memory->length = guard + length + guard;
    memory->front = guard;
    memory->all = must(malloc(memory->length));
}

struct lent lend(struct octets octets)
{
    struct memory *memory = must(calloc(1, sizeof *memory));
    if (home == BEFORE_A_WALL || home == BEHIND_A_WALL)
        put_at_wall(memory, octets.length);
    else
        put_on_heap(memory, octets.length, home == BETWEEN_GUARDS ? GUARD : 0);
    memset(memory->all, 0xA5, memory->length);
    memcpy(memory->all + memory->front, octets.at, octets.length);
    memory->as_lent = must(malloc(memory->length));
    memcpy(memory->as_lent, memory->all, memory->length);
    return (struct lent){memory->all + memory->front, octets.length, memory};
}

struct lent lend_noise(size_t length)
{
    /* From the other end, so that what is read and what it is written over differ. */
    const struct octets all = noise(LONGEST_NOISE);
    return lend((struct octets){all.at + all.length - length, length});
}

static void give_back(struct memory *memory)
{
    if (memory->map)
        munmap(memory->map, memory->map_length);
    else
        free(memory->all);
    free(memory->as_lent);
    free(memory);
}

void holds(struct place place, const char *what, struct lent lent, struct octets front)
{
    struct memory *memory = lent.memory;
    size_t at = 0;
    memcpy(memory->as_lent + memory->front, front.at, front.length);
    if (memcmp(memory->all, memory->as_lent, memory->length) == 0)
        at = memory->length;
    while (at < memory->length && memory->all[at] == memory->as_lent[at])
        at++;
    count(place, at == memory->length);
    if (at < memory->length)
        fprintf(stderr, "%s: octet %td of %zu: expected %02X, got %02X\n", what, (ptrdiff_t)at - (ptrdiff_t)memory->front, lent.length,
                memory->as_lent[at], memory->all[at]);
    give_back(memory);
}
