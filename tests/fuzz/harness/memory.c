/* Memory to lend. It is reserved once, for a fuzzer makes thousands of calls a second. */
#define _DEFAULT_SOURCE
#include "harness.h"
#include <stdio.h>
#include <stdlib.h>
#include <string.h>
#include <sys/mman.h>

#define PAGE 4096
#define GUARD 64
#define NOISE_LENGTH (LONGEST_OUTPUT + 256 * 7)

enum side side;

/* Whole pages between two walls, with room for a guard beside the longest memory; and what they held when they were lent. */
static const size_t room[ROLES] = {
    [INPUT] = 18 * PAGE, [OUTPUT] = 23 * PAGE, [POOL] = 5 * PAGE, [BUFFER] = 3 * PAGE, [FIRST_NUMBERS] = PAGE, [SECOND_NUMBERS] = PAGE,
};
static uint8_t *pages[ROLES], *copies[ROLES];

static void *must(void *memory)
{
    if (!memory || memory == MAP_FAILED) {
        perror("memory to lend");
        exit(1);
    }
    return memory;
}

static void reserve(enum role role)
{
    uint8_t *const map = must(mmap(NULL, room[role] + 2 * PAGE, PROT_NONE, MAP_PRIVATE | MAP_ANONYMOUS, -1, 0));
    if (mprotect(map + PAGE, room[role], PROT_READ | PROT_WRITE) != 0)
        must(NULL);
    pages[role] = map + PAGE;
    copies[role] = must(malloc(room[role]));
}

/* Octets that differ from their neighbours, so that one in a wrong place shows. */
static const uint8_t *noise(uint8_t from)
{
    static uint8_t octets[NOISE_LENGTH];
    static size_t filled;
    static uint32_t last = 1;
    for (; filled < NOISE_LENGTH; filled++) {
        last = last * 1664525 + 1013904223;
        octets[filled] = (uint8_t)(last >> 24);
    }
    return octets + (size_t)from * 7;
}

static struct lent lend(enum role role, size_t length)
{
    if (!pages[role])
        reserve(role);
    struct lent lent = {pages[role], length, role};
    if (side == BEFORE_A_WALL)
        lent.octets += room[role] - length;
    memset(side == BEFORE_A_WALL ? lent.octets - GUARD : lent.octets + length, 0xA5, GUARD);
    return lent;
}

struct lent lend_input(enum role role, struct input *input, size_t length)
{
    const struct lent lent = lend(role, length);
    const size_t given = input->left < length ? input->left : length;
    if (given > 0)
        memcpy(lent.octets, input->at, given);
    memcpy(lent.octets + given, noise(0), length - given);
    input->at += given;
    input->left -= given;
    lend_again(lent);
    return lent;
}

struct lent lend_noise(enum role role, size_t length, uint8_t from)
{
    const struct lent lent = lend(role, length);
    memcpy(lent.octets, noise(from), length);
    lend_again(lent);
    return lent;
}

void lend_again(struct lent lent)
{
    memcpy(as_lent(lent), lent.octets, lent.length);
}

uint8_t *as_lent(struct lent lent)
{
    return copies[lent.role];
}

void unchanged(struct lent lent, const char *what)
{
    /* Where the wall stood when it was lent: an end of the pages. */
    const bool behind = lent.octets == pages[lent.role];
    const uint8_t *const guard = behind ? lent.octets + lent.length : lent.octets - GUARD;
    for (size_t i = 0; i < GUARD; i++)
        DEMAND(guard[i] == 0xA5, "octets beside what was lent stay as they were");
    if (memcmp(lent.octets, as_lent(lent), lent.length) == 0)
        return;
    size_t at = 0;
    while (lent.octets[at] == as_lent(lent)[at])
        at++;
    fprintf(stderr, "octet %zu of %zu: expected %02X, got %02X\n", at, lent.length, as_lent(lent)[at], lent.octets[at]);
    DEMAND(false, what);
}

void holds(struct lent lent, const void *front, size_t length, const char *what)
{
    if (length > 0)
        memcpy(as_lent(lent), front, length);
    unchanged(lent, what);
}
