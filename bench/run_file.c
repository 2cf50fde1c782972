/*
 * run-file: prints a run file of almost a million octets, the same each time: eight lanes in turn, with groups and unsegmented packets of 1 to 300
 * octets, and now and then a packet that is lost.
 */
#include <stdint.h>
#include <stdio.h>

enum { LANES = 8, LENGTH = 1000000, APID = 42, OUTPUT = 81920 };

static uint32_t seed = 1;
static size_t written;

static uint32_t below(uint32_t n)
{
    seed = seed * 1664525 + 1013904223;
    return (seed >> 16) % n;
}

static void put(uint32_t x, int octets)
{
    for (int i = octets - 1; i >= 0; i--)
        putchar((int)(x >> 8 * i & 255));
    written += (size_t)octets;
}

static void put_packet(uint32_t lane, uint32_t flags, uint32_t count, uint32_t length)
{
    put('P', 1);
    put(lane, 1);
    put(OUTPUT, 4);
    put(6 + length, 4);
    put(APID, 2);
    put(flags << 14 | (count & 16383), 2);
    put(length - 1, 2);
    for (uint32_t i = 0; i < length; i++)
        put(below(256), 1);
}

int main(void)
{
    uint32_t counts[LANES] = {0}, in_group[LANES] = {0};
    for (uint32_t lane = 0; lane < LANES; lane++) {
        put('O', 1);
        put(lane, 1);
        put(7, 2);
        put(APID, 2);
        put(0, 2);
        put(64, 1);
    }
    for (uint32_t lane = 0; written + 316 + 6 * LANES <= LENGTH; lane = (lane + 1) % LANES) {
        /* One in four begins as a unit of its own; a group has five packets: first, continuation three times, last. */
        const uint32_t place = in_group[lane], alone = place == 0 && below(4) == 0;
        put_packet(lane, alone ? 3 : place == 0 ? 1 : place == 4 ? 2 : 0, counts[lane], 1 + below(300));
        in_group[lane] = alone || place == 4 ? 0 : place + 1;
        counts[lane] += below(64) == 0 ? 2 : 1;
    }
    for (uint32_t lane = 0; lane < LANES; lane++) {
        put('C', 1);
        put(lane, 1);
        put(20, 4);
    }
    return fflush(stdout) != 0;
}
