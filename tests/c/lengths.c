/* Lengths over 32 bits, which a library that counts in 32 would take for small ones. */
#define _DEFAULT_SOURCE
#include "check.h"
#include <stdio.h>
#include <stdlib.h>
#include <sys/mman.h>

#define OVER ((size_t)1 << 32)

/* So many octets of 0 that take memory only where they are written. */
static uint8_t *zeros(size_t length)
{
    void *map = mmap(NULL, length, PROT_READ | PROT_WRITE, MAP_PRIVATE | MAP_ANONYMOUS | MAP_NORESERVE, -1, 0);
    if (map == MAP_FAILED) {
        perror("memory for lengths over 32 bits");
        exit(1);
    }
    return map;
}

static void inputs(uint8_t *octets)
{
    uint8_t output[300];
    size_t number = 0, index = 0, place = 9;
    struct branmuslin_packet packet = {0};
    struct branmuslin_record record = {0};
    same(HERE, "reading with octets after", 0, branmuslin_read_packet(octets, OVER + 3, &packet, &place));
    same(HERE, "packet.length", 1, packet.length);
    same(HERE, "*place", 9, place);
    same(HERE, "Space data", 10, branmuslin_write_space(0, 0, 0, 0, 0, octets, OVER + 1, output, sizeof output, &number));
    same(HERE, "content", 10, branmuslin_write_encapsulation(0, 0, 0, octets, OVER, output, sizeof output, &number));
    same(HERE, "content", 10, branmuslin_write_encapsulation(2, 0, 0, octets, OVER + 1, output, sizeof output, &number));
    same(HERE, "a record", 26, branmuslin_read_record(octets, OVER + 20, &record));
    same(HERE, "a file", 26, branmuslin_read_record_file(octets, OVER + 20, &number, &index));
    /* OVER + 4 is a multiple of 20, and record 3 has APID 65,535. */
    octets[62] = octets[63] = 0xFF;
    same(HERE, "a file", 25, branmuslin_read_record_file(octets, OVER + 4, &number, &index));
    same(HERE, "*index", 3, index);
}

static void outputs(uint8_t *octets)
{
    const uint8_t data = 0x55;
    size_t written = 0;
    same(HERE, "a Space Packet's output", 0, branmuslin_write_space(0, 0, 0, 0, 0, &data, 1, octets, OVER + 6, &written));
    same(HERE, "*written", 7, written);
    same(HERE, "an Encapsulation Packet's output", 0, branmuslin_write_encapsulation(2, 0, 0, &data, 1, octets, OVER + 2, &written));
    same(HERE, "*written", 3, written);
    same(HERE, "a record's output", 0, branmuslin_write_record(0, 0, 0, 0, 0, 0, octets, OVER + 19));
}

/* The octets as a pool, a packet (of APID 0) and an output; and lane numbers over 32 bits. */
static void lanes(uint8_t *octets)
{
    const struct branmuslin_settings settings = {0, 0, 0, 0, 1};
    static uint8_t pool[BRANMUSLIN_POOL_LENGTH], output[300];
    const uint8_t packet[] = {0x00, 0x00, 0xC0, 0x00, 0x00, 0x00, 0x55};
    const size_t over_pool = OVER + sizeof pool;
    const struct branmuslin_state state = branmuslin_open_lane(branmuslin_fresh_start(), 0, settings, pool, sizeof pool).state;
    same(HERE, "opening, a pool", 24, branmuslin_open_lane(state, 1, settings, octets, over_pool).refusal);
    same(HERE, "a packet, a pool", 24, branmuslin_take_packet(state, 0, packet, sizeof packet, octets, over_pool, output, sizeof output).refusal);
    same(HERE, "closing, a pool", 24, branmuslin_close_lane(state, 0, octets, over_pool, output, sizeof output).refusal);
    same(HERE, "opening, a lane", 11, branmuslin_open_lane(state, OVER + 1, settings, pool, sizeof pool).refusal);
    same(HERE, "a packet, a lane", 11, branmuslin_take_packet(state, OVER, packet, sizeof packet, pool, sizeof pool, output, sizeof output).refusal);
    same(HERE, "closing, a lane", 11, branmuslin_close_lane(state, OVER, pool, sizeof pool, output, sizeof output).refusal);
    same(HERE, "a packet", 12, branmuslin_take_packet(state, 0, octets, OVER + 7, pool, sizeof pool, output, sizeof output).refusal);
    same(HERE, "a unit's output", 1, branmuslin_take_packet(state, 0, packet, sizeof packet, pool, sizeof pool, octets, OVER).octets);
    same(HERE, "a record's output", 0, branmuslin_close_lane(state, 0, pool, sizeof pool, octets, OVER + 19).refusal);
}

/* The octets as a field, a buffer and an output; and a piece over 32 bits. Space Packets of seven octets of 0 come out of a field of 14. */
static void frames(uint8_t *octets)
{
    static uint8_t buffer[BRANMUSLIN_PIECE_LENGTH], output[BRANMUSLIN_FRAME_OUTPUT];
    static const uint8_t field[14];
    const struct branmuslin_frames fresh = branmuslin_fresh_frames(), over = {true, 0, OVER};
    same(HERE, "a field", 28, branmuslin_take_frame(fresh, 0, 0, octets, OVER + 14, buffer, sizeof buffer, output, sizeof output).refusal);
    same(HERE, "a buffer", 28, branmuslin_take_frame(fresh, 0, 0, field, 14, octets, OVER + sizeof buffer, output, sizeof output).refusal);
    same(HERE, "a piece", 28, branmuslin_take_frame(over, 1, 0, field, 14, buffer, sizeof buffer, output, sizeof output).refusal);
    same(HERE, "packets' output", 14, branmuslin_take_frame(fresh, 0, 0, field, 14, buffer, sizeof buffer, octets, OVER).octets);
}

static void with_zeros(void (*test)(uint8_t *octets))
{
    const size_t length = OVER + BRANMUSLIN_POOL_LENGTH;
    uint8_t *octets = zeros(length);
    test(octets);
    munmap(octets, length);
}

void test_lengths_over_32_bits(void)
{
    with_zeros(inputs);
    with_zeros(outputs);
    with_zeros(lanes);
    with_zeros(frames);
}
