/*
 * frames: makes a frame file of the packets on standard input, for the tests of the example intake. The frames are made by hand and not by the library.
 *
 *     frames SEED    fields of pseudo-random lengths; some frames are lost, come again, are idle only, or have a wrong count, pointer or length
 *     frames whole   fields of 1,115 octets, each with its right count and pointer, and nothing lost
 *
 * Where the input ends with octets that are no packet, these are the end of the last field.
 */
#include <stdbool.h>
#include <stdint.h>
#include <stdio.h>
#include <stdlib.h>
#include <string.h>

enum { MOST = 8 << 20, IDLE_ONLY = 2046, NO_PACKET = 2047, COMMON = 1115, LONGEST = 2046 };

static uint8_t octets[MOST];
static uint32_t last_random;

static unsigned below(unsigned limit)
{
    last_random = last_random * 1664525 + 1013904223;
    return (last_random >> 8) % limit;
}

static unsigned number_at(size_t at, size_t width)
{
    unsigned number = 0;
    for (size_t i = 0; i < width; i++)
        number = number << 8 | octets[at + i];
    return number;
}

/* The octets of the packet that begins there, as its header has them; what is no packet has all that is left. */
static size_t packet_at(size_t at, size_t length)
{
    static const uint8_t widths[] = {0, 1, 2, 4};
    const size_t left = length - at, header = octets[at] < 0x20 ? 6 : (size_t)1 << octets[at] % 4;
    if ((octets[at] >= 0x20 && octets[at] < 0xE0) || left < header)
        return left;
    const size_t width = widths[octets[at] % 4];
    const size_t packet = octets[at] < 0x20 ? number_at(at + 4, 2) + 7u : width == 0 ? 1 : number_at(at + header - width, width);
    return packet < header || packet > left ? left : packet;
}

static void put(unsigned count, unsigned pointer, const uint8_t *field, size_t length)
{
    const uint8_t header[] = {(uint8_t)(count >> 8),   (uint8_t)count,          (uint8_t)(pointer >> 8),
                              (uint8_t)pointer,        (uint8_t)(length >> 8), (uint8_t)length};
    if (fwrite(header, 1, sizeof header, stdout) != sizeof header || fwrite(field, 1, length, stdout) != length) {
        perror("frames");
        exit(1);
    }
}

/* A frame that should not be there, or not so. Returns the count of the next frame. */
static unsigned put_odd(unsigned count, unsigned pointer, const uint8_t *field, size_t length)
{
    static const uint8_t idle[3000];
    switch (below(60)) {
    case 0: return count + 1;                                                                         /* lost */
    case 1: put(count % 256, IDLE_ONLY, idle, 8 + below(100)); return count + 1;                      /* idle only, at times inside a packet */
    case 2: put(count % 256 + 256, pointer, field, length); break;                                    /* refused, and then as it should be */
    case 3: put(count % 256, (unsigned)length, field, length); break;
    case 4: put(count % 256, pointer, idle, below(2) ? below(8) : 2047 + below(900)); break;
    case 5: put(count % 256, below((unsigned)length), field, length); return count + 1;               /* another pointer */
    }
    put(count % 256, pointer, field, length);
    if (below(12) == 0)
        put(count % 256, pointer, field, length);
    return count + 1;
}

/* The last field has what is left, and idle packets where that would be too short. */
static void put_frames(size_t length, bool whole)
{
    unsigned count = below(256);
    size_t next = 0, field;
    for (size_t at = 0; at < length; at += field) {
        field = whole ? COMMON : below(3) == 0 ? 8 + below(60) : 8 + below(LONGEST - 7);
        if (length - at < field) {
            memset(octets + length, 0xE0, 8);
            field = length - at < 8 ? 8 : length - at;
        }
        while (next < at)
            next += packet_at(next, length);
        const unsigned pointer = next < at + field ? (unsigned)(next - at) : NO_PACKET;
        if (whole)
            put(count++ % 256, pointer, octets + at, field);
        else
            count = put_odd(count, pointer, octets + at, field);
    }
}

int main(int argc, char **argv)
{
    if (argc != 2) {
        fputs("usage: frames SEED, or frames whole\n", stderr);
        return 2;
    }
    const size_t length = fread(octets, 1, sizeof octets - 8, stdin);
    last_random = (uint32_t)strtoul(argv[1], NULL, 10) * 2654435761u;
    put_frames(length, strcmp(argv[1], "whole") == 0);
    return ferror(stdin) || fflush(stdout) != 0;
}
