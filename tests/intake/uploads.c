/*
 * uploads: writes uploads for the tests of the example intake. The packets are made by hand and not by the library.
 *
 *     uploads SEED DIR   eight uploads of pseudo-random packets, DIR/0 to DIR/7
 *     uploads long DIR   one upload of more packets than a lane takes, DIR/0
 *
 * It prints what the intake is to be given: settings and path, a line an upload. What a source sends is mostly in order, so that groups are
 * completed, but with gaps, repeats and packets that no lane takes in between; some settings are illegal or ask for too much.
 */
#include <stdbool.h>
#include <stdint.h>
#include <stdio.h>
#include <stdlib.h>
#include <string.h>

enum { CONTINUATION, FIRST, LAST, UNSEGMENTED };

struct source {
    FILE *file;
    unsigned apid, secondary, count;
    bool grouped;
};

/* The fields of a Space Packet's header, and its data octets. */
struct header {
    unsigned type, secondary, apid, flags, count, length;
};

static uint32_t last_random;

static unsigned below(unsigned limit)
{
    last_random = last_random * 1664525 + 1013904223;
    return (last_random >> 8) % limit;
}

static void put(FILE *file, const uint8_t *octets, size_t length)
{
    if (fwrite(octets, 1, length, file) != length) {
        perror("uploads");
        exit(1);
    }
}

static void put_header(FILE *file, struct header h)
{
    const unsigned numbers[3] = {h.type << 12 | h.secondary << 11 | h.apid, h.flags << 14 | h.count, h.length - 1};
    for (size_t i = 0; i < 3; i++)
        put(file, (const uint8_t[]){(uint8_t)(numbers[i] >> 8), (uint8_t)numbers[i]}, 2);
}

static void put_packet(FILE *file, struct header h)
{
    put_header(file, h);
    for (unsigned i = 0; i < h.length; i++)
        put(file, (const uint8_t[]){(uint8_t)below(256)}, 1);
}

static unsigned some_flags(struct source *s)
{
    const unsigned dice = below(100);
    unsigned flags = dice < 55 ? FIRST : dice < 85 ? UNSEGMENTED : dice < 93 ? LAST : CONTINUATION;
    if (s->grouped)
        flags = dice < 60 ? CONTINUATION : dice < 94 ? LAST : dice < 97 ? FIRST : UNSEGMENTED;
    s->grouped = flags == FIRST || (flags == CONTINUATION && s->grouped);
    return flags;
}

/* Mostly short; at times over some blocks, seldom more than a lane may hold. */
static unsigned some_length(void)
{
    const unsigned dice = below(100);
    return dice < 60 ? 1 + below(60) : dice < 90 ? 1 + below(700) : dice < 99 ? 1 + below(3000) : 1 + below(20000);
}

/* The source's next packet, at times after a gap; or else one that repeats the last count, or that no lane takes. */
static void put_next(struct source *s)
{
    const unsigned dice = below(100);
    struct header h = {0, s->secondary > 0, s->apid, below(4), s->count % 16384, s->secondary + some_length()};
    switch (dice) {
    case 0: put(s->file, (const uint8_t[]){0xE9, 0x05, 0x11, 0x22, 0x33}, 5); return;
    case 1: put(s->file, (const uint8_t[]){0xE0}, 1); return;
    case 2: break;
    case 3: h.type = 1; break;
    case 4: h.apid = (h.apid + 1) % 2047; break;
    case 5: h.secondary ^= 1; break;
    case 6: h.length = s->secondary > 1 ? s->secondary - 1 : h.length; break;
    default:
        s->count += dice == 7 ? below(16384) : dice < 12 ? 1 + below(4) : 1;
        h.count = s->count % 16384;
        h.flags = some_flags(s);
    }
    put_packet(s->file, h);
}

/* Half of the uploads end with octets that are no packet. */
static void put_end(FILE *file)
{
    static const struct {
        size_t length;
        uint8_t octets[8];
    } ends[] = {
        {5, {0x00, 0x2A, 0xC0, 0x05, 0x00}},
        {7, {0x00, 0x2A, 0xC0, 0x05, 0x00, 0x01, 0xAA}},
        {3, {0x20, 0x00, 0x00}},
        {7, {0x0F, 0xFF, 0xC0, 0x00, 0x00, 0x00, 0x00}},
        {2, {0xE9, 0x01}},
        {8, {0xEB, 0x00, 0x00, 0x00, 0x00, 0x01, 0x00, 0x07}},
        {1, {0xE4}},
        {3, {0xF9, 0x03, 0x00}},
    };
    const unsigned end = below(16);
    if (end < sizeof ends / sizeof *ends)
        put(file, ends[end].octets, ends[end].length);
}

static FILE *new_upload(const char *folder, unsigned lane, char *path, size_t room)
{
    FILE *file = (size_t)snprintf(path, room, "%s/%u", folder, lane) < room ? fopen(path, "wb") : NULL;
    if (!file) {
        perror(path);
        exit(1);
    }
    return file;
}

static void put_upload(const char *folder, unsigned lane)
{
    char path[4096];
    const unsigned share = below(14), cap = below(30) == 0 ? share - 1 : share + below(16);
    struct source s = {new_upload(folder, lane, path, sizeof path), below(2047), below(2) * (1 + below(63)), below(16384), false};
    for (unsigned packets = below(8) == 0 ? 0 : below(400); packets > 0; packets--)
        put_next(&s);
    put_end(s.file);
    if (fclose(s.file) != 0) {
        perror(path);
        exit(1);
    }
    printf("%u:%u:%u:%u:%u:%s\n", below(65536), below(60) == 0 ? 2047 : s.apid, s.secondary, share, cap & 0xFF, path);
}

/* 262,146 packets that count, and a repeat of one that is refused. */
static void put_long(const char *folder)
{
    char path[4096];
    FILE *file = new_upload(folder, 0, path, sizeof path);
    for (unsigned count = 0; count < 262146; count++)
        put_packet(file, (struct header){0, 0, 42, UNSEGMENTED, count % 16384, 1});
    put_packet(file, (struct header){0, 0, 42, UNSEGMENTED, 16383, 1});
    if (fclose(file) != 0) {
        perror(path);
        exit(1);
    }
    printf("7:42:0:0:1:%s\n", path);
}

int main(int argc, char **argv)
{
    if (argc != 3) {
        fputs("usage: uploads SEED DIR, or uploads long DIR\n", stderr);
        return 2;
    }
    last_random = (uint32_t)strtoul(argv[1], NULL, 10) * 2654435761u;
    if (strcmp(argv[1], "long") == 0)
        put_long(argv[2]);
    else
        for (unsigned lane = 0; lane < 8; lane++)
            put_upload(argv[2], lane);
    return fflush(stdout) != 0;
}
