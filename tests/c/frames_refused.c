/* Each cause of 28 and of 9 on both sides of its limit, and the order: 28, 9, a repeat. A refusal changes nothing. */
#include "frame_calls.h"

enum { IDLE = BRANMUSLIN_IDLE_ONLY, NONE = BRANMUSLIN_NO_PACKET, OUTPUT = BRANMUSLIN_FRAME_OUTPUT };
#define COUNT(table) (sizeof(table) / sizeof *(table))

/* A piece of 12 octets of a packet of 20, after the frame 5; behind it the stream has 2,050 packets of one octet. */
static void start(void)
{
    start_from_piece(true, 5, cut(0, 12));
}

/* The frame 6, as it is taken: the packet's last 8 octets, and so many idle packets, one at least: the pointer lies in the field. */
static void ends_packet(struct place place, size_t idle)
{
    frames(place, 6, 8, cut(12, 20 + idle), TAKEN(1 + idle, cut(0, 20 + idle), NO_OCTETS));
}

static void fields(void)
{
    static const size_t wrong[] = {0, 1, 6, 7, 2047, 2048, 4095, 4096 + 8, 65536 + 8};
    for (size_t i = 0; i < COUNT(wrong); i++) {
        const struct octets field = part(0, wrong[i]);
        start();
        frames(HERE, 6, NONE, field, NOT_TAKEN(28));
        frames(HERE, 6, IDLE, field, NOT_TAKEN(28));
        frames(HERE, 6, 0, field, NOT_TAKEN(28));
        frames(HERE, 5, NONE, field, NOT_TAKEN(28));                    /* 28, and a repeat */
        frames_into(HERE, OUTPUT - 1, 6, NONE, field, NOT_TAKEN(28));   /* 28 and 9 */
        ends_packet(HERE, 1);
    }
    start();
    frames(HERE, 6, 8, cut(12, 12 + 2046), TAKEN(2039, cut(0, 12 + 2046), NO_OCTETS));
}

static void buffers(void)
{
    static const size_t wrong[] = {0, 1, 12, 4096, 8191, 8193};
    for (size_t i = 0; i < COUNT(wrong); i++) {
        start();
        tape.buffer_length = wrong[i];
        frames(HERE, 6, 8, cut(12, 21), NOT_TAKEN(28));
        frames(HERE, 5, 8, cut(12, 21), NOT_TAKEN(28));                  /* 28, and a repeat */
        frames_into(HERE, 0, 6, 8, cut(12, 21), NOT_TAKEN(28));          /* 28 and 9 */
        tape.buffer_length = BRANMUSLIN_PIECE_LENGTH;
        ends_packet(HERE, 1);
    }
}

/* 256 + 5 would be a repeat, and 256 + 6 in step, if a count were cut to eight bits. */
static void counts(void)
{
    static const uint32_t wrong[] = {256, 256 + 5, 256 + 6, 257, 65536 + 5, 65536 + 6, 0x80000000, 0xFFFFFF06, 0xFFFFFFFF};
    start();
    for (size_t i = 0; i < COUNT(wrong); i++) {
        frames(HERE, wrong[i], 8, cut(12, 21), NOT_TAKEN(28));
        frames_into(HERE, 0, wrong[i], 8, cut(12, 21), NOT_TAKEN(28));   /* 28 and 9 */
    }
    ends_packet(HERE, 1);
    start();
    frames(HERE, 255, 0, cut(20, 28), TAKEN_GIVEN_UP(8, cut(20, 28), NO_OCTETS));
    frames(HERE, 256, 0, cut(20, 28), NOT_TAKEN(28));
    frames(HERE, 0, 0, cut(20, 28), TAKEN(8, cut(20, 28), NO_OCTETS));
}

/* An offset lies in the field; 2046 and 2047 are none, and may stand with every field. */
static void pointers(void)
{
    static const size_t lengths[] = {8, 9, 100, 2045, 2046};
    static const uint32_t over[] = {2048, 2049, 4096, 65535, 65536, 65536 + 8, 0x80000000, 0xFFFFFFF8, 0xFFFFFFFF};
    for (size_t i = 0; i < COUNT(lengths); i++) {
        const size_t n = lengths[i];
        const struct octets field = cut(20, 20 + n);
        start_from_piece(true, 5, cut(0, 10));
        for (size_t j = 0; j < COUNT(over); j++)
            frames(HERE, 6, over[j], field, NOT_TAKEN(28));
        for (uint32_t pointer = (uint32_t)n; pointer < IDLE && pointer < n + 3; pointer++)
            frames(HERE, 6, pointer, field, NOT_TAKEN(28));
        if (n < 2046)
            frames(HERE, 6, 2045, field, NOT_TAKEN(28));
        frames(HERE, 6, (uint32_t)n - 1, field, TAKEN_GIVEN_UP(1, cut(20 + n - 1, 20 + n), NO_OCTETS));
        frames(HERE, 7, IDLE, field, TAKEN(0, NO_OCTETS, NO_OCTETS));
        frames(HERE, 8, NONE, field, TAKEN(0, NO_OCTETS, NO_OCTETS));
        frames(HERE, 9, 0, field, TAKEN(n, field, NO_OCTETS));
    }
}

/* Of a state only the piece can be wrong. One that is longer than the buffer is not looked at. */
static void pieces(void)
{
    static const size_t wrong[] = {8192, 8193, 16384, 65536, 65536 + 12, (size_t)1 << 32, ((size_t)1 << 32) + 12, (size_t)1 << 63, SIZE_MAX};
    for (size_t i = 0; i < COUNT(wrong); i++) {
        start();
        tape.state.piece = wrong[i];
        frames(HERE, 6, 8, cut(12, 21), NOT_TAKEN(28));
        frames(HERE, 6, NONE, cut(12, 21), NOT_TAKEN(28));
        frames(HERE, 6, IDLE, cut(12, 21), NOT_TAKEN(28));
        frames(HERE, 9, 8, cut(12, 21), NOT_TAKEN(28));                  /* 28, and out of step */
        frames(HERE, 5, 8, cut(12, 21), NOT_TAKEN(28));                  /* 28, and a repeat */
        frames_into(HERE, 0, 6, 8, cut(12, 21), NOT_TAKEN(28));          /* 28 and 9 */
        tape.state.piece = 12;
        ends_packet(HERE, 2);
    }
    start();
    tape.state.piece = 8191;
    frames(HERE, 6, 0, cut(20, 28), TAKEN_GIVEN_UP(8, cut(20, 28), NO_OCTETS));
}

/* 9 comes before a repeat, and whatever would come out. A frame that was refused is not the frame before. */
static void outputs(void)
{
    static const size_t wrong[] = {0, 1, 8, 2046, 8192, OUTPUT - 2, OUTPUT - 1};
    for (size_t i = 0; i < COUNT(wrong); i++) {
        start();
        frames_into(HERE, wrong[i], 6, 8, cut(12, 21), NOT_TAKEN(9));
        frames_into(HERE, wrong[i], 6, IDLE, cut(12, 21), NOT_TAKEN(9));
        frames_into(HERE, wrong[i], 5, 8, cut(12, 21), NOT_TAKEN(9));    /* 9, and a repeat */
        frames_into(HERE, wrong[i], 200, 8, cut(12, 21), NOT_TAKEN(9));  /* 9, and out of step */
        frames_into(HERE, OUTPUT, 5, 8, cut(12, 21), SAME_AGAIN);
        frames_into(HERE, OUTPUT + i, 6, 8, cut(12, 21), TAKEN(2, cut(0, 21), NO_OCTETS));
    }
    start_recording();
    frames_into(HERE, OUTPUT - 1, 0, 0, cut(20, 28), NOT_TAKEN(9));
    frames(HERE, 0, 8, cut(20, 28), NOT_TAKEN(28));
    frames(HERE, 0, 0, cut(20, 28), TAKEN(8, cut(20, 28), NO_OCTETS));
}

void test_frames_refused(void)
{
    empty_stream();
    lay_packet(20);
    for (int i = 0; i < 2050; i++)
        lay(OCTETS(0xE0));
    fields();
    buffers();
    counts();
    pointers();
    pieces();
    outputs();
}
