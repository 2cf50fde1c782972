/* Frames: packets that lie whole in a field or across fields, repeats, gaps, pointers that contradict, idle-only fields, and what drops the rest of a field. */
#include "frame_calls.h"

#define AT(type, field, place) _Static_assert(offsetof(struct branmuslin_##type, field) == (place), #type "." #field)
#define SIZE(type, octets) _Static_assert(sizeof(struct branmuslin_##type) == (octets), #type)

SIZE(frames, 16);
AT(frames, started, 0);
AT(frames, count, 1);
AT(frames, piece, 8);
SIZE(framed, 40);
AT(framed, refusal, 0);
AT(framed, kind, 1);
AT(framed, given_up, 2);
AT(framed, dropped, 3);
AT(framed, packets, 8);
AT(framed, octets, 16);
AT(framed, state, 24);

enum { IDLE = BRANMUSLIN_IDLE_ONLY, NONE = BRANMUSLIN_NO_PACKET, LONGEST = BRANMUSLIN_LONGEST_FIELD, MOST = BRANMUSLIN_LONGEST_FRAMED };

static void fresh(void)
{
    const struct branmuslin_frames state = branmuslin_fresh_frames();
    same(HERE, "whether a frame came before", false, state.started);
    same(HERE, "its count", 0, state.count);
    same(HERE, "the octets of the piece", 0, state.piece);
}

/* Packets of both kinds, idle ones too, fill a field exactly. */
static void whole_packets(void)
{
    empty_stream();
    lay_packet(20);
    lay(OCTETS(0xE0, 0x07, 0xFF, 0xC0, 0x00, 0x00, 0x00, 0x55, 0xE9, 0x05, 0x11, 0x22, 0x33));
    lay_packet(7);
    start_recording();
    frames(HERE, 0, 0, cut(0, laid()), TAKEN(5, cut(0, laid()), NO_OCTETS));
    frames_into(HERE, 3 * BRANMUSLIN_FRAME_OUTPUT, 1, 0, cut(0, laid()), TAKEN(5, cut(0, laid()), NO_OCTETS));
}

/* A packet of 60 octets over four fields, in two of which none begins; the last has another packet after its end, and the beginning of one. */
static void across_fields(void)
{
    empty_stream();
    lay_packet(10);
    lay_packet(60);
    lay_packet(12);
    lay_packet(30);
    start_recording();
    frames(HERE, 7, 0, cut(0, 20), TAKEN(1, cut(0, 10), cut(10, 20)));
    frames(HERE, 8, NONE, cut(20, 40), TAKEN(0, NO_OCTETS, cut(10, 40)));
    frames(HERE, 9, NONE, cut(40, 60), TAKEN(0, NO_OCTETS, cut(10, 60)));
    frames(HERE, 10, 10, cut(60, 90), TAKEN(2, cut(10, 82), cut(82, 90)));
    frames(HERE, 11, NONE, cut(90, 112), TAKEN(1, cut(82, 112), NO_OCTETS));
}

/* The first packet of a run may have begun before it: what comes before the pointer is passed over, and was never a piece. */
static void into_the_middle(void)
{
    empty_stream();
    lay_packet(40);
    lay_packet(9);
    start_recording();
    frames(HERE, 3, NONE, cut(10, 30), TAKEN(0, NO_OCTETS, NO_OCTETS));
    frames(HERE, 4, 10, cut(30, 49), TAKEN(1, cut(40, 49), NO_OCTETS));
}

/* Idle packets of one octet: wherever reading goes on, packets come out. */
static void lay_idle(size_t packets)
{
    for (; packets > 0; packets--)
        lay(OCTETS(0xE0));
}

/* The pointer 0 with no piece is the only one that does not contradict; each other reads on from itself too. */
static void no_piece(void)
{
    empty_stream();
    lay_idle(8);
    for (uint32_t pointer = 0; pointer < 8; pointer++) {
        start_from_piece(true, 254, NO_OCTETS);
        frames(HERE, 255, pointer, cut(0, 8), TAKEN(8 - pointer, cut(pointer, 8), NO_OCTETS));
    }
}

/* A packet of 20 octets of which 12 are there: only 8 more make it whole, and with every other pointer, 0 too, it is given up. */
static void contradictions(void)
{
    const struct octets whole = packet(42, BRANMUSLIN_UNSEGMENTED, 5, 0, part(0, 14));
    for (uint32_t pointer = 0; pointer <= 10; pointer++) {
        empty_stream();
        lay((struct octets){whole.at, pointer < 8 ? 12 + pointer : 20});
        lay_idle(23 - laid());
        start_from_piece(true, 255, cut(0, 12));
        if (pointer == 8)
            frames(HERE, 0, pointer, cut(12, 23), TAKEN(4, cut(0, 23), NO_OCTETS));
        else
            frames(HERE, 0, pointer, cut(12, 23), TAKEN_GIVEN_UP(11 - pointer, cut(12 + pointer, 23), NO_OCTETS));
    }
}

/* With 2047 the field goes on with the packet or ends it; one that ends before the field does contradicts. */
static void no_packet_begins(void)
{
    empty_stream();
    lay_packet(30);
    lay_packet(7);
    for (size_t length = 17; length <= 20; length++) {
        start_from_piece(true, 9, cut(0, 12));
        if (length < 18)
            frames(HERE, 10, NONE, cut(12, 12 + length), TAKEN(0, NO_OCTETS, cut(0, 12 + length)));
        else if (length == 18)
            frames(HERE, 10, NONE, cut(12, 12 + length), TAKEN(1, cut(0, 30), NO_OCTETS));
        else
            frames(HERE, 10, NONE, cut(12, 12 + length), TAKEN_GIVEN_UP(0, NO_OCTETS, NO_OCTETS));
    }
}

/* A repeat is known by the count of the frame before alone, once there is one; it needs no right octets. */
static void repeats(void)
{
    empty_stream();
    lay_packet(30);
    lay_packet(10);
    start_recording();
    frames(HERE, 0, 0, cut(0, 20), TAKEN(0, NO_OCTETS, cut(0, 20)));
    for (int i = 0; i < 3; i++)
        frames(HERE, 0, 0, cut(0, 20), SAME_AGAIN);
    frames(HERE, 0, NONE, cut(20, 30), SAME_AGAIN);
    frames(HERE, 0, IDLE, part(0, 8), SAME_AGAIN);
    frames(HERE, 1, 10, cut(20, 40), TAKEN(2, cut(0, 40), NO_OCTETS));
    frames(HERE, 1, 10, cut(20, 40), SAME_AGAIN);
    start_from_piece(false, 5, cut(0, 20));
    frames(HERE, 5, 10, cut(20, 40), TAKEN(2, cut(0, 40), NO_OCTETS));
}

/* A frame that was lost gives the piece up, and reading goes on at the pointer; from 255 the next is 0. */
static void steps(void)
{
    empty_stream();
    lay_packet(30);
    lay_packet(10);
    for (uint32_t count = 0; count < 256; count++) {
        start_from_piece(true, 200, cut(0, 20));
        if (count == 200)
            frames(HERE, count, 10, cut(20, 40), SAME_AGAIN);
        else if (count == 201)
            frames(HERE, count, 10, cut(20, 40), TAKEN(2, cut(0, 40), NO_OCTETS));
        else
            frames(HERE, count, 10, cut(20, 40), TAKEN_GIVEN_UP(1, cut(30, 40), NO_OCTETS));
    }
    start_from_piece(true, 255, cut(0, 20));
    frames(HERE, 0, 10, cut(20, 40), TAKEN(2, cut(0, 40), NO_OCTETS));
    start_from_piece(true, 255, cut(0, 20));
    frames(HERE, 1, NONE, cut(20, 30), TAKEN_GIVEN_UP(0, NO_OCTETS, NO_OCTETS));
    start_from_piece(true, 0, cut(0, 20));
    frames(HERE, 255, 30, cut(0, 38), TAKEN_GIVEN_UP(0, NO_OCTETS, cut(30, 38)));
    start_from_piece(true, 3, NO_OCTETS);
    frames(HERE, 7, 0, cut(0, 38), TAKEN(1, cut(0, 30), cut(30, 38)));
    start_from_piece(false, 200, cut(0, 20));
    frames(HERE, 100, 10, cut(20, 40), TAKEN(2, cut(0, 40), NO_OCTETS));
}

/* Idle data only: nothing is read of it, whatever it holds, and the piece is given up; the next frame is in step with it. */
static void idle_only(void)
{
    empty_stream();
    lay_packet(30);
    lay_packet(10);
    start_from_piece(true, 1, cut(0, 20));
    frames(HERE, 2, IDLE, cut(20, 40), TAKEN_GIVEN_UP(0, NO_OCTETS, NO_OCTETS));
    frames(HERE, 3, IDLE, cut(0, 30), TAKEN(0, NO_OCTETS, NO_OCTETS));
    frames(HERE, 3, 0, cut(0, 38), SAME_AGAIN);
    frames(HERE, 4, 0, cut(0, 38), TAKEN(1, cut(0, 30), cut(30, 38)));
    start_from_piece(true, 1, cut(0, 20));
    frames(HERE, 2, IDLE, cut(20, 30), TAKEN_GIVEN_UP(0, NO_OCTETS, NO_OCTETS));
    start_from_piece(false, 1, cut(0, 22));
    frames(HERE, 2, IDLE, cut(22, 30), TAKEN_GIVEN_UP(0, NO_OCTETS, NO_OCTETS));
    start_recording();
    frames(HERE, 0, IDLE, part(0, LONGEST), TAKEN(0, NO_OCTETS, NO_OCTETS));
}

/* What reading refuses, but for being unfinished, drops the rest of the field: the packets before it come out, and none after it. */
static void dropped(void)
{
    static const struct {
        size_t length;
        uint8_t octets[9];
    } bad[] = {
        {1, {0x20}},
        {7, {0x0F, 0xFF, 0xC0, 0x00, 0x00, 0x00, 0x00}},
        {2, {0xE9, 0x01}},
        {8, {0xEB, 0x00, 0x00, 0x00, 0x00, 0x01, 0x00, 0x07}},
        {1, {0xE4}},
        {3, {0xF9, 0x03, 0x00}},
        {5, {0xEA, 0x13, 0x00, 0x05, 0x55}},
        {9, {0xEB, 0x00, 0x00, 0x01, 0x00, 0x00, 0x00, 0x09, 0x55}},
    };
    for (size_t i = 0; i < sizeof bad / sizeof *bad; i++) {
        empty_stream();
        lay_packet(20);
        lay_packet(8);
        lay((struct octets){bad[i].octets, bad[i].length});
        lay_packet(10);
        start_recording();
        frames(HERE, 0, 0, cut(0, laid()), TAKEN_DROPPED(2, cut(0, 28)));
        frames(HERE, 1, 28, cut(0, laid()), TAKEN_DROPPED(0, NO_OCTETS));
        start_from_piece(true, 3, cut(0, 12));
        frames(HERE, 4, 8, cut(12, laid()), TAKEN_DROPPED(2, cut(0, 28)));
        start_from_piece(true, 3, cut(0, 12));
        frames(HERE, 5, 8, cut(12, laid()), TAKEN_BOTH(1, cut(20, 28)));
    }
}

/* A header that is cut off anywhere is unfinished, and read again with the octets that come after it. */
static void cut_headers(void)
{
    static const uint8_t longest_header[] = {0xFB, 0x3F, 0x00, 0x00, 0x00, 0x00, 0x00, 0x14};
    for (int kind = 0; kind < 2; kind++) {
        empty_stream();
        lay_idle(8);
        if (kind == 0)
            lay_packet(20);
        else
            lay(joined((struct octets){longest_header, sizeof longest_header}, 12));
        lay_idle(9);
        for (size_t at = 9; at < 28; at++) {
            start_recording();
            frames(HERE, 0, 0, cut(0, at), TAKEN(8, cut(0, 8), cut(8, at)));
            frames(HERE, 1, (uint32_t)(28 - at), cut(at, 37), TAKEN(10, cut(8, 37), NO_OCTETS));
        }
    }
}

/* The longest packet, over five fields; and one octet more, which is dropped as soon as the header shows it. */
static void longest_packet(void)
{
    empty_stream();
    lay_packet(MOST);
    lay_packet(3 * LONGEST);
    start_recording();
    frames(HERE, 0, 0, cut(0, LONGEST), TAKEN(0, NO_OCTETS, cut(0, LONGEST)));
    for (uint32_t i = 1; i < 4; i++)
        frames(HERE, i, NONE, cut(i * LONGEST, (i + 1) * LONGEST), TAKEN(0, NO_OCTETS, cut(0, (i + 1) * LONGEST)));
    frames(HERE, 4, MOST - 4 * LONGEST, cut(4 * LONGEST, 5 * LONGEST), TAKEN(1, cut(0, MOST), cut(MOST, 5 * LONGEST)));
    empty_stream();
    lay_packet(9);
    lay_packet(MOST + 1);
    start_recording();
    frames(HERE, 0, 0, cut(0, 14), TAKEN(1, cut(0, 9), cut(9, 14)));
    frames(HERE, 1, NONE, cut(14, 22), TAKEN_GIVEN_UP(0, NO_OCTETS, NO_OCTETS));
    frames(HERE, 2, 0, cut(0, 15), TAKEN_DROPPED(1, cut(0, 9)));
    frames(HERE, 3, 9, cut(0, 14), TAKEN(0, NO_OCTETS, cut(9, 14)));
    frames(HERE, 4, IDLE, cut(0, 8), TAKEN_GIVEN_UP(0, NO_OCTETS, NO_OCTETS));
}

/* The same limit in headers of 4 and 8 octets, of which the last octet shows the size. */
static void longest_encapsulation(void)
{
    static const uint8_t most[2][8] = {{0xEA, 0x00, 0x20, 0x00}, {0xEB, 0x00, 0x00, 0x00, 0x00, 0x00, 0x20, 0x00}};
    for (size_t i = 0; i < 2; i++)
        for (uint8_t over = 0; over < 2; over++) {
            const size_t header = 4 * (i + 1);
            uint8_t octets[8];
            for (size_t j = 0; j < 8; j++)
                octets[j] = (uint8_t)(most[i][j] + (j == header - 1 ? over : 0));
            empty_stream();
            lay_idle(8);
            lay((struct octets){octets, header});
            lay(part(0, 30));
            start_recording();
            frames(HERE, 0, 0, cut(0, 8 + header - 1), TAKEN(8, cut(0, 8), cut(8, 8 + header - 1)));
            if (over == 0)
                frames(HERE, 1, NONE, cut(8 + header - 1, 8 + header + 20), TAKEN(0, NO_OCTETS, cut(8, 8 + header + 20)));
            else
                frames(HERE, 1, NONE, cut(8 + header - 1, 8 + header + 20), TAKEN_GIVEN_UP(0, NO_OCTETS, NO_OCTETS));
            start_recording();
            if (over == 0)
                frames(HERE, 0, 0, cut(0, 8 + header), TAKEN(8, cut(0, 8), cut(8, 8 + header)));
            else
                frames(HERE, 0, 0, cut(0, 8 + header), TAKEN_DROPPED(8, cut(0, 8)));
        }
}

/* A piece of 8,191 octets, and the most that comes out: it, and a whole field. One octet fewer is not whole, and one more too long. */
static void most_octets(void)
{
    empty_stream();
    lay_packet(MOST);
    lay_idle(LONGEST);
    start_from_piece(true, 99, cut(0, MOST - 1));
    frames(HERE, 100, 1, cut(MOST - 1, MOST - 1 + LONGEST), TAKEN(LONGEST, cut(0, MOST - 1 + LONGEST), NO_OCTETS));
    start_from_piece(true, 99, cut(0, MOST - 1));
    frames(HERE, 100, 0, cut(MOST, MOST + LONGEST), TAKEN_GIVEN_UP(LONGEST, cut(MOST, MOST + LONGEST), NO_OCTETS));
    start_from_piece(true, 99, cut(0, MOST - 1));
    frames(HERE, 100, 2, cut(MOST - 1, MOST - 1 + LONGEST), TAKEN_GIVEN_UP(LONGEST - 2, cut(MOST + 1, MOST - 1 + LONGEST), NO_OCTETS));
    for (size_t there = MOST - 9; there < MOST - 6; there++) {
        start_from_piece(true, 99, cut(0, there));
        frames(HERE, 100, NONE, cut(there, there + 8),
               there == MOST - 9   ? TAKEN(0, NO_OCTETS, cut(0, MOST - 1))
               : there == MOST - 8 ? TAKEN(1, cut(0, MOST), NO_OCTETS)
                                   : TAKEN_GIVEN_UP(0, NO_OCTETS, NO_OCTETS));
    }
}

/*
 * Pieces that no run from a fresh start leaves are judged by the same words: a whole packet comes out with the pointer 0, more than one packet never does,
 * nor does one over 8,192 octets, and octets that reading refuses are given up.
 */
static void other_pieces(void)
{
    empty_stream();
    lay_packet(20);
    lay_idle(8);
    start_from_piece(true, 1, cut(0, 20));
    frames(HERE, 2, 0, cut(20, 28), TAKEN(9, cut(0, 28), NO_OCTETS));
    start_from_piece(true, 1, cut(0, 20));
    frames(HERE, 2, NONE, cut(20, 28), TAKEN_GIVEN_UP(0, NO_OCTETS, NO_OCTETS));
    start_from_piece(true, 1, cut(0, 21));
    frames(HERE, 2, 0, cut(20, 28), TAKEN_GIVEN_UP(8, cut(20, 28), NO_OCTETS));
    for (uint32_t pointer = 0; pointer < 8; pointer++) {
        start_from_piece(true, 1, OCTETS(0x20, 0x2A, 0xC0, 0x00, 0x00, 0x01));
        frames(HERE, 2, pointer, cut(20, 28), TAKEN_GIVEN_UP(8 - pointer, cut(20 + pointer, 28), NO_OCTETS));
    }
    start_from_piece(true, 1, OCTETS(0x20));
    frames(HERE, 2, NONE, cut(20, 28), TAKEN_GIVEN_UP(0, NO_OCTETS, NO_OCTETS));
    empty_stream();
    lay_packet(MOST + 1);
    lay_idle(8);
    start_from_piece(true, 1, cut(0, MOST - 1));
    frames(HERE, 2, 2, cut(MOST - 1, MOST + 9), TAKEN_GIVEN_UP(8, cut(MOST + 1, MOST + 9), NO_OCTETS));
    start_from_piece(true, 1, cut(0, MOST - 7));
    frames(HERE, 2, NONE, cut(MOST - 7, MOST + 1), TAKEN_GIVEN_UP(0, NO_OCTETS, NO_OCTETS));
    start_from_piece(true, 1, cut(0, MOST - 8));
    frames(HERE, 2, NONE, cut(MOST - 8, MOST), TAKEN_GIVEN_UP(0, NO_OCTETS, NO_OCTETS));
}

void test_frames(void)
{
    fresh();
    whole_packets();
    across_fields();
    into_the_middle();
    no_piece();
    contradictions();
    no_packet_begins();
    repeats();
    steps();
    idle_only();
    dropped();
    cut_headers();
    longest_packet();
    longest_encapsulation();
    most_octets();
    other_pieces();
}
