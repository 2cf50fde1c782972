/* Each refusal of the calls to the lanes, and which is told where several causes hold. None of them changes anything. */
#include "calls.h"

enum { CONTINUATION, FIRST, LAST, UNSEGMENTED };

/*
 * Lane 0 takes APID 42 with 2 secondary octets, has accepted count 5 and holds a group of 10 octets; it may hold one block. Lane 1 takes APID 43 without a
 * secondary header, and is promised 60 blocks. The other lanes are closed.
 */
static void start(void)
{
    start_fresh();
    opened(HERE, 0, SETTINGS(7, 42, 2, 0, 1));
    opened(HERE, 1, SETTINGS(8, 43, 0, 60, 64));
    want_group(0, 10);
    want_block(0, 0, 0);
    want_stored(0, 0, part(0, 10));
    answered(HERE, 0, 5, packet(42, FIRST, 5, 2, part(0, 10)), HELD(0, false));
}

static const struct branmuslin_settings legal = {9, 44, 0, 1, 2};
static const size_t over_7[] = {8, 9, 63, 64, 255, 256, 65536, (size_t)1 << 32, (size_t)1 << 63, SIZE_MAX};
#define COUNT(table) (sizeof(table) / sizeof *(table))

/* Each call with a pool that is shorter or longer, in front of every other cause. */
static void pool_lengths(void)
{
    static const size_t lengths[] = {0, 1, 256, 16383, 16385, 16384 + 256};
    for (size_t i = 0; i < COUNT(lengths); i++) {
        start();
        is.pool_length = want.pool_length = lengths[i];
        opens(HERE, 2, legal, 24);
        takes(HERE, 0, packet(42, LAST, 6, 2, part(0, 1)), 300, REFUSED(24));
        closes(HERE, 0, 20, 24, NO_OCTETS);
        opens(HERE, SIZE_MAX, SETTINGS(0, 2047, 64, 65, 0), 24); /* 24, 11 and 22 */
        opens(HERE, 0, legal, 24);                               /* 24 and 21 */
        opens(HERE, 2, SETTINGS(9, 44, 0, 64, 64), 24);          /* 24 and 23 */
        takes(HERE, 8, NO_OCTETS, 0, REFUSED(24));               /* 24, 11 and 1 */
        takes(HERE, 0, OCTETS(0xE0, 0xE0), 0, REFUSED(24));      /* 24, 12 and 13 */
        takes(HERE, 0, packet(42, FIRST, 5, 2, part(0, 10)), 0, REFUSED(24)); /* 24, and a repeat */
        closes(HERE, 2, 0, 24, NO_OCTETS);                       /* 24, 11 and 9 */
    }
}

/* The order: 24, 11, 21, 22, 23. */
static void openings(void)
{
    start();
    for (size_t i = 0; i < COUNT(over_7); i++) {
        opens(HERE, over_7[i], legal, 11);
        opens(HERE, over_7[i], SETTINGS(0, 2047, 64, 65, 0), 11); /* 11 and 22 */
    }
    opens(HERE, 0, legal, 21);
    opens(HERE, 1, SETTINGS(7, 2047, 0, 1, 2), 21);  /* 21 and 22 */
    opens(HERE, 1, SETTINGS(7, 44, 0, 64, 64), 21);  /* 21 and 23 */
    opens(HERE, 2, SETTINGS(7, 2047, 0, 1, 2), 22);
    opens(HERE, 2, SETTINGS(7, 65535, 0, 1, 2), 22);
    opens(HERE, 2, SETTINGS(7, 44, 64, 1, 2), 22);
    opens(HERE, 2, SETTINGS(7, 44, 255, 1, 2), 22);
    opens(HERE, 2, SETTINGS(7, 44, 0, 3, 2), 22);
    opens(HERE, 2, SETTINGS(7, 44, 0, 1, 0), 22);
    opens(HERE, 2, SETTINGS(7, 44, 0, 1, 65), 22);
    opens(HERE, 2, SETTINGS(7, 44, 0, 0, 255), 22);
    opens(HERE, 2, SETTINGS(7, 2047, 0, 64, 64), 22); /* 22 and 23 */
    opens(HERE, 2, SETTINGS(7, 44, 0, 65, 65), 22);   /* 22 and 23 */
    opens(HERE, 2, SETTINGS(7, 44, 0, 4, 64), 23);
    opens(HERE, 2, SETTINGS(7, 44, 0, 64, 64), 23);
    opened(HERE, 2, SETTINGS(65535, 2046, 63, 3, 64));
    opens(HERE, 3, SETTINGS(7, 44, 0, 1, 1), 23);
    opened(HERE, 3, SETTINGS(0, 0, 0, 0, 64));
}

/* Those of the reader, which come before 12 to 17 and a repeat. The lane passes the place on; where 24 or 11 comes first there is none. */
static void not_packets(void)
{
    start();
    for (size_t length = 0; length < 18; length++)
        takes(HERE, 0, (struct octets){packet(42, FIRST, 5, 2, part(0, 10)).at, length}, 300, REFUSED_AT(1, length));
    takes(HERE, 0, OCTETS(0x20), 300, REFUSED_AT(2, 0));
    takes(HERE, 0, OCTETS(0x0F, 0xFF, 0xC0, 0x00, 0x00, 0x00, 0x00), 300, REFUSED_AT(3, 0)); /* 3 and 15 */
    takes(HERE, 0, OCTETS(0xE9, 0x01), 300, REFUSED_AT(4, 1));                               /* 4 and 13 */
    takes(HERE, 0, OCTETS(0xEA, 0x00, 0x00, 0x03), 300, REFUSED_AT(4, 2));
    takes(HERE, 0, OCTETS(0xEB, 0x00, 0x00, 0x00, 0x00, 0x00, 0x00, 0x07), 300, REFUSED_AT(4, 4));
    takes(HERE, 0, OCTETS(0xEB, 0x00, 0x00, 0x00, 0x00, 0x01, 0x00, 0x07), 300, REFUSED_AT(5, 4));
    takes(HERE, 0, OCTETS(0xE4, 0xE4), 300, REFUSED_AT(6, 0)); /* 6 and 12 */
    takes(HERE, 0, OCTETS(0xF9, 0x03, 0x00), 300, REFUSED_AT(7, 0));
    takes(HERE, 0, OCTETS(0xEA, 0x13, 0x00, 0x05, 0x55), 300, REFUSED_AT(7, 1));
    takes(HERE, 0, OCTETS(0xEB, 0x03, 0x00, 0x01, 0x00, 0x00, 0x00, 0x09, 0x55), 300, REFUSED_AT(7, 1)); /* the extension, and the CCSDS field */
    takes(HERE, 0, OCTETS(0xEB, 0x00, 0x01, 0x00, 0x00, 0x00, 0x00, 0x09, 0x55), 300, REFUSED_AT(7, 2));
    takes(HERE, 0, OCTETS(0xEB, 0x00, 0x00, 0x01, 0x00, 0x00, 0x00, 0x09, 0x55), 300, REFUSED_AT(7, 3));
    takes(HERE, 2, NO_OCTETS, 300, REFUSED(11)); /* 11 and 1 */
    takes(HERE, 2, OCTETS(0x20), 300, REFUSED(11));
    takes(HERE, 2, OCTETS(0xEA, 0x13, 0x00, 0x05, 0x55), 300, REFUSED(11)); /* 11 and 7 */
    is.pool_length = want.pool_length = 16383;
    takes(HERE, 0, OCTETS(0xEA, 0x13, 0x00, 0x05, 0x55), 300, REFUSED(24)); /* 24 and 7 */
}

/* The order: 24, 11, reading, 12 to 17, a repeat, 18, 19, 27, 20. */
static void packets(void)
{
    start();
    for (size_t i = 0; i < COUNT(over_7); i++)
        takes(HERE, over_7[i], packet(42, LAST, 6, 2, part(10, 1)), 300, REFUSED(11));
    takes(HERE, 2, packet(42, LAST, 6, 2, part(10, 1)), 300, REFUSED(11));
    takes(HERE, 7, packet(0, LAST, 6, 0, part(10, 1)), 300, REFUSED(11));
    takes(HERE, 0, OCTETS(0x08, 0x2A, 0x80, 0x06, 0, 2, 1, 2, 3, 4), 300, REFUSED(12));
    takes(HERE, 0, OCTETS(0xE0, 0xE0), 300, REFUSED(12));                             /* 12 and 13 */
    takes(HERE, 0, OCTETS(0x10, 0x2B, 0x80, 0x06, 0, 0, 1, 2), 300, REFUSED(12));     /* 12, 14, 15, 16 and 17 */
    takes(HERE, 0, OCTETS(0x08, 0x2A, 0x80, 0x05, 0, 2, 1, 2, 3, 4), 300, REFUSED(12)); /* 12, and a repeat */
    takes(HERE, 0, OCTETS(0xE0), 300, REFUSED(13));
    takes(HERE, 0, OCTETS(0xE9, 0x05, 0x11, 0x22, 0x33), 300, REFUSED(13));
    takes(HERE, 0, OCTETS(0x18, 0x2A, 0x80, 0x06, 0, 2, 1, 2, 3), 300, REFUSED(14));
    takes(HERE, 0, OCTETS(0x10, 0x2B, 0x80, 0x05, 0, 0, 1), 300, REFUSED(14));        /* 14, 15, 16 and 17 */
    takes(HERE, 0, packet(43, LAST, 6, 2, part(10, 1)), 300, REFUSED(15));
    takes(HERE, 0, packet(2047, LAST, 6, 0, part(10, 1)), 300, REFUSED(15));          /* 15, 16 and 17 */
    takes(HERE, 0, packet(42 + 256, LAST, 5, 2, part(10, 1)), 300, REFUSED(15));      /* 15; and a repeat */
    takes(HERE, 0, packet(42, LAST, 6, 0, part(10, 9)), 300, REFUSED(16));
    takes(HERE, 0, packet(42, LAST, 5, 0, part(10, 1)), 300, REFUSED(16));            /* 16, 17, and a repeat */
    takes(HERE, 1, packet(43, UNSEGMENTED, 6, 2, part(10, 9)), 300, REFUSED(16));
    takes(HERE, 0, packet(42, LAST, 6, 1, NO_OCTETS), 300, REFUSED(17));
    takes(HERE, 0, packet(42, LAST, 5, 1, NO_OCTETS), 0, REFUSED(17));                /* 17, and a repeat */
    takes(HERE, 0, packet(42, FIRST, 5, 2, part(0, 300)), 0, REPEATED);               /* a repeat, and else 19 */
    takes(HERE, 0, packet(42, UNSEGMENTED, 5, 2, part(0, 300)), 0, REPEATED);         /* a repeat, and else 20 */
}

/* A full tally: every packet but a repeat is refused, also those that find no room or no output. */
static void full_lane(void)
{
    start();
    is.state.lanes[0].packets = is.state.lanes[1].packets = 262144;
    start_from(is.state);
    takes(HERE, 0, packet(42, LAST, 6, 2, part(10, 1)), 300, REFUSED(18));
    takes(HERE, 0, packet(42, CONTINUATION, 7, 2, part(10, 1)), 300, REFUSED(18));
    takes(HERE, 0, packet(42, FIRST, 6, 2, part(0, 300)), 300, REFUSED(18));        /* 18 and 19 */
    takes(HERE, 1, packet(43, FIRST, 6, 0, part(0, 16384)), 300, REFUSED(18));      /* 18 and 27 */
    takes(HERE, 0, packet(42, UNSEGMENTED, 6, 2, part(0, 300)), 299, REFUSED(18));  /* 18 and 20 */
    takes(HERE, 0, packet(42, LAST, 5, 2, part(10, 1)), 300, REPEATED);
    takes(HERE, 0, packet(42, LAST, 6, 1, NO_OCTETS), 300, REFUSED(17));            /* 17 and 18 */
    is.state.lanes[0].packets = 262143;
    start_from(is.state);
    answered(HERE, 0, 7, packet(42, UNSEGMENTED, 7, 2, part(0, 3)), UNIT(1, true, part(0, 3)));
    takes(HERE, 0, packet(42, UNSEGMENTED, 8, 2, part(0, 3)), 3, REFUSED(18));
    want_closed(0);
    closes(HERE, 0, 20, 0, OCTETS(0, 7, 0, 42, 0, 0, 0, 1, 0, 4, 0, 0, 0, 0, 0, 1, 0, 0, 0, 1));
}

/* 19 leaves the old group, to which packets are added afterwards; after 20 the same packet is no repeat. */
static void no_room(void)
{
    start();
    takes(HERE, 0, packet(42, FIRST, 6, 2, part(0, 257)), 300, REFUSED(19));
    takes(HERE, 0, packet(42, FIRST, 8, 2, part(0, 257)), 300, REFUSED(19));
    takes(HERE, 0, packet(42, CONTINUATION, 6, 2, part(10, 247)), 300, REFUSED(19));
    want_group(0, 256);
    want_stored(0, 10, part(10, 246));
    answered(HERE, 0, 6, packet(42, CONTINUATION, 6, 2, part(10, 246)), HELD(0, false));
    for (size_t output = 0; output < 258; output += 257)
        takes(HERE, 0, packet(42, LAST, 7, 2, part(256, 2)), output, REFUSED(20));
    takes(HERE, 0, packet(42, UNSEGMENTED, 7, 2, part(0, 300)), 299, REFUSED(20));
    takes(HERE, 0, packet(42, UNSEGMENTED, 9, 2, part(0, 1)), 0, REFUSED(20));
    answered(HERE, 0, 7, packet(42, LAST, 7, 2, part(256, 2)), UNIT(0, false, part(0, 258)));
}

/*
 * Beside lane 0's block lane 1 may hold 63. 27 leaves the old group too, and the very packet that was refused is held once lane 0 is closed, whose block
 * it then gets. Over the cap it is 19, also where lane 0 is in the way.
 */
static void others_in_the_way(void)
{
    start();
    want_group(1, 256);
    want_block(1, 0, 1);
    want_stored(1, 0, part(0, 256));
    answered(HERE, 1, 0, packet(43, FIRST, 0, 0, part(0, 256)), HELD(0, false));
    takes(HERE, 1, packet(43, FIRST, 1, 0, part(0, 63 * 256 + 1)), 300, REFUSED(27));
    takes(HERE, 1, packet(43, FIRST, 3, 0, part(0, 63 * 256 + 1)), 300, REFUSED(27));
    takes(HERE, 1, packet(43, CONTINUATION, 1, 0, part(256, 62 * 256 + 1)), 300, REFUSED(27));
    takes(HERE, 1, packet(43, FIRST, 1, 0, part(0, 64 * 256 + 1)), 300, REFUSED(19));          /* 19 and 27 */
    takes(HERE, 1, packet(43, CONTINUATION, 1, 0, part(256, 63 * 256 + 1)), 300, REFUSED(19)); /* 19 and 27 */
    takes(HERE, 1, packet(43, FIRST, 0, 0, part(0, 63 * 256 + 1)), 0, REPEATED);               /* a repeat, and else 27 */
    want_closed(0);
    closes(HERE, 0, 20, 0, OCTETS(0, 7, 0, 42, 0, 0, 0, 0, 0, 0, 0, 1, 0, 0, 0, 0, 0, 0, 0, 1));
    want_group(1, 63 * 256 + 1);
    want_block(1, 1, 0);
    want_stored(0, 0, part(256, 256));
    for (unsigned block = 2; block < 64; block++)
        want_block(1, block, block);
    want_stored(2, 0, part(512, 61 * 256 + 1));
    answered(HERE, 1, 1, packet(43, CONTINUATION, 1, 0, part(256, 62 * 256 + 1)), HELD(0, false));
}

/* The order: 24, 11, 9. Tallies that would be 25 are not sound. */
static void closings(void)
{
    start();
    for (size_t i = 0; i < COUNT(over_7); i++) {
        closes(HERE, over_7[i], 20, 11, NO_OCTETS);
        closes(HERE, over_7[i], 0, 11, NO_OCTETS); /* 11 and 9 */
    }
    closes(HERE, 2, 20, 11, NO_OCTETS);
    closes(HERE, 2, 19, 11, NO_OCTETS); /* 11 and 9 */
    for (size_t output = 0; output < 20; output++)
        closes(HERE, 0, output, 9, NO_OCTETS);
    want_closed(0);
    closes(HERE, 0, 20, 0, OCTETS(0, 7, 0, 42, 0, 0, 0, 0, 0, 0, 0, 1, 0, 0, 0, 0, 0, 0, 0, 1));
    closes(HERE, 0, 20, 11, NO_OCTETS);
}

void test_refused(void)
{
    pool_lengths();
    openings();
    not_packets();
    packets();
    full_lane();
    no_room();
    others_in_the_way();
    closings();
}
