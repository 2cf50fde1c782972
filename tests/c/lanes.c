/* The lanes: packets joined into units, where their octets lie meanwhile, what is missing and given up, who gets room, and the credit. */
#include "calls.h"

#define AT(type, field, place) _Static_assert(offsetof(struct branmuslin_##type, field) == (place), #type "." #field)
#define SIZE(type, octets) _Static_assert(sizeof(struct branmuslin_##type) == (octets), #type)

SIZE(settings, 8);
AT(settings, station, 0);
AT(settings, apid, 2);
AT(settings, secondary, 4);
AT(settings, share, 5);
AT(settings, cap, 6);
SIZE(lane, 36);
AT(lane, opened, 0);
AT(lane, settings, 2);
AT(lane, units, 12);
AT(lane, packets, 16);
AT(lane, missing, 20);
AT(lane, broken, 24);
AT(lane, last, 28);
AT(lane, grouped, 30);
AT(lane, octets, 32);
SIZE(state, 416);
AT(state, lanes, 0);
AT(state, marks, 288);
SIZE(change, 420);
AT(change, refusal, 0);
AT(change, state, 4);
SIZE(answer, 440);
AT(answer, refusal, 0);
AT(answer, kind, 1);
AT(answer, given_up, 2);
AT(answer, missing, 4);
AT(answer, octets, 8);
AT(answer, place, 16);
AT(answer, state, 24);

enum { CONTINUATION, FIRST, LAST, UNSEGMENTED };

static void fresh(void)
{
    start_fresh();
    same_states(HERE, is.state, branmuslin_fresh_start());
    same(HERE, "sound", true, branmuslin_is_sound(branmuslin_fresh_start()));
}

/* Three packets, each with four secondary octets that are no part of the unit; the second runs over the end of a block. */
static void three_packets(void)
{
    start_fresh();
    opened(HERE, 3, SETTINGS(7, 42, 4, 2, 4));
    want_group(3, 200);
    want_block(3, 0, 0);
    want_stored(0, 0, part(0, 200));
    answered(HERE, 3, 5, packet(42, FIRST, 5, 4, part(0, 200)), HELD(0, false));
    want_group(3, 300);
    want_block(3, 1, 1);
    want_stored(0, 200, part(200, 56));
    want_stored(1, 0, part(256, 44));
    answered(HERE, 3, 6, packet(42, CONTINUATION, 6, 4, part(200, 100)), HELD(0, false));
    want_counted(3, 7, UNIT(0, false, part(0, 350)));
    takes(HERE, 3, packet(42, LAST, 7, 4, part(300, 50)), 1000, UNIT(0, false, part(0, 350)));
    same(HERE, "sound", true, branmuslin_is_sound(is.state));
    want_closed(3);
    closes(HERE, 3, 300, 0, OCTETS(0, 7, 0, 42, 0, 0, 0, 1, 0, 0, 0, 3, 0, 0, 0, 0, 0, 0, 0, 0));
}

/* A full block needs no second one, and one octet more does: 256 octets lie in 1, 257 in 2, 512 in 2, 513 in 3. */
static void whole_blocks(void)
{
    start_fresh();
    opened(HERE, 0, SETTINGS(0, 0, 0, 0, 3));
    want_group(0, 256);
    want_block(0, 0, 0);
    want_stored(0, 0, part(0, 256));
    answered(HERE, 0, 0, packet(0, FIRST, 0, 0, part(0, 256)), HELD(0, false));
    want_group(0, 257);
    want_block(0, 1, 1);
    want_stored(1, 0, part(256, 1));
    answered(HERE, 0, 1, packet(0, CONTINUATION, 1, 0, part(256, 1)), HELD(0, false));
    want_group(0, 512);
    want_stored(1, 1, part(257, 255));
    answered(HERE, 0, 2, packet(0, CONTINUATION, 2, 0, part(257, 255)), HELD(0, false));
    want_group(0, 513);
    want_block(0, 2, 2);
    want_stored(2, 0, part(512, 1));
    answered(HERE, 0, 3, packet(0, CONTINUATION, 3, 0, part(512, 1)), HELD(0, false));
    answered(HERE, 0, 4, packet(0, LAST, 4, 0, part(513, 1)), UNIT(0, false, part(0, 514)));
}

/* Two lanes in turn. What lane 1 frees is lower than a block that lane 0 has, so lane 0's group lies in the blocks 0, 3, 1, 2. */
static void two_lanes(void)
{
    start_fresh();
    opened(HERE, 0, SETTINGS(1, 42, 0, 0, 8));
    opened(HERE, 1, SETTINGS(1, 42, 0, 0, 8));
    want_group(0, 256);
    want_block(0, 0, 0);
    want_stored(0, 0, part(0, 256));
    answered(HERE, 0, 9, packet(42, FIRST, 9, 0, part(0, 256)), HELD(0, false));
    want_group(1, 300);
    want_block(1, 0, 1);
    want_block(1, 1, 2);
    want_stored(1, 0, part(2000, 300));
    answered(HERE, 1, 0, packet(42, FIRST, 0, 0, part(2000, 300)), HELD(0, false));
    want_group(0, 257);
    want_block(0, 1, 3);
    want_stored(3, 0, part(256, 1));
    answered(HERE, 0, 10, packet(42, CONTINUATION, 10, 0, part(256, 1)), HELD(0, false));
    answered(HERE, 1, 1, packet(42, LAST, 1, 0, part(2300, 2)), UNIT(0, false, part(2000, 302)));
    want_group(0, 857);
    want_block(0, 2, 1);
    want_block(0, 3, 2);
    want_stored(3, 1, part(257, 255));
    want_stored(1, 0, part(512, 345));
    answered(HERE, 0, 11, packet(42, CONTINUATION, 11, 0, part(257, 600)), HELD(0, false));
    answered(HERE, 0, 12, packet(42, LAST, 12, 0, part(857, 1)), UNIT(0, false, part(0, 858)));
    want_closed(0);
    closes(HERE, 0, 20, 0, OCTETS(0, 1, 0, 42, 0, 0, 0, 1, 0, 0, 0, 4, 0, 0, 0, 0, 0, 0, 0, 0));
    want_closed(1);
    closes(HERE, 1, 20, 0, OCTETS(0, 1, 0, 42, 0, 0, 0, 1, 0, 0, 0, 2, 0, 0, 0, 0, 0, 0, 0, 0));
}

/* A packet with the last count is a Repeat whatever else it says, and needs neither room nor output. The first packet is none. */
static void repeats(void)
{
    start_fresh();
    opened(HERE, 0, SETTINGS(7, 42, 0, 0, 1));
    answered(HERE, 0, 0, packet(42, UNSEGMENTED, 0, 0, part(0, 3)), UNIT(0, false, part(0, 3)));
    takes(HERE, 0, packet(42, UNSEGMENTED, 0, 0, part(0, 3)), 100, REPEATED);
    takes(HERE, 0, packet(42, UNSEGMENTED, 0, 0, part(5, 300)), 0, REPEATED);
    takes(HERE, 0, packet(42, FIRST, 0, 0, part(0, 257)), 0, REPEATED);
    want_group(0, 10);
    want_block(0, 0, 0);
    want_stored(0, 0, part(0, 10));
    answered(HERE, 0, 1, packet(42, FIRST, 1, 0, part(0, 10)), HELD(0, false));
    for (unsigned flags = 0; flags < 4; flags++)
        takes(HERE, 0, packet(42, flags, 1, 0, part(20, 10)), 100, REPEATED);
    answered(HERE, 0, 2, packet(42, LAST, 2, 0, part(10, 1)), UNIT(0, false, part(0, 11)));
}

/* Of no group: none is open, or the gap before the packet gave it up. A Stray counts, and so does what is missing. */
static void strays(void)
{
    start_fresh();
    opened(HERE, 0, SETTINGS(7, 42, 0, 1, 1));
    answered(HERE, 0, 3, packet(42, CONTINUATION, 3, 0, part(0, 9)), STRAY(0, false));
    answered(HERE, 0, 4, packet(42, LAST, 4, 0, part(0, 9)), STRAY(0, false));
    answered(HERE, 0, 8, packet(42, LAST, 8, 0, part(0, 9)), STRAY(3, false));
    for (unsigned count = 9, flags = 0; flags < 3; flags += 2, count += 3) {
        want_group(0, 10);
        want_block(0, 0, 0);
        want_stored(0, 0, part(flags, 10));
        answered(HERE, 0, count, packet(42, FIRST, count, 0, part(flags, 10)), HELD(0, false));
        answered(HERE, 0, count + 2, packet(42, flags, count + 2, 0, part(0, 9)), STRAY(1, true));
    }
    want_closed(0);
    closes(HERE, 0, 20, 0, OCTETS(0, 7, 0, 42, 0, 0, 0, 0, 0, 0, 0, 7, 0, 0, 0, 5, 0, 0, 0, 2));
}

/* A first packet gives up the open group, whose blocks are then free for the new one; so does an unsegmented one, and closing. */
static void given_up(void)
{
    start_fresh();
    opened(HERE, 2, SETTINGS(0x1234, 0x567, 0, 2, 2));
    want_group(2, 500);
    want_block(2, 0, 0);
    want_block(2, 1, 1);
    want_stored(0, 0, part(0, 500));
    answered(HERE, 2, 1, packet(0x567, FIRST, 1, 0, part(0, 500)), HELD(0, false));
    want_no_group(2);
    want_group(2, 7);
    want_block(2, 0, 0);
    want_stored(0, 0, part(900, 7));
    answered(HERE, 2, 2, packet(0x567, FIRST, 2, 0, part(900, 7)), HELD(0, true));
    answered(HERE, 2, 3, packet(0x567, UNSEGMENTED, 3, 0, part(3, 70)), UNIT(0, true, part(3, 70)));
    answered(HERE, 2, 5, packet(0x567, UNSEGMENTED, 5, 0, part(4, 71)), UNIT(1, false, part(4, 71)));
    want_group(2, 8);
    want_block(2, 0, 0);
    want_stored(0, 0, part(901, 8));
    answered(HERE, 2, 6, packet(0x567, FIRST, 6, 0, part(901, 8)), HELD(0, false));
    want_group(2, 9);
    want_stored(0, 0, part(902, 9));
    answered(HERE, 2, 8, packet(0x567, FIRST, 8, 0, part(902, 9)), HELD(1, true));
    want_closed(2);
    closes(HERE, 2, 21, 0, OCTETS(0x12, 0x34, 0x05, 0x67, 0, 0, 0, 2, 0, 0, 0, 6, 0, 0, 0, 2, 0, 0, 0, 4));
}

/* Counts go round from 16,383 to 0, and a group goes on over that step. */
static void missing(void)
{
    static const struct {
        uint16_t count, missing;
    } rows[] = {{16383, 0}, {0, 0}, {5, 4}, {9, 3}, {5, 16379}, {4, 16382}, {6, 1}, {16383, 16376}, {1, 1}};
    start_fresh();
    opened(HERE, 0, SETTINGS(7, 42, 0, 0, 1));
    for (size_t i = 0; i < sizeof rows / sizeof *rows; i++)
        answered(HERE, 0, rows[i].count, packet(42, UNSEGMENTED, rows[i].count, 0, part(i, 1)), UNIT(rows[i].missing, false, part(i, 1)));
    answered(HERE, 0, 16382, packet(42, UNSEGMENTED, 16382, 0, part(0, 1)), UNIT(16380, false, part(0, 1)));
    want_group(0, 1);
    want_block(0, 0, 0);
    want_stored(0, 0, part(0, 1));
    answered(HERE, 0, 16383, packet(42, FIRST, 16383, 0, part(0, 1)), HELD(0, false));
    answered(HERE, 0, 0, packet(42, LAST, 0, 0, part(1, 1)), UNIT(0, false, part(0, 2)));
}

/* User data may be empty behind a secondary header: units and groups of no octets, which need neither output nor blocks. */
static void no_user_data(void)
{
    start_fresh();
    opened(HERE, 6, SETTINGS(7, 42, 63, 0, 0));
    answered(HERE, 6, 0, packet(42, UNSEGMENTED, 0, 63, NO_OCTETS), UNIT(0, false, NO_OCTETS));
    want_group(6, 0);
    answered(HERE, 6, 1, packet(42, FIRST, 1, 63, NO_OCTETS), HELD(0, false));
    same(HERE, "sound", true, branmuslin_is_sound(is.state));
    answered(HERE, 6, 2, packet(42, CONTINUATION, 2, 63, NO_OCTETS), HELD(0, false));
    takes(HERE, 6, packet(42, CONTINUATION, 3, 63, part(0, 1)), 100, REFUSED(19));
    answered(HERE, 6, 3, packet(42, LAST, 3, 63, part(0, 40)), UNIT(0, false, part(0, 40)));
    takes(HERE, 6, packet(42, FIRST, 4, 63, part(0, 1)), 100, REFUSED(19));
    want_group(6, 0);
    answered(HERE, 6, 4, packet(42, FIRST, 4, 63, NO_OCTETS), HELD(0, false));
    want_closed(6);
    closes(HERE, 6, 20, 0, OCTETS(0, 7, 0, 42, 0, 0, 0, 2, 0, 0, 0, 5, 0, 0, 0, 0, 0, 0, 0, 1));
}

/* All 64 blocks in one group, and the longest unit: 16,384 octets and 65,536. */
static void longest_unit(void)
{
    start_fresh();
    opened(HERE, 7, SETTINGS(65535, 2046, 0, 64, 64));
    takes(HERE, 7, packet(2046, FIRST, 0, 0, part(0, 16385)), 0, REFUSED(19));
    want_group(7, 16384);
    for (unsigned block = 0; block < 64; block++)
        want_block(7, block, block);
    want_stored(0, 0, part(0, 16384));
    answered(HERE, 7, 0, packet(2046, FIRST, 0, 0, part(0, 16384)), HELD(0, false));
    same(HERE, "sound", true, branmuslin_is_sound(is.state));
    takes(HERE, 7, packet(2046, CONTINUATION, 1, 0, part(0, 1)), 0, REFUSED(19));
    takes(HERE, 7, packet(2046, LAST, 1, 0, part(16384, 65536)), 81919, REFUSED(20));
    answered(HERE, 7, 1, packet(2046, LAST, 1, 0, part(16384, 65536)), UNIT(0, false, part(0, 81920)));
    want_closed(7);
    closes(HERE, 7, 20, 0, OCTETS(255, 255, 7, 0xFE, 0, 0, 0, 1, 0, 0, 0, 2, 0, 0, 0, 0, 0, 0, 0, 0));
}

/* All 64 blocks among eight lanes, which take a block each in turn: block b is lane b % 8's. */
static void eight_lanes(void)
{
    start_fresh();
    for (size_t lane = 0; lane < 8; lane++)
        opened(HERE, lane, SETTINGS((uint16_t)lane, 42, 0, 8, 64));
    for (unsigned turn = 0; turn < 8; turn++)
        for (unsigned lane = 0; lane < 8; lane++) {
            const struct octets user = part(3000 * lane + 256 * turn, 256);
            want_group(lane, 256 * (turn + 1));
            want_block(lane, turn, 8 * turn + lane);
            want_stored(8 * turn + lane, 0, user);
            answered(HERE, lane, turn, packet(42, turn == 0 ? FIRST : CONTINUATION, turn, 0, user), HELD(0, false));
        }
    for (unsigned lane = 0; lane < 8; lane++)
        takes(HERE, lane, packet(42, CONTINUATION, 8, 0, part(0, 1)), 0, REFUSED(27));
    for (unsigned lane = 8; lane-- > 0;)
        answered(HERE, lane, 8, packet(42, LAST, 8, 0, part(3000 * lane + 2048, 5)), UNIT(0, false, part(3000 * lane, 2053)));
}

/* A group of so many blocks in a lane, from block `from` on. */
static void fills(struct place place, size_t lane, unsigned count, unsigned blocks, unsigned from)
{
    want_no_group(lane);
    want_group(lane, (size_t)256 * blocks);
    for (unsigned i = 0; i < blocks; i++)
        want_block(lane, i, from + i);
    want_stored(from, 0, part(0, (size_t)256 * blocks));
    answered(place, lane, count, packet(42, FIRST, count, 0, part(0, (size_t)256 * blocks)), HELD(0, count > 0));
}

/*
 * The paper's two lanes: shares of 20, caps of 40 and 64. Lane 1 may hold 44, not 45, while lane 0 may hold 20, not 21: either is in the other's way. Over
 * its own cap lane 0 is refused 19, beside lane 1 as without it.
 */
static void shares(void)
{
    start_fresh();
    opened(HERE, 0, SETTINGS(0, 42, 0, 20, 40));
    opened(HERE, 1, SETTINGS(1, 42, 0, 20, 64));
    takes(HERE, 1, packet(42, FIRST, 0, 0, part(0, 44 * 256 + 1)), 0, REFUSED(27));
    fills(HERE, 1, 0, 44, 0);
    takes(HERE, 0, packet(42, FIRST, 0, 0, part(0, 20 * 256 + 1)), 0, REFUSED(27));
    takes(HERE, 0, packet(42, FIRST, 0, 0, part(0, 40 * 256)), 0, REFUSED(27));
    takes(HERE, 0, packet(42, FIRST, 0, 0, part(0, 40 * 256 + 1)), 0, REFUSED(19)); /* 19 and 27 */
    fills(HERE, 0, 0, 20, 44);
    opens(HERE, 2, SETTINGS(2, 42, 0, 1, 1), 23);
    opened(HERE, 2, SETTINGS(2, 42, 0, 0, 1));
    takes(HERE, 2, packet(42, FIRST, 0, 0, part(0, 1)), 0, REFUSED(27));
    want_closed(1);
    closes(HERE, 1, 20, 0, OCTETS(0, 1, 0, 42, 0, 0, 0, 0, 0, 0, 0, 1, 0, 0, 0, 0, 0, 0, 0, 1));
    takes(HERE, 0, packet(42, FIRST, 1, 0, part(0, 40 * 256 + 1)), 0, REFUSED(19));
    fills(HERE, 0, 1, 40, 0);
    opens(HERE, 1, SETTINGS(1, 42, 0, 25, 25), 23);
    opened(HERE, 1, SETTINGS(1, 42, 0, 24, 25));
}

/* A closed lane is opened as new, with other settings, and what closing wrote is read back. */
static void opened_again(void)
{
    const struct lent output = lend_noise(20);
    struct branmuslin_record record = {0};
    start_fresh();
    opened(HERE, 0, SETTINGS(1, 2, 0, 0, 1));
    answered(HERE, 0, 5, packet(2, UNSEGMENTED, 5, 0, part(0, 1)), UNIT(0, false, part(0, 1)));
    answered(HERE, 0, 9, packet(2, UNSEGMENTED, 9, 0, part(0, 1)), UNIT(3, false, part(0, 1)));
    want_closed(0);
    is.state = branmuslin_close_lane(is.state, 0, is.pool, BRANMUSLIN_POOL_LENGTH, output.octets, output.length).state;
    same_states(HERE, want.state, is.state);
    same(HERE, "reading the record", 0, branmuslin_read_record(output.octets, output.length, &record));
    same(HERE, "station", 1, record.station);
    same(HERE, "apid", 2, record.apid);
    same(HERE, "units", 2, record.units);
    same(HERE, "packets", 2, record.packets);
    same(HERE, "missing", 3, record.missing);
    same(HERE, "broken", 0, record.broken);
    holds(HERE, "the record", output, OCTETS(0, 1, 0, 2, 0, 0, 0, 2, 0, 0, 0, 2, 0, 0, 0, 3, 0, 0, 0, 0));
    opened(HERE, 0, SETTINGS(3, 4, 1, 1, 1));
    answered(HERE, 0, 9, packet(4, UNSEGMENTED, 9, 1, part(0, 1)), UNIT(0, false, part(0, 1)));
}

void test_lanes(void)
{
    fresh();
    three_packets();
    whole_blocks();
    two_lanes();
    repeats();
    strays();
    given_up();
    missing();
    no_user_data();
    longest_unit();
    eight_lanes();
    shares();
    opened_again();
}
