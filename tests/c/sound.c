/* When a state is sound: each clause from both sides, by states that differ in one place. A state that is not sound is refused by every call. */
#include "calls.h"

typedef struct branmuslin_state state;

/*
 * Lane 0 holds 300 octets in the blocks 3 and 1; lane 1 an open group of no octets; lane 2 is open without a group; the others are closed. Four packets and
 * two units each leave room for every tally to be one more.
 */
static state some_state(void)
{
    state s = branmuslin_fresh_start();
    for (unsigned lane = 0; lane < 3; lane++)
        s.lanes[lane] = (struct branmuslin_lane){.opened = true, .settings = {7, 42, 2, 2, 4}, .units = 2, .packets = 4, .missing = 9, .broken = 1, .last = 5};
    s.lanes[0].grouped = s.lanes[1].grouped = true;
    s.lanes[0].octets = 300;
    s.marks[3] = 0;
    s.marks[1] = 1;
    return s;
}

static const struct branmuslin_settings legal = {7, 42, 0, 0, 1};

/* 24 comes first in every call; a sound state is refused for the lane's number, which is next. */
static void judged(struct place place, state s, bool sound)
{
    const uint8_t refusal = sound ? 11 : 24;
    same(place, "sound", sound, branmuslin_is_sound(s));
    start_from(s);
    opens(place, 8, legal, refusal);
    takes(place, 8, OCTETS(0x20), 100, REFUSED(refusal));
    closes(place, 8, 19, refusal, NO_OCTETS);
    if (!sound) {
        opens(place, 4, legal, 24);
        takes(place, 0, packet(42, BRANMUSLIN_LAST, 6, 2, part(0, 1)), 400, REFUSED(24));
        closes(place, 2, 20, 24, NO_OCTETS);
    }
}

/* The state with one change. */
#define JUDGED(sound, change) \
    do { \
        state s = some_state(); \
        change; \
        judged(HERE, s, sound); \
    } while (0)

/* An open lane's settings are legal. Of a closed one's, only the APID counts: its tallies form a record too. */
static void settings(void)
{
    JUDGED(true, (void)s);
    JUDGED(true, s.lanes[2].settings.station = 65535);
    JUDGED(true, s.lanes[2].settings.apid = 2046);
    JUDGED(false, s.lanes[2].settings.apid = 2047);
    JUDGED(false, s.lanes[2].settings.apid = 65535);
    JUDGED(true, s.lanes[2].settings.secondary = 63);
    JUDGED(false, s.lanes[2].settings.secondary = 64);
    JUDGED(true, s.lanes[2].settings.share = 4);
    JUDGED(false, s.lanes[2].settings.share = 5);
    JUDGED(true, s.lanes[2].settings.cap = 64);
    JUDGED(false, s.lanes[2].settings.cap = 65);
    JUDGED(true, s.lanes[3].settings = SETTINGS(65535, 2046, 255, 255, 0));
    JUDGED(false, s.lanes[3].settings.apid = 2047);
}

/* What the lanes hold or are promised: here 2 each, so a fourth may have 58. */
static void promises(void)
{
    JUDGED(true, s.lanes[5] = ((struct branmuslin_lane){.opened = true, .settings = {0, 0, 0, 58, 64}}));
    JUDGED(false, s.lanes[5] = ((struct branmuslin_lane){.opened = true, .settings = {0, 0, 0, 59, 64}}));
    JUDGED(true, s.lanes[2].settings.cap = s.lanes[2].settings.share = 60);
    JUDGED(false, s.lanes[2].settings.cap = s.lanes[2].settings.share = 61);
    /* Lane 0 holds 2, which is more than its share of 0 or 1, and then the larger. */
    JUDGED(true, s.lanes[0].settings.share = 0; s.lanes[2].settings.cap = s.lanes[2].settings.share = 60);
    JUDGED(false, s.lanes[0].settings.share = 1; s.lanes[2].settings.cap = s.lanes[2].settings.share = 61);
    /* Sums that 8 bits would wrap. */
    JUDGED(false, for (unsigned i = 2; i < 6; i++) s.lanes[i] = ((struct branmuslin_lane){.opened = true, .settings = {0, 0, 0, 64, 64}}));
}

/* Each lane's blocks match its octets and cap. */
static void blocks(void)
{
    JUDGED(true, s.lanes[0].octets = 257);
    JUDGED(false, s.lanes[0].octets = 256);
    JUDGED(true, s.lanes[0].octets = 512);
    JUDGED(false, s.lanes[0].octets = 513);
    JUDGED(false, s.lanes[0].octets = 0);
    JUDGED(false, s.lanes[0].octets = 65535);
    JUDGED(false, s.lanes[1].octets = 1);
    JUDGED(true, s.lanes[0].octets = 513; s.marks[63] = 2);
    JUDGED(false, s.lanes[0].octets = 513; s.marks[63] = 3);
    JUDGED(true, s.lanes[0].settings.cap = 2);
    JUDGED(false, s.lanes[0].settings.cap = s.lanes[0].settings.share = 1);
    JUDGED(false, s.lanes[0].grouped = false);
    JUDGED(true, s.lanes[1].grouped = false);
    JUDGED(true, s.lanes[2].grouped = true);
    JUDGED(false, s.lanes[2].octets = 1);
    JUDGED(false, s.lanes[2].octets = 1; s.marks[0] = 128);
    JUDGED(true, s.lanes[2].grouped = true; s.lanes[2].octets = 1; s.marks[0] = 128);
}

/* No block is held twice or by nobody: every place has one block, and every other block is free. */
static void marks(void)
{
    JUDGED(false, s.marks[3] = 512);
    JUDGED(false, s.marks[1] = 512);
    JUDGED(false, s.marks[3] = 1);
    JUDGED(false, s.marks[0] = 0);
    JUDGED(false, s.marks[0] = 2);
    JUDGED(false, s.marks[0] = 64);
    JUDGED(false, s.marks[0] = 128);
    JUDGED(false, s.marks[0] = 7 * 64);
    JUDGED(false, s.marks[0] = 511);
    JUDGED(false, s.marks[0] = 513);
    JUDGED(false, s.marks[63] = 576);
    JUDGED(false, s.marks[0] = 65535);
    JUDGED(true, s.marks[3] = 1; s.marks[1] = 0);
    JUDGED(true, s.marks[3] = 512; s.marks[63] = 0);
    for (unsigned block = 0; block < 64; block++)
        JUDGED(false, s.marks[block] = s.marks[block] == 512 ? 1 : 512);
}

/* A closed lane holds nothing. */
static void closed(void)
{
    JUDGED(false, s.lanes[0].opened = false);
    JUDGED(false, s.lanes[1].opened = false);
    JUDGED(true, s.lanes[2].opened = false);
    JUDGED(true, s.lanes[3].opened = true);
    JUDGED(false, s.lanes[7].grouped = true);
    JUDGED(false, s.lanes[7].octets = 1);
    JUDGED(false, s.lanes[7].grouped = true; s.lanes[7].octets = 1; s.marks[0] = 7 * 64);
}

/* Of every lane: last is a count, and the tallies form a possible record. */
static void tallies(void)
{
    for (unsigned lane = 2; lane < 8; lane += 5) {
        JUDGED(true, s.lanes[lane].last = 16383);
        JUDGED(false, s.lanes[lane].last = 16384);
        JUDGED(false, s.lanes[lane].last = 65535);
        JUDGED(true, s.lanes[lane].packets = 262144);
        JUDGED(false, s.lanes[lane].packets = 262145);
        JUDGED(true, s.lanes[lane].packets = 3; s.lanes[lane].units = 1; s.lanes[lane].broken = 2);
        JUDGED(false, s.lanes[lane].packets = 3; s.lanes[lane].units = 2; s.lanes[lane].broken = 2);
        JUDGED(true, s.lanes[lane].packets = 4; s.lanes[lane].missing = 3 * 16382);
        JUDGED(false, s.lanes[lane].packets = 4; s.lanes[lane].missing = 3 * 16382 + 1);
        JUDGED(true, s.lanes[lane].packets = 262144; s.lanes[lane].missing = 4294426626);
        JUDGED(false, s.lanes[lane].packets = 262144; s.lanes[lane].missing = 4294426627);
        JUDGED(false, s.lanes[lane].packets = 4; s.lanes[lane].units = 4294967295; s.lanes[lane].broken = 1);
        JUDGED(false, s.lanes[lane].packets = 4; s.lanes[lane].units = 1; s.lanes[lane].broken = 4294967295);
    }
    JUDGED(false, s.lanes[7].missing = 1);
    JUDGED(false, s.lanes[7].units = 1);
    JUDGED(false, s.lanes[7].broken = 1);
}

/* An open group counts as broken. */
static void open_groups(void)
{
    for (unsigned lane = 0; lane < 3; lane++) {
        const uint32_t open = lane < 2;
        JUDGED(true, s.lanes[lane].broken = 2 - open);
        JUDGED(false, s.lanes[lane].broken = 3 - open);
        JUDGED(true, s.lanes[lane].units = 3 - open);
        JUDGED(false, s.lanes[lane].units = 4 - open);
    }
    JUDGED(false, s.lanes[0].packets = s.lanes[0].units = s.lanes[0].missing = s.lanes[0].broken = 0);
    JUDGED(false, s.lanes[0].units = 0; s.lanes[0].broken = 4294967295);
}

void test_sound(void)
{
    settings();
    promises();
    blocks();
    marks();
    closed();
    tallies();
    open_groups();
}
