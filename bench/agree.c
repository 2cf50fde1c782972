/*
 * agree: calls the library and the baseline with the same pseudo-random inputs, and stops at the first difference in an answer, a state, a pool or an
 * output. A baseline that did less than the library would make every ratio a lie. Each refusal must be met, each place that those of reading tell, and each
 * answer to a frame, so that the comparison has seen it.
 */
#include "sides.h"

#include <inttypes.h>
#include <stdio.h>
#include <stdlib.h>
#include <string.h>

enum { ROOM = 81920 + 64, REFUSALS = 29, READING = 8, NO_PLACE = 99999, FRAME_ANSWERS = 16, PIECE_ROOM = BRANMUSLIN_PIECE_LENGTH + 1 };

/* Who tells places; and those that each refusal of reading can have, a bit each: of 1, which counts octets, the ones below 8. */
enum { READER, LANE, TELLERS };
static const uint8_t places_of[READING] = {
    [1] = 255, [2] = 1, [3] = 1, [4] = 1 << 1 | 1 << 2 | 1 << 4, [5] = 1 << 4, [6] = 1, [7] = 1 | 1 << 1 | 1 << 2 | 1 << 3,
};

static const struct side *const sides[2] = {&library, &baseline};
static uint64_t seed = 1;
static unsigned long calls, met[REFUSALS];
static uint8_t met_places[TELLERS][READING];
static unsigned long met_frames[FRAME_ANSWERS];
static uint8_t input[ROOM], output[2][ROOM], pool[2][BRANMUSLIN_POOL_LENGTH + 1], piece[2][PIECE_ROOM];

/* xorshift64*: its high half is even enough, and the same on every machine. */
static uint32_t any(void)
{
    seed ^= seed >> 12;
    seed ^= seed << 25;
    seed ^= seed >> 27;
    return (uint32_t)(seed * UINT64_C(2685821657736338717) >> 32);
}

static uint32_t below(uint32_t n)
{
    return any() % n;
}

static bool one_in(uint32_t n)
{
    return below(n) == 0;
}

/* A number about a bound: below it, at it, or just past it. */
static uint32_t about(uint32_t bound)
{
    return one_in(8) ? bound + below(3) - (bound > 0) : below(bound + 1);
}

static void require(bool same, const char *function, const char *what)
{
    if (same)
        return;
    printf("agree: %s differs in %s, at call %lu\n", function, what, calls);
    exit(1);
}

/* Counts a call of both sides, whose refusals must be the same. */
static void compare(const char *function, const uint8_t refusal[2])
{
    calls++;
    require(refusal[0] == refusal[1], function, "the refusal");
    require(refusal[0] < REFUSALS, function, "its range");
    met[refusal[0]]++;
}

/* What both sides left as the place: `none` where the refusal is not one of reading. */
static void compare_places(const char *function, int teller, uint8_t refusal, const size_t place[2], size_t none)
{
    require(place[0] == place[1], function, "the place");
    require((refusal > 0 && refusal < READING) || place[0] == none, function, "a place that is not to be told");
    if (refusal < READING && place[0] < 8)
        met_places[teller][refusal] |= (uint8_t)(1 << place[0]);
}

static void fill(uint8_t *octets, size_t n)
{
    for (size_t i = 0; i < n; i++)
        octets[i] = (uint8_t)any();
}

static void same_outputs_before(size_t n)
{
    fill(output[0], n);
    memcpy(output[1], output[0], n);
}

static void make_space(uint8_t *at)
{
    at[0] &= 0x1F;
    if (one_in(16))
        at[0] |= 0x07, at[1] = 0xFF;
    if (!one_in(4))
        at[4] = 0, at[5] = (uint8_t)about(33);
}

static void make_encapsulation(uint8_t *at)
{
    const uint32_t l = below(4), header = 1u << l;
    at[0] = (uint8_t)(0xE0 | about(6) << 2 | l);
    if (one_in(4))
        return;
    memset(at + 1, 0, 7);
    if (header >= 4 && one_in(2))
        at[1] = (uint8_t)any();
    if (header == 8 && one_in(4))
        at[2 + below(5)] = (uint8_t)below(3);
    if (header > 1)
        at[header - 1] = (uint8_t)about(40);
}

/* Octets that mostly begin like a packet of either kind, with a length that is about right. */
static size_t some_packet(uint8_t *at)
{
    const size_t n = below(40);
    fill(at, 40);
    if (one_in(2))
        make_space(at);
    else if (!one_in(8))
        make_encapsulation(at);
    return n;
}

static void read_packets(unsigned long n)
{
    for (unsigned long i = 0; i < n; i++) {
        struct branmuslin_packet packet[2];
        uint8_t refusal[2];
        size_t place[2] = {NO_PLACE, NO_PLACE};
        const size_t length = some_packet(input);
        memset(packet, 0x5A, sizeof packet);
        for (int s = 0; s < 2; s++)
            refusal[s] = sides[s]->read_packet(input, length, &packet[s], &place[s]);
        compare("read_packet", refusal);
        compare_places("read_packet", READER, refusal[0], place, NO_PLACE);
        require(memcmp(&packet[0], &packet[1], sizeof packet[0]) == 0, "read_packet", "the fields");
    }
}

/* A length of data: short, or about the longest of either kind. */
static size_t some_length(void)
{
    return one_in(16) ? 65520 + below(30) : one_in(2) ? about(256) : below(12);
}

static void write_packets(unsigned long n)
{
    fill(input, ROOM);
    for (unsigned long i = 0; i < n; i++) {
        const bool is_space = one_in(2);
        const uint32_t a = about(is_space ? 1 : 7), b = about(is_space ? 1 : one_in(2) ? 15 : 0), c = about(is_space ? 2047 : one_in(2) ? 15 : 0);
        const uint32_t d = about(3), e = about(16383);
        const size_t length = some_length(), room = one_in(2) ? length + below(10) : length + 8;
        size_t written[2] = {7, 7};
        uint8_t refusal[2];
        same_outputs_before(room);
        for (int s = 0; s < 2; s++)
            refusal[s] = is_space ? sides[s]->write_space(a, b, c, d, e, input, length, output[s], room, &written[s])
                                  : sides[s]->write_encapsulation(a, b, c, input, length, output[s], room, &written[s]);
        compare("write_space or write_encapsulation", refusal);
        require(written[0] == written[1] && memcmp(output[0], output[1], room) == 0, "write_space or write_encapsulation", "the output");
    }
}

static void put_number(uint8_t *octets, size_t n, uint32_t x)
{
    for (size_t i = 0; i < n; i++)
        octets[i] = (uint8_t)(x >> 8 * (n - 1 - i));
}

/* A record that is possible, or just not. */
static void some_record(uint8_t *octets)
{
    const uint32_t packets = one_in(2) ? below(4) : about(262144), units = about(packets), broken = units < packets ? about(packets - units) : 0;
    const uint32_t missing = packets > 0 ? about(16382 * (packets - 1)) : about(0);
    put_number(octets, 2, any());
    put_number(octets + 2, 2, one_in(8) ? about(2046) : 42);
    put_number(octets + 4, 4, one_in(64) ? any() : units);
    put_number(octets + 8, 4, packets);
    put_number(octets + 12, 4, missing);
    put_number(octets + 16, 4, one_in(64) ? any() : broken);
}

static void read_records(unsigned long n)
{
    for (unsigned long i = 0; i < n; i++) {
        const size_t file = 20 * below(8) + (one_in(8) ? below(20) : 0), one = one_in(8) ? below(40) : 20;
        struct branmuslin_record record[2];
        size_t told[2][2] = {{7, 8}, {7, 8}};
        uint8_t refusal[2][2];
        for (size_t at = 0; at < 160; at += 20)
            some_record(input + at);
        memset(record, 0x5A, sizeof record);
        for (int s = 0; s < 2; s++) {
            refusal[0][s] = sides[s]->read_record(input, one, &record[s]);
            refusal[1][s] = sides[s]->read_record_file(input, file, &told[s][0], &told[s][1]);
        }
        compare("read_record", refusal[0]);
        require(memcmp(&record[0], &record[1], sizeof record[0]) == 0, "read_record", "the fields");
        compare("read_record_file", refusal[1]);
        require(memcmp(told[0], told[1], sizeof told[0]) == 0, "read_record_file", "the numbers");
    }
}

static void write_records(unsigned long n)
{
    for (unsigned long i = 0; i < n; i++) {
        const size_t room = one_in(4) ? below(40) : 20;
        const uint32_t packets = one_in(2) ? below(4) : about(262144), units = about(packets), missing = one_in(2) ? below(3) : any();
        const uint16_t apid = (uint16_t)about(2046), station = (uint16_t)any();
        uint8_t refusal[2];
        same_outputs_before(40);
        for (int s = 0; s < 2; s++)
            refusal[s] = sides[s]->write_record(station, apid, units, packets, missing, packets - units, output[s], room);
        compare("write_record", refusal);
        require(memcmp(output[0], output[1], 40) == 0, "write_record", "the output");
    }
}

/* Lanes. Their structs have padding, so they are compared field by field. */

static bool are_settings_same(const struct branmuslin_settings *a, const struct branmuslin_settings *b)
{
    return a->station == b->station && a->apid == b->apid && a->secondary == b->secondary && a->share == b->share && a->cap == b->cap;
}

static bool are_lanes_same(const struct branmuslin_lane *a, const struct branmuslin_lane *b)
{
    return a->opened == b->opened && are_settings_same(&a->settings, &b->settings) && a->units == b->units && a->packets == b->packets &&
           a->missing == b->missing && a->broken == b->broken && a->last == b->last && a->grouped == b->grouped && a->octets == b->octets;
}

static void compare_states(const char *function, const struct branmuslin_state *a, const struct branmuslin_state *b)
{
    for (int i = 0; i < BRANMUSLIN_LANES; i++)
        require(are_lanes_same(&a->lanes[i], &b->lanes[i]), function, "the state's lanes");
    require(memcmp(a->marks, b->marks, sizeof a->marks) == 0, function, "the state's marks");
    require(memcmp(pool[0], pool[1], sizeof pool[0]) == 0, function, "the pool");
    require(memcmp(output[0], output[1], sizeof output[0]) == 0, function, "the output");
}

/* Changes one field of one lane, or one or two marks: often to a state that is not sound. */
static void spoil(struct branmuslin_state *state, size_t lane)
{
    struct branmuslin_lane *l = &state->lanes[lane % BRANMUSLIN_LANES];
    const uint32_t numbers[] = {0, 1, 64, 65, 512, 2046, 2047, 16383, 16384, 262144, 262145, any()}, x = numbers[below(12)];
    uint16_t *mark = &state->marks[below(64)], *other = &state->marks[below(64)], kept;
    switch (below(16)) {
    case 0: l->opened = !l->opened; break;
    case 1: l->settings.apid = (uint16_t)x; break;
    case 2: l->settings.secondary = (uint8_t)x; break;
    case 3: l->settings.share = (uint8_t)about(l->settings.cap); break;
    case 4: l->settings.cap = (uint8_t)about(64); break;
    case 5: l->units = x; break;
    case 6: l->packets = x; break;
    case 7: l->missing = x; break;
    case 8: l->broken = x; break;
    case 9: l->last = (uint16_t)x; break;
    case 10: l->grouped = !l->grouped; break;
    case 11: l->octets = (uint16_t)(one_in(2) ? x : about(l->octets)); break;
    case 12: *mark = (uint16_t)(one_in(2) ? x : below(513)); break;
    case 13: *mark = *other; break;
    default: kept = *mark; *mark = *other; *other = kept; break;
    }
}

static struct branmuslin_state open_one(const struct branmuslin_state *state, size_t lane, size_t pool_length)
{
    const struct branmuslin_settings settings = {.station = (uint16_t)any(), .apid = (uint16_t)(one_in(16) ? about(2046) : 42 + lane),
                                                 .secondary = (uint8_t)(one_in(16) ? about(63) : one_in(2) ? 4 : 0),
                                                 .share = (uint8_t)(one_in(4) ? below(40) : below(6)), .cap = (uint8_t)(one_in(4) ? about(64) : 64)};
    struct branmuslin_change change[2];
    uint8_t refusal[2];
    for (int s = 0; s < 2; s++) {
        change[s] = sides[s]->open_lane(*state, lane, settings, pool[s], pool_length);
        refusal[s] = change[s].refusal;
    }
    compare("open_lane", refusal);
    compare_states("open_lane", &change[0].state, &change[1].state);
    return change[0].state;
}

static struct branmuslin_state close_one(const struct branmuslin_state *state, size_t lane, size_t pool_length)
{
    const size_t room = one_in(4) ? below(40) : 20;
    struct branmuslin_change change[2];
    uint8_t refusal[2];
    for (int s = 0; s < 2; s++) {
        change[s] = sides[s]->close_lane(*state, lane, pool[s], pool_length, output[s], room);
        refusal[s] = change[s].refusal;
    }
    compare("close_lane", refusal);
    compare_states("close_lane", &change[0].state, &change[1].state);
    return change[0].state;
}

/* Puts a header somewhere in the input, before octets that are any: mostly one that the lane takes and that goes on with its group. */
static uint8_t *lane_packet(const struct branmuslin_lane *l, size_t *length)
{
    uint8_t *at = input + below(4096);
    const uint32_t data = one_in(32) ? 60000 + below(5537) : one_in(8) ? 1 + below(9000) : one_in(4) ? 1 + about(512) : 1 + below(80);
    const uint32_t flags = l->grouped && !one_in(8) ? (one_in(8) ? 2 : 0) : one_in(4) ? below(4) : 1;
    const uint32_t count = one_in(16) ? any() & 16383 : (l->last + (l->packets != 0 && !one_in(16))) & 16383;
    const uint32_t apid = one_in(16) ? below(2048) : l->settings.apid & 2047u, flag = one_in(16) ? below(2) : l->settings.secondary != 0;
    put_number(at, 2, (uint32_t)one_in(32) << 12 | flag << 11 | apid);
    put_number(at + 2, 2, flags << 14 | count);
    put_number(at + 4, 2, data - 1);
    *length = one_in(32) ? below(12) : 6 + data + (one_in(32) ? 1 : 0);
    if (one_in(64))
        at[0] |= 0x20;
    if (one_in(64))
        at[0] = 0xE9, at[1] = 12, *length = 12;
    if (one_in(16))
        *length = some_packet(at);
    return at;
}

static struct branmuslin_state take_one(const struct branmuslin_state *state, size_t lane, size_t pool_length)
{
    const struct branmuslin_lane *l = &state->lanes[lane % BRANMUSLIN_LANES];
    size_t length;
    const uint8_t *packet = lane_packet(l, &length);
    /* A unit has at most the group's octets and the packet's without its header. */
    const size_t unit = l->octets + length, room = one_in(8) ? below(5000) : one_in(4) ? unit - (unit < 8 ? 0 : 5 + below(3)) : 81920;
    struct branmuslin_answer a[2];
    uint8_t refusal[2];
    size_t place[2];
    for (int s = 0; s < 2; s++) {
        a[s] = sides[s]->take_packet(*state, lane, packet, length, pool[s], pool_length, output[s], room);
        refusal[s] = a[s].refusal;
        place[s] = a[s].place;
    }
    compare("take_packet", refusal);
    compare_places("take_packet", LANE, refusal[0], place, 0);
    require(a[0].kind == a[1].kind && a[0].given_up == a[1].given_up && a[0].missing == a[1].missing && a[0].octets == a[1].octets, "take_packet",
            "the answer");
    compare_states("take_packet", &a[0].state, &a[1].state);
    return a[0].state;
}

static struct branmuslin_state call_one(const struct branmuslin_state *state)
{
    const size_t lane = one_in(32) ? (one_in(2) ? 8 : any()) : below(8), length = BRANMUSLIN_POOL_LENGTH + (one_in(256) ? 1 : 0);
    const bool is_opened = state->lanes[lane % BRANMUSLIN_LANES].opened;
    calls++;
    require(library.is_sound(*state) == baseline.is_sound(*state), "is_sound", "its answer");
    if (one_in(is_opened ? 256 : 2))
        return open_one(state, lane, length);
    return one_in(64) ? close_one(state, lane, length) : take_one(state, lane, length);
}

/* A run from a fresh start. A state that was spoiled is given to one call, and thrown away. */
static void run_lanes(unsigned long n)
{
    struct branmuslin_state state = library.fresh_start(), spoiled = baseline.fresh_start();
    fill(pool[0], sizeof pool[0]);
    memcpy(pool[1], pool[0], sizeof pool[0]);
    same_outputs_before(ROOM);
    compare_states("fresh_start", &state, &spoiled);
    for (unsigned long i = 0; i < n; i++) {
        if (one_in(8)) {
            spoiled = state;
            spoil(&spoiled, below(8));
            call_one(&spoiled);
        }
        state = call_one(&state);
    }
}

/* Frames. A source sends packets one after another, in the input; what a frame has of it is right, or changed a little. */

struct source {
    size_t length, at;     /* the stream's octets, and where the next frame begins */
    size_t next[ROOM + 1]; /* of each place, where the first packet begins that begins there or after it */
};
static struct source source;

/* Packets of either kind; some are over 8,192 octets, and some are none. */
static void make_source(void)
{
    size_t at = 0, begin = 0;
    fill(input, ROOM);
    for (;;) {
        const size_t data = one_in(40) ? 8180 + below(20) : one_in(8) ? 1 + below(4000) : 1 + below(200);
        const bool is_space = !one_in(4);
        if (at + data + 8 > ROOM)
            break;
        for (; begin <= at; begin++)
            source.next[begin] = at;
        put_number(input + at, 4, is_space ? 0x002AC005 : 0xEB000000);
        put_number(input + at + 4, is_space ? 2 : 4, (uint32_t)(is_space ? data - 1 : data + 8));
        if (one_in(100))
            input[at] |= 0x20;
        at += data + (is_space ? 6 : 8);
    }
    for (; begin <= at; begin++)
        source.next[begin] = at;
    source.length = at;
    source.at = 0;
}

/* A pointer: the right one, beside it, any, or one that is no offset. */
static uint32_t some_pointer(size_t length)
{
    const size_t first = source.next[source.at] - source.at;
    const uint32_t right = first < length ? (uint32_t)first : BRANMUSLIN_NO_PACKET;
    if (!one_in(10))
        return right;
    return one_in(4) ? below(2050) : one_in(3) ? 2046 + below(2) : one_in(2) ? about((uint32_t)length) : one_in(2) ? right + below(3) - 1 : any();
}

static void compare_frames(const struct branmuslin_framed a[2])
{
    require(a[0].kind == a[1].kind && a[0].given_up == a[1].given_up && a[0].dropped == a[1].dropped, "take_frame", "the answer");
    require(a[0].packets == a[1].packets && a[0].octets == a[1].octets, "take_frame", "the packets");
    require(a[0].state.started == a[1].state.started && a[0].state.count == a[1].state.count && a[0].state.piece == a[1].state.piece, "take_frame",
            "the state");
    require(memcmp(piece[0], piece[1], sizeof piece[0]) == 0, "take_frame", "the buffer");
    require(memcmp(output[0], output[1], BRANMUSLIN_FRAME_OUTPUT + 10) == 0, "take_frame", "the output");
    met_frames[a[0].kind * 4 + a[0].given_up * 2 + a[0].dropped]++;
}

/* One frame of the source, or a state or lengths that are wrong. */
static struct branmuslin_frames frame_one(struct branmuslin_frames state, size_t length)
{
    const uint32_t count = one_in(64) ? about(255) : one_in(16) ? state.count + below(4) : (state.count + 1u) % 256, pointer = some_pointer(length);
    const size_t room = BRANMUSLIN_FRAME_OUTPUT + (one_in(64) ? below(3) - 1 : 0), lent = BRANMUSLIN_PIECE_LENGTH + (one_in(64) ? below(3) - 1 : 0);
    struct branmuslin_framed a[2];
    uint8_t refusal[2];
    if (one_in(64))
        state.piece = one_in(2) ? 8190 + below(4) : below(100);
    if (one_in(64))
        state.started = !state.started;
    for (int s = 0; s < 2; s++) {
        a[s] = sides[s]->take_frame(state, count, pointer, input + source.at, length, piece[s], lent, output[s], room);
        refusal[s] = a[s].refusal;
    }
    compare("take_frame", refusal);
    compare_frames(a);
    return a[0].state.piece > 8191 ? sides[0]->fresh_frames() : a[0].state;
}

/* A recording, of which some frames are lost. */
static void run_frames(void)
{
    const size_t common = one_in(2) ? 0 : 8 + below(2039);
    struct branmuslin_frames state = library.fresh_frames();
    require(!state.started && state.count == 0 && state.piece == 0 && !baseline.fresh_frames().started, "fresh_frames", "the state");
    make_source();
    fill(piece[0], sizeof piece[0]);
    memcpy(piece[1], piece[0], sizeof piece[0]);
    same_outputs_before(ROOM);
    while (source.at + 2050 < source.length) {
        const size_t length = one_in(64) ? about(2047) : one_in(64) ? below(9) : common != 0 ? common : 8 + below(2039);
        state = frame_one(state, length);
        if (length >= 8 && length <= 2046)
            source.at += length * (one_in(16) ? 2 : 1);
    }
}

/* Taken with each flag alone, both and none; and the two other kinds, without. */
static bool is_each_frame_met(void)
{
    for (int answer = 0; answer < 4 * BRANMUSLIN_FRAME_TAKEN + 4; answer++)
        if (met_frames[answer] == 0 && (answer % 4 == 0 || answer >= 4 * BRANMUSLIN_FRAME_TAKEN)) {
            printf("agree: no frame was answered %d with the flags %d, so nothing was compared there\n", answer / 4, answer % 4);
            return false;
        }
    return true;
}

static bool is_all_met(void)
{
    for (int refusal = 0; refusal < REFUSALS; refusal++)
        if (met[refusal] == 0) {
            printf("agree: no call was answered %d, so nothing was compared there\n", refusal);
            return false;
        }
    for (int teller = 0; teller < TELLERS; teller++)
        for (int refusal = 0; refusal < READING; refusal++)
            if ((met_places[teller][refusal] & places_of[refusal]) != places_of[refusal]) {
                printf("agree: %s did not tell every place of %d, so some were not compared\n", teller == READER ? "the reader" : "a lane", refusal);
                return false;
            }
    return is_each_frame_met();
}

int main(void)
{
    read_packets(400000);
    write_packets(40000);
    read_records(40000);
    write_records(40000);
    fill(input, ROOM);
    for (int run = 0; run < 60; run++)
        run_lanes(1000);
    for (int run = 0; run < 400; run++)
        run_frames();
    if (!is_all_met())
        return 1;
    printf("agree: library and baseline gave the same in %lu calls, which met every refusal, every place and every answer to a frame\n", calls);
    return 0;
}
