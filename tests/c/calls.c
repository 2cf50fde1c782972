/* Calls to the lanes with lent memory, compared with what is expected. */
#include "calls.h"
#include <stdio.h>
#include <string.h>

#define FREE 512

struct intake is, want;

/* Every number of a state, so that two can be compared; a lane's are those below. */
static const char *const fields[] = {"opened", "station", "apid", "secondary", "share", "cap", "units", "packets", "missing", "broken", "last", "grouped", "octets"};
#define FIELDS (sizeof fields / sizeof *fields)
#define NUMBERS (BRANMUSLIN_LANES * FIELDS + BRANMUSLIN_BLOCKS)

static void numbers_of(const struct branmuslin_state *state, uint32_t *numbers)
{
    for (size_t i = 0; i < BRANMUSLIN_LANES; i++, numbers += FIELDS) {
        const struct branmuslin_lane *l = &state->lanes[i];
        const uint32_t all[FIELDS] = {l->opened, l->settings.station, l->settings.apid, l->settings.secondary, l->settings.share, l->settings.cap,
                                      l->units,  l->packets,          l->missing,       l->broken,             l->last,           l->grouped,
                                      l->octets};
        memcpy(numbers, all, sizeof all);
    }
    for (size_t block = 0; block < BRANMUSLIN_BLOCKS; block++)
        numbers[block] = state->marks[block];
}

void same_states(struct place place, struct branmuslin_state expected, struct branmuslin_state got)
{
    uint32_t one[NUMBERS + 1], other[NUMBERS + 1];
    char what[64] = "the state";
    size_t at = 0;
    numbers_of(&expected, one);
    numbers_of(&got, other);
    one[NUMBERS] = other[NUMBERS] = 0;
    while (at < NUMBERS && one[at] == other[at])
        at++;
    if (at < BRANMUSLIN_LANES * FIELDS)
        snprintf(what, sizeof what, "the state: %s of lane %zu", fields[at % FIELDS], at / FIELDS);
    else if (at < NUMBERS)
        snprintf(what, sizeof what, "the state: the mark of block %zu", at - BRANMUSLIN_LANES * FIELDS);
    same(place, what, one[at], other[at]);
}

void start_from(struct branmuslin_state state)
{
    is.state = state;
    is.pool_length = BRANMUSLIN_POOL_LENGTH;
    memcpy(is.pool, part(LONGEST_NOISE - sizeof is.pool, sizeof is.pool).at, sizeof is.pool);
    want = is;
}

void start_fresh(void)
{
    struct branmuslin_state state = {0};
    for (size_t block = 0; block < BRANMUSLIN_BLOCKS; block++)
        state.marks[block] = FREE;
    start_from(state);
}

struct octets part(size_t from, size_t length)
{
    return (struct octets){noise(LONGEST_NOISE).at + from, length};
}

struct octets packet(uint16_t apid, unsigned flags, unsigned count, size_t secondary, struct octets user)
{
    static uint8_t octets[BRANMUSLIN_LONGEST_PACKET];
    const size_t length = secondary + user.length - 1;
    const uint8_t header[] = {(uint8_t)((secondary > 0 ? 8 : 0) + apid / 256), (uint8_t)(apid % 256),    (uint8_t)(flags * 64 + count / 256),
                              (uint8_t)(count % 256),                          (uint8_t)(length / 256), (uint8_t)(length % 256)};
    memcpy(octets, header, sizeof header);
    memset(octets + sizeof header, 0x5E, secondary);
    memcpy(octets + sizeof header + secondary, user.at, user.length);
    return (struct octets){octets, sizeof header + secondary + user.length};
}

static struct lent lend_pool(void)
{
    return lend((struct octets){is.pool, is.pool_length});
}

/* After a call: the state and the pool are as wanted, and so they are for the next one. */
static void as_wanted(struct place place, struct branmuslin_state state, struct lent pool)
{
    same_states(place, want.state, state);
    holds(place, "the pool", pool, (struct octets){want.pool, want.pool_length});
    is = want;
}

void opens(struct place place, size_t lane, struct branmuslin_settings settings, uint8_t refusal)
{
    const struct lent pool = lend_pool();
    const struct branmuslin_change change = branmuslin_open_lane(is.state, lane, settings, pool.octets, pool.length);
    same(place, "the refusal", refusal, change.refusal);
    as_wanted(place, change.state, pool);
}

void takes(struct place place, size_t lane, struct octets octets, size_t output_length, struct reply reply)
{
    const struct lent pool = lend_pool(), input = lend(octets), output = lend_noise(output_length);
    const struct branmuslin_answer answer =
        branmuslin_take_packet(is.state, lane, input.octets, input.length, pool.octets, pool.length, output.octets, output.length);
    same(place, "the refusal", reply.refusal, answer.refusal);
    same(place, "the kind", reply.kind, answer.kind);
    same(place, "missing", reply.missing, answer.missing);
    same(place, "given up", reply.given_up, answer.given_up);
    same(place, "octets", reply.unit.length, answer.octets);
    same(place, "the octet at fault", reply.place, answer.place);
    as_wanted(place, answer.state, pool);
    holds(place, "the output", output, reply.unit);
    holds(place, "the packet", input, NO_OCTETS);
}

void closes(struct place place, size_t lane, size_t output_length, uint8_t refusal, struct octets record)
{
    const struct lent pool = lend_pool(), output = lend_noise(output_length);
    const struct branmuslin_change change = branmuslin_close_lane(is.state, lane, pool.octets, pool.length, output.octets, output.length);
    same(place, "the refusal", refusal, change.refusal);
    as_wanted(place, change.state, pool);
    holds(place, "the output", output, record);
}

void want_open(size_t lane, struct branmuslin_settings settings)
{
    want.state.lanes[lane] = (struct branmuslin_lane){.opened = true, .settings = settings};
}

void want_group(size_t lane, size_t octets)
{
    want.state.lanes[lane].grouped = true;
    want.state.lanes[lane].octets = (uint16_t)octets;
}

void want_no_group(size_t lane)
{
    want.state.lanes[lane].grouped = false;
    want.state.lanes[lane].octets = 0;
    for (size_t block = 0; block < BRANMUSLIN_BLOCKS; block++)
        if (want.state.marks[block] / 64 == lane)
            want.state.marks[block] = FREE;
}

void want_closed(size_t lane)
{
    want_no_group(lane);
    want.state.lanes[lane] = (struct branmuslin_lane){0};
}

void want_counted(size_t lane, unsigned count, struct reply reply)
{
    struct branmuslin_lane *l = &want.state.lanes[lane];
    l->packets++;
    l->missing += reply.missing;
    l->broken += reply.given_up;
    l->units += reply.kind == BRANMUSLIN_UNIT;
    l->last = (uint16_t)count;
    if (reply.kind == BRANMUSLIN_UNIT || reply.kind == BRANMUSLIN_STRAY)
        want_no_group(lane);
}

void want_block(size_t lane, unsigned place_in_group, unsigned block)
{
    want.state.marks[block] = (uint16_t)(lane * 64 + place_in_group);
}

void want_stored(unsigned block, size_t at, struct octets octets)
{
    memcpy(want.pool + (size_t)block * 256 + at, octets.at, octets.length);
}

void opened(struct place place, size_t lane, struct branmuslin_settings settings)
{
    want_open(lane, settings);
    opens(place, lane, settings, 0);
}

void answered(struct place place, size_t lane, unsigned count, struct octets octets, struct reply reply)
{
    want_counted(lane, count, reply);
    takes(place, lane, octets, reply.unit.length, reply);
}
