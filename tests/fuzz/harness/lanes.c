/*
 * The lanes: runs of calls from a fresh start, and calls on any state. Each call is judged by the state that it was handed and the pool that it
 * was lent, so that a run and a single call are judged alike.
 */
#include "expect.h"
#include <string.h>

/* A state and the pool that belongs to it. */
struct intake {
    state state;
    struct lent pool;
    bool sound; /* whether it must be: what calls lead to from a fresh start */
};

/* Whether a call must be refused with 24; asks the library too whether the state is sound. */
static bool is_refused_at_once(const struct intake *intake)
{
    const bool sound = expected_sound(&intake->state);
    calling(IS_SOUND);
    answered(IS_SOUND, sound ? 0 : 24, branmuslin_is_sound(intake->state) ? 0 : 24);
    DEMAND(sound || !intake->sound, "a state that calls led to from a fresh start is sound");
    return !sound || intake->pool.length != BRANMUSLIN_POOL_LENGTH;
}

/* A state that a call gave back is the expected one; what follows on a sound state is sound. */
static void gives_back(struct intake *intake, const state *expected, const state *got, bool refused)
{
    DEMAND(same_state(expected, got), "the state is the expected one: as it was if the call was refused");
    unchanged(intake->pool, "the pool has the octets that were held, and stays as it was elsewhere or if nothing was");
    size_t open = 0;
    for (size_t i = 0; i < BRANMUSLIN_LANES; i++)
        open += got->lanes[i].opened;
    notice(OPEN_NOTICED + (unsigned)open);
    intake->state = *got;
    intake->sound |= !refused;
}

/* Lane numbers over 7 too, also those whose low octets are a lane's. */
static size_t next_lane(struct input *input)
{
    const uint8_t octet = next_octet(input);
    return octet < 128 ? octet : octet % 8 + ((size_t)256 << octet / 8 % 16 * 3);
}

static void call_open(struct intake *intake, struct input *input)
{
    const size_t lane = next_lane(input);
    struct branmuslin_settings settings;
    settings.station = (uint16_t)next_number(input, 2);
    settings.apid = (uint16_t)next_number(input, 2);
    settings.secondary = next_octet(input);
    settings.share = next_octet(input);
    settings.cap = next_octet(input);
    const uint8_t expected = is_refused_at_once(intake) ? 24 : expected_opening(&intake->state, lane, settings);
    state after = intake->state;
    if (expected == 0)
        after.lanes[lane] = (lane_state){.opened = true, .settings = settings};
    lend_again(intake->pool);
    calling(OPEN_LANE);
    const struct branmuslin_change change = branmuslin_open_lane(intake->state, lane, settings, intake->pool.octets, intake->pool.length);
    answered(OPEN_LANE, expected, change.refusal);
    gives_back(intake, &after, &change.state, change.refusal != 0);
}

/* The record that a closing wrote, as the header lays it out and as the library reads it. */
static void credits(struct lent output, struct branmuslin_record expected)
{
    struct branmuslin_record read;
    put_record(as_lent(output), expected);
    unchanged(output, "the output has the record at its front, and stays as it was behind it");
    DEMAND(branmuslin_read_record(output.octets, BRANMUSLIN_RECORD_LENGTH, &read) == 0, "a closing's record can be read");
    DEMAND(memcmp(&read, &expected, sizeof read) == 0, "a closing's record reads with the lane's numbers");
}

static void call_close(struct intake *intake, struct input *input)
{
    const size_t lane = next_lane(input), space = next_space(input, BRANMUSLIN_RECORD_LENGTH);
    const struct lent output = lend_noise(OUTPUT, space, 10);
    const uint8_t expected = is_refused_at_once(intake) ? 24 : expected_closing(&intake->state, lane, space);
    state after = intake->state;
    if (expected == 0) {
        after.lanes[lane] = (lane_state){0};
        for (size_t block = 0; block < BRANMUSLIN_BLOCKS; block++)
            after.marks[block] = after.marks[block] / 64 == lane ? 512 : after.marks[block];
    }
    lend_again(intake->pool);
    calling(CLOSE_LANE);
    const struct branmuslin_change change =
        branmuslin_close_lane(intake->state, lane, intake->pool.octets, intake->pool.length, output.octets, space);
    answered(CLOSE_LANE, expected, change.refusal);
    if (change.refusal == 0)
        credits(output, credit_of(&intake->state.lanes[lane]));
    else
        unchanged(output, "the output stays as it was");
    gives_back(intake, &after, &change.state, change.refusal != 0);
}

/* From this octet of a group so many lie in one block. */
static size_t in_one_block(size_t at, size_t end)
{
    return end - at < 256 - at % 256 ? end - at : 256 - at % 256;
}

/* Puts what is expected of output and pool into the copies that they are compared with; what a group held before is found in the pool as it was lent. */
static void place_data(const struct intake *intake, size_t lane, const struct expected *e, struct lent output)
{
    uint8_t *const pool = as_lent(intake->pool), *const unit = as_lent(output);
    const size_t end = e->group + e->data_length;
    size_t at, next;
    if (e->kind == BRANMUSLIN_UNIT) {
        for (at = 0; at < e->group; at = next) {
            next = at + in_one_block(at, e->group);
            memcpy(unit + at, pool + place_in_pool(&intake->state, lane, at), next - at);
        }
        memcpy(unit + e->group, e->data, e->data_length);
    }
    if (e->kind == BRANMUSLIN_HELD) {
        for (at = e->group; at < end; at = next) {
            next = at + in_one_block(at, end);
            memcpy(pool + place_in_pool(&e->after, lane, at), e->data + at - e->group, next - at);
        }
    }
}

static struct expected expected_answer(const struct intake *intake, size_t lane, struct lent packet, size_t space)
{
    if (is_refused_at_once(intake))
        return (struct expected){.refusal = 24, .after = intake->state};
    if (lane >= BRANMUSLIN_LANES || !intake->state.lanes[lane].opened)
        return (struct expected){.refusal = 11, .after = intake->state};
    return expected_packet(&intake->state, lane, packet.octets, packet.length, space);
}

static void give_packet(struct intake *intake, size_t lane, struct lent packet, size_t space)
{
    const struct lent output = lend_noise(OUTPUT, space, 11);
    const struct expected e = expected_answer(intake, lane, packet, space);
    lend_again(intake->pool);
    if (e.refusal == 0)
        place_data(intake, lane, &e, output);
    calling(TAKE_PACKET);
    const struct branmuslin_answer answer = branmuslin_take_packet(intake->state, lane, packet.octets, packet.length, intake->pool.octets,
                                                                   intake->pool.length, output.octets, space);
    answered(TAKE_PACKET, e.refusal, answer.refusal);
    DEMAND(answer.kind == e.kind, "the kind is that which flags and group give");
    DEMAND(answer.given_up == e.given_up, "a group is given up where the header says so, and told");
    DEMAND(answer.missing == e.missing, "the packets missing are those between the counts");
    DEMAND(answer.octets == e.unit && answer.octets <= space, "the octets of the unit, which are at most those of the output");
    DEMAND(answer.place == e.place, "the place is that which reading tells, and 0 where it does not refuse");
    unchanged(packet, "the packet stays as it was");
    unchanged(output, "the output has the unit at its front, and stays as it was behind it or if there is none");
    gives_back(intake, &e.after, &answer.state, e.refusal != 0);
    notice(KINDS_NOTICED + answer.kind);
    notice(GIVEN_UP_NOTICED + answer.given_up);
    notice_place(answer.refusal, answer.place);
    if (answer.kind == BRANMUSLIN_HELD)
        notice(BLOCKS_NOTICED + intake->state.lanes[lane].octets / 2048u);
}

/* A packet of any octets. */
static void call_raw_packet(struct intake *intake, struct input *input)
{
    const size_t lane = next_lane(input), space = next_space(input, 0), length = next_number(input, 3) % (LONGEST_INPUT + 1);
    give_packet(intake, lane, lend_input(INPUT, input, length), space);
}

/* A packet that suits the lane: its APID and secondary header, the count a step from the last one, and an output near what a unit needs. */
static void call_fitting_packet(struct intake *intake, struct input *input)
{
    const size_t lane = next_lane(input);
    const lane_state l = lane < BRANMUSLIN_LANES ? intake->state.lanes[lane] : (lane_state){0};
    const uint8_t flags = next_octet(input) % 4;
    const uint32_t count = (l.last + 1u + (uint32_t)(int8_t)next_octet(input)) % 16384;
    const size_t user = next_number(input, 3) % (BRANMUSLIN_LONGEST_DATA + 1), data = user + l.settings.secondary;
    const size_t space = next_space(input, user + l.octets);
    const struct lent packet = lend_noise(INPUT, 6 + data, next_octet(input));
    put_number(packet.octets, 2, (l.settings.secondary > 0) << 11 | l.settings.apid % 2048);
    put_number(packet.octets + 2, 2, (uint32_t)flags << 14 | count);
    put_number(packet.octets + 4, 2, (uint32_t)data - 1);
    lend_again(packet);
    give_packet(intake, lane, packet, space);
}

/* One call, and whether what it gave back is sound. */
static void any_call(struct intake *intake, struct input *input)
{
    static void (*const calls[])(struct intake *, struct input *) = {call_open, call_close, call_raw_packet, call_fitting_packet};
    calls[next_octet(input) % 4](intake, input);
    is_refused_at_once(intake);
}

/* bool fields hold 0 or 1, whatever octets a state was made of. */
static void force_bools(state *s)
{
    for (size_t i = 0; i < BRANMUSLIN_LANES; i++) {
        uint8_t *const octets = (uint8_t *)&s->lanes[i];
        octets[offsetof(lane_state, opened)] %= 2;
        octets[offsetof(lane_state, grouped)] %= 2;
    }
}

/* One call that lends a pool of another length; the run goes on as if it had not been made. */
static void lend_other_pool(const struct intake *intake, struct input *input)
{
    static uint8_t kept[BRANMUSLIN_POOL_LENGTH];
    struct intake other = *intake;
    memcpy(kept, intake->pool.octets, sizeof kept);
    other.pool = lend_noise(POOL, next_number(input, 2) % (BRANMUSLIN_POOL_LENGTH + 1024), 12);
    any_call(&other, input);
    lend_noise(POOL, BRANMUSLIN_POOL_LENGTH, 0);
    memcpy(intake->pool.octets, kept, sizeof kept);
}

/* One call on a copy of the state of which some octets are changed; the run goes on as if it had not been made. */
static void change_a_copy(const struct intake *intake, struct input *input)
{
    static uint8_t kept[BRANMUSLIN_POOL_LENGTH];
    struct intake other = *intake;
    memcpy(kept, intake->pool.octets, sizeof kept);
    for (unsigned changes = next_octet(input) % 4 + 1; changes > 0; changes--) {
        const size_t at = next_number(input, 2) % sizeof other.state;
        ((uint8_t *)&other.state)[at] = next_octet(input);
    }
    force_bools(&other.state);
    other.sound = false;
    any_call(&other, input);
    memcpy(intake->pool.octets, kept, sizeof kept);
}

/* A state and a pool that were kept may be used again together. */
static void keep_or_go_back(struct intake *intake, struct intake *kept, uint8_t pool[BRANMUSLIN_POOL_LENGTH], bool keep)
{
    if (keep) {
        *kept = *intake;
        memcpy(pool, intake->pool.octets, BRANMUSLIN_POOL_LENGTH);
    } else {
        *intake = *kept;
        memcpy(intake->pool.octets, pool, BRANMUSLIN_POOL_LENGTH);
    }
}

static void is_fresh(const state *s)
{
    state expected = {0};
    for (size_t block = 0; block < BRANMUSLIN_BLOCKS; block++)
        expected.marks[block] = 512;
    DEMAND(same_state(&expected, s), "a fresh start has eight closed lanes and 64 free blocks");
}

void fuzz_run(struct input *input)
{
    static uint8_t kept_pool[BRANMUSLIN_POOL_LENGTH];
    calling(FRESH_START);
    struct intake intake = {branmuslin_fresh_start(), lend_noise(POOL, BRANMUSLIN_POOL_LENGTH, next_octet(input)), true}, kept;
    answered(FRESH_START, 0, 0);
    is_fresh(&intake.state);
    keep_or_go_back(&intake, &kept, kept_pool, true);
    while (input->left > 0) {
        const uint8_t call = next_octet(input) % 8;
        switch (call) {
        case 0: call_open(&intake, input); break;
        case 1: call_close(&intake, input); break;
        case 2: call_raw_packet(&intake, input); break;
        case 3: call_fitting_packet(&intake, input); break;
        case 4: lend_other_pool(&intake, input); break;
        case 5: change_a_copy(&intake, input); break;
        default: keep_or_go_back(&intake, &kept, kept_pool, call == 6);
        }
    }
    is_refused_at_once(&intake);
}

void fuzz_any_state(struct input *input)
{
    struct intake intake = {.sound = false};
    for (size_t i = 0; i < sizeof intake.state; i++)
        ((uint8_t *)&intake.state)[i] = next_octet(input);
    force_bools(&intake.state);
    intake.pool = lend_noise(POOL, BRANMUSLIN_POOL_LENGTH, 13);
    do
        any_call(&intake, input);
    while (input->left > 0);
}
