/* What the header says of the lanes. */
#include "expect.h"
#include <string.h>

#define FREE 512

static bool same_lane(const lane_state *a, const lane_state *b)
{
    return a->opened == b->opened && a->settings.station == b->settings.station && a->settings.apid == b->settings.apid &&
           a->settings.secondary == b->settings.secondary && a->settings.share == b->settings.share && a->settings.cap == b->settings.cap &&
           a->units == b->units && a->packets == b->packets && a->missing == b->missing && a->broken == b->broken && a->last == b->last &&
           a->grouped == b->grouped && a->octets == b->octets;
}

bool same_state(const state *a, const state *b)
{
    for (size_t i = 0; i < BRANMUSLIN_LANES; i++)
        if (!same_lane(&a->lanes[i], &b->lanes[i]))
            return false;
    return memcmp(a->marks, b->marks, sizeof a->marks) == 0;
}

static size_t blocks_for(size_t octets)
{
    return (octets + 255) / 256;
}

/* The larger of what the lane would hold and what it is promised. */
static size_t has(const lane_state *l, size_t blocks)
{
    return blocks > l->settings.share ? blocks : l->settings.share;
}

/* The blocks that all open lanes but this hold or are promised. */
static size_t others_have(const state *s, size_t lane)
{
    size_t sum = 0;
    for (size_t i = 0; i < BRANMUSLIN_LANES; i++)
        if (i != lane && s->lanes[i].opened)
            sum += has(&s->lanes[i], blocks_for(s->lanes[i].octets));
    return sum;
}

static bool settings_are_legal(struct branmuslin_settings s)
{
    return s.apid <= 2046 && s.secondary <= 63 && s.share <= s.cap && s.cap <= 64;
}

struct branmuslin_record credit_of(const lane_state *l)
{
    return (struct branmuslin_record){l->settings.station, l->settings.apid, l->units, l->packets, l->missing, l->broken + l->grouped};
}

/* Whether the lane's marks are the places of its group, each once: as many as its blocks, and no place missing. */
static bool blocks_match(const state *s, size_t lane)
{
    const size_t blocks = blocks_for(s->lanes[lane].octets);
    uint64_t places = 0;
    size_t held = 0;
    for (size_t block = 0; block < BRANMUSLIN_BLOCKS; block++) {
        if (s->marks[block] / 64 == lane) {
            held++;
            places |= (uint64_t)1 << s->marks[block] % 64;
        }
    }
    if (held != blocks)
        return false;
    return blocks == 64 ? places == UINT64_MAX : places == ((uint64_t)1 << blocks) - 1;
}

/* What the header says of the last count and of the tallies holds for closed lanes too. */
static bool lane_is_sound(const lane_state *l)
{
    if (l->last > 16383 || l->broken == UINT32_MAX || !is_possible(credit_of(l)))
        return false;
    if (!l->grouped && l->octets > 0)
        return false;
    if (!l->opened)
        return !l->grouped;
    return settings_are_legal(l->settings) && blocks_for(l->octets) <= l->settings.cap;
}

bool expected_sound(const state *s)
{
    for (size_t block = 0; block < BRANMUSLIN_BLOCKS; block++)
        if (s->marks[block] > FREE)
            return false;
    for (size_t i = 0; i < BRANMUSLIN_LANES; i++)
        if (!lane_is_sound(&s->lanes[i]) || !blocks_match(s, i))
            return false;
    return others_have(s, BRANMUSLIN_LANES) <= BRANMUSLIN_BLOCKS;
}

size_t place_in_pool(const state *s, size_t lane, size_t at)
{
    size_t block = 0;
    while (block < BRANMUSLIN_BLOCKS && s->marks[block] != lane * 64 + at / 256)
        block++;
    DEMAND(block < BRANMUSLIN_BLOCKS, "every octet of a group has its block");
    return block * 256 + at % 256;
}

static uint8_t expected_entry(const lane_state *l, const struct branmuslin_packet *p, size_t length)
{
    if (p->offset + p->length != length)
        return 12;
    if (p->version != 0)
        return 13;
    if (p->type != 0)
        return 14;
    if (p->apid != l->settings.apid)
        return 15;
    if ((p->secondary == 1) != (l->settings.secondary > 0))
        return 16;
    return p->length < l->settings.secondary ? 17 : 0;
}

static uint8_t kind_of(uint32_t flags, bool grouped)
{
    if (flags == BRANMUSLIN_UNSEGMENTED)
        return BRANMUSLIN_UNIT;
    if (flags == BRANMUSLIN_FIRST)
        return BRANMUSLIN_HELD;
    if (!grouped)
        return BRANMUSLIN_STRAY;
    return flags == BRANMUSLIN_LAST ? BRANMUSLIN_UNIT : BRANMUSLIN_HELD;
}

/* The order is 18, 19, 27, 20. */
static uint8_t expected_limit(const state *s, size_t lane, const struct expected *e, size_t space)
{
    const lane_state *const l = &s->lanes[lane];
    const size_t blocks = e->kind == BRANMUSLIN_HELD ? blocks_for(e->group + e->data_length) : 0;
    if (l->packets == BRANMUSLIN_MOST_PACKETS)
        return 18;
    if (blocks > l->settings.cap)
        return 19;
    if (has(l, blocks) + others_have(s, lane) > BRANMUSLIN_BLOCKS)
        return 27;
    return e->unit > space ? 20 : 0;
}

/* The blocks taken are the lowest free ones, in rising order, after those of a group that ended are free. */
static void mark_blocks(state *s, size_t lane, size_t kept, size_t wanted)
{
    for (size_t block = 0; block < BRANMUSLIN_BLOCKS; block++)
        if (s->marks[block] / 64 == lane && s->marks[block] % 64 >= kept)
            s->marks[block] = FREE;
    for (size_t block = 0; block < BRANMUSLIN_BLOCKS && kept < wanted; block++)
        if (s->marks[block] == FREE)
            s->marks[block] = (uint16_t)(lane * 64 + kept++);
}

/* The lane's tallies and its group after a packet that was accepted. */
static void count_packet(struct expected *e, size_t lane, uint32_t count)
{
    lane_state *const l = &e->after.lanes[lane];
    const bool holds = e->kind == BRANMUSLIN_HELD;
    l->units += e->kind == BRANMUSLIN_UNIT;
    l->packets++;
    l->missing += e->missing;
    l->broken += e->given_up;
    l->last = (uint16_t)count;
    l->grouped = holds;
    l->octets = holds ? (uint16_t)(e->group + e->data_length) : 0;
    mark_blocks(&e->after, lane, holds ? blocks_for(e->group) : 0, blocks_for(l->octets));
}

struct expected expected_packet(const state *s, size_t lane, const uint8_t *packet, size_t length, size_t space)
{
    const lane_state *const l = &s->lanes[lane];
    struct branmuslin_packet p;
    struct expected e = {.after = *s};
    e.refusal = expected_reading(packet, length, &p);
    if (e.refusal != 0)
        e.place = expected_place(packet, length, e.refusal);
    else
        e.refusal = expected_entry(l, &p, length);
    if (e.refusal != 0)
        return e;
    if (l->packets > 0 && p.count == l->last) {
        e.kind = BRANMUSLIN_REPEAT;
        return e;
    }
    e.missing = l->packets == 0 ? 0 : (uint16_t)((p.count - l->last - 1) % 16384);
    e.given_up = l->grouped && (e.missing > 0 || p.flags == BRANMUSLIN_FIRST || p.flags == BRANMUSLIN_UNSEGMENTED);
    e.kind = kind_of(p.flags, l->grouped && !e.given_up);
    e.group = l->grouped && !e.given_up ? l->octets : 0;
    e.data = packet + p.offset + l->settings.secondary;
    e.data_length = p.length - l->settings.secondary;
    e.unit = e.kind == BRANMUSLIN_UNIT ? e.group + e.data_length : 0;
    e.refusal = expected_limit(s, lane, &e, space);
    if (e.refusal != 0)
        return (struct expected){.refusal = e.refusal, .after = *s};
    count_packet(&e, lane, p.count);
    return e;
}

uint8_t expected_opening(const state *s, size_t lane, struct branmuslin_settings settings)
{
    if (lane >= BRANMUSLIN_LANES)
        return 11;
    if (s->lanes[lane].opened)
        return 21;
    if (!settings_are_legal(settings))
        return 22;
    return settings.share + others_have(s, lane) > BRANMUSLIN_BLOCKS ? 23 : 0;
}

uint8_t expected_closing(const state *s, size_t lane, size_t space)
{
    if (lane >= BRANMUSLIN_LANES || !s->lanes[lane].opened)
        return 11;
    return space < BRANMUSLIN_RECORD_LENGTH ? 9 : 0;
}
