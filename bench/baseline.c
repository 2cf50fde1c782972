/* The baseline: see baseline.h. It stands in one file, so that the compiler may inline what it likes. */
#include "baseline.h"

#include <string.h>

enum { SPACE_HEADER = 6, LONGEST_HEADER = 8, BLOCK = 256, FREE = 512, MOST_APID = 2046, MOST_COUNT = 16383, MOST_SECONDARY = 63 };

static uint32_t be16(const uint8_t *s)
{
    return (uint32_t)s[0] << 8 | s[1];
}

static uint32_t be32(const uint8_t *s)
{
    return (uint32_t)s[0] << 24 | (uint32_t)s[1] << 16 | (uint32_t)s[2] << 8 | s[3];
}

static void put16(uint8_t *s, uint32_t x)
{
    s[0] = (uint8_t)(x >> 8);
    s[1] = (uint8_t)x;
}

static void put32(uint8_t *s, uint32_t x)
{
    put16(s, x >> 16);
    put16(s + 2, x);
}

/* Packets. A refusal of reading tells the place of the field at fault, or how many octets there are. */

static inline uint8_t refused_at(size_t at, uint8_t refusal, size_t *place)
{
    *place = at;
    return refusal;
}

static inline uint8_t read_space(const uint8_t *s, size_t n, struct branmuslin_packet *packet, size_t *place)
{
    if (n < SPACE_HEADER)
        return refused_at(n, BRANMUSLIN_CUT_SHORT, place);
    const uint32_t first = be16(s), second = be16(s + 2), length = be16(s + 4) + 1;
    /* APID 2047 and the flag are the low twelve bits, all of them 1. */
    if ((first & 0xFFF) == 0xFFF)
        return refused_at(0, BRANMUSLIN_IDLE_FLAGGED, place);
    if (n < SPACE_HEADER + length)
        return refused_at(n, BRANMUSLIN_CUT_SHORT, place);
    *packet = (struct branmuslin_packet){.type = first >> 12 & 1, .secondary = first >> 11 & 1, .apid = first & 2047, .flags = second >> 14,
                                         .count = second & MOST_COUNT, .offset = SPACE_HEADER, .length = length};
    return BRANMUSLIN_DONE;
}

static inline uint8_t read_encapsulation(const uint8_t *s, size_t n, struct branmuslin_packet *packet, size_t *place)
{
    /* The length is the second half of a header of 2, 4 or 8 octets. */
    const uint32_t header = 1u << (s[0] & 3), protocol = s[0] >> 2 & 7, length_at = header / 2;
    uint32_t user = 0, extension = 0, ccsds = 0, size = 1;
    if (n < header)
        return refused_at(n, BRANMUSLIN_CUT_SHORT, place);
    if (header == 2) {
        size = s[1];
    } else if (header >= 4) {
        user = s[1] >> 4;
        extension = s[1] & 15;
        size = be16(s + 2);
        if (header == 8) {
            ccsds = size;
            size = be32(s + 4);
        }
    }
    if ((protocol == 6 && header < 4) || (extension != 0 && protocol != 6) || ccsds != 0)
        return refused_at(header < 4 ? 0 : extension != 0 && protocol != 6 ? 1 : ccsds > 0xFF ? 2 : 3, BRANMUSLIN_NAMES_NOTHING, place);
    if (size < header)
        return refused_at(length_at, BRANMUSLIN_UNDER_HEADER, place);
    if (size > BRANMUSLIN_LONGEST_PACKET)
        return refused_at(length_at, BRANMUSLIN_OVER_LIMIT, place);
    if (size == header && protocol != 0)
        return refused_at(0, BRANMUSLIN_NO_CONTENT, place);
    if (n < size)
        return refused_at(n, BRANMUSLIN_CUT_SHORT, place);
    *packet = (struct branmuslin_packet){.version = BRANMUSLIN_ENCAPSULATION, .protocol = protocol, .user = user, .extension = extension,
                                         .offset = header, .length = size - header};
    return BRANMUSLIN_DONE;
}

static inline uint8_t read_packet(const uint8_t *s, size_t n, struct branmuslin_packet *packet, size_t *place)
{
    if (n == 0)
        return refused_at(0, BRANMUSLIN_CUT_SHORT, place);
    const uint8_t version = s[0] >> 5;
    if (version == BRANMUSLIN_SPACE)
        return read_space(s, n, packet, place);
    if (version == BRANMUSLIN_ENCAPSULATION)
        return read_encapsulation(s, n, packet, place);
    return refused_at(0, BRANMUSLIN_BAD_VERSION, place);
}

uint8_t base_read_packet(const uint8_t *octets, size_t octets_length, struct branmuslin_packet *packet, size_t *place)
{
    return read_packet(octets, octets_length, packet, place);
}

uint8_t base_write_space(uint32_t type, uint32_t secondary, uint32_t apid, uint32_t flags, uint32_t count, const uint8_t *data, size_t data_length,
                         uint8_t *output, size_t output_length, size_t *written)
{
    if (type > 1 || secondary > 1 || apid > BRANMUSLIN_IDLE_APID || flags > 3 || count > MOST_COUNT)
        return BRANMUSLIN_OVER_WIDTH;
    if (apid == BRANMUSLIN_IDLE_APID && secondary == 1)
        return BRANMUSLIN_IDLE_FLAGGED;
    if (data_length == 0 || data_length > BRANMUSLIN_LONGEST_DATA)
        return BRANMUSLIN_DATA_LENGTH;
    if (output_length < SPACE_HEADER + data_length)
        return BRANMUSLIN_NO_ROOM;
    put16(output, type << 12 | secondary << 11 | apid);
    put16(output + 2, flags << 14 | count);
    put16(output + 4, (uint32_t)(data_length - 1));
    memcpy(output + SPACE_HEADER, data, data_length);
    *written = SPACE_HEADER + data_length;
    return BRANMUSLIN_DONE;
}

/* The shortest header that can carry the fields: the length of the whole packet stands in 1, 2 or 4 octets of it. */
static uint32_t shortest_header(uint32_t protocol, uint32_t user, size_t n)
{
    if (n == 0 && user == 0 && protocol == 0)
        return 1;
    if (user == 0 && protocol != 6 && n < 254)
        return 2;
    return n < 65532 ? 4 : 8;
}

static void put_header(uint8_t *output, uint32_t header, uint32_t first, uint32_t second, uint32_t size)
{
    if (header == 1) {
        output[0] = (uint8_t)first;
    } else if (header == 2) {
        output[0] = (uint8_t)(first | 1);
        output[1] = (uint8_t)size;
    } else if (header == 4) {
        put16(output, (first | 2) << 8 | second);
        put16(output + 2, size);
    } else {
        put16(output, (first | 3) << 8 | second);
        put16(output + 2, 0);
        put32(output + 4, size);
    }
}

uint8_t base_write_encapsulation(uint32_t protocol, uint32_t user, uint32_t extension, const uint8_t *content, size_t content_length, uint8_t *output,
                                 size_t output_length, size_t *written)
{
    if (protocol > 7 || user > 15 || extension > 15)
        return BRANMUSLIN_OVER_WIDTH;
    if (extension != 0 && protocol != 6)
        return BRANMUSLIN_NAMES_NOTHING;
    if (content_length == 0 && protocol != 0)
        return BRANMUSLIN_NO_CONTENT;
    if (content_length > BRANMUSLIN_LONGEST_CONTENT)
        return BRANMUSLIN_DATA_LENGTH;
    const uint32_t header = shortest_header(protocol, user, content_length);
    if (output_length < header + content_length)
        return BRANMUSLIN_NO_ROOM;
    put_header(output, header, 0xE0 | protocol << 2, user << 4 | extension, header + (uint32_t)content_length);
    memcpy(output + header, content, content_length);
    *written = header + content_length;
    return BRANMUSLIN_DONE;
}

/* Records. The sums are made in 64 bits, where they can't wrap. */

static inline bool is_possible(uint32_t apid, uint64_t units, uint64_t packets, uint64_t missing, uint64_t broken)
{
    const uint64_t most_missing = packets == 0 ? 0 : 16382 * (packets - 1);
    return apid <= MOST_APID && packets <= BRANMUSLIN_MOST_PACKETS && units + broken <= packets && missing <= most_missing;
}

static inline struct branmuslin_record record_at(const uint8_t *s)
{
    return (struct branmuslin_record){be16(s), be16(s + 2), be32(s + 4), be32(s + 8), be32(s + 12), be32(s + 16)};
}

static inline bool is_record_possible(struct branmuslin_record r)
{
    return is_possible(r.apid, r.units, r.packets, r.missing, r.broken);
}

uint8_t base_write_record(uint16_t station, uint16_t apid, uint32_t units, uint32_t packets, uint32_t missing, uint32_t broken, uint8_t *output,
                          size_t output_length)
{
    if (output_length < BRANMUSLIN_RECORD_LENGTH)
        return BRANMUSLIN_NO_ROOM;
    if (!is_possible(apid, units, packets, missing, broken))
        return BRANMUSLIN_NOT_POSSIBLE;
    put16(output, station);
    put16(output + 2, apid);
    put32(output + 4, units);
    put32(output + 8, packets);
    put32(output + 12, missing);
    put32(output + 16, broken);
    return BRANMUSLIN_DONE;
}

uint8_t base_read_record(const uint8_t *octets, size_t octets_length, struct branmuslin_record *record)
{
    if (octets_length != BRANMUSLIN_RECORD_LENGTH)
        return BRANMUSLIN_NOT_RECORDS;
    const struct branmuslin_record r = record_at(octets);
    if (!is_record_possible(r))
        return BRANMUSLIN_NOT_POSSIBLE;
    *record = r;
    return BRANMUSLIN_DONE;
}

uint8_t base_read_record_file(const uint8_t *octets, size_t octets_length, size_t *records, size_t *index)
{
    if (octets_length % BRANMUSLIN_RECORD_LENGTH != 0)
        return BRANMUSLIN_NOT_RECORDS;
    const size_t n = octets_length / BRANMUSLIN_RECORD_LENGTH;
    for (size_t i = 0; i < n; i++) {
        if (!is_record_possible(record_at(octets + i * BRANMUSLIN_RECORD_LENGTH))) {
            *index = i;
            return BRANMUSLIN_NOT_POSSIBLE;
        }
    }
    *records = n;
    return BRANMUSLIN_DONE;
}

/* Lanes. */

/* What the soundness test works out by the way, and a packet needs: what the open lanes hold or are promised; and the block of each mark of the lanes
   that hold some. The last entry is for free blocks and for marks that are no lane's. */
struct view {
    uint32_t total;
    uint8_t block[FREE + 1];
};

static inline uint32_t blocks_for(uint32_t octets)
{
    return (octets + BLOCK - 1) / BLOCK;
}

static inline uint32_t larger(uint32_t a, uint32_t b)
{
    return a < b ? b : a;
}

static inline uint32_t need_of(const struct branmuslin_lane *l)
{
    return l->opened ? larger(blocks_for(l->octets), l->settings.share) : 0;
}

static inline bool is_illegal(const struct branmuslin_settings *s)
{
    return s->apid > MOST_APID || s->secondary > MOST_SECONDARY || s->share > s->cap || s->cap > BRANMUSLIN_BLOCKS;
}

/* What a sound state asks of each lane by itself. */
static inline bool is_fine(const struct branmuslin_lane *l)
{
    if (l->opened && is_illegal(&l->settings))
        return false;
    if (blocks_for(l->octets) > l->settings.cap || (!l->grouped && l->octets != 0) || (!l->opened && l->grouped))
        return false;
    return l->last <= MOST_COUNT && is_possible(l->settings.apid, l->units, l->packets, l->missing, (uint64_t)l->broken + l->grouped);
}

/* Whether each place that a lane holds has a block. A lane that holds nothing is passed over: its part of the table is not looked at. */
static bool has_each_place(const struct branmuslin_state *s, struct view *view)
{
    uint8_t met = 0;
    for (size_t i = 0; i < BRANMUSLIN_LANES; i++)
        if (s->lanes[i].octets != 0)
            memset(view->block + i * BRANMUSLIN_BLOCKS, BRANMUSLIN_BLOCKS, BRANMUSLIN_BLOCKS);
    for (size_t b = 0; b < BRANMUSLIN_BLOCKS; b++)
        view->block[s->marks[b] < FREE ? s->marks[b] : FREE] = (uint8_t)b;
    for (size_t i = 0; i < BRANMUSLIN_LANES; i++) {
        const uint32_t n = blocks_for(s->lanes[i].octets);
        for (uint32_t place = 0; place < n; place++)
            met |= view->block[i * BRANMUSLIN_BLOCKS + place];
    }
    return met < BRANMUSLIN_BLOCKS;
}

/* Whether the marks match what the lanes hold, which is `held` in all: each place has a block, and all other blocks are free. So no block is left that
   could be held twice or by nobody. */
static inline bool do_marks_match(const struct branmuslin_state *s, uint32_t held, struct view *view)
{
    uint32_t free_blocks = 0;
    for (size_t b = 0; b < BRANMUSLIN_BLOCKS; b++)
        free_blocks += s->marks[b] == FREE;
    return free_blocks + held == BRANMUSLIN_BLOCKS && (held == 0 || has_each_place(s, view));
}

static inline bool is_sound(const struct branmuslin_state *s, struct view *view)
{
    uint32_t held = 0;
    view->total = 0;
    for (size_t i = 0; i < BRANMUSLIN_LANES; i++) {
        if (!is_fine(&s->lanes[i]))
            return false;
        held += blocks_for(s->lanes[i].octets);
        view->total += need_of(&s->lanes[i]);
    }
    return view->total <= BRANMUSLIN_BLOCKS && do_marks_match(s, held, view);
}

struct branmuslin_state base_fresh_start(void)
{
    struct branmuslin_state state = {0};
    for (size_t b = 0; b < BRANMUSLIN_BLOCKS; b++)
        state.marks[b] = FREE;
    return state;
}

bool base_is_sound(struct branmuslin_state state)
{
    struct view view;
    return is_sound(&state, &view);
}

static inline uint8_t open_lane(struct branmuslin_state *state, size_t lane, const struct branmuslin_settings *settings, size_t pool_length)
{
    struct view view;
    if (pool_length != BRANMUSLIN_POOL_LENGTH || !is_sound(state, &view))
        return BRANMUSLIN_NOT_SOUND;
    if (lane >= BRANMUSLIN_LANES)
        return BRANMUSLIN_NOT_OPEN;
    if (state->lanes[lane].opened)
        return BRANMUSLIN_ALREADY_OPEN;
    if (is_illegal(settings))
        return BRANMUSLIN_BAD_SETTINGS;
    if (settings->share + view.total > BRANMUSLIN_BLOCKS)
        return BRANMUSLIN_NOT_PROMISED;
    state->lanes[lane] = (struct branmuslin_lane){.opened = true, .settings = *settings};
    return BRANMUSLIN_DONE;
}

struct branmuslin_change base_open_lane(struct branmuslin_state state, size_t lane, struct branmuslin_settings settings, const uint8_t *pool,
                                        size_t pool_length)
{
    (void)pool;
    const uint8_t refusal = open_lane(&state, lane, &settings, pool_length);
    return (struct branmuslin_change){refusal, state};
}

static void free_blocks_of(uint16_t *marks, size_t lane)
{
    for (size_t b = 0; b < BRANMUSLIN_BLOCKS; b++)
        marks[b] = marks[b] / BRANMUSLIN_BLOCKS == lane ? FREE : marks[b];
}

static inline uint8_t close_lane(struct branmuslin_state *state, size_t lane, size_t pool_length, uint8_t *output, size_t output_length)
{
    struct view view;
    if (pool_length != BRANMUSLIN_POOL_LENGTH || !is_sound(state, &view))
        return BRANMUSLIN_NOT_SOUND;
    if (lane >= BRANMUSLIN_LANES || !state->lanes[lane].opened)
        return BRANMUSLIN_NOT_OPEN;
    struct branmuslin_lane *l = &state->lanes[lane];
    const uint8_t refusal = base_write_record(l->settings.station, l->settings.apid, l->units, l->packets, l->missing, l->broken + l->grouped, output,
                                              output_length);
    if (refusal != BRANMUSLIN_DONE)
        return refusal;
    if (l->octets != 0)
        free_blocks_of(state->marks, lane);
    *l = (struct branmuslin_lane){0};
    return BRANMUSLIN_DONE;
}

struct branmuslin_change base_close_lane(struct branmuslin_state state, size_t lane, const uint8_t *pool, size_t pool_length, uint8_t *output,
                                         size_t output_length)
{
    (void)pool;
    const uint8_t refusal = close_lane(&state, lane, pool_length, output, output_length);
    return (struct branmuslin_change){refusal, state};
}

/* A packet that came to a lane: its user data, and what it is to the lane's group. */
struct part {
    const uint8_t *octets;
    uint32_t length;
    uint32_t start;   /* where it begins in its group or unit */
    uint32_t missing;
    uint32_t count;
    bool joins;       /* whether the open group goes on */
};

/* What is told of a packet, beside the state. */
struct told {
    uint8_t refusal;
    uint8_t kind;
    bool given_up;
    uint16_t missing;
    size_t octets;
    size_t place;
};

static inline struct told refused(uint8_t refusal)
{
    return (struct told){.refusal = refusal};
}

/* The refusals that the lane's settings and the octets alone decide. The place is set for those of reading. */
static inline uint8_t refusal_of(const struct branmuslin_settings *s, const uint8_t *octets, size_t n, struct branmuslin_packet *packet, size_t *place)
{
    const uint8_t refusal = read_packet(octets, n, packet, place);
    if (refusal != BRANMUSLIN_DONE)
        return refusal;
    if (n > packet->offset + packet->length)
        return BRANMUSLIN_OCTETS_AFTER;
    if (packet->version != BRANMUSLIN_SPACE)
        return BRANMUSLIN_NOT_SPACE;
    if (packet->type == 1)
        return BRANMUSLIN_NOT_TELEMETRY;
    if (packet->apid != s->apid)
        return BRANMUSLIN_OTHER_APID;
    if (packet->secondary != (s->secondary != 0))
        return BRANMUSLIN_FLAG_DIFFERS;
    if (packet->length < s->secondary)
        return BRANMUSLIN_UNDER_SECONDARY;
    return BRANMUSLIN_DONE;
}

static inline struct part part_of(const struct branmuslin_lane *l, const uint8_t *octets, const struct branmuslin_packet *packet)
{
    struct part part;
    part.octets = octets + SPACE_HEADER + l->settings.secondary;
    part.length = packet->length - l->settings.secondary;
    part.count = packet->count;
    part.missing = l->packets == 0 ? 0 : (packet->count - l->last - 1) & MOST_COUNT;
    part.joins = l->grouped && part.missing == 0 && (packet->flags & 1) == 0;
    part.start = part.joins ? l->octets : 0;
    return part;
}

/* What every accepted packet does: it is counted, and a group that does not go on is given up. */
static inline struct told count_in(struct branmuslin_state *state, size_t lane, const struct part *part, uint8_t kind)
{
    struct branmuslin_lane *l = &state->lanes[lane];
    const bool given_up = l->grouped && !part->joins;
    if (!part->joins && l->octets != 0)
        free_blocks_of(state->marks, lane);
    l->packets++;
    l->missing += part->missing;
    l->broken += given_up;
    l->last = (uint16_t)part->count;
    return (struct told){.kind = kind, .given_up = given_up, .missing = (uint16_t)part->missing};
}

/* Stores the part: first in the rest of the group's last block, then in the lowest free ones, which become the lane's as they are met. */
static void store(uint16_t *marks, size_t lane, const struct view *view, const struct part *part, uint8_t *pool)
{
    const uint8_t *from = part->octets;
    uint32_t left = part->length, place = part->start / BLOCK;
    const uint32_t used = part->start % BLOCK;
    if (used != 0) {
        const uint32_t n = left < BLOCK - used ? left : BLOCK - used;
        memcpy(pool + view->block[lane * BRANMUSLIN_BLOCKS + place] * BLOCK + used, from, n);
        from += n;
        left -= n;
        place++;
    }
    for (size_t b = 0; left != 0; b++) {
        if (marks[b] != FREE)
            continue;
        const uint32_t n = left < BLOCK ? left : BLOCK;
        marks[b] = (uint16_t)(lane * BRANMUSLIN_BLOCKS + place++);
        memcpy(pool + b * BLOCK, from, n);
        from += n;
        left -= n;
    }
}

/* Puts the group's octets, those before the part, at the front of the output. */
static void gather(size_t lane, const struct view *view, const struct part *part, const uint8_t *pool, uint8_t *output)
{
    const uint8_t *block = view->block + lane * BRANMUSLIN_BLOCKS;
    for (uint32_t done = 0; done < part->start; done += BLOCK) {
        const uint32_t n = part->start - done < BLOCK ? part->start - done : BLOCK;
        memcpy(output + done, pool + *block++ * BLOCK, n);
    }
}

static inline struct told hold(struct branmuslin_state *state, size_t lane, const struct view *view, const struct part *part, uint8_t *pool)
{
    struct branmuslin_lane *l = &state->lanes[lane];
    const uint32_t octets = part->start + part->length, blocks = blocks_for(octets), others = view->total - need_of(l);
    if (blocks > l->settings.cap)
        return refused(BRANMUSLIN_OVER_CAP);
    if (larger(blocks, l->settings.share) + others > BRANMUSLIN_BLOCKS)
        return refused(BRANMUSLIN_OTHERS_IN_THE_WAY);
    const struct told told = count_in(state, lane, part, BRANMUSLIN_HELD);
    store(state->marks, lane, view, part, pool);
    l->grouped = true;
    l->octets = (uint16_t)octets;
    return told;
}

static inline struct told end_unit(struct branmuslin_state *state, size_t lane, const struct view *view, const struct part *part, const uint8_t *pool,
                                   uint8_t *output, size_t output_length)
{
    struct branmuslin_lane *l = &state->lanes[lane];
    const size_t octets = (size_t)part->start + part->length;
    if (output_length < octets)
        return refused(BRANMUSLIN_UNIT_TOO_LONG);
    gather(lane, view, part, pool, output);
    memcpy(output + part->start, part->octets, part->length);
    struct told told = count_in(state, lane, part, BRANMUSLIN_UNIT);
    if (part->start != 0)
        free_blocks_of(state->marks, lane);
    l->units++;
    l->grouped = false;
    l->octets = 0;
    told.octets = octets;
    return told;
}

static inline struct told stray(struct branmuslin_state *state, size_t lane, const struct part *part)
{
    const struct told told = count_in(state, lane, part, BRANMUSLIN_STRAY);
    state->lanes[lane].grouped = false;
    state->lanes[lane].octets = 0;
    return told;
}

/* What the packet does to state, pool and output. */
static inline struct told take(struct branmuslin_state *state, size_t lane, const uint8_t *packet, size_t packet_length, uint8_t *pool,
                               size_t pool_length, uint8_t *output, size_t output_length)
{
    struct branmuslin_packet read;
    struct view view;
    size_t place = 0;
    if (pool_length != BRANMUSLIN_POOL_LENGTH || !is_sound(state, &view))
        return refused(BRANMUSLIN_NOT_SOUND);
    if (lane >= BRANMUSLIN_LANES || !state->lanes[lane].opened)
        return refused(BRANMUSLIN_NOT_OPEN);
    const struct branmuslin_lane *l = &state->lanes[lane];
    const uint8_t refusal = refusal_of(&l->settings, packet, packet_length, &read, &place);
    if (refusal != BRANMUSLIN_DONE)
        return (struct told){.refusal = refusal, .place = place};
    if (l->packets != 0 && read.count == l->last)
        return (struct told){.kind = BRANMUSLIN_REPEAT};
    if (l->packets >= BRANMUSLIN_MOST_PACKETS)
        return refused(BRANMUSLIN_LANE_FULL);
    const struct part part = part_of(l, packet, &read);
    if (read.flags == BRANMUSLIN_UNSEGMENTED || (read.flags == BRANMUSLIN_LAST && part.joins))
        return end_unit(state, lane, &view, &part, pool, output, output_length);
    if (read.flags == BRANMUSLIN_FIRST || part.joins)
        return hold(state, lane, &view, &part, pool);
    return stray(state, lane, &part);
}

/* The state came by value, so it is changed where it lies, and copied once. */
struct branmuslin_answer base_take_packet(struct branmuslin_state state, size_t lane, const uint8_t *packet, size_t packet_length, uint8_t *pool,
                                          size_t pool_length, uint8_t *output, size_t output_length)
{
    const struct told told = take(&state, lane, packet, packet_length, pool, pool_length, output, output_length);
    return (struct branmuslin_answer){told.refusal, told.kind, told.given_up, told.missing, told.octets, told.place, state};
}

/* Frames. */

/* What some octets are: exactly one packet of at most 8,192 octets, the beginning of one, or neither. */
enum meaning { NEITHER, BEGINNING, ONE_PACKET };

/* Whether octets that were read as cut short may become a packet of at most 8,192: where the header is whole, it tells. */
static inline bool is_beginning(const uint8_t *s, size_t n)
{
    if (s[0] >> 5 == BRANMUSLIN_SPACE)
        return n < SPACE_HEADER || SPACE_HEADER + be16(s + 4) + 1 <= BRANMUSLIN_LONGEST_FRAMED;
    switch (s[0] & 3) {
    case 2: return n < 4 || be16(s + 2) <= BRANMUSLIN_LONGEST_FRAMED;
    case 3: return n < LONGEST_HEADER || be32(s + 4) <= BRANMUSLIN_LONGEST_FRAMED;
    default: return true;
    }
}

/* The piece with the first n octets of the field after it. They lie apart, but reading looks only at the header: so the longest one's octets suffice. */
static inline enum meaning meaning_of(const uint8_t *piece, size_t kept, const uint8_t *field, size_t n)
{
    uint8_t front[LONGEST_HEADER];
    struct branmuslin_packet packet;
    size_t place;
    const uint8_t *header = piece;
    if (kept < LONGEST_HEADER) {
        memcpy(front, piece, kept);
        memcpy(front + kept, field, n < LONGEST_HEADER - kept ? n : LONGEST_HEADER - kept);
        header = front;
    }
    const uint8_t refusal = read_packet(header, kept + n, &packet, &place);
    if (refusal == BRANMUSLIN_DONE)
        return packet.offset + packet.length == kept + n && kept + n <= BRANMUSLIN_LONGEST_FRAMED ? ONE_PACKET : NEITHER;
    return refusal == BRANMUSLIN_CUT_SHORT && is_beginning(header, kept + n) ? BEGINNING : NEITHER;
}

/* The whole packets at the front of some octets, and whether what comes after them can't be the beginning of one. */
struct walked {
    size_t octets, packets;
    bool dropped;
};

static inline struct walked walk(const uint8_t *s, size_t n)
{
    struct walked walked = {0, 0, false};
    struct branmuslin_packet packet;
    size_t place;
    while (walked.octets < n) {
        const uint8_t refusal = read_packet(s + walked.octets, n - walked.octets, &packet, &place);
        if (refusal != BRANMUSLIN_DONE) {
            walked.dropped = refusal != BRANMUSLIN_CUT_SHORT || !is_beginning(s + walked.octets, n - walked.octets);
            break;
        }
        walked.octets += packet.offset + packet.length;
        walked.packets++;
    }
    return walked;
}

static inline bool is_bad_frame(const struct branmuslin_frames *s, uint32_t count, uint32_t pointer, size_t field_length, size_t piece_length)
{
    const bool is_offset = pointer != BRANMUSLIN_IDLE_ONLY && pointer != BRANMUSLIN_NO_PACKET;
    return field_length < BRANMUSLIN_SHORTEST_FIELD || field_length > BRANMUSLIN_LONGEST_FIELD || piece_length != BRANMUSLIN_PIECE_LENGTH ||
           count > 255 || (is_offset && pointer >= field_length) || s->piece >= BRANMUSLIN_PIECE_LENGTH;
}

/* What the piece becomes with the first n octets of the field. */
static inline enum meaning goes_on(const struct branmuslin_frames *s, uint32_t count, uint32_t pointer, const uint8_t *field, size_t n,
                                   const uint8_t *piece)
{
    if (s->piece == 0 || (s->started && count != (s->count + 1u) % 256) || pointer == BRANMUSLIN_IDLE_ONLY)
        return NEITHER;
    const enum meaning meaning = meaning_of(piece, s->piece, field, n);
    return meaning == BEGINNING && pointer != BRANMUSLIN_NO_PACKET ? NEITHER : meaning;
}

struct branmuslin_frames base_fresh_frames(void)
{
    return (struct branmuslin_frames){0};
}

/* All is decided before the first octet is copied, and each is copied once. */
struct branmuslin_framed base_take_frame(struct branmuslin_frames state, uint32_t count, uint32_t pointer, const uint8_t *field, size_t field_length,
                                         uint8_t *piece, size_t piece_length, uint8_t *output, size_t output_length)
{
    if (is_bad_frame(&state, count, pointer, field_length, piece_length))
        return (struct branmuslin_framed){.refusal = BRANMUSLIN_BAD_FRAME, .state = state};
    if (output_length < BRANMUSLIN_FRAME_OUTPUT)
        return (struct branmuslin_framed){.refusal = BRANMUSLIN_NO_ROOM, .state = state};
    if (state.started && count == state.count)
        return (struct branmuslin_framed){.kind = BRANMUSLIN_FRAME_REPEAT, .state = state};
    const size_t from = pointer < field_length ? pointer : field_length;
    const enum meaning meaning = goes_on(&state, count, pointer, field, from, piece);
    const struct walked walked = walk(field + from, field_length - from);
    const size_t to = from + walked.octets;
    size_t out = walked.octets, left = 0;
    if (meaning == ONE_PACKET) {
        memcpy(output, piece, state.piece);
        memcpy(output + state.piece, field, to);
        out = state.piece + to;
    } else {
        memcpy(output, field + from, out);
    }
    if (meaning == BEGINNING) {
        memcpy(piece + state.piece, field, field_length);
        left = state.piece + field_length;
    } else if (!walked.dropped) {
        left = field_length - to;
        memcpy(piece, field + to, left);
    }
    return (struct branmuslin_framed){.kind = BRANMUSLIN_FRAME_TAKEN, .given_up = state.piece != 0 && meaning == NEITHER, .dropped = walked.dropped,
                                      .packets = walked.packets + (meaning == ONE_PACKET), .octets = out, .state = {true, (uint8_t)count, left}};
}
