/*
 * The library with one fault, to show that the harness finds it: linked with -Wl,--wrap, each function goes through here, and the environment variable
 * WRONG names the fault. Without it nothing is changed.
 */
#include "../wrapped.h"

#include <stdlib.h>
#include <string.h>

typedef struct branmuslin_state state;
typedef struct branmuslin_change change;
typedef struct branmuslin_answer answer;
typedef struct branmuslin_frames frames;
typedef struct branmuslin_framed framed;

static bool wrong(const char *fault)
{
    const char *const chosen = getenv("WRONG");
    return chosen && strcmp(chosen, fault) == 0;
}

/* Faults of the place of what reading refused. */
static void misplace(uint8_t refusal, const uint8_t *octets, size_t length, size_t *place)
{
    if ((refusal == 4 || refusal == 5) && wrong("read_packet-length-always-at-1"))
        *place = 1;
    if (refusal == 7 && *place == 1 && octets[0] % 4 == 3 && (octets[2] | octets[3]) != 0 && wrong("read_packet-later-of-two"))
        *place = octets[2] != 0 ? 2 : 3;
    if (refusal == 7 && *place == 3 && wrong("read_packet-ccsds-always-at-2"))
        *place = 2;
    if (refusal == 1 && length >= 6 && octets[0] < 0x20 && wrong("read_packet-octets-missing"))
        *place = 7 + octets[4] * 256u + octets[5] - length;
}

WRAPPED(uint8_t, read_packet, const uint8_t *octets, size_t length, struct branmuslin_packet *packet, size_t *place)
{
    const size_t before = *place;
    const uint8_t refusal = REAL(read_packet)(octets, length, packet, place);
    misplace(refusal, octets, length, place);
    if (refusal != 0 && wrong("read_packet-tells-no-place"))
        *place = before;
    if (refusal == 0 && wrong("read_packet-places-accepted"))
        *place = 0;
    if (refusal != 0 && wrong("read_packet-sets-refused"))
        packet->length = 0;
    if (refusal == 0 && wrong("read_packet-another-length"))
        packet->length++;
    if (wrong("read_packet-looks-behind"))
        return refusal + 0 * ((const volatile uint8_t *)octets)[length];
    if (wrong("read_packet-looks-before"))
        return refusal + 0 * ((const volatile uint8_t *)octets)[-1];
    return refusal == 5 && wrong("read_packet-another-number") ? 1 : refusal;
}

WRAPPED(uint8_t, write_space, uint32_t type, uint32_t secondary, uint32_t apid, uint32_t flags, uint32_t count, const uint8_t *data, size_t data_length,
        uint8_t *output, size_t output_length, size_t *written)
{
    const uint8_t refusal = REAL(write_space)(type, secondary, apid, flags, count, data, data_length, output, output_length, written);
    if (refusal == 9 && wrong("write_space-begins-refused"))
        output[0] ^= 1;
    if (refusal != 0 && wrong("write_space-counts-refused"))
        *written = 0;
    if (refusal == 0 && wrong("write_space-writes-behind") && *written < output_length)
        output[*written] ^= 1;
    return refusal;
}

WRAPPED(uint8_t, write_encapsulation, uint32_t protocol, uint32_t user, uint32_t extension, const uint8_t *content, size_t content_length,
        uint8_t *output, size_t output_length, size_t *written)
{
    const uint8_t refusal = REAL(write_encapsulation)(protocol, user, extension, content, content_length, output, output_length, written);
    if (refusal == 9 && wrong("write_encapsulation-begins-refused"))
        output[0] ^= 1;
    if (refusal == 0 && wrong("write_encapsulation-changes-content") && content_length > 0)
        output[*written - 1] ^= 1;
    return refusal;
}

WRAPPED(uint8_t, write_record, uint16_t station, uint16_t apid, uint32_t units, uint32_t packets, uint32_t missing, uint32_t broken, uint8_t *output,
        size_t output_length)
{
    const bool swap = wrong("write_record-swaps-tallies");
    const uint8_t refusal = REAL(write_record)(station, apid, swap ? broken : units, packets, missing, swap ? units : broken, output, output_length);
    if (refusal == 25 && wrong("write_record-begins-refused"))
        output[0] ^= 1;
    return refusal;
}

WRAPPED(uint8_t, read_record, const uint8_t *octets, size_t length, struct branmuslin_record *record)
{
    const uint8_t refusal = REAL(read_record)(octets, length, record);
    if (refusal == 25 && wrong("read_record-sets-refused"))
        record->station = 0;
    return refusal == 25 && wrong("read_record-takes-impossible") ? 0 : refusal;
}

WRAPPED(uint8_t, read_record_file, const uint8_t *octets, size_t length, size_t *records, size_t *index)
{
    const uint8_t refusal = REAL(read_record_file)(octets, length, records, index);
    if (refusal == 25 && wrong("read_record_file-counts-refused"))
        *records = *index;
    if (refusal == 25 && wrong("read_record_file-another-index"))
        ++*index;
    return refusal;
}

WRAPPED(state, fresh_start, void)
{
    state s = REAL(fresh_start)();
    if (wrong("fresh_start-block-taken"))
        s.marks[63] = 0;
    return s;
}

WRAPPED(bool, is_sound, state s)
{
    return wrong("is_sound-always") || (!wrong("is_sound-never") && REAL(is_sound)(s));
}

WRAPPED(change, open_lane, state s, size_t lane, struct branmuslin_settings settings, const uint8_t *pool, size_t pool_length)
{
    change c = REAL(open_lane)(s, lane, settings, pool, pool_length);
    if (c.refusal == 23 && wrong("open_lane-opens-refused"))
        c.state.lanes[lane].opened = true;
    if (c.refusal == 0 && wrong("open_lane-another-cap"))
        c.state.lanes[lane].settings.cap = 64;
    return c;
}

/* Faults of a packet that was accepted. */
static void spoil(answer *a, size_t lane, uint8_t *pool, uint8_t *output, size_t output_length)
{
    struct branmuslin_lane *const l = &a->state.lanes[lane];
    if (wrong("take_packet-counts-twice"))
        l->packets++;
    if (a->given_up && wrong("take_packet-hides-given-up"))
        l->broken--;
    if (a->missing > 0 && wrong("take_packet-another-missing"))
        a->missing--;
    if (a->kind == BRANMUSLIN_HELD && wrong("take_packet-holds-wrong-octet"))
        pool[0] ^= 1;
    if (a->kind == BRANMUSLIN_STRAY && wrong("take_packet-stray-changes-pool"))
        pool[BRANMUSLIN_POOL_LENGTH - 1] ^= 1;
    if (a->kind == BRANMUSLIN_UNIT && a->octets > 0 && wrong("take_packet-changes-unit"))
        output[a->octets - 1] ^= 1;
    if (a->kind == BRANMUSLIN_UNIT && a->octets < output_length && wrong("take_packet-writes-behind-unit"))
        output[a->octets] ^= 1;
    if (a->kind == BRANMUSLIN_UNIT && wrong("take_packet-unit-over-output"))
        a->octets = output_length + 1;
    if (a->kind == BRANMUSLIN_REPEAT && wrong("take_packet-counts-repeat"))
        l->packets++;
}

WRAPPED(answer, take_packet, state s, size_t lane, const uint8_t *packet, size_t length, uint8_t *pool, size_t pool_length, uint8_t *output,
        size_t output_length)
{
    answer a = REAL(take_packet)(s, lane, packet, length, pool, pool_length, output, output_length);
    if (a.refusal == 0)
        spoil(&a, lane, pool, output, output_length);
    if (a.refusal < 8 && wrong("take_packet-drops-place"))
        a.place = 0;
    if (a.refusal == 12 && wrong("take_packet-places-octets-after"))
        a.place = length - 1;
    if (a.refusal == 19 && wrong("take_packet-gives-up-refused"))
        a.state.lanes[lane].broken++;
    if (a.refusal == 27 && wrong("take_packet-drops-old-group"))
        a.state.lanes[lane].grouped = false;
    if (a.refusal == 27 && wrong("take_packet-19-for-27"))
        a.refusal = 19;
    if (a.refusal == 19 && wrong("take_packet-27-for-19"))
        a.refusal = 27;
    if (a.refusal == 19 && wrong("take_packet-27-for-both")) {
        /* Whether the sum is too large as well shows with the largest cap. The packet may be held then, so the pool is another. */
        uint8_t other[BRANMUSLIN_POOL_LENGTH] = {0};
        s.lanes[lane].settings.cap = BRANMUSLIN_BLOCKS;
        if (REAL(take_packet)(s, lane, packet, length, other, sizeof other, output, output_length).refusal == 27)
            a.refusal = 27;
    }
    if (a.refusal == 20 && wrong("take_packet-begins-refused-unit"))
        output[0] ^= 1;
    if (a.refusal == 24 && pool_length > 0 && wrong("take_packet-changes-refused-pool"))
        pool[pool_length - 1] ^= 1;
    return a;
}

WRAPPED(change, close_lane, state s, size_t lane, const uint8_t *pool, size_t pool_length, uint8_t *output, size_t output_length)
{
    change c = REAL(close_lane)(s, lane, pool, pool_length, output, output_length);
    if (c.refusal == 0 && s.lanes[lane].grouped && wrong("close_lane-forgets-broken"))
        output[19]--;
    if (c.refusal == 0 && wrong("close_lane-stays-open"))
        c.state.lanes[lane].opened = true;
    if (c.refusal == 9 && output_length > 0 && wrong("close_lane-begins-refused"))
        output[0] ^= 1;
    return c;
}

WRAPPED(frames, fresh_frames, void)
{
    frames s = REAL(fresh_frames)();
    if (wrong("fresh_frames-began-before"))
        s.started = true;
    return s;
}

/* A frame as it was handed in: the faults below look at it again. */
struct frame {
    frames before;
    uint32_t count, pointer;
    const uint8_t *field;
    size_t length;
};

static bool is_in_step(const struct frame *f)
{
    return !f->before.started || f->count == (f->before.count + 1u) % 256;
}

/* Where the rest of the field begins that was kept or dropped: after the packets that came out of it. */
static size_t rest_of(const struct frame *f, const framed *a)
{
    const bool finished = f->before.piece > 0 && !a->given_up;
    return finished ? a->octets - f->before.piece : f->pointer + a->octets;
}

/* A rest that is the beginning of a Space Packet of 8,193 octets is kept. */
static void keep_8193(const struct frame *f, framed *a, uint8_t *piece)
{
    const size_t at = rest_of(f, a);
    if (f->length - at < 6 || f->field[at] >= 0x20 || f->field[at + 4] * 256 + f->field[at + 5] != 8193 - 7)
        return;
    a->dropped = false;
    a->state.piece = f->length - at;
    memcpy(piece, f->field + at, f->length - at);
}

/* A rest that is dropped is read on after the octet that is wrong. */
static void read_dropped(const struct frame *f, framed *a, uint8_t *output)
{
    struct branmuslin_packet p;
    size_t place;
    for (size_t at = rest_of(f, a) + 1; at < f->length && REAL(read_packet)(f->field + at, f->length - at, &p, &place) == 0; at += p.offset + p.length) {
        memcpy(output + a->octets, f->field + at, p.offset + p.length);
        a->octets += p.offset + p.length;
        a->packets++;
    }
}

/* A piece that is not whole comes out with the pointer 0 as if it were. */
static void accept_piece(const struct frame *f, framed *a, const uint8_t *old_piece, uint8_t *output)
{
    memmove(output + f->before.piece, output, a->octets);
    memcpy(output, old_piece, f->before.piece);
    a->given_up = false;
    a->packets++;
    a->octets += f->before.piece;
}

/* Faults of a frame that was taken. */
static void spoil_frame(const struct frame *f, framed *a, const uint8_t *old_piece, uint8_t *piece, uint8_t *output, size_t output_length)
{
    if (f->pointer == 2046 && wrong("take_frame-2046-keeps-piece")) {
        a->state.piece = f->before.piece;
        a->given_up = false;
    }
    if (f->pointer == 0 && a->given_up && is_in_step(f) && wrong("take_frame-0-accepts-piece"))
        accept_piece(f, a, old_piece, output);
    if (a->dropped && wrong("take_frame-lets-8193-through"))
        keep_8193(f, a, piece);
    if (a->dropped && wrong("take_frame-reads-dropped-rest"))
        read_dropped(f, a, output);
    if (a->state.piece > 0 && wrong("take_frame-piece-one-off"))
        memmove(piece + 1, piece, a->state.piece);
    if (a->given_up && wrong("take_frame-hides-given-up"))
        a->given_up = false;
    if (a->dropped && wrong("take_frame-hides-dropped"))
        a->dropped = false;
    if (a->octets < output_length && wrong("take_frame-writes-behind-packets"))
        output[a->octets] ^= 1;
    if (a->state.piece < BRANMUSLIN_PIECE_LENGTH && wrong("take_frame-writes-behind-piece"))
        piece[a->state.piece] ^= 1;
    if (wrong("take_frame-forgets-count"))
        a->state.count = f->before.count;
}

WRAPPED(framed, take_frame, frames s, uint32_t count, uint32_t pointer, const uint8_t *field, size_t field_length, uint8_t *piece, size_t piece_length,
        uint8_t *output, size_t output_length)
{
    static uint8_t old_piece[BRANMUSLIN_PIECE_LENGTH];
    const struct frame f = {s, count, pointer, field, field_length};
    if (piece_length == sizeof old_piece)
        memcpy(old_piece, piece, sizeof old_piece);
    /* In step is what comes after the count before. */
    if (count < 256 && s.started && count != s.count && wrong("take_frame-gap-keeps-piece"))
        s.count = (uint8_t)(count - 1);
    framed a = REAL(take_frame)(s, count, pointer, field, field_length, piece, piece_length, output, output_length);
    if (a.kind == BRANMUSLIN_FRAME_TAKEN)
        spoil_frame(&f, &a, old_piece, piece, output, output_length);
    if (a.kind == BRANMUSLIN_FRAME_REPEAT && wrong("take_frame-repeat-drops-piece"))
        a.state.piece = 0;
    if (a.refusal == 28 && wrong("take_frame-refused-counts"))
        a.state.count = (uint8_t)count;
    if (a.refusal == 28 && output_length < BRANMUSLIN_FRAME_OUTPUT && wrong("take_frame-9-for-28"))
        a.refusal = 9;
    if (a.refusal == 9 && wrong("take_frame-9-changes-piece"))
        piece[0] ^= 1;
    return a;
}
