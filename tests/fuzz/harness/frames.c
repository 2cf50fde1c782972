/*
 * Frames: runs of calls from a fresh start, and calls on any state and buffer. Each call is judged by the state that it was handed and the buffer that it
 * was lent, so that a run and a single call are judged alike.
 */
#include "harness.h"
#include <string.h>

typedef struct branmuslin_frames frames;
typedef struct branmuslin_framed framed;

#define LONGEST_BUFFER (BRANMUSLIN_PIECE_LENGTH + 1024)

/* A state and the buffer that belongs to it; and where a source is that sends packets of a size, one after another. */
struct recording {
    frames state;
    struct lent buffer;
    size_t size, sent;
};

/* The count and the pointer of a frame, and the room for its packets. */
struct frame {
    uint32_t count, pointer;
    size_t space;
};

/* Exactly one packet of at most 8,192 octets. */
static bool is_one_packet(const uint8_t *octets, size_t length)
{
    struct branmuslin_packet p = {0};
    return expected_reading(octets, length, &p) == 0 && p.offset + p.length == length && length <= BRANMUSLIN_LONGEST_FRAMED;
}

/* The beginning of one: where its header is not whole, the fields stay 0. */
static bool is_unfinished(const uint8_t *octets, size_t length)
{
    struct branmuslin_packet p = {0};
    return expected_reading(octets, length, &p) == 1 && p.offset + p.length <= BRANMUSLIN_LONGEST_FRAMED;
}

static bool is_bad(const struct recording *r, struct frame f, struct lent field)
{
    if (field.length < 8 || field.length > 2046 || r->buffer.length != 8192)
        return true;
    if (f.count > 255 || r->state.piece > 8191)
        return true;
    return f.pointer != 2046 && f.pointer != 2047 && f.pointer >= field.length;
}

/* The piece and the octets before the pointer, or with 2047 the field, side by side. Returns how many there are. */
static size_t join(const struct recording *r, struct frame f, struct lent field, uint8_t *joined)
{
    const size_t before = f.pointer == 2047 ? field.length : f.pointer;
    memcpy(joined, r->buffer.octets, r->state.piece);
    memcpy(joined + r->state.piece, field.octets, before);
    return r->state.piece + before;
}

/* Goes on with the piece, or gives it up. Returns whether the field is used up with that. */
static bool expect_piece(const struct recording *r, struct frame f, struct lent field, struct lent output, framed *e)
{
    static uint8_t joined[BRANMUSLIN_PIECE_LENGTH + BRANMUSLIN_LONGEST_FIELD];
    const bool in_step = !r->state.started || f.count == (r->state.count + 1u) % 256;
    if (r->state.piece > 0 && in_step && f.pointer != 2046) {
        const size_t length = join(r, f, field, joined);
        if (is_one_packet(joined, length)) {
            memcpy(as_lent(output), joined, length);
            e->packets = 1;
            e->octets = length;
            return f.pointer == 2047;
        }
        if (f.pointer == 2047 && is_unfinished(joined, length)) {
            memcpy(as_lent(r->buffer), joined, length);
            e->state.piece = length;
            return true;
        }
    }
    e->given_up = r->state.piece > 0;
    return f.pointer == 2046 || f.pointer == 2047;
}

/* Reads on at the pointer; what is expected of output and buffer goes into the copies that they are compared with. */
static void expect_rest(const struct recording *r, struct frame f, struct lent field, struct lent output, framed *e)
{
    size_t at = f.pointer;
    struct branmuslin_packet p;
    while (at < field.length && expected_reading(field.octets + at, field.length - at, &p) == 0) {
        const size_t length = p.offset + p.length;
        memcpy(as_lent(output) + e->octets, field.octets + at, length);
        e->octets += length;
        e->packets++;
        at += length;
    }
    if (at == field.length)
        return;
    e->dropped = !is_unfinished(field.octets + at, field.length - at);
    if (e->dropped)
        return;
    memcpy(as_lent(r->buffer), field.octets + at, field.length - at);
    e->state.piece = field.length - at;
}

static framed expected_frame(const struct recording *r, struct frame f, struct lent field, struct lent output)
{
    framed e = {.state = r->state};
    if (is_bad(r, f, field))
        e.refusal = 28;
    else if (output.length < 10238)
        e.refusal = 9;
    else if (r->state.started && f.count == r->state.count)
        e.kind = BRANMUSLIN_FRAME_REPEAT;
    else {
        e.kind = BRANMUSLIN_FRAME_TAKEN;
        e.state.started = true;
        e.state.count = (uint8_t)f.count;
        e.state.piece = 0;
        if (!expect_piece(r, f, field, output, &e))
            expect_rest(r, f, field, output, &e);
    }
    return e;
}

static bool same_frames(const frames *a, const frames *b)
{
    return a->started == b->started && a->count == b->count && a->piece == b->piece;
}

static void give_frame(struct recording *r, struct frame f, struct lent field)
{
    const struct lent output = lend_noise(OUTPUT, f.space, 15);
    lend_again(r->buffer);
    const framed e = expected_frame(r, f, field, output);
    calling(TAKE_FRAME);
    const framed got = branmuslin_take_frame(r->state, f.count, f.pointer, field.octets, field.length, r->buffer.octets, r->buffer.length,
                                             output.octets, output.length);
    answered(TAKE_FRAME, e.refusal, got.refusal);
    DEMAND(got.kind == e.kind, "the kind is refused, a repeat by the count, or taken");
    DEMAND(got.given_up == e.given_up, "a piece is given up where the header says so, and told");
    DEMAND(got.dropped == e.dropped, "the rest of a field is dropped where the header says so, and told");
    DEMAND(got.packets == e.packets && got.octets == e.octets, "the packets that come out, and their octets");
    DEMAND(same_frames(&got.state, &e.state), "the state is the expected one: as it was if the frame was refused or a repeat");
    unchanged(field, "the field stays as it was");
    unchanged(output, "the output has the packets at its front, and stays as it was behind them or if there are none");
    unchanged(r->buffer, "the buffer has the piece at its front, and stays as it was elsewhere or if there is none");
    notice(FRAMES_NOTICED + got.kind * 8u + got.given_up * 4u + got.dropped * 2u + (got.packets > 0));
    notice(PIECES_NOTICED + (unsigned)(got.state.piece % 16384 / 1024));
    r->state = got.state;
}

/* A frame of any numbers and octets. */
static void call_raw(struct recording *r, struct input *input)
{
    struct frame f;
    f.count = next_number(input, 4);
    f.pointer = next_number(input, 4);
    f.space = next_space(input, BRANMUSLIN_FRAME_OUTPUT);
    const size_t length = next_number(input, 3) % (LONGEST_INPUT + 1);
    give_frame(r, f, lend_input(INPUT, input, length));
}

/* The next octets of the source: the front of each header, and noise as the data, which lies in the memory already. Returns the right pointer. */
static uint32_t send(struct recording *r, struct lent field, size_t next_size)
{
    uint32_t pointer = 2047;
    for (size_t at = 0; at < field.length; at++, r->sent++) {
        if (r->sent == r->size) {
            r->sent = 0;
            r->size = next_size;
            if (pointer == 2047)
                pointer = (uint32_t)at;
        }
        const uint8_t header[6] = {0x00, 0x2A, 0xC0, 0x05, (uint8_t)((r->size - 7) / 256), (uint8_t)((r->size - 7) % 256)};
        if (r->sent < sizeof header)
            field.octets[at] = header[r->sent];
    }
    lend_again(field);
    return pointer;
}

/* The source's next frame: its count a step from the last one, its pointer the right one or a step beside it, and packets of a size that begin in it. */
static void call_next(struct recording *r, struct input *input)
{
    struct frame f;
    f.count = (r->state.count + 1u + (uint32_t)(int8_t)next_octet(input)) % 256;
    const int8_t beside = (int8_t)next_octet(input);
    const size_t length = next_number(input, 2) % 2048, size = 7 + next_number(input, 2) % 8200;
    f.space = next_space(input, BRANMUSLIN_FRAME_OUTPUT);
    const struct lent field = lend_noise(INPUT, length, next_octet(input));
    f.pointer = send(r, field, size) + (uint32_t)beside;
    give_frame(r, f, field);
}

/* Any call of the two. */
static void any_frame(struct recording *r, struct input *input)
{
    if (next_octet(input) % 2 == 0)
        call_raw(r, input);
    else
        call_next(r, input);
}

/* One call that lends a buffer of another length; the run goes on as if it had not been made. */
static void lend_other_buffer(const struct recording *r, struct input *input)
{
    static uint8_t kept[BRANMUSLIN_PIECE_LENGTH];
    struct recording other = *r;
    memcpy(kept, r->buffer.octets, sizeof kept);
    other.buffer = lend_noise(BUFFER, next_number(input, 2) % LONGEST_BUFFER, 16);
    any_frame(&other, input);
    lend_noise(BUFFER, BRANMUSLIN_PIECE_LENGTH, 0);
    memcpy(r->buffer.octets, kept, sizeof kept);
}

/* Another state, and octets at the front of the buffer; the run goes on with what the next call leaves. */
static void change_state(struct recording *r, struct input *input)
{
    r->state.started = next_octet(input) % 2;
    r->state.count = next_octet(input);
    r->state.piece = (size_t)next_number(input, 2) << next_octet(input) % 48;
    for (size_t n = next_number(input, 2) % (BRANMUSLIN_PIECE_LENGTH + 1), at = 0; at < n && input->left > 0; at++)
        r->buffer.octets[at] = next_octet(input);
}

void fuzz_frames(struct input *input)
{
    calling(FRESH_FRAMES);
    struct recording r = {branmuslin_fresh_frames(), lend_noise(BUFFER, BRANMUSLIN_PIECE_LENGTH, next_octet(input)), 0, 0};
    answered(FRESH_FRAMES, 0, 0);
    DEMAND(same_frames(&r.state, &(frames){false, 0, 0}), "a fresh start has no piece and no frame before");
    while (input->left > 0) {
        switch (next_octet(input) % 4) {
        case 0: call_raw(&r, input); break;
        case 1: call_next(&r, input); break;
        case 2: lend_other_buffer(&r, input); break;
        default: change_state(&r, input);
        }
    }
}
