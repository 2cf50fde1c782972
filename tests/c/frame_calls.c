/* Frames handed to the library with lent memory, compared with what is expected. */
#include "frame_calls.h"
#include <stdio.h>
#include <stdlib.h>
#include <string.h>

struct recording tape;
static uint8_t stream[LONGEST_STREAM];
static size_t stream_length;

void start_recording(void)
{
    start_from_piece(false, 0, NO_OCTETS);
}

void start_from_piece(bool started, uint8_t count, struct octets piece)
{
    tape.state.started = started;
    tape.state.count = count;
    tape.state.piece = piece.length;
    tape.buffer_length = BRANMUSLIN_PIECE_LENGTH;
    memcpy(tape.buffer, part(500, sizeof tape.buffer).at, sizeof tape.buffer);
    memcpy(tape.buffer, piece.at, piece.length);
}

void empty_stream(void)
{
    stream_length = 0;
}

void lay(struct octets octets)
{
    if (octets.length > sizeof stream - stream_length) {
        fputs("a test's stream is too long\n", stderr);
        exit(1);
    }
    memcpy(stream + stream_length, octets.at, octets.length);
    stream_length += octets.length;
}

size_t laid(void)
{
    return stream_length;
}

struct octets cut(size_t from, size_t to)
{
    return (struct octets){stream + from, to - from};
}

/* Its user data is other noise at another place, so that an octet that comes from elsewhere shows. */
void lay_packet(size_t length)
{
    lay(packet(42, BRANMUSLIN_UNSEGMENTED, 5, 0, part(stream_length % 1000, length - 6)));
}

static void same_framed(struct place place, struct framed framed, struct branmuslin_framed got)
{
    same(place, "the refusal", framed.refusal, got.refusal);
    same(place, "the kind", framed.kind, got.kind);
    same(place, "given up", framed.given_up, got.given_up);
    same(place, "dropped", framed.dropped, got.dropped);
    same(place, "packets", framed.packets, got.packets);
    same(place, "octets", framed.out.length, got.octets);
    same(place, "whether a frame came before", tape.state.started, got.state.started);
    same(place, "the count of the frame before", tape.state.count, got.state.count);
    same(place, "the octets of the piece", tape.state.piece, got.state.piece);
}

void frames_into(struct place place, size_t output_length, uint32_t count, uint32_t pointer, struct octets field, struct framed framed)
{
    const struct lent input = lend(field), buffer = lend((struct octets){tape.buffer, tape.buffer_length}), output = lend_noise(output_length);
    const struct branmuslin_framed got = branmuslin_take_frame(tape.state, count, pointer, input.octets, input.length, buffer.octets, buffer.length,
                                                               output.octets, output.length);
    if (framed.kind == BRANMUSLIN_FRAME_TAKEN) {
        tape.state.started = true;
        tape.state.count = (uint8_t)count;
        tape.state.piece = framed.piece.length;
        memcpy(tape.buffer, framed.piece.at, framed.piece.length);
    }
    same_framed(place, framed, got);
    holds(place, "the field", input, NO_OCTETS);
    holds(place, "the output", output, framed.out);
    holds(place, "the buffer", buffer, framed.piece);
}

void frames(struct place place, uint32_t count, uint32_t pointer, struct octets field, struct framed framed)
{
    frames_into(place, BRANMUSLIN_FRAME_OUTPUT, count, pointer, field, framed);
}
