/*
 * frame_calls.h: frames handed to the library, each call compared with what is expected of it: the answer, the state, and every octet of the field, the
 * buffer and the output. A call that is refused, or a repeat, must change nothing.
 */
#ifndef FRAME_CALLS_H
#define FRAME_CALLS_H

#include "calls.h"

/* The state and the buffer between two calls. The buffer is lent as long as is said, so that it can be wrong. */
struct recording {
    struct branmuslin_frames state;
    uint8_t buffer[BRANMUSLIN_PIECE_LENGTH + 1];
    size_t buffer_length;
};
extern struct recording tape;

/* No piece and no frame before, written by hand, and a buffer of noise. */
void start_recording(void);

/* The state as it is said, with such a piece in the buffer. */
void start_from_piece(bool started, uint8_t count, struct octets piece);

/* Octets in which packets lie one after another; the fields of a test, its packets and its pieces are parts of them. */
#define LONGEST_STREAM 60000
void empty_stream(void);
void lay(struct octets octets);
size_t laid(void);
struct octets cut(size_t from, size_t to);

/* Lays a Space Packet of so many octets in all, 7 at least. */
void lay_packet(size_t length);

/* What a frame is answered; the piece is that after it. */
struct framed {
    uint8_t refusal, kind;
    bool given_up, dropped;
    size_t packets;
    struct octets out, piece;
};
#define NOT_TAKEN(number) ((struct framed){number, BRANMUSLIN_FRAME_REFUSED, false, false, 0, NO_OCTETS, NO_OCTETS})
#define SAME_AGAIN ((struct framed){0, BRANMUSLIN_FRAME_REPEAT, false, false, 0, NO_OCTETS, NO_OCTETS})
#define TAKEN(packets, out, piece) ((struct framed){0, BRANMUSLIN_FRAME_TAKEN, false, false, packets, out, piece})
#define TAKEN_GIVEN_UP(packets, out, piece) ((struct framed){0, BRANMUSLIN_FRAME_TAKEN, true, false, packets, out, piece})
#define TAKEN_DROPPED(packets, out) ((struct framed){0, BRANMUSLIN_FRAME_TAKEN, false, true, packets, out, NO_OCTETS})
#define TAKEN_BOTH(packets, out) ((struct framed){0, BRANMUSLIN_FRAME_TAKEN, true, true, packets, out, NO_OCTETS})

/* The call, with an output of just the length that it needs, or of another. */
void frames(struct place place, uint32_t count, uint32_t pointer, struct octets field, struct framed framed);
void frames_into(struct place place, size_t output_length, uint32_t count, uint32_t pointer, struct octets field, struct framed framed);

#endif
