/*
 * The library as it would be if its array had not vanished, to show that deepest.c finds that: linked with -Wl,--wrap, each function that copies goes
 * through here, and copies what it is lent by way of an array on the stack. The array is not cleared first, so that only what is copied touches it.
 */
#include "../wrapped.h"

#include <stdlib.h>
#include <string.h>

/* The compiler must make the array, since its address goes to a function that it doesn't see. */
static void copy(uint8_t *apart, const uint8_t *octets, size_t length)
{
    if (length > BRANMUSLIN_LONGEST_PACKET)
        abort();
    memcpy(apart, octets, length);
}

WRAPPED(uint8_t, write_space, uint32_t type, uint32_t secondary, uint32_t apid, uint32_t flags, uint32_t count, const uint8_t *data, size_t data_length,
        uint8_t *output, size_t output_length, size_t *written)
{
    uint8_t apart[BRANMUSLIN_LONGEST_PACKET];
    copy(apart, data, data_length);
    return REAL(write_space)(type, secondary, apid, flags, count, apart, data_length, output, output_length, written);
}

WRAPPED(uint8_t, write_encapsulation, uint32_t protocol, uint32_t user, uint32_t extension, const uint8_t *content, size_t content_length,
        uint8_t *output, size_t output_length, size_t *written)
{
    uint8_t apart[BRANMUSLIN_LONGEST_PACKET];
    copy(apart, content, content_length);
    return REAL(write_encapsulation)(protocol, user, extension, apart, content_length, output, output_length, written);
}

WRAPPED(struct branmuslin_answer, take_packet, struct branmuslin_state state, size_t lane, const uint8_t *packet, size_t packet_length, uint8_t *pool,
        size_t pool_length, uint8_t *output, size_t output_length)
{
    uint8_t apart[BRANMUSLIN_LONGEST_PACKET];
    copy(apart, packet, packet_length);
    return REAL(take_packet)(state, lane, apart, packet_length, pool, pool_length, output, output_length);
}

WRAPPED(struct branmuslin_framed, take_frame, struct branmuslin_frames state, uint32_t count, uint32_t pointer, const uint8_t *field, size_t field_length,
        uint8_t *piece, size_t piece_length, uint8_t *output, size_t output_length)
{
    uint8_t apart[BRANMUSLIN_LONGEST_PACKET];
    copy(apart, field, field_length);
    return REAL(take_frame)(state, count, pointer, apart, field_length, piece, piece_length, output, output_length);
}
