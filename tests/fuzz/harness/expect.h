/* expect.h: what the header says that a call to the lanes gives back, worked out from its words and from the state as the header lays it open. */
#ifndef EXPECT_H
#define EXPECT_H

#include "harness.h"

typedef struct branmuslin_state state;
typedef struct branmuslin_lane lane_state;

/* What a packet is expected to do. */
struct expected {
    uint8_t refusal, kind;
    bool given_up;
    uint16_t missing;
    size_t place;         /* of the octet at fault; 0 where reading did not refuse */
    size_t unit;          /* octets of the unit; 0 for every other kind */
    size_t group;         /* octets of the group that the packet adds to or ends */
    const uint8_t *data;  /* the user data */
    size_t data_length;
    state after;
};

/* Whether two states are the same in every field (the octets between the fields say nothing). */
bool same_state(const state *a, const state *b);

/* Whether a state is sound. */
bool expected_sound(const state *s);

/* The octet at this place of a lane's open group, as an index into the pool. */
size_t place_in_pool(const state *s, size_t lane, size_t at);

/* A packet to an open lane of a sound state. */
struct expected expected_packet(const state *s, size_t lane, const uint8_t *packet, size_t length, size_t space);

/* The refusal of an opening or a closing of a sound state. */
uint8_t expected_opening(const state *s, size_t lane, struct branmuslin_settings settings);
uint8_t expected_closing(const state *s, size_t lane, size_t space);

/* A lane's credit record if it is closed now: an open group counts as broken. */
struct branmuslin_record credit_of(const lane_state *l);

#endif
