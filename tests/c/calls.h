/*
 * calls.h: calls to the lanes, each compared with what is expected of it: the answer, the state, and every octet that was lent.
 *
 * A test says what a call will change, in `want`, and then makes the call. So a call that must change nothing, as every one that is refused,
 * needs nothing said: all that it was lent and the state that it gives back are compared all the same.
 */
#ifndef CALLS_H
#define CALLS_H

#include "check.h"

/* The state and the pool between two calls. The pool is lent as long as is said, so that it can be wrong. */
struct intake {
    struct branmuslin_state state;
    uint8_t pool[BRANMUSLIN_POOL_LENGTH + 256];
    size_t pool_length;
};

/* As it is now, and as it is to be after the next call. */
extern struct intake is, want;

/* Eight closed lanes written by hand, and a pool of noise. */
void start_fresh(void);

/* Both as in the state. */
void start_from(struct branmuslin_state state);

/* A setting's numbers in their order: station, apid, secondary, share, cap. */
#define SETTINGS(...) ((struct branmuslin_settings){__VA_ARGS__})

/* Octets of the noise, from some place on; noise as user data is then found again in the pool and in units. */
struct octets part(size_t from, size_t length);

/* A packet of telemetry with a secondary header of so many octets, and user data; it stays until the next call. */
struct octets packet(uint16_t apid, unsigned flags, unsigned count, size_t secondary, struct octets user);

/* What a packet is answered. */
struct reply {
    uint8_t refusal, kind;
    uint16_t missing;
    bool given_up;
    struct octets unit;
    size_t place; /* of the octet at fault; only the refusals of reading tell one */
};
#define REFUSED_AT(number, place) ((struct reply){number, BRANMUSLIN_REFUSED, 0, false, NO_OCTETS, place})
#define REFUSED(number) REFUSED_AT(number, 0)
#define REPEATED ((struct reply){0, BRANMUSLIN_REPEAT, 0, false, NO_OCTETS, 0})
#define STRAY(missing, given_up) ((struct reply){0, BRANMUSLIN_STRAY, missing, given_up, NO_OCTETS, 0})
#define HELD(missing, given_up) ((struct reply){0, BRANMUSLIN_HELD, missing, given_up, NO_OCTETS, 0})
#define UNIT(missing, given_up, octets) ((struct reply){0, BRANMUSLIN_UNIT, missing, given_up, octets, 0})

/* The calls. An output is lent as long as is said, and must have the unit or the record at its front, or be as it was. */
void opens(struct place place, size_t lane, struct branmuslin_settings settings, uint8_t refusal);
void takes(struct place place, size_t lane, struct octets octets, size_t output_length, struct reply reply);
void closes(struct place place, size_t lane, size_t output_length, uint8_t refusal, struct octets record);

/* What a call changes: a lane is opened or closed; a packet of this count is counted by the reply; a lane's open group has so many octets, ... */
void want_open(size_t lane, struct branmuslin_settings settings);
void want_closed(size_t lane);
void want_counted(size_t lane, unsigned count, struct reply reply);
void want_group(size_t lane, size_t octets);
void want_no_group(size_t lane);

/* ... a block is that of a place in the lane's group, and some of the block's octets are those of the noise. */
void want_block(size_t lane, unsigned place_in_group, unsigned block);
void want_stored(unsigned block, size_t at, struct octets octets);

/* The two together, for calls that are not refused. */
void opened(struct place place, size_t lane, struct branmuslin_settings settings);
void answered(struct place place, size_t lane, unsigned count, struct octets octets, struct reply reply);

/* Counts one check: that two states are the same in every field. What lies between the fields does not matter. */
void same_states(struct place place, struct branmuslin_state expected, struct branmuslin_state got);

#endif
