/* What is measured: each case makes its input once, then runs it on either side. */
#ifndef CASES_H
#define CASES_H

#include "sides.h"

struct measured_case {
    const char *name;
    const char *each;              /* what one number is for: a packet, a record, a frame or a call */
    double most_ratio;             /* the target of the time as a ratio to the baseline's */
    void (*prepare)(size_t size);
    size_t size;
    uint64_t (*run)(const struct side *side); /* a batch; tells a sum over what was answered, which must be the same on both sides */
};

extern const struct measured_case cases[];
extern const size_t case_count;

/* How many packets, records, frames or calls a batch of the prepared case has. */
size_t units_in_batch(void);

/* Copies the octets of a batch, packet by packet. */
uint64_t copy_batch(void);

#endif
