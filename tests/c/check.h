/*
 * check.h: checks that tell where they failed, and memory to lend to the library that shows what was done to it.
 *
 * What is expected is written by hand from the paper that defines the intake; it is never taken from the library.
 */
#ifndef CHECK_H
#define CHECK_H

#include <branmuslin.h>
#include <stddef.h>
#include <stdint.h>

/* Octets to compare with or to lend: OCTETS(0xE9, 0x05), or those of a variable. */
struct octets {
    const uint8_t *at;
    size_t length;
};
#define OCTETS(...) ((struct octets){(const uint8_t[]){__VA_ARGS__}, sizeof(const uint8_t[]){__VA_ARGS__}})
#define OCTETS_OF(variable) ((struct octets){(const uint8_t *)&(variable), sizeof(variable)})
#define NO_OCTETS ((struct octets){(const uint8_t *)"", 0})

/* The line of the test that a check belongs to. */
struct place {
    const char *file;
    int line;
};
#define HERE ((struct place){__FILE__, __LINE__})

/* Counts one check: that two numbers are the same. */
void same(struct place place, const char *what, uintmax_t expected, uintmax_t got);

/*
 * Where lent memory lies. The archive is not built with sanitizers: guard octets show its writes, and an inaccessible page stops its reads as
 * well. A block of exactly the size lets AddressSanitizer see what the C library does for it, such as memcpy.
 */
enum home { BETWEEN_GUARDS, IN_A_BLOCK, BEFORE_A_WALL, BEHIND_A_WALL, HOMES };
extern enum home home;

struct lent {
    uint8_t *octets; /* to lend; even if there are none, this is not null */
    size_t length;
    struct memory *memory;
};

/* Memory that holds the octets, and memory of that length that holds noise. */
struct lent lend(struct octets octets);
struct lent lend_noise(size_t length);

/* Counts one check: the memory has these octets at its front, and everything else in and around it is as it was lent. Gives it back. */
void holds(struct place place, const char *what, struct lent lent, struct octets front);

/* The same noise at every call, at most LONGEST_NOISE octets; and a number that follows from the one before, for pseudo-random tests. */
#define LONGEST_NOISE 100000
struct octets noise(size_t length);
uint32_t next_random(void);

/* The octets of a header and behind them so much noise; they stay until the next call. */
struct octets joined(struct octets header, size_t noise_length);

/* Prints what was found; the status of the program. */
int tell(void);

/* The tests. */
void test_read(void);
void test_write(void);
void test_record(void);
void test_record_file(void);
void test_round_trips(void);
void test_lanes(void);
void test_refused(void);
void test_sound(void);
void test_frames(void);
void test_frames_refused(void);
void test_frame_runs(void);
void test_lengths_over_32_bits(void);

#endif
