/*
 * harness.h: what the parts of the fuzzing harness share: the input taken apart, memory to lend, and demands.
 *
 * An input is one octet, which picks what is called and on which side of its memory the wall stands, and then the arguments. What is demanded of an
 * answer is worked out here from the words of branmuslin.h, never by the library.
 */
#ifndef HARNESS_H
#define HARNESS_H

#include <branmuslin.h>
#include <stdbool.h>
#include <stddef.h>
#include <stdint.h>

/* What is left of an input. Past its end every number is 0. */
struct input {
    const uint8_t *at;
    size_t left;
};
uint8_t next_octet(struct input *input);
uint32_t next_number(struct input *input, unsigned width);

/* The functions of the header. */
enum function {
    READ_PACKET, WRITE_SPACE, WRITE_ENCAPSULATION, WRITE_RECORD, READ_RECORD, READ_RECORD_FILE, FRESH_START, IS_SOUND, OPEN_LANE, TAKE_PACKET, CLOSE_LANE,
    FRESH_FRAMES, TAKE_FRAME, FUNCTIONS
};

/* Says which function is called next, for the text of a failure. */
void calling(enum function function);

/* Ends the program unless it holds: prints where, which function, and what. */
#define DEMAND(holds, what) demand(holds, what, __FILE__, __LINE__)
void demand(bool holds, const char *what, const char *file, int line);

/* Notes an answer, and demands that it is the expected one and one that the header lists for the function. */
void answered(enum function function, uint8_t expected, uint8_t refusal);

/* Notes something else that is worth a fuzzer's while: the archive is not instrumented, so a fuzzer sees only what the harness notes. */
enum notice {
    KINDS_NOTICED = 0, GIVEN_UP_NOTICED = 8, OPEN_NOTICED = 16, BLOCKS_NOTICED = 32, PLACES_NOTICED = 48, FRAMES_NOTICED = 112, PIECES_NOTICED = 136,
    NOTICES = 152
};
void notice(unsigned number);
void notice_place(uint8_t refusal, size_t place);

/* Prints each function with the refusals that were met (0: done); the number of those that the header lists and that were not met. */
unsigned tell_met(void);

/*
 * Memory to lend: each role has pages of its own between two that can't be accessed, and what is lent lies at one end of them, so that the library,
 * which is not instrumented, can neither read nor write beyond that end; octets at the other end show a write.
 */
enum role { INPUT, OUTPUT, POOL, BUFFER, FIRST_NUMBERS, SECOND_NUMBERS, ROLES };
#define LONGEST_INPUT 70000
#define LONGEST_OUTPUT 90000
enum side { BEFORE_A_WALL, BEHIND_A_WALL };
extern enum side side;

struct lent {
    uint8_t *octets; /* to lend; even if there are none, this is not null */
    size_t length;
    enum role role;
};

/* Memory that holds octets of the input and behind them noise, or noise alone: a short input can so lend a long memory. */
struct lent lend_input(enum role role, struct input *input, size_t length);
struct lent lend_noise(enum role role, size_t length, uint8_t from);

/* Takes what the memory holds now as what it was lent with. */
void lend_again(struct lent lent);
/* What the memory held when it was lent; the octets can be changed to what they are expected to become. */
uint8_t *as_lent(struct lent lent);
/* Demands that the memory holds what it was lent with, but for the octets at its front. */
void holds(struct lent lent, const void *front, size_t length, const char *what);
void unchanged(struct lent lent, const char *what);

/* An output length: near what is needed, or any. */
size_t next_space(struct input *input, size_t needed);

/* High octet first. */
uint32_t number_at(const uint8_t *octets, unsigned width);
void put_number(uint8_t *octets, unsigned width, uint32_t number);

/* What the header says of reading a packet, of the place of a refusal of that, and of a record. */
uint8_t expected_reading(const uint8_t *octets, size_t length, struct branmuslin_packet *packet);
size_t expected_place(const uint8_t *octets, size_t length, uint8_t refusal);
bool is_possible(struct branmuslin_record record);
void put_record(uint8_t *octets, struct branmuslin_record record);

/* What an input can pick. */
void fuzz_read_packet(struct input *input);
void fuzz_write_space(struct input *input);
void fuzz_write_encapsulation(struct input *input);
void fuzz_write_record(struct input *input);
void fuzz_read_record(struct input *input);
void fuzz_read_record_file(struct input *input);
void fuzz_run(struct input *input);
void fuzz_any_state(struct input *input);
void fuzz_frames(struct input *input);

int LLVMFuzzerTestOneInput(const uint8_t *data, size_t size);

#endif
