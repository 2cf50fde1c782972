/* One input: picks what is called. Demands, and the answers that were met. */
#include "harness.h"
#include <stdio.h>
#include <stdlib.h>

#define UP_TO(last) ((2u << (last)) - 1)
#define FROM_TO(first, last) (UP_TO(last) & ~(UP_TO(first) >> 1))
#define ONE(number) (1u << (number))

/*
 * The refusals that the header lists, a bit each, and 0 for done. Closing lists 25, which no sound state leads to: a sound state's tallies are a possible
 * record.
 */
static const struct {
    const char *name;
    uint32_t refusals;
} functions[FUNCTIONS] = {
    [READ_PACKET] = {"branmuslin_read_packet", FROM_TO(0, 7)},
    [WRITE_SPACE] = {"branmuslin_write_space", ONE(0) | ONE(3) | FROM_TO(8, 10)},
    [WRITE_ENCAPSULATION] = {"branmuslin_write_encapsulation", ONE(0) | FROM_TO(6, 10)},
    [WRITE_RECORD] = {"branmuslin_write_record", ONE(0) | ONE(9) | ONE(25)},
    [READ_RECORD] = {"branmuslin_read_record", ONE(0) | ONE(25) | ONE(26)},
    [READ_RECORD_FILE] = {"branmuslin_read_record_file", ONE(0) | ONE(25) | ONE(26)},
    [FRESH_START] = {"branmuslin_fresh_start", ONE(0)},
    [IS_SOUND] = {"branmuslin_is_sound", ONE(0) | ONE(24)},
    [OPEN_LANE] = {"branmuslin_open_lane", ONE(0) | ONE(11) | FROM_TO(21, 24)},
    [TAKE_PACKET] = {"branmuslin_take_packet", FROM_TO(0, 7) | FROM_TO(11, 20) | ONE(24) | ONE(27)},
    [CLOSE_LANE] = {"branmuslin_close_lane", ONE(0) | ONE(9) | ONE(11) | ONE(24)},
    [FRESH_FRAMES] = {"branmuslin_fresh_frames", ONE(0)},
    [TAKE_FRAME] = {"branmuslin_take_frame", ONE(0) | ONE(9) | ONE(28)},
};

#define NUMBERS 29

/* libFuzzer reads this section as coverage, and clears it before each input. */
__attribute__((section("__libfuzzer_extra_counters"))) static uint8_t counters[FUNCTIONS * NUMBERS + NOTICES];
static uint32_t met[FUNCTIONS];
static enum function called;

void calling(enum function function)
{
    called = function;
}

void demand(bool holds, const char *what, const char *file, int line)
{
    if (holds)
        return;
    fprintf(stderr, "%s:%d: %s: not so: %s\n", file, line, functions[called].name, what);
    abort();
}

void answered(enum function function, uint8_t expected, uint8_t refusal)
{
    if (expected != refusal)
        fprintf(stderr, "expected %u, got %u\n", expected, refusal);
    DEMAND(expected == refusal, "the refusal is the one that the header gives");
    DEMAND(refusal < NUMBERS && (functions[function].refusals >> refusal & 1), "the refusal is one that the header lists");
    counters[function * NUMBERS + refusal] = 1;
    met[function] |= ONE(refusal);
}

void notice(unsigned number)
{
    counters[FUNCTIONS * NUMBERS + number % NOTICES] = 1;
}

/* The octets that are present where a packet is cut short are too many to note; every other place is less than 8. */
void notice_place(uint8_t refusal, size_t place)
{
    if (refusal > 1 && refusal < 8)
        notice(PLACES_NOTICED + refusal * 8u + (unsigned)place);
}

unsigned tell_met(void)
{
    unsigned missed = 0;
    for (unsigned function = 0; function < FUNCTIONS; function++) {
        printf("%s:", functions[function].name);
        for (unsigned refusal = 0; refusal < NUMBERS; refusal++) {
            if (met[function] >> refusal & 1)
                printf(" %u", refusal);
            else
                missed += functions[function].refusals >> refusal & 1;
        }
        printf("\n");
    }
    return missed;
}

uint8_t next_octet(struct input *input)
{
    if (input->left == 0)
        return 0;
    input->left--;
    return *input->at++;
}

uint32_t next_number(struct input *input, unsigned width)
{
    uint32_t number = 0;
    for (; width > 0; width--)
        number = number << 8 | next_octet(input);
    return number;
}

size_t next_space(struct input *input, size_t needed)
{
    const uint8_t how = next_octet(input);
    if (how >= 128)
        return next_number(input, 3) % (LONGEST_OUTPUT + 1);
    /* 64 is exactly what is needed, 63 one octet too few. */
    if (needed + how < 64)
        return 0;
    return needed + how - 64 < LONGEST_OUTPUT ? needed + how - 64 : LONGEST_OUTPUT;
}

int LLVMFuzzerTestOneInput(const uint8_t *data, size_t size)
{
    static void (*const picked[])(struct input *) = {
        fuzz_read_packet, fuzz_write_space,      fuzz_write_encapsulation, fuzz_write_record,
        fuzz_read_record, fuzz_read_record_file, fuzz_run,                 fuzz_any_state,
        fuzz_frames,
    };
    struct input input = {data, size};
    const uint8_t first = next_octet(&input);
    side = first >= 128 ? BEHIND_A_WALL : BEFORE_A_WALL;
    picked[first % 16 < 9 ? first % 16 : first % 8](&input);
    return 0;
}
