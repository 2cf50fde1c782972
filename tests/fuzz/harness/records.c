/* Credit records: written, and read one by one or as a file. */
#include "harness.h"
#include <string.h>

typedef struct branmuslin_record record;

bool is_possible(record r)
{
    const uint64_t most_missing = r.packets == 0 ? 0 : (uint64_t)16382 * (r.packets - 1);
    return r.apid <= 2046 && r.packets <= 262144 && (uint64_t)r.units + r.broken <= r.packets && r.missing <= most_missing;
}

void put_record(uint8_t *octets, record r)
{
    put_number(octets, 2, r.station);
    put_number(octets + 2, 2, r.apid);
    put_number(octets + 4, 4, r.units);
    put_number(octets + 8, 4, r.packets);
    put_number(octets + 12, 4, r.missing);
    put_number(octets + 16, 4, r.broken);
}

static record record_at(const uint8_t *octets)
{
    return (record){number_at(octets, 2),     number_at(octets + 2, 2),  number_at(octets + 4, 4),
                    number_at(octets + 8, 4), number_at(octets + 12, 4), number_at(octets + 16, 4)};
}

static void reads_back(struct lent output, record expected)
{
    record back;
    memset(&back, 0xA5, sizeof back);
    calling(READ_RECORD);
    DEMAND(branmuslin_read_record(output.octets, 20, &back) == 0, "what was written can be read");
    DEMAND(memcmp(&back, &expected, sizeof back) == 0, "what was written reads back with the same numbers");
}

void fuzz_write_record(struct input *input)
{
    uint8_t octets[20];
    for (size_t i = 0; i < sizeof octets; i++)
        octets[i] = next_octet(input);
    const record r = record_at(octets);
    const size_t space = next_space(input, 20);
    const struct lent output = lend_noise(OUTPUT, space, 6);
    calling(WRITE_RECORD);
    const uint8_t refusal = branmuslin_write_record((uint16_t)r.station, (uint16_t)r.apid, r.units, r.packets, r.missing, r.broken, output.octets,
                                                    space);
    answered(WRITE_RECORD, space < 20 ? 9 : is_possible(r) ? 0 : 25, refusal);
    holds(output, octets, refusal == 0 ? 20 : 0, "the output has the record at its front, and stays as it was behind it or if refused");
    if (refusal == 0)
        reads_back(output, r);
}

void fuzz_read_record(struct input *input)
{
    const size_t length = next_octet(input);
    const struct lent octets = lend_input(INPUT, input, length), read = lend_noise(FIRST_NUMBERS, sizeof(record), 7);
    record expected = {0};
    uint8_t number = 26;
    if (length == 20) {
        expected = record_at(octets.octets);
        number = is_possible(expected) ? 0 : 25;
    }
    calling(READ_RECORD);
    const uint8_t refusal = branmuslin_read_record(octets.octets, length, (void *)read.octets);
    answered(READ_RECORD, number, refusal);
    unchanged(octets, "the octets stay as they were");
    holds(read, &expected, refusal == 0 ? sizeof expected : 0, "*record has the numbers, or stays as it was");
}

void fuzz_read_record_file(struct input *input)
{
    const size_t length = next_number(input, 3) % (LONGEST_INPUT + 1);
    const struct lent octets = lend_input(INPUT, input, length), records = lend_noise(FIRST_NUMBERS, sizeof(size_t), 8),
                      index = lend_noise(SECOND_NUMBERS, sizeof(size_t), 9);
    size_t good = 0;
    while (good < length / 20 && is_possible(record_at(octets.octets + 20 * good)))
        good++;
    calling(READ_RECORD_FILE);
    const uint8_t refusal = branmuslin_read_record_file(octets.octets, length, (void *)records.octets, (void *)index.octets);
    answered(READ_RECORD_FILE, length % 20 != 0 ? 26 : good < length / 20 ? 25 : 0, refusal);
    unchanged(octets, "the octets stay as they were");
    holds(records, &good, refusal == 0 ? sizeof good : 0, "*records has their number, or stays as it was");
    holds(index, &good, refusal == 25 ? sizeof good : 0, "*index is that of the first impossible record, or stays as it was");
}
