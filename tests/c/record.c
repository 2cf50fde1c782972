/* Credit records, one and in a file: the limits of what is possible from both sides, and the order of the refusals. */
#include "check.h"

typedef struct branmuslin_record record;

/* A row gives station, apid, units, packets, missing and broken. */
struct row {
    struct place place;
    record fields;
};
#define ROW(...) {{__FILE__, __LINE__}, {__VA_ARGS__}}

/* 4,294,426,626 is 16,382 x 262,143. */
static const struct row possible[] = {
    ROW(0, 0, 0, 0, 0, 0),
    ROW(7, 42, 2, 3, 1, 0),
    ROW(65535, 2046, 262144, 262144, 4294426626, 0),
    ROW(0x1234, 0x567, 0, 262144, 4294426626, 262144),
    ROW(0, 0, 1, 1, 0, 0),
    ROW(0, 0, 0, 1, 0, 1),
    ROW(256, 256, 1, 2, 16382, 1),
    ROW(1, 1, 65536, 131073, 16777216, 65537),
};
static const struct row impossible[] = {
    ROW(0, 2047, 0, 0, 0, 0),
    ROW(0, 65535, 0, 0, 0, 0),
    ROW(0, 0, 0, 262145, 0, 0),
    ROW(0, 0, 0, 4294967295, 0, 0),
    ROW(0, 0, 3000, 212, 0, 0),
    ROW(0, 0, 1, 0, 0, 0),
    ROW(0, 0, 0, 0, 0, 1),
    ROW(0, 0, 2, 3, 0, 2),
    /* Sums of units and broken that 32 bits would wrap to 0. */
    ROW(0, 0, 4294967295, 0, 0, 1),
    ROW(0, 0, 1, 3, 0, 4294967295),
    ROW(0, 0, 2147483648, 5, 0, 2147483648),
    /* Missing over 16,382 x (packets - 1), which 32 bits would wrap to 4,294,950,914 for no packets. */
    ROW(0, 0, 0, 0, 1, 0),
    ROW(0, 0, 0, 0, 4294950914, 0),
    ROW(0, 0, 0, 1, 1, 0),
    ROW(0, 0, 0, 2, 16383, 0),
    ROW(0, 0, 0, 262144, 4294426627, 0),
    ROW(0, 0, 0, 262144, 4294967295, 0),
};
#define COUNT(table) (sizeof(table) / sizeof *(table))

static void put(uint8_t *to, size_t width, uint32_t number)
{
    for (; width > 0; width--, number /= 256)
        to[width - 1] = (uint8_t)(number % 256);
}

static void put_record(uint8_t *to, record r)
{
    put(to, 2, r.station);
    put(to + 2, 2, r.apid);
    put(to + 4, 4, r.units);
    put(to + 8, 4, r.packets);
    put(to + 12, 4, r.missing);
    put(to + 16, 4, r.broken);
}

/* One call, after which the output must begin with the octets, if there are any, and else be as it was. */
static void writes(struct place place, record r, size_t output_length, uint8_t answer, struct octets octets)
{
    const struct lent output = lend_noise(output_length);
    same(place, "the answer", answer,
         branmuslin_write_record((uint16_t)r.station, (uint16_t)r.apid, r.units, r.packets, r.missing, r.broken, output.octets, output.length));
    holds(place, "the output", output, octets);
}

/* One call, after which *record must hold the fields, or be as it was if there are none. */
static void reads(struct place place, struct octets octets, uint8_t answer, struct octets fields)
{
    const struct lent input = lend(octets), output = lend_noise(sizeof(record));
    same(place, "the answer", answer, branmuslin_read_record(input.octets, input.length, (void *)output.octets));
    holds(place, "*record", output, fields);
    holds(place, "the octets", input, NO_OCTETS);
}

/* A record that is possible (answer 0) or not (25): 9 comes before 25 where the output is short, 26 where there are not 20 octets. */
static void answered(struct place place, record r, struct octets octets, uint8_t answer)
{
    const struct octets written = answer == 0 ? octets : NO_OCTETS;
    writes(place, r, 20, answer, written);
    writes(place, r, 21, answer, written);
    writes(place, r, 300, answer, written);
    writes(place, r, 19, 9, NO_OCTETS);
    writes(place, r, 0, 9, NO_OCTETS);
    reads(place, octets, answer, answer == 0 ? OCTETS_OF(r) : NO_OCTETS);
    reads(place, joined(octets, 1), 26, NO_OCTETS);
    reads(place, joined(octets, 20), 26, NO_OCTETS);
    reads(place, (struct octets){octets.at, 19}, 26, NO_OCTETS);
    reads(place, (struct octets){octets.at, 0}, 26, NO_OCTETS);
}

void test_record(void)
{
    uint8_t octets[20];
    answered(HERE, (record){7, 42, 2, 3, 1, 0}, OCTETS(0, 7, 0, 0x2A, 0, 0, 0, 2, 0, 0, 0, 3, 0, 0, 0, 1, 0, 0, 0, 0), 0);
    answered(HERE, (record){0x1234, 0x567, 0x89, 0x2ABCD, 0xEF01234, 0x5678},
             OCTETS(0x12, 0x34, 0x05, 0x67, 0, 0, 0, 0x89, 0, 0x02, 0xAB, 0xCD, 0x0E, 0xF0, 0x12, 0x34, 0, 0, 0x56, 0x78), 0);
    answered(HERE, (record){0, 42, 3000, 212, 0, 0}, OCTETS(0, 0, 0, 0x2A, 0, 0, 0x0B, 0xB8, 0, 0, 0, 0xD4, 0, 0, 0, 0, 0, 0, 0, 0), 25);
    for (size_t i = 0; i < COUNT(possible); i++) {
        put_record(octets, possible[i].fields);
        answered(possible[i].place, possible[i].fields, OCTETS_OF(octets), 0);
    }
    for (size_t i = 0; i < COUNT(impossible); i++) {
        put_record(octets, impossible[i].fields);
        answered(impossible[i].place, impossible[i].fields, OCTETS_OF(octets), 25);
    }
}

/* One call, after which *records must be set by 0 alone, and *index by 25 alone. */
static void reads_file(struct place place, struct octets octets, uint8_t answer, size_t expected)
{
    const struct lent input = lend(octets), records = lend_noise(sizeof(size_t)), index = lend_noise(sizeof(size_t));
    same(place, "the answer", answer,
         branmuslin_read_record_file(input.octets, input.length, (void *)records.octets, (void *)index.octets));
    holds(place, "*records", records, answer == 0 ? OCTETS_OF(expected) : NO_OCTETS);
    holds(place, "*index", index, answer == 25 ? OCTETS_OF(expected) : NO_OCTETS);
    holds(place, "the octets", input, NO_OCTETS);
}

#define MOST_RECORDS 3277
static uint8_t file[20 * MOST_RECORDS + 20];

/* A file of possible records; it stays until the next call. */
static struct octets file_of(size_t records)
{
    for (size_t i = 0; i < records; i++)
        put_record(file + 20 * i, possible[i % COUNT(possible)].fields);
    return (struct octets){file, 20 * records};
}

/* A file of which the record at `index` is not possible. */
static void one_impossible(struct place place, size_t records, size_t index, record r)
{
    const struct octets octets = file_of(records);
    put_record(file + 20 * index, r);
    reads_file(place, octets, 25, index);
    reads_file(place, (struct octets){octets.at, octets.length - 1}, 26, 0);
    reads_file(place, (struct octets){octets.at, octets.length + 1}, 26, 0);
    /* A later one as well: the first is told. */
    put_record(file + 20 * (records - 1), impossible[0].fields);
    reads_file(place, octets, 25, index);
}

void test_record_file(void)
{
    static const size_t lengths[] = {1, 2, 3, 100, MOST_RECORDS};
    reads_file(HERE, NO_OCTETS, 0, 0);
    reads_file(HERE, (struct octets){file, 1}, 26, 0);
    for (size_t i = 0; i < COUNT(lengths); i++) {
        const size_t records = lengths[i];
        const struct octets octets = file_of(records);
        reads_file(HERE, octets, 0, records);
        reads_file(HERE, (struct octets){octets.at, octets.length - 1}, 26, 0);
        reads_file(HERE, (struct octets){octets.at, octets.length + 1}, 26, 0);
        one_impossible(HERE, records, 0, impossible[0].fields);
        one_impossible(HERE, records, records / 2, impossible[0].fields);
        one_impossible(HERE, records, records - 1, impossible[0].fields);
    }
    for (size_t i = 0; i < COUNT(impossible); i++)
        one_impossible(impossible[i].place, 3, 1, impossible[i].fields);
}
