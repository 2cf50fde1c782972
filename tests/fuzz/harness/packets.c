/* Packets: read, and written. */
#include "harness.h"
#include <string.h>

typedef struct branmuslin_packet packet;

uint32_t number_at(const uint8_t *octets, unsigned width)
{
    uint32_t number = 0;
    for (unsigned i = 0; i < width; i++)
        number = number << 8 | octets[i];
    return number;
}

void put_number(uint8_t *octets, unsigned width, uint32_t number)
{
    for (; width > 0; width--, number /= 256)
        octets[width - 1] = (uint8_t)(number % 256);
}

static uint8_t expected_space(const uint8_t *o, size_t length, packet *p)
{
    if (length < 6)
        return 1;
    *p = (packet){.type = o[0] >> 4 & 1, .secondary = o[0] >> 3 & 1, .apid = number_at(o, 2) % 2048, .flags = o[2] >> 6,
                  .count = number_at(o + 2, 2) % 16384, .offset = 6, .length = number_at(o + 4, 2) + 1};
    if (p->apid == 2047 && p->secondary == 1)
        return 3;
    return length - 6 < p->length;
}

static uint8_t expected_encapsulation(const uint8_t *o, size_t length, packet *p)
{
    static const uint8_t headers[] = {1, 2, 4, 8}, widths[] = {0, 1, 2, 4};
    const unsigned header = headers[o[0] % 4], width = widths[o[0] % 4];
    if (length < header)
        return 1;
    const uint32_t whole = width == 0 ? 1 : number_at(o + header - width, width);
    *p = (packet){.version = 7, .protocol = o[0] >> 2 & 7, .user = header >= 4 ? o[1] >> 4 : 0, .extension = header >= 4 ? o[1] % 16 : 0,
                  .offset = header, .length = whole - header};
    if (p->protocol == 6 ? header < 4 : p->extension != 0)
        return 7;
    if (header == 8 && number_at(o + 2, 2) != 0)
        return 7;
    if (whole < header)
        return 4;
    if (whole > 65542)
        return 5;
    if (whole == header && p->protocol != 0)
        return 6;
    return length < whole;
}

uint8_t expected_reading(const uint8_t *octets, size_t length, packet *p)
{
    if (length == 0)
        return 1;
    if (octets[0] >> 5 == 0)
        return expected_space(octets, length, p);
    return octets[0] >> 5 == 7 ? expected_encapsulation(octets, length, p) : 2;
}

/* Where a header names nothing: at a protocol ID 6 without an extension, at an extension of another one, or at the first octet that isn't 0 of the CCSDS field. */
static size_t expected_place_of_7(const uint8_t *o)
{
    const bool has_extension = o[0] % 4 >= 2;
    if (!has_extension)
        return 0;
    if (o[1] % 16 != 0 && (o[0] >> 2 & 7) != 6)
        return 1;
    return o[2] != 0 ? 2 : 3;
}

size_t expected_place(const uint8_t *octets, size_t length, uint8_t refusal)
{
    static const uint8_t length_fields[] = {[1] = 1, [2] = 2, [3] = 4};
    switch (refusal) {
    case 1: return length;
    case 4:
    case 5: return length_fields[octets[0] % 4];
    case 7: return expected_place_of_7(octets);
    default: return 0;
    }
}

static void read_one(struct input *input)
{
    const size_t length = next_number(input, 3) % (LONGEST_INPUT + 1);
    const struct lent octets = lend_input(INPUT, input, length), read = lend_noise(FIRST_NUMBERS, sizeof(packet), 1),
                      told = lend_noise(SECOND_NUMBERS, sizeof(size_t), 14);
    packet expected;
    calling(READ_PACKET);
    const uint8_t refusal = branmuslin_read_packet(octets.octets, length, (void *)read.octets, (void *)told.octets);
    answered(READ_PACKET, expected_reading(octets.octets, length, &expected), refusal);
    unchanged(octets, "the octets stay as they were");
    holds(read, &expected, refusal == 0 ? sizeof expected : 0, "*packet has the fields, or stays as it was");
    const size_t place = expected_place(octets.octets, length, refusal);
    holds(told, &place, refusal == 0 ? 0 : sizeof place, "*place has the place of the field at fault, or stays as it was");
    notice_place(refusal, place);
    DEMAND(refusal != 0 || (size_t)expected.offset + expected.length <= length, "a packet lies within the octets");
}

/* As often as the input goes, so that one that is stored can show every place of a refusal. */
void fuzz_read_packet(struct input *input)
{
    do
        read_one(input);
    while (input->left > 0);
}

/* What was written reads back, whatever stands behind it; the library reads what it wrote in place. */
static void reads_back(struct lent output, packet fields)
{
    packet back;
    size_t place = 0;
    memset(&back, 0xA5, sizeof back);
    calling(READ_PACKET);
    DEMAND(branmuslin_read_packet(output.octets, output.length, &back, &place) == 0, "what was written can be read");
    DEMAND(memcmp(&back, &fields, sizeof back) == 0, "what was written reads back with the same fields");
}

/* What a writer left behind: the packet at the front of the output and its length, or nothing. */
static void left_behind(uint8_t refusal, packet fields, const uint8_t *header, struct lent data, struct lent output, struct lent written)
{
    const size_t length = fields.offset + data.length;
    unchanged(data, "the data stay as they were");
    holds(written, &length, refusal == 0 ? sizeof length : 0, "*written has the octets of the packet, or stays as it was");
    if (refusal == 0) {
        memcpy(as_lent(output), header, fields.offset);
        memcpy(as_lent(output) + fields.offset, data.octets, data.length);
    }
    unchanged(output, "the output has the packet at its front, and stays as it was behind it or if refused");
    if (refusal == 0)
        reads_back(output, fields);
}

static uint8_t expected_space_refusal(packet p, size_t length, size_t space)
{
    if (p.type > 1 || p.secondary > 1 || p.apid > 2047 || p.flags > 3 || p.count > 16383)
        return 8;
    if (p.apid == 2047 && p.secondary == 1)
        return 3;
    if (length == 0 || length > 65536)
        return 10;
    return space < length + 6 ? 9 : 0;
}

void fuzz_write_space(struct input *input)
{
    packet p = {.offset = 6};
    uint32_t *const fields[] = {&p.type, &p.secondary, &p.apid, &p.flags, &p.count};
    uint8_t header[6];
    for (unsigned i = 0; i < 5; i++)
        *fields[i] = next_number(input, 4);
    const size_t length = next_number(input, 3) % (LONGEST_INPUT + 1), space = next_space(input, length + 6);
    const struct lent data = lend_input(INPUT, input, length), output = lend_noise(OUTPUT, space, 2),
                      written = lend_noise(FIRST_NUMBERS, sizeof(size_t), 3);
    calling(WRITE_SPACE);
    const uint8_t refusal = branmuslin_write_space(p.type, p.secondary, p.apid, p.flags, p.count, data.octets, length, output.octets, space,
                                                   (void *)written.octets);
    answered(WRITE_SPACE, expected_space_refusal(p, length, space), refusal);
    p.length = (uint32_t)length;
    put_number(header, 2, p.type << 12 | p.secondary << 11 | p.apid);
    put_number(header + 2, 2, p.flags << 14 | p.count);
    put_number(header + 4, 2, (uint32_t)length - 1);
    left_behind(refusal, p, header, data, output, written);
}

/* The octets of the shortest header that can carry the fields. */
static uint32_t shortest_header(packet p, size_t length)
{
    if (length == 0 && p.user == 0 && p.protocol == 0)
        return 1;
    if (p.user == 0 && p.protocol != 6 && length + 2 <= 255)
        return 2;
    return length + 4 <= 65535 ? 4 : 8;
}

static void put_header(uint8_t *header, packet p, size_t length)
{
    static const uint8_t codes[] = {[1] = 0, [2] = 1, [4] = 2, [8] = 3};
    const uint32_t whole = p.offset + (uint32_t)length;
    memset(header, 0, 8);
    header[0] = (uint8_t)(0xE0 | (p.protocol & 7) << 2 | codes[p.offset]);
    if (p.offset >= 4)
        header[1] = (uint8_t)(p.user << 4 | p.extension);
    if (p.offset > 1)
        put_number(header + p.offset / 2, p.offset / 2, whole);
}

static uint8_t expected_encapsulation_refusal(packet p, size_t length, size_t space)
{
    if (p.protocol > 7 || p.user > 15 || p.extension > 15)
        return 8;
    if (p.extension != 0 && p.protocol != 6)
        return 7;
    if (length == 0 && p.protocol != 0)
        return 6;
    if (length > 65534)
        return 10;
    return space < p.offset + length ? 9 : 0;
}

void fuzz_write_encapsulation(struct input *input)
{
    packet p = {.version = 7};
    uint8_t header[8];
    p.protocol = next_number(input, 4);
    p.user = next_number(input, 4);
    p.extension = next_number(input, 4);
    const size_t length = next_number(input, 3) % (LONGEST_INPUT + 1);
    p.offset = shortest_header(p, length);
    p.length = (uint32_t)length;
    const size_t space = next_space(input, p.offset + length);
    const struct lent content = lend_input(INPUT, input, length), output = lend_noise(OUTPUT, space, 4),
                      written = lend_noise(FIRST_NUMBERS, sizeof(size_t), 5);
    calling(WRITE_ENCAPSULATION);
    const uint8_t refusal = branmuslin_write_encapsulation(p.protocol, p.user, p.extension, content.octets, length, output.octets, space,
                                                           (void *)written.octets);
    answered(WRITE_ENCAPSULATION, expected_encapsulation_refusal(p, length, space), refusal);
    put_header(header, p, length);
    left_behind(refusal, p, header, content, output, written);
}
