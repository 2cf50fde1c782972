/* The two packet writers: fields and sizes at their limits, each refusal, and which is told where several causes hold. */
#include "check.h"

/* A writer with its fields in the order of its parameters. */
struct call {
    uint8_t (*write)(const uint32_t *fields, const uint8_t *data, size_t data_length, uint8_t *output, size_t output_length, size_t *written);
    uint32_t fields[5];
};
#define SPACE(...) ((struct call){space, {__VA_ARGS__}})                 /* type, secondary, apid, flags, count */
#define ENCAPSULATION(...) ((struct call){encapsulation, {__VA_ARGS__}}) /* protocol, user, extension */

static uint8_t space(const uint32_t *f, const uint8_t *data, size_t data_length, uint8_t *output, size_t output_length, size_t *written)
{
    return branmuslin_write_space(f[0], f[1], f[2], f[3], f[4], data, data_length, output, output_length, written);
}

static uint8_t encapsulation(const uint32_t *f, const uint8_t *data, size_t data_length, uint8_t *output, size_t output_length, size_t *written)
{
    return branmuslin_write_encapsulation(f[0], f[1], f[2], data, data_length, output, output_length, written);
}

/* One call with noise as data, after which the output must begin with the packet and *written be its length, or both be as they were. */
static void writes(struct place place, struct call call, size_t data_length, size_t output_length, uint8_t answer, struct octets packet)
{
    const struct lent data = lend(noise(data_length)), output = lend_noise(output_length), written = lend_noise(sizeof(size_t));
    same(place, "the answer", answer,
         call.write(call.fields, data.octets, data.length, output.octets, output.length, (void *)written.octets));
    holds(place, "the output", output, packet);
    holds(place, "*written", written, answer == 0 ? OCTETS_OF(packet.length) : NO_OCTETS);
    holds(place, "the data", data, NO_OCTETS);
}

static void refused(struct place place, uint8_t number, struct call call, size_t data_length, size_t output_length)
{
    writes(place, call, data_length, output_length, number, NO_OCTETS);
}

/* The packet is written where it just fits and where octets are left over, and refused (9) where the output is shorter. */
static void accepted(struct place place, struct call call, size_t data_length, struct octets header)
{
    const size_t length = header.length + data_length;
    for (size_t after = 0; after <= 300; after = 10 * after + 1)
        writes(place, call, data_length, length + after, 0, joined(header, data_length));
    refused(place, 9, call, data_length, length - 1);
    refused(place, 9, call, data_length, header.length - 1);
    refused(place, 9, call, data_length, 0);
}

/* Every bit over a field's width alone, and all bits. */
static void over_the_widths(struct place place, struct call good, const unsigned *widths, size_t fields)
{
    for (size_t field = 0; field < fields; field++) {
        struct call call = good;
        for (unsigned bit = widths[field]; bit < 32; bit++) {
            call.fields[field] = (uint32_t)1 << bit;
            refused(place, 8, call, 1, 300);
        }
        call.fields[field] = 0xFFFFFFFF;
        refused(place, 8, call, 1, 300);
    }
}

static void space_packets(void)
{
    accepted(HERE, SPACE(0, 0, 42, 3, 5), 2, OCTETS(0x00, 0x2A, 0xC0, 0x05, 0x00, 0x01));
    accepted(HERE, SPACE(0, 0, 0, 0, 0), 1, OCTETS(0x00, 0x00, 0x00, 0x00, 0x00, 0x00));
    accepted(HERE, SPACE(1, 0, 0, 0, 0), 1, OCTETS(0x10, 0x00, 0x00, 0x00, 0x00, 0x00));
    accepted(HERE, SPACE(0, 1, 0, 0, 0), 1, OCTETS(0x08, 0x00, 0x00, 0x00, 0x00, 0x00));
    accepted(HERE, SPACE(0, 0, 1025, 0, 0), 1, OCTETS(0x04, 0x01, 0x00, 0x00, 0x00, 0x00));
    accepted(HERE, SPACE(0, 1, 2046, 0, 0), 1, OCTETS(0x0F, 0xFE, 0x00, 0x00, 0x00, 0x00));
    accepted(HERE, SPACE(1, 0, 2047, 3, 0), 1, OCTETS(0x17, 0xFF, 0xC0, 0x00, 0x00, 0x00));
    accepted(HERE, SPACE(0, 0, 0, 1, 0), 1, OCTETS(0x00, 0x00, 0x40, 0x00, 0x00, 0x00));
    accepted(HERE, SPACE(0, 0, 0, 2, 0), 1, OCTETS(0x00, 0x00, 0x80, 0x00, 0x00, 0x00));
    accepted(HERE, SPACE(0, 0, 0, 0, 8193), 1, OCTETS(0x00, 0x00, 0x20, 0x01, 0x00, 0x00));
    accepted(HERE, SPACE(0, 0, 0, 0, 16383), 256, OCTETS(0x00, 0x00, 0x3F, 0xFF, 0x00, 0xFF));
    accepted(HERE, SPACE(0, 0, 0, 0, 0), 257, OCTETS(0x00, 0x00, 0x00, 0x00, 0x01, 0x00));
    accepted(HERE, SPACE(1, 1, 2046, 3, 16383), 65536, OCTETS(0x1F, 0xFE, 0xFF, 0xFF, 0xFF, 0xFF));
}

/* The order: 8, 3, 10, 9. */
static void space_refusals(void)
{
    over_the_widths(HERE, SPACE(0, 0, 42, 3, 5), (const unsigned[]){1, 1, 11, 2, 14}, 5);
    refused(HERE, 3, SPACE(0, 1, 2047, 3, 0), 1, 7);
    refused(HERE, 10, SPACE(0, 0, 42, 3, 5), 0, 300);
    refused(HERE, 10, SPACE(0, 0, 42, 3, 5), 65537, 65543);
    refused(HERE, 8, SPACE(0, 1, 2047, 4, 0), 1, 7);     /* 8 and 3 */
    refused(HERE, 8, SPACE(0, 2, 2047, 3, 0), 1, 7);     /* 8 and 3 */
    refused(HERE, 8, SPACE(2, 0, 42, 3, 0), 0, 7);       /* 8 and 10 */
    refused(HERE, 8, SPACE(0, 0, 42, 3, 16384), 1, 6);   /* 8 and 9 */
    refused(HERE, 8, SPACE(0, 1, 2047, 3, 16384), 0, 0); /* 8, 3, 10 and 9 */
    refused(HERE, 3, SPACE(0, 1, 2047, 3, 0), 0, 7);     /* 3 and 10 */
    refused(HERE, 3, SPACE(0, 1, 2047, 3, 0), 65537, 65543);
    refused(HERE, 3, SPACE(0, 1, 2047, 3, 0), 1, 6);     /* 3 and 9 */
    refused(HERE, 10, SPACE(0, 0, 42, 3, 5), 0, 0);      /* 10 and 9 */
    refused(HERE, 10, SPACE(0, 0, 42, 3, 5), 65537, 65542);
}

/* Each header up to where the next one begins. */
static void encapsulation_packets(void)
{
    accepted(HERE, ENCAPSULATION(0, 0, 0), 0, OCTETS(0xE0));
    accepted(HERE, ENCAPSULATION(0, 0, 0), 1, OCTETS(0xE1, 0x03));
    accepted(HERE, ENCAPSULATION(2, 0, 0), 3, OCTETS(0xE9, 0x05));
    accepted(HERE, ENCAPSULATION(2, 0, 0), 253, OCTETS(0xE9, 0xFF));
    accepted(HERE, ENCAPSULATION(2, 0, 0), 254, OCTETS(0xEA, 0x00, 0x01, 0x02));
    accepted(HERE, ENCAPSULATION(0, 15, 0), 0, OCTETS(0xE2, 0xF0, 0x00, 0x04));
    accepted(HERE, ENCAPSULATION(5, 1, 0), 1, OCTETS(0xF6, 0x10, 0x00, 0x05));
    accepted(HERE, ENCAPSULATION(6, 0, 0), 1, OCTETS(0xFA, 0x00, 0x00, 0x05));
    accepted(HERE, ENCAPSULATION(6, 0, 3), 1, OCTETS(0xFA, 0x03, 0x00, 0x05));
    accepted(HERE, ENCAPSULATION(6, 15, 15), 253, OCTETS(0xFA, 0xFF, 0x01, 0x01));
    accepted(HERE, ENCAPSULATION(2, 0, 0), 65531, OCTETS(0xEA, 0x00, 0xFF, 0xFF));
    accepted(HERE, ENCAPSULATION(2, 0, 0), 65532, OCTETS(0xEB, 0x00, 0x00, 0x00, 0x00, 0x01, 0x00, 0x04));
    accepted(HERE, ENCAPSULATION(7, 9, 0), 65531, OCTETS(0xFE, 0x90, 0xFF, 0xFF));
    accepted(HERE, ENCAPSULATION(6, 9, 4), 65534, OCTETS(0xFB, 0x94, 0x00, 0x00, 0x00, 0x01, 0x00, 0x06));
    accepted(HERE, ENCAPSULATION(0, 0, 0), 65534, OCTETS(0xE3, 0x00, 0x00, 0x00, 0x00, 0x01, 0x00, 0x06));
    for (uint32_t protocol = 0; protocol < 8; protocol++)
        if (protocol != 6)
            accepted(HERE, ENCAPSULATION(protocol, 0, 0), 1, OCTETS((uint8_t)(0xE1 + 4 * protocol), 0x03));
}

/* The order: 8, 7, 6, 10, 9. */
static void encapsulation_refusals(void)
{
    over_the_widths(HERE, ENCAPSULATION(6, 0, 0), (const unsigned[]){3, 4, 4}, 3);
    refused(HERE, 7, ENCAPSULATION(2, 0, 1), 1, 300);
    refused(HERE, 7, ENCAPSULATION(0, 5, 15), 0, 300);
    refused(HERE, 6, ENCAPSULATION(2, 0, 0), 0, 300);
    refused(HERE, 6, ENCAPSULATION(6, 15, 15), 0, 300);
    refused(HERE, 10, ENCAPSULATION(2, 0, 0), 65535, 66000);
    refused(HERE, 10, ENCAPSULATION(0, 0, 0), 65536, 66000);
    refused(HERE, 10, ENCAPSULATION(6, 1, 1), 69000, 70000);
    refused(HERE, 8, ENCAPSULATION(8, 0, 1), 1, 300);        /* 8 and 7 */
    refused(HERE, 8, ENCAPSULATION(2, 16, 1), 1, 300);       /* 8 and 7 */
    refused(HERE, 8, ENCAPSULATION(2, 0, 16), 1, 300);       /* 8 and 7 */
    refused(HERE, 8, ENCAPSULATION(8, 0, 0), 0, 300);        /* 8 and 6 */
    refused(HERE, 8, ENCAPSULATION(2, 16, 0), 65535, 66000); /* 8 and 10 */
    refused(HERE, 8, ENCAPSULATION(6, 0, 16), 1, 0);         /* 8 and 9 */
    refused(HERE, 7, ENCAPSULATION(2, 0, 1), 0, 300);        /* 7 and 6 */
    refused(HERE, 7, ENCAPSULATION(2, 0, 1), 65535, 66000);  /* 7 and 10 */
    refused(HERE, 7, ENCAPSULATION(2, 0, 1), 1, 0);          /* 7 and 9 */
    refused(HERE, 6, ENCAPSULATION(2, 0, 0), 0, 0);          /* 6 and 9 */
    refused(HERE, 10, ENCAPSULATION(2, 0, 0), 65535, 0);     /* 10 and 9 */
    refused(HERE, 10, ENCAPSULATION(2, 0, 0), 65535, 65542);
}

void test_write(void)
{
    space_packets();
    space_refusals();
    encapsulation_packets();
    encapsulation_refusals();
}
