/* branmuslin_read_packet: every header size and field, each refusal with its place, and which is told where several causes hold. */
#include "check.h"

typedef struct branmuslin_packet packet;

/* One call, after which *packet must hold the fields, and *place the fault's; either must be as it was if there are none. */
static void reads(struct place place, struct octets octets, uint8_t answer, struct octets fields, struct octets fault)
{
    const struct lent input = lend(octets), output = lend_noise(sizeof(packet)), told = lend_noise(sizeof(size_t));
    same(place, "the answer", answer, branmuslin_read_packet(input.octets, input.length, (void *)output.octets, (void *)told.octets));
    holds(place, "*packet", output, fields);
    holds(place, "*place", told, fault);
    holds(place, "the octets", input, NO_OCTETS);
}

/* A packet, whose octets after the header are noise: it reads the same whatever follows it, and is cut short wherever it is cut. */
static void accepted(struct place place, struct octets header, size_t content_length, packet fields)
{
    const size_t length = header.length + content_length;
    for (size_t after = 0; after <= 300; after = 10 * after + 1)
        reads(place, joined(header, content_length + after), 0, OCTETS_OF(fields), NO_OCTETS);
    for (size_t cut = 0; cut < length; cut = cut < 20 || cut == length - 1 ? cut + 1 : length - 1)
        reads(place, (struct octets){joined(header, content_length).at, cut}, 1, NO_OCTETS, OCTETS_OF(cut));
}

/* Octets after a header change no refusal, nor its place, but that of octets that end too early. */
static void refused(struct place place, uint8_t number, size_t fault, struct octets octets)
{
    reads(place, octets, number, NO_OCTETS, OCTETS_OF(fault));
    if (number != 1)
        reads(place, joined(octets, 300), number, NO_OCTETS, OCTETS_OF(fault));
}

static void space_packets(void)
{
    accepted(HERE, OCTETS(0x00, 0x2A, 0xC0, 0x05, 0x00, 0x01, 0xAA, 0xBB), 0,
             (packet){.apid = 42, .flags = 3, .count = 5, .offset = 6, .length = 2});
    accepted(HERE, OCTETS(0x00, 0x00, 0x00, 0x00, 0x00, 0x00), 1, (packet){.offset = 6, .length = 1});
    accepted(HERE, OCTETS(0x10, 0x00, 0x00, 0x00, 0x00, 0x00), 1, (packet){.type = 1, .offset = 6, .length = 1});
    accepted(HERE, OCTETS(0x08, 0x00, 0x00, 0x00, 0x00, 0x00), 1, (packet){.secondary = 1, .offset = 6, .length = 1});
    accepted(HERE, OCTETS(0x04, 0x01, 0x00, 0x00, 0x00, 0x00), 1, (packet){.apid = 1025, .offset = 6, .length = 1});
    accepted(HERE, OCTETS(0x07, 0xFF, 0x00, 0x00, 0x00, 0x00), 1, (packet){.apid = 2047, .offset = 6, .length = 1});
    accepted(HERE, OCTETS(0x0F, 0xFE, 0x00, 0x00, 0x00, 0x00), 1, (packet){.secondary = 1, .apid = 2046, .offset = 6, .length = 1});
    accepted(HERE, OCTETS(0x00, 0x00, 0x40, 0x00, 0x00, 0x00), 1, (packet){.flags = 1, .offset = 6, .length = 1});
    accepted(HERE, OCTETS(0x00, 0x00, 0x80, 0x00, 0x00, 0x00), 1, (packet){.flags = 2, .offset = 6, .length = 1});
    accepted(HERE, OCTETS(0x00, 0x00, 0x20, 0x01, 0x00, 0x00), 1, (packet){.count = 8193, .offset = 6, .length = 1});
    accepted(HERE, OCTETS(0x00, 0x00, 0x00, 0x00, 0x00, 0xFF), 256, (packet){.offset = 6, .length = 256});
    accepted(HERE, OCTETS(0x00, 0x00, 0x00, 0x00, 0x01, 0x00), 257, (packet){.offset = 6, .length = 257});
    accepted(HERE, OCTETS(0x1F, 0xFE, 0xFF, 0xFF, 0xFF, 0xFF), 65536,
             (packet){.type = 1, .secondary = 1, .apid = 2046, .flags = 3, .count = 16383, .offset = 6, .length = 65536});
}

static void encapsulation_packets(void)
{
    accepted(HERE, OCTETS(0xE0), 0, (packet){.version = 7, .offset = 1});
    accepted(HERE, OCTETS(0xE1, 0x02), 0, (packet){.version = 7, .offset = 2});
    accepted(HERE, OCTETS(0xE2, 0x00, 0x00, 0x04), 0, (packet){.version = 7, .offset = 4});
    accepted(HERE, OCTETS(0xE2, 0xF0, 0x00, 0x04), 0, (packet){.version = 7, .user = 15, .offset = 4});
    accepted(HERE, OCTETS(0xE3, 0x10, 0x00, 0x00, 0x00, 0x00, 0x00, 0x08), 0, (packet){.version = 7, .user = 1, .offset = 8});
    accepted(HERE, OCTETS(0xE9, 0x05, 0x11, 0x22, 0x33), 0, (packet){.version = 7, .protocol = 2, .offset = 2, .length = 3});
    accepted(HERE, OCTETS(0xFD, 0xFF), 253, (packet){.version = 7, .protocol = 7, .offset = 2, .length = 253});
    accepted(HERE, OCTETS(0xFA, 0x03, 0x00, 0x05, 0x55), 0, (packet){.version = 7, .protocol = 6, .extension = 3, .offset = 4, .length = 1});
    accepted(HERE, OCTETS(0xFA, 0x00, 0x00, 0x05, 0x55), 0, (packet){.version = 7, .protocol = 6, .offset = 4, .length = 1});
    accepted(HERE, OCTETS(0xEA, 0x50, 0x01, 0x02), 254, (packet){.version = 7, .protocol = 2, .user = 5, .offset = 4, .length = 254});
    accepted(HERE, OCTETS(0xE6, 0x00, 0xFF, 0xFF), 65531, (packet){.version = 7, .protocol = 1, .offset = 4, .length = 65531});
    accepted(HERE, OCTETS(0xFB, 0x3F, 0x00, 0x00, 0x00, 0x00, 0x00, 0x09, 0x55), 0,
             (packet){.version = 7, .protocol = 6, .user = 3, .extension = 15, .offset = 8, .length = 1});
    accepted(HERE, OCTETS(0xEF, 0x00, 0x00, 0x00, 0x00, 0x01, 0x00, 0x06), 65534,
             (packet){.version = 7, .protocol = 3, .offset = 8, .length = 65534});
    for (uint32_t protocol = 0; protocol < 8; protocol++)
        if (protocol != 6)
            accepted(HERE, OCTETS((uint8_t)(0xE1 + 4 * protocol), 0x03), 1,
                     (packet){.version = 7, .protocol = protocol, .offset = 2, .length = 1});
}

/* The version, the idle packet's flag and the protocol ID that has no content stand in octet 0; octets that are cut short are counted. */
static void each_refusal(void)
{
    refused(HERE, 1, 0, NO_OCTETS);
    refused(HERE, 1, 2, OCTETS(0x00, 0x2A));
    for (unsigned first = 0x20; first < 0xE0; first++)
        refused(HERE, 2, 0, OCTETS((uint8_t)first));
    refused(HERE, 3, 0, OCTETS(0x0F, 0xFF, 0xC0, 0x00, 0x00, 0x00, 0x00));
    refused(HERE, 3, 0, OCTETS(0x1F, 0xFF, 0x00, 0x00, 0x00, 0x00, 0x00));
    refused(HERE, 6, 0, OCTETS(0xE4));
    refused(HERE, 6, 0, OCTETS(0xE9, 0x02));
    refused(HERE, 6, 0, OCTETS(0xFA, 0x03, 0x00, 0x04));
    refused(HERE, 6, 0, OCTETS(0xFE, 0xF0, 0x00, 0x04));
    refused(HERE, 6, 0, OCTETS(0xFB, 0x01, 0x00, 0x00, 0x00, 0x00, 0x00, 0x08));
}

/* The length begins at octet 1, 2 or 4, whichever of its octets makes it wrong. */
static void lengths(void)
{
    refused(HERE, 4, 1, OCTETS(0xE1, 0x00));
    refused(HERE, 4, 1, OCTETS(0xE9, 0x01));
    refused(HERE, 4, 2, OCTETS(0xEA, 0x00, 0x00, 0x03));
    refused(HERE, 4, 4, OCTETS(0xEB, 0x00, 0x00, 0x00, 0x00, 0x00, 0x00, 0x07));
    refused(HERE, 4, 4, OCTETS(0xFB, 0x0F, 0x00, 0x00, 0x00, 0x00, 0x00, 0x07));
    refused(HERE, 5, 4, OCTETS(0xEB, 0x00, 0x00, 0x00, 0x00, 0x01, 0x00, 0x07));
    refused(HERE, 5, 4, OCTETS(0xE3, 0x00, 0x00, 0x00, 0x01, 0x00, 0x00, 0x08));
    refused(HERE, 5, 4, OCTETS(0xEB, 0x00, 0x00, 0x00, 0xFF, 0xFF, 0xFF, 0xFF));
    refused(HERE, 1, 8, OCTETS(0xEB, 0x00, 0x00, 0x00, 0x00, 0x01, 0x00, 0x06)); /* the longest that may be */
}

/* Protocol ID 6 stands in octet 0, the extension in octet 1, the CCSDS field in octets 2 and 3; where two are wrong, the earlier is told. */
static void naming_nothing(void)
{
    refused(HERE, 7, 0, OCTETS(0xF9, 0x03, 0x00));
    refused(HERE, 7, 1, OCTETS(0xEA, 0x13, 0x00, 0x05, 0x55));
    refused(HERE, 7, 1, OCTETS(0xE2, 0x01, 0x00, 0x04));
    refused(HERE, 7, 1, OCTETS(0xEF, 0x08, 0x00, 0x00, 0x00, 0x00, 0x00, 0x09, 0x55));
    refused(HERE, 7, 2, OCTETS(0xEB, 0x00, 0x01, 0x00, 0x00, 0x00, 0x00, 0x09, 0x55));
    refused(HERE, 7, 2, OCTETS(0xFB, 0x03, 0x01, 0x00, 0x00, 0x00, 0x00, 0x09, 0x55));
    refused(HERE, 7, 2, OCTETS(0xE3, 0xF0, 0x80, 0xFF, 0x00, 0x00, 0x00, 0x08));
    refused(HERE, 7, 3, OCTETS(0xEB, 0x00, 0x00, 0x01, 0x00, 0x00, 0x00, 0x09, 0x55));
    refused(HERE, 7, 3, OCTETS(0xFB, 0x03, 0x00, 0x01, 0x00, 0x00, 0x00, 0x09, 0x55));
    refused(HERE, 7, 3, OCTETS(0xE3, 0x00, 0x00, 0x01, 0x00, 0x00, 0x00, 0x08));
    refused(HERE, 7, 1, OCTETS(0xEB, 0x03, 0x00, 0x01, 0x00, 0x00, 0x00, 0x09, 0x55)); /* the extension, and octet 3 */
    refused(HERE, 7, 1, OCTETS(0xE3, 0xF1, 0x01, 0x00, 0x00, 0x00, 0x00, 0x08));       /* the extension, and octet 2 */
}

/* The order: 1 for no octets, 2, 1 for the header, then 3, or 7, 4, 5, 6, then 1 for the packet. */
static void first_of_two_causes(void)
{
    refused(HERE, 2, 0, OCTETS(0x2F, 0xFF, 0x00, 0x00, 0x00));                   /* 2, and a Space header would be cut short */
    refused(HERE, 1, 5, OCTETS(0x0F, 0xFF, 0xC0, 0x00, 0x00));                   /* the header is cut short, and 3 */
    refused(HERE, 3, 0, OCTETS(0x0F, 0xFF, 0xC0, 0x00, 0x00, 0x00));             /* 3, and the packet is cut short */
    refused(HERE, 1, 1, OCTETS(0xF9));                                           /* the header is cut short, and 7 */
    refused(HERE, 1, 3, OCTETS(0xEA, 0x01, 0x00));                               /* the header is cut short, and 7 */
    refused(HERE, 1, 7, OCTETS(0xEB, 0x01, 0x00, 0x01, 0x00, 0x00, 0x00));       /* the header is cut short, and 7 */
    refused(HERE, 7, 0, OCTETS(0xF9, 0x01));                                     /* 7 and 4 */
    refused(HERE, 7, 1, OCTETS(0xEA, 0x01, 0x00, 0x00));                         /* 7 and 4 */
    refused(HERE, 7, 1, OCTETS(0xEB, 0x01, 0x00, 0x00, 0xFF, 0xFF, 0xFF, 0xFF)); /* 7 and 5 */
    refused(HERE, 7, 3, OCTETS(0xEB, 0x00, 0x00, 0x01, 0x00, 0x01, 0x00, 0x07)); /* 7 and 5 */
    refused(HERE, 7, 0, OCTETS(0xF8));                                           /* 7 and 6 */
    refused(HERE, 7, 0, OCTETS(0xF9, 0x02));                                     /* 7 and 6 */
    refused(HERE, 7, 1, OCTETS(0xEA, 0x01, 0x00, 0x04));                         /* 7 and 6 */
    refused(HERE, 7, 1, OCTETS(0xEA, 0x01, 0x00, 0x05));                         /* 7, and the packet is cut short */
    refused(HERE, 5, 4, OCTETS(0xFB, 0x01, 0x00, 0x00, 0x00, 0x01, 0x00, 0x07)); /* 5, and the packet is cut short */
}

void test_read(void)
{
    space_packets();
    encapsulation_packets();
    each_refusal();
    lengths();
    naming_nothing();
    first_of_two_causes();
}
