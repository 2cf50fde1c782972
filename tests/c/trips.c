/* Pseudo-random packets there and back: reading what was written gives the same fields, and writing what was read the same octets. */
#include "check.h"

#define TRIPS 500

static size_t random_length(uint32_t trip, size_t longest)
{
    return next_random() % (trip % 50 == 0 ? longest : 600);
}

/* The octets must read as these fields, with no octet at fault. */
static void reads_as(struct place place, struct lent octets, struct branmuslin_packet fields)
{
    const struct lent packet = lend_noise(sizeof fields), fault = lend_noise(sizeof(size_t));
    same(place, "reading", 0, branmuslin_read_packet(octets.octets, octets.length, (void *)packet.octets, (void *)fault.octets));
    holds(place, "*packet", packet, OCTETS_OF(fields));
    holds(place, "*place", fault, NO_OCTETS);
}

static void space_trip(uint32_t trip)
{
    struct branmuslin_packet f = {.type = next_random() % 2, .apid = next_random() % 2048, .flags = next_random() % 4, .offset = 6};
    f.secondary = f.apid == 2047 ? 0 : next_random() % 2;
    f.count = next_random() % 16384;
    f.length = (uint32_t)(1 + random_length(trip, 65536));
    const struct octets packet =
        joined(OCTETS((uint8_t)(f.type * 16 + f.secondary * 8 + f.apid / 256), (uint8_t)(f.apid % 256), (uint8_t)(f.flags * 64 + f.count / 256),
                      (uint8_t)(f.count % 256), (uint8_t)((f.length - 1) / 256), (uint8_t)((f.length - 1) % 256)),
               f.length);
    const struct lent first = lend(packet), second = lend_noise(packet.length + trip % 3);
    size_t written = 0;
    reads_as(HERE, first, f);
    same(HERE, "writing", 0,
         branmuslin_write_space(f.type, f.secondary, f.apid, f.flags, f.count, first.octets + f.offset, f.length, second.octets,
                                second.length, &written));
    same(HERE, "*written", packet.length, written);
    reads_as(HERE, second, f);
    holds(HERE, "the packet that was written", second, packet);
    holds(HERE, "the packet that was read", first, NO_OCTETS);
}

/* By the paper: 1 octet only for no content, user 0 and protocol 0; at least 4 where user is not 0 or protocol is 6. */
static uint32_t shortest_header(const struct branmuslin_packet *f)
{
    if (f->length == 0 && f->user == 0 && f->protocol == 0)
        return 1;
    if (f->length + 2 <= 255 && f->user == 0 && f->protocol != 6)
        return 2;
    return f->length + 4 <= 65535 ? 4 : 8;
}

/* The packet with a header of f->offset octets, by hand. */
static struct octets encapsulation_packet(const struct branmuslin_packet *f)
{
    const uint8_t first = (uint8_t)(0xE0 + 4 * f->protocol), second = (uint8_t)(16 * f->user + f->extension);
    const uint32_t all = f->offset + f->length;
    const uint8_t high = (uint8_t)(all / 256 % 256), low = (uint8_t)(all % 256);
    switch (f->offset) {
    case 1: return joined(OCTETS(first), f->length);
    case 2: return joined(OCTETS(first + 1, low), f->length);
    case 4: return joined(OCTETS(first + 2, second, high, low), f->length);
    default: return joined(OCTETS(first + 3, second, 0, 0, 0, (uint8_t)(all / 65536), high, low), f->length);
    }
}

/* Whatever header it was read from, it is written with the shortest. */
static void rewrites(struct branmuslin_packet f, uint32_t header)
{
    size_t written = 0;
    f.offset = header;
    const struct lent first = lend(encapsulation_packet(&f)), second = lend_noise(8 + f.length);
    reads_as(HERE, first, f);
    same(HERE, "writing", 0,
         branmuslin_write_encapsulation(f.protocol, f.user, f.extension, first.octets + f.offset, f.length, second.octets, second.length,
                                        &written));
    f.offset = shortest_header(&f);
    same(HERE, "*written", f.offset + f.length, written);
    reads_as(HERE, second, f);
    holds(HERE, "the packet that was written", second, encapsulation_packet(&f));
    holds(HERE, "the packet that was read", first, NO_OCTETS);
}

static void encapsulation_trip(uint32_t trip)
{
    struct branmuslin_packet f = {.version = 7, .protocol = next_random() % 8, .user = next_random() % 2 * (next_random() % 16)};
    f.extension = f.protocol == 6 ? next_random() % 16 : 0;
    f.length = (uint32_t)random_length(trip, 65535);
    if (f.length == 0 || trip % 25 == 1)
        f.protocol = f.extension = f.length = 0;
    for (uint32_t header = shortest_header(&f); header <= 8; header *= 2)
        if (header + f.length <= (header == 4 ? 65535 : 65542) && (header > 2 || header + f.length <= 255))
            rewrites(f, header);
}

void test_round_trips(void)
{
    for (uint32_t trip = 0; trip < TRIPS; trip++) {
        space_trip(trip);
        encapsulation_trip(trip);
    }
}
