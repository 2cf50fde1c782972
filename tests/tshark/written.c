/*
 * written PCAP: writes Space Packets by the library, one a frame of the capture file PCAP, and prints for each what it gave to the writer: the
 * packet's octets in all, APID, type, secondary header flag, sequence flags, count, length field and user data in hexadecimal, with tabs
 * between. Where the flag is set, Wireshark takes ten octets for the secondary header; the user data are those behind them, up to the end if
 * octet 5 of it does not announce a checkword.
 */
#include "../c/check.h"
#include <stdio.h>

#define PACKETS 600
#define SECONDARY 10
#define USER_DLT 147
#define CHECKWORD 0x20

struct given {
    uint32_t type, secondary, apid, flags, count;
    uint8_t data[65536];
    size_t length;
};

/* First the longest packet and the shortest of which Wireshark tells the data, then the APIDs that other dissectors claim, then any. */
static void choose(struct given *given, size_t packet)
{
    static const uint32_t apids[] = {2047, 1, 0, 2045, 2046}, lengths[] = {65536, SECONDARY};
    given->apid = packet < 5 ? apids[packet] : next_random() % 2048;
    given->length = packet < 2 ? lengths[packet] : SECONDARY + 1 + next_random() % (packet % 10 == 0 ? 5000 : 300);
    given->type = next_random() % 2;
    given->secondary = packet < 2 || given->apid == 2047 ? 0 : next_random() % 2;
    given->flags = next_random() % 4;
    given->count = next_random() % 16384;
    for (size_t i = 0; i < given->length; i++)
        given->data[i] = (uint8_t)next_random();
    if (given->secondary)
        given->data[5] &= (uint8_t)~CHECKWORD;
}

static void print(const struct given *given)
{
    printf("%zu\t%u\t%u\t%u\t%u\t%u\t%zu\t", 6 + given->length, (unsigned)given->apid, (unsigned)given->type, (unsigned)given->secondary,
           (unsigned)given->flags, (unsigned)given->count, given->length - 1);
    for (size_t i = given->secondary ? SECONDARY : 0; i < given->length; i++)
        printf("%02x", (unsigned)given->data[i]);
    putchar('\n');
}

/* A capture file's numbers are in the order of the machine that wrote it. */
static void put_file_header(FILE *file)
{
    const uint32_t magic = 0xA1B2C3D4, rest[] = {0, 0, 262144, USER_DLT};
    const uint16_t version[] = {2, 4};
    fwrite(&magic, sizeof magic, 1, file);
    fwrite(version, sizeof version, 1, file);
    fwrite(rest, sizeof rest, 1, file);
}

static void put_frame(FILE *file, const uint8_t *octets, size_t length)
{
    const uint32_t header[] = {0, 0, (uint32_t)length, (uint32_t)length};
    fwrite(header, sizeof header, 1, file);
    fwrite(octets, 1, length, file);
}

static uint8_t write_packet(FILE *file, const struct given *given)
{
    static uint8_t output[BRANMUSLIN_LONGEST_PACKET];
    size_t written = 0;
    const uint8_t refusal = branmuslin_write_space(given->type, given->secondary, given->apid, given->flags, given->count, given->data,
                                                   given->length, output, sizeof output, &written);
    if (refusal == 0)
        put_frame(file, output, written);
    else
        fprintf(stderr, "a packet was refused: %u\n", (unsigned)refusal);
    return refusal;
}

int main(int argc, char **argv)
{
    static struct given given;
    FILE *file = argc == 2 ? fopen(argv[1], "wb") : NULL;
    if (!file) {
        fputs("usage: written PCAP, which must be a file that can be written\n", stderr);
        return 2;
    }
    put_file_header(file);
    for (size_t packet = 0; packet < PACKETS; packet++) {
        choose(&given, packet);
        print(&given);
        if (write_packet(file, &given) != 0)
            return 1;
    }
    return fclose(file) == 0 && fflush(stdout) == 0 ? 0 : 1;
}
