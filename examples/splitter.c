/*
 * splitter: splits a recording, packets one after another in a file, by the library branmuslin.
 *
 *     cc splitter.c $(pkg-config --cflags --libs branmuslin) -o splitter
 *     ./splitter FILE [APID OUTPUT]
 *
 * (Where the library is installed in a folder of its own, PKG_CONFIG_PATH names its lib/pkgconfig.)
 *
 * It prints a line a packet, which begins with the packet's offset in the file:
 *
 *     0 space type=0 secondary=0 apid=42 flags=3 count=5 data=2
 *     8 encapsulation protocol=2 user=0 extension=0 header=2 content=3
 *
 * `data`, `header` and `content` count octets, the others are the packet's fields. Where the octets are no packet, it stops with a line that
 * gives the refusal, the place of the field at fault, counted from the packet's offset (of 1, the octets that are there), the cause and the octets left:
 *
 *     13 refused 1 2 the octets end before the header or the packet does; octets left: 2
 *
 * With APID (0 to 2047) and OUTPUT it also writes the data fields of that APID's Space Packets, one after another, to OUTPUT. A secondary
 * header is a part of the data field, and only the mission knows how long it is. Where a packet is refused, OUTPUT has the data up to there.
 *
 * Status: 0 the whole file was split; 1 a file can't be read or written, or memory is short; 2 a wrong call; 3 a packet was refused.
 */
#include <branmuslin.h>

#include <errno.h>
#include <stdio.h>
#include <stdlib.h>
#include <string.h>

enum { SPLIT, FAILED, WRONG_CALL, REFUSED };

/* Where the data fields of one APID go; without a path, nowhere. */
struct sink {
    const char *path;
    FILE *file;
    unsigned apid;
};

static int fail(const char *what, const char *path)
{
    fprintf(stderr, "splitter: %s %s: %s\n", what, path, strerror(errno));
    return FAILED;
}

/* Reads to the file's end. Returns the octets, which are to be freed, or null with the cause in errno. */
static uint8_t *read_all(FILE *file, size_t *length)
{
    uint8_t *octets = NULL;
    size_t room = 0;
    do {
        if (*length == room) {
            const size_t more = room == 0 ? 65536 : 2 * room;
            uint8_t *grown = more > room ? realloc(octets, more) : NULL;
            if (!grown) {
                free(octets);
                return NULL;
            }
            octets = grown;
            room = more;
        }
        *length += fread(octets + *length, 1, room - *length, file);
    } while (!feof(file) && !ferror(file));
    if (!ferror(file))
        return octets;
    free(octets);
    return NULL;
}

static void print_packet(size_t at, const struct branmuslin_packet *p)
{
    if (p->version == BRANMUSLIN_SPACE)
        printf("%zu space type=%u secondary=%u apid=%u flags=%u count=%u data=%u\n", at, (unsigned)p->type, (unsigned)p->secondary,
               (unsigned)p->apid, (unsigned)p->flags, (unsigned)p->count, (unsigned)p->length);
    else
        printf("%zu encapsulation protocol=%u user=%u extension=%u header=%u content=%u\n", at, (unsigned)p->protocol, (unsigned)p->user,
               (unsigned)p->extension, (unsigned)p->offset, (unsigned)p->length);
}

/* 7 has three causes, and the place shows which it is. */
static const char *cause_of_7(size_t place)
{
    if (place == 0)
        return "protocol ID 6 in a 1 or 2 octet header";
    return place == 1 ? "the extension is not 0, and the protocol ID is not 6" : "the CCSDS field is not 0";
}

static const char *cause(uint8_t refusal, size_t place)
{
    switch (refusal) {
    case BRANMUSLIN_CUT_SHORT: return "the octets end before the header or the packet does";
    case BRANMUSLIN_BAD_VERSION: return "the version is neither 000 nor 111";
    case BRANMUSLIN_IDLE_FLAGGED: return "APID 2047 (idle) has the secondary header flag";
    case BRANMUSLIN_UNDER_HEADER: return "the encapsulation length is less than its header";
    case BRANMUSLIN_OVER_LIMIT: return "the encapsulation length is over 65,542";
    case BRANMUSLIN_NO_CONTENT: return "there is no content, and the protocol ID is not 0";
    case BRANMUSLIN_NAMES_NOTHING: return cause_of_7(place);
    default: return "unknown";
    }
}

static int split(const uint8_t *octets, size_t length, const struct sink *sink)
{
    struct branmuslin_packet packet;
    size_t place = 0;
    for (size_t at = 0; at < length; at += (size_t)packet.offset + packet.length) {
        const uint8_t refusal = branmuslin_read_packet(octets + at, length - at, &packet, &place);
        if (refusal != 0) {
            printf("%zu refused %u %zu %s; octets left: %zu\n", at, (unsigned)refusal, place, cause(refusal, place), length - at);
            return REFUSED;
        }
        print_packet(at, &packet);
        if (sink->file && packet.version == BRANMUSLIN_SPACE && packet.apid == sink->apid &&
            fwrite(octets + at + packet.offset, 1, packet.length, sink->file) != packet.length)
            return fail("can't write", sink->path);
    }
    return SPLIT;
}

/* OUTPUT is opened only once FILE has been read; a full disk may show only when it is closed. */
static int split_file(const char *path, struct sink *sink)
{
    size_t length = 0;
    FILE *file = fopen(path, "rb");
    uint8_t *octets = file ? read_all(file, &length) : NULL;
    int status = octets ? SPLIT : fail("can't read", path);
    if (file)
        fclose(file);
    if (octets && sink->path && !(sink->file = fopen(sink->path, "wb")))
        status = fail("can't write", sink->path);
    if (status == SPLIT)
        status = split(octets, length, sink);
    if (sink->file && fclose(sink->file) != 0 && status != FAILED)
        status = fail("can't write", sink->path);
    if ((fflush(stdout) != 0 || ferror(stdout)) && status != FAILED)
        status = fail("can't write", "standard output");
    free(octets);
    return status;
}

/* One to four digits and nothing else; strtoul alone would also take blanks, a sign and the empty text. */
static int parse_apid(const char *text, unsigned *apid)
{
    const size_t digits = strspn(text, "0123456789");
    *apid = (unsigned)strtoul(text, NULL, 10);
    return digits >= 1 && digits <= 4 && text[digits] == '\0' && *apid <= 2047;
}

int main(int argc, char **argv)
{
    struct sink sink = {argc == 4 ? argv[3] : NULL, NULL, 0};
    if (argc != 2 && argc != 4) {
        fputs("usage: splitter FILE [APID OUTPUT]\n", stderr);
        return WRONG_CALL;
    }
    if (argc == 4 && strcmp(argv[1], argv[3]) == 0) {
        fprintf(stderr, "splitter: OUTPUT would overwrite %s\n", argv[1]);
        return WRONG_CALL;
    }
    if (argc == 4 && !parse_apid(argv[2], &sink.apid)) {
        fprintf(stderr, "splitter: an APID is a number from 0 to 2047, not '%s'\n", argv[2]);
        return WRONG_CALL;
    }
    return split_file(argv[1], &sink);
}
