/*
 * intake: takes the packets of up to eight uploads into lanes, by the library branmuslin, and keeps the credit records.
 *
 *     cc intake.c $(pkg-config --cflags --libs branmuslin) -o intake
 *     ./intake [--units DIR] [--records FILE] [--frames] STATION:APID:SECONDARY:SHARE:CAP:UPLOAD ...
 *
 * An UPLOAD is a file of packets one after another, of any length: each is read whole before the first packet is taken. The first goes to lane 0,
 * and so on; the numbers are the lane's settings (SECONDARY in octets, SHARE and CAP in blocks of 256 octets). The lanes are opened in order, take one
 * packet of each upload in turn, where an upload that is used up is passed over, and are closed in order.
 *
 * With --frames each UPLOAD is a frame file, of any length too, and is read frame by frame: frames one after another, each its count, its first header
 * pointer and the octets of its field, 2 octets each with the high one first, and then the field. The packets that come out go to the lane.
 *
 * A unit is written to DIR/LANE-NUMBER.unit, numbered from 0 in each lane, or discarded where no DIR is given; DIR must be there. The credit
 * records, 20 octets a lane in the order of the lanes, are written to FILE and read back from it.
 *
 * It prints a line for each packet that is refused: its offset in the upload, the number of the refusal and the cause. Octets that are no
 * packet (1 to 7) end their upload, and the others go on; before the cause stands the place of the field at fault, counted from the packet's offset (of 1,
 * the octets that are there). At last it prints the tallies, where `refused` counts those lines:
 *
 *     8 refused 13 an Encapsulation Packet is sent to a lane
 *     14 refused 1 2 the octets end before the header or the packet does; the upload ends here, with octets left: 2
 *     units 1 packets 1 missing 0 broken 0 repeats 0 refused 2
 *
 * Of a frame file, the offset of a packet is that of the frame from which it came out, which is the one that it ends in. A frame that is refused has a
 * line with its offset and its count, and one that is cut off ends the upload; both are counted by `refused`:
 *
 *     52 frame 256 refused 28 the count is over 255
 *     86 bad the frame is cut off; the upload ends here, with octets left: 9
 *
 * With several uploads, each line begins with the number of the lane. A lane that is refused at opening has a line such as
 * `opening refused 22 ..`, no tallies and no record.
 *
 * Status: 0 done, also where something was refused; 1 a file can't be read or written, or memory is short; 2 a wrong call.
 */
#include <branmuslin.h>

#include <errno.h>
#include <stdio.h>
#include <stdlib.h>
#include <string.h>

enum { DONE, FAILED, WRONG_CALL };

/* The header of a frame in a frame file, and the longest field that it can tell. */
enum { FRAME_HEADER = 6, LONGEST_TOLD = 65535 };

/* What is read of a frame file, and what the library needs from frame to frame: the state and the buffer of the piece. */
struct frame_file {
    FILE *file;        /* null for an upload of packets */
    size_t at, next;   /* offsets of the frame that was read last and of the next one */
    bool ended;
    struct branmuslin_frames state;
    uint8_t piece[BRANMUSLIN_PIECE_LENGTH];
    uint8_t packets[BRANMUSLIN_FRAME_OUTPUT];
};

struct upload {
    const char *path;
    char front[3]; /* of its lines: the lane's number and a blank; nothing for a single upload */
    struct branmuslin_settings settings;
    uint8_t *whole;        /* a file of packets, to be freed */
    const uint8_t *octets; /* packets one after another: those of the file, or those that came out of the last frame */
    size_t length;
    size_t at; /* where the next packet begins; the length once they are used up */
    struct frame_file frames;
    size_t units, repeats, refused;
    bool credited; /* whether its lane was closed, and so has a record */
    uint8_t record[BRANMUSLIN_RECORD_LENGTH];
};

/* All that the server keeps: what the library needs from call to call is the state and the pool. */
struct intake {
    struct branmuslin_state state;
    uint8_t pool[BRANMUSLIN_POOL_LENGTH];
    uint8_t unit[BRANMUSLIN_LONGEST_UNIT];
    uint8_t field[LONGEST_TOLD];
    struct upload uploads[BRANMUSLIN_LANES];
    size_t lanes;
    const char *units_to, *records_to; /* null where none is given */
    bool framed;                       /* whether the uploads are frame files */
};

/* Every number that can come up here, but for 7 and 28: a lane is given whole packets, the outputs suffice, and the state and the pool are the library's own. */
static const char *const causes[] = {
    [BRANMUSLIN_CUT_SHORT] = "the octets end before the header or the packet does",
    [BRANMUSLIN_BAD_VERSION] = "the version is neither 000 nor 111",
    [BRANMUSLIN_IDLE_FLAGGED] = "APID 2047 (idle) has the secondary header flag",
    [BRANMUSLIN_UNDER_HEADER] = "the encapsulation length is less than its header",
    [BRANMUSLIN_OVER_LIMIT] = "the encapsulation length is over 65,542",
    [BRANMUSLIN_NO_CONTENT] = "there is no content, and the protocol ID is not 0",
    [BRANMUSLIN_NOT_SPACE] = "an Encapsulation Packet is sent to a lane",
    [BRANMUSLIN_NOT_TELEMETRY] = "a packet of type 1 is sent to a lane",
    [BRANMUSLIN_OTHER_APID] = "the APID is not the lane's",
    [BRANMUSLIN_FLAG_DIFFERS] = "the secondary header flag is set and the lane's secondary length is 0, or clear and it isn't",
    [BRANMUSLIN_UNDER_SECONDARY] = "the data field is shorter than the secondary length",
    [BRANMUSLIN_LANE_FULL] = "the lane has taken 262,144 packets",
    [BRANMUSLIN_OVER_CAP] = "no room: the group would exceed the lane's own cap; sending the packet again can't help",
    [BRANMUSLIN_BAD_SETTINGS] = "the APID is over 2046, the secondary length over 63, the share over the cap, or the cap over 64",
    [BRANMUSLIN_NOT_PROMISED] = "the share can't be promised",
    [BRANMUSLIN_OTHERS_IN_THE_WAY] = "no room: what the group and the other lanes hold or are promised would exceed 64 blocks; the other lanes are in "
                                     "the way, and the packet may fit later",
};

static const char *cause(uint8_t refusal)
{
    return refusal < sizeof causes / sizeof *causes && causes[refusal] ? causes[refusal] : "unknown";
}

/* 7 has three causes, and the place shows which it is. */
static const char *cause_of_7(size_t place)
{
    if (place == 0)
        return "protocol ID 6 in a 1 or 2 octet header";
    return place == 1 ? "the extension is not 0, and the protocol ID is not 6" : "the CCSDS field is not 0";
}

/* Of the causes of 28 three can be in the file; the buffer and the state are the library's own. */
static const char *cause_of_28(uint32_t count, size_t length)
{
    if (length < BRANMUSLIN_SHORTEST_FIELD || length > BRANMUSLIN_LONGEST_FIELD)
        return "the field has not 8 to 2,046 octets";
    return count > 255 ? "the count is over 255" : "the first header pointer is an offset at or past the field's end";
}

static int fail(const char *what, const char *path)
{
    fprintf(stderr, "intake: %s %s: %s\n", what, path, strerror(errno));
    return FAILED;
}

/* Reads to the file's end; *length is 0 before. Returns the octets, which are to be freed, not null for none; or null with the cause in errno. */
static uint8_t *read_all(FILE *file, size_t *length)
{
    size_t room = 65536;
    uint8_t *octets = malloc(room);
    while (octets && (*length += fread(octets + *length, 1, room - *length, file)) == room) {
        uint8_t *grown = realloc(octets, room *= 2);
        if (!grown)
            free(octets);
        octets = grown;
    }
    if (octets && ferror(file)) {
        free(octets);
        return NULL;
    }
    return octets;
}

static int read_file(const char *path, uint8_t **octets, size_t *length)
{
    FILE *file = fopen(path, "rb");
    if (!file)
        return fail("can't read", path);
    *octets = read_all(file, length);
    const int status = *octets ? DONE : fail("can't read", path);
    if (fclose(file) != 0 && status == DONE)
        return fail("can't read", path);
    return status;
}

/* A full disk may show only when the file is closed. */
static int write_file(const char *path, const uint8_t *octets, size_t length)
{
    FILE *file = fopen(path, "wb");
    if (!file)
        return fail("can't write", path);
    const int status = fwrite(octets, 1, length, file) == length ? DONE : fail("can't write", path);
    if (fclose(file) != 0 && status == DONE)
        return fail("can't write", path);
    return status;
}

static int write_unit(struct intake *intake, size_t lane, size_t length)
{
    char path[FILENAME_MAX];
    const size_t number = intake->uploads[lane].units++;
    if (!intake->units_to)
        return DONE;
    if ((size_t)snprintf(path, sizeof path, "%s/%zu-%zu.unit", intake->units_to, lane, number) >= sizeof path) {
        errno = ENAMETOOLONG;
        return fail("can't write a unit in", intake->units_to);
    }
    return write_file(path, intake->unit, length);
}

/* Reading alone, which refuses with 1 to 7, tells a place. A packet of a frame file may lie across frames, so that its own offset says little. */
static void print_refused_packet(struct upload *upload, uint8_t refusal, size_t place)
{
    printf("%s%zu refused %u ", upload->front, upload->frames.file ? upload->frames.at : upload->at, (unsigned)refusal);
    if (refusal <= BRANMUSLIN_NAMES_NOTHING)
        printf("%zu ", place);
    fputs(refusal == BRANMUSLIN_NAMES_NOTHING ? cause_of_7(place) : cause(refusal), stdout);
    upload->refused++;
}

static void open_lanes(struct intake *intake)
{
    intake->state = branmuslin_fresh_start();
    for (size_t lane = 0; lane < intake->lanes; lane++) {
        struct upload *upload = &intake->uploads[lane];
        const struct branmuslin_change change = branmuslin_open_lane(intake->state, lane, upload->settings, intake->pool, sizeof intake->pool);
        intake->state = change.state;
        if (change.refusal != BRANMUSLIN_DONE) {
            printf("%sopening refused %u %s\n", upload->front, (unsigned)change.refusal, cause(change.refusal));
            upload->at = upload->length;
            upload->frames.ended = true;
        }
    }
}

/* Opens a frame file. That it can't be read, as a folder can't, shows with the first octet, and is to be told before anything is taken. */
static int open_frames(struct upload *upload)
{
    struct frame_file *frames = &upload->frames;
    frames->file = fopen(upload->path, "rb");
    if (!frames->file)
        return fail("can't read", upload->path);
    const int first = getc(frames->file);
    if (ferror(frames->file))
        return fail("can't read", upload->path);
    ungetc(first, frames->file);
    frames->state = branmuslin_fresh_frames();
    frames->ended = false;
    return DONE;
}

static uint32_t number_at(const uint8_t *octets)
{
    return (uint32_t)octets[0] << 8 | octets[1];
}

/* The packets that come out are the upload's next ones. A frame that is refused or a repeat gives none. */
static void take_frame(struct upload *upload, const uint8_t *header, const uint8_t *field, size_t length)
{
    struct frame_file *frames = &upload->frames;
    const uint32_t count = number_at(header), pointer = number_at(header + 2);
    const struct branmuslin_framed framed = branmuslin_take_frame(frames->state, count, pointer, field, length, frames->piece, sizeof frames->piece,
                                                                  frames->packets, sizeof frames->packets);
    frames->state = framed.state;
    upload->octets = frames->packets;
    upload->length = framed.octets;
    upload->at = 0;
    if (framed.kind != BRANMUSLIN_FRAME_REFUSED)
        return;
    printf("%s%zu frame %lu refused %u %s\n", upload->front, frames->at, (unsigned long)count, (unsigned)framed.refusal, cause_of_28(count, length));
    upload->refused++;
}

/* Nothing says where the frame after one that is cut off begins: that one is the last. */
static int next_frame(struct intake *intake, struct upload *upload)
{
    struct frame_file *frames = &upload->frames;
    uint8_t header[FRAME_HEADER];
    size_t read = fread(header, 1, sizeof header, frames->file), length = 0;
    if (read == sizeof header) {
        length = number_at(header + 4);
        read += fread(intake->field, 1, length, frames->file);
    }
    if (ferror(frames->file))
        return fail("can't read", upload->path);
    frames->at = frames->next;
    frames->next += read;
    if (read == sizeof header + length) {
        take_frame(upload, header, intake->field, length);
        return DONE;
    }
    frames->ended = true;
    if (read > 0) {
        printf("%s%zu bad the frame is cut off; the upload ends here, with octets left: %zu\n", upload->front, frames->at, read);
        upload->refused++;
    }
    return DONE;
}

/* Of a frame file, frames are read until packets come out, or there is none left. */
static int find_packet(struct intake *intake, struct upload *upload)
{
    while (upload->at == upload->length && !upload->frames.ended)
        if (next_frame(intake, upload) != DONE)
            return FAILED;
    return DONE;
}

/* The next packet is read first to see where it ends, since a lane is given one packet and not an octet more. */
static int take_next(struct intake *intake, size_t lane)
{
    struct upload *upload = &intake->uploads[lane];
    const uint8_t *next = upload->octets + upload->at;
    const size_t left = upload->length - upload->at;
    struct branmuslin_packet packet;
    size_t place = 0;
    const uint8_t refusal = branmuslin_read_packet(next, left, &packet, &place);
    if (refusal != BRANMUSLIN_DONE) {
        print_refused_packet(upload, refusal, place);
        printf("; the upload ends here, with octets left: %zu\n", left);
        upload->at = upload->length;
        return DONE;
    }
    const size_t length = (size_t)packet.offset + packet.length;
    const struct branmuslin_answer answer = branmuslin_take_packet(intake->state, lane, next, length, intake->pool, sizeof intake->pool,
                                                                   intake->unit, sizeof intake->unit);
    intake->state = answer.state;
    if (answer.kind == BRANMUSLIN_REFUSED) {
        print_refused_packet(upload, answer.refusal, answer.place);
        putchar('\n');
    }
    upload->repeats += answer.kind == BRANMUSLIN_REPEAT;
    upload->at += length;
    return answer.kind == BRANMUSLIN_UNIT ? write_unit(intake, lane, answer.octets) : DONE;
}

static void close_lanes(struct intake *intake)
{
    for (size_t lane = 0; lane < intake->lanes; lane++) {
        struct upload *upload = &intake->uploads[lane];
        if (!intake->state.lanes[lane].opened)
            continue;
        const struct branmuslin_change change =
            branmuslin_close_lane(intake->state, lane, intake->pool, sizeof intake->pool, upload->record, sizeof upload->record);
        intake->state = change.state;
        upload->credited = change.refusal == BRANMUSLIN_DONE;
        if (!upload->credited)
            printf("%sclosing refused %u %s\n", upload->front, (unsigned)change.refusal, cause(change.refusal));
    }
}

/* The server's loop: a packet of each upload in turn. */
static int serve(struct intake *intake)
{
    bool more;
    open_lanes(intake);
    do {
        more = false;
        for (size_t lane = 0; lane < intake->lanes; lane++) {
            struct upload *upload = &intake->uploads[lane];
            if (find_packet(intake, upload) != DONE)
                return FAILED;
            if (upload->at == upload->length)
                continue;
            more = true;
            if (take_next(intake, lane) != DONE)
                return FAILED;
        }
    } while (more);
    close_lanes(intake);
    return DONE;
}

/* Credit that is told must be in the file, so it is read back as another program will read it. */
static int write_records(const struct intake *intake)
{
    uint8_t written[BRANMUSLIN_LANES * BRANMUSLIN_RECORD_LENGTH], *read = NULL;
    size_t length = 0, read_length = 0, records = 0, index = 0;
    for (size_t lane = 0; lane < intake->lanes; lane++)
        if (intake->uploads[lane].credited) {
            memcpy(written + length, intake->uploads[lane].record, BRANMUSLIN_RECORD_LENGTH);
            length += BRANMUSLIN_RECORD_LENGTH;
        }
    int status = write_file(intake->records_to, written, length);
    if (status == DONE)
        status = read_file(intake->records_to, &read, &read_length);
    if (status == DONE && (branmuslin_read_record_file(read, read_length, &records, &index) != BRANMUSLIN_DONE || read_length != length ||
                           memcmp(read, written, length) != 0)) {
        fprintf(stderr, "intake: %s does not read back as it was written\n", intake->records_to);
        status = FAILED;
    }
    free(read);
    return status;
}

/* The tallies are those of the record, since closing counts a group that is still open as broken. */
static void print_tallies(const struct intake *intake)
{
    for (size_t lane = 0; lane < intake->lanes; lane++) {
        const struct upload *upload = &intake->uploads[lane];
        struct branmuslin_record r;
        if (!upload->credited || branmuslin_read_record(upload->record, sizeof upload->record, &r) != BRANMUSLIN_DONE)
            continue;
        printf("%sunits %lu packets %lu missing %lu broken %lu repeats %zu refused %zu\n", upload->front, (unsigned long)r.units,
               (unsigned long)r.packets, (unsigned long)r.missing, (unsigned long)r.broken, upload->repeats, upload->refused);
    }
}

static int open_upload(struct upload *upload, bool framed)
{
    upload->frames.ended = true;
    if (framed)
        return open_frames(upload);
    const int status = read_file(upload->path, &upload->whole, &upload->length);
    upload->octets = upload->whole;
    return status;
}

static void close_upload(struct upload *upload)
{
    free(upload->whole);
    if (upload->frames.file)
        fclose(upload->frames.file);
}

static int run(struct intake *intake)
{
    int status = DONE;
    for (size_t lane = 0; lane < intake->lanes && status == DONE; lane++) {
        struct upload *upload = &intake->uploads[lane];
        if (intake->lanes > 1)
            snprintf(upload->front, sizeof upload->front, "%u ", (unsigned)lane % 10);
        status = open_upload(upload, intake->framed);
    }
    if (status == DONE)
        status = serve(intake);
    if (status == DONE && intake->records_to)
        status = write_records(intake);
    if (status == DONE)
        print_tallies(intake);
    if ((fflush(stdout) != 0 || ferror(stdout)) && status == DONE)
        status = fail("can't write", "standard output");
    for (size_t lane = 0; lane < intake->lanes; lane++)
        close_upload(&intake->uploads[lane]);
    return status;
}

/* Some digits and a colon; strtoul alone would also take blanks, a sign and the empty text. Moves *text behind the colon. */
static bool parse_number(const char **text, const char *name, unsigned long most, unsigned long *number)
{
    const size_t digits = strspn(*text, "0123456789"), part = strcspn(*text, ":");
    *number = digits <= 9 ? strtoul(*text, NULL, 10) : most + 1;
    if (digits == 0 || digits != part || *number > most) {
        fprintf(stderr, "intake: %s is a number from 0 to %lu, not '%.*s'\n", name, most, (int)part, *text);
        return false;
    }
    *text += part + 1;
    return true;
}

/* Each number fits its type; whether the settings are legal is the library's to say. A path may have colons of its own. */
static bool parse_upload(const char *text, struct upload *upload)
{
    unsigned long station, apid, secondary, share, cap;
    size_t colons = 0;
    for (const char *at = text; *at; at++)
        colons += *at == ':';
    if (colons < 5) {
        fprintf(stderr, "intake: an upload is given as STATION:APID:SECONDARY:SHARE:CAP:UPLOAD, not '%s'\n", text);
        return false;
    }
    if (!parse_number(&text, "STATION", 65535, &station) || !parse_number(&text, "APID", 65535, &apid) ||
        !parse_number(&text, "SECONDARY", 255, &secondary) || !parse_number(&text, "SHARE", 255, &share) || !parse_number(&text, "CAP", 255, &cap))
        return false;
    upload->settings =
        (struct branmuslin_settings){(uint16_t)station, (uint16_t)apid, (uint8_t)secondary, (uint8_t)share, (uint8_t)cap};
    upload->path = text;
    return true;
}

static bool parse_uploads(char **argv, struct intake *intake)
{
    for (; *argv; argv++, intake->lanes++) {
        if (intake->lanes == BRANMUSLIN_LANES) {
            fputs("intake: there are eight lanes, and more uploads are given\n", stderr);
            return false;
        }
        struct upload *upload = &intake->uploads[intake->lanes];
        if (!parse_upload(*argv, upload))
            return false;
        if (intake->records_to && strcmp(upload->path, intake->records_to) == 0) {
            fprintf(stderr, "intake: the records would overwrite %s\n", upload->path);
            return false;
        }
    }
    return true;
}

/* The options, which come before the uploads. Returns where these begin. */
static char **parse_options(char **argv, struct intake *intake)
{
    for (;; argv++) {
        const char **path = NULL;
        if (*argv && strcmp(*argv, "--units") == 0)
            path = &intake->units_to;
        else if (*argv && strcmp(*argv, "--records") == 0)
            path = &intake->records_to;
        else if (*argv && strcmp(*argv, "--frames") == 0)
            intake->framed = true;
        else
            return argv;
        if (path && !(*path = *++argv))
            return argv;
    }
}

int main(int argc, char **argv)
{
    static struct intake intake;
    char **uploads = argc > 0 ? parse_options(argv + 1, &intake) : argv;
    if (!*uploads || (*uploads)[0] == '-') {
        fputs("usage: intake [--units DIR] [--records FILE] [--frames] STATION:APID:SECONDARY:SHARE:CAP:UPLOAD ...\n", stderr);
        return WRONG_CALL;
    }
    return parse_uploads(uploads, &intake) ? run(&intake) : WRONG_CALL;
}
