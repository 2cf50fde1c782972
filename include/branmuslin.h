/*
 * branmuslin.h: reads and writes CCSDS Space Packets (133.0-B-2), Encapsulation Packets (133.1-B-2) and credit records, joins grouped
 * packets into whole units for up to eight lanes that share one pool of memory, and takes packets out of frame recordings (102.0-B-5).
 *
 * A static library for Linux on x86-64, for programs and shared objects; the flags stand after the source files:
 * cc program.c $(pkg-config --cflags --libs branmuslin). It needs nothing but memcpy, memmove and memset, allocates nothing and keeps nothing between calls: the state
 * of the lanes is a struct that you hand in and get back, and the pool is memory that you lend. Any thread may call it at any time.
 *
 * What holds for every function:
 *
 * - It takes every input of every length, and returns. It tells 0, or the number of the refusal (below); where several causes hold, the
 *   first in the order that stands at the function.
 * - A call that is refused leaves everything that was lent to it as it was: the output, the pool, the struct and every number behind a pointer;
 *   and a state comes back as it was handed in. (Two exceptions, by their purpose: *index of branmuslin_read_record_file, which belongs to refusal 25, and
 *   *place of branmuslin_read_packet, which belongs to 1 to 7.)
 * - Pointers must not be null. A length of 0 needs no valid octets, but a pointer that is not null all the same: what malloc(0) or an empty
 *   std::vector gives may be null.
 * - What is lent to one call must not overlap: input, output, struct and numbers are separate memory (parts of one array that do not
 *   overlap are). So a packet can't be written in place around its data.
 * - A length counts octets, and that many must be valid behind its pointer. Octets beyond it are neither read nor written.
 */
#ifndef BRANMUSLIN_H
#define BRANMUSLIN_H

#include <stdbool.h>
#include <stddef.h>
#include <stdint.h>

#ifdef __cplusplus
extern "C" {
#endif

#define BRANMUSLIN_RELEASE "0.4.0"

/* The compiler warns of a null that it sees. */
#ifdef __GNUC__
#define BRANMUSLIN_NOT_NULL __attribute__((nonnull))
#else
#define BRANMUSLIN_NOT_NULL
#endif

/* What the functions return: 0, or the refusal. */
enum {
    BRANMUSLIN_DONE = 0,           /* nothing was refused */
    BRANMUSLIN_CUT_SHORT = 1,      /* the octets end before the header or the packet does */
    BRANMUSLIN_BAD_VERSION = 2,    /* the version is neither 000 nor 111 */
    BRANMUSLIN_IDLE_FLAGGED = 3,   /* APID 2047 (idle) with the secondary header flag */
    BRANMUSLIN_UNDER_HEADER = 4,   /* the encapsulation length is less than its header */
    BRANMUSLIN_OVER_LIMIT = 5,     /* the encapsulation length is over 65,542 */
    BRANMUSLIN_NO_CONTENT = 6,     /* no content, and the protocol ID is not 0 */
    BRANMUSLIN_NAMES_NOTHING = 7,  /* protocol ID 6 in a header of 1 or 2 octets; or an extension that is not 0 with another ID; or a
                                      CCSDS field that is not 0 */
    BRANMUSLIN_OVER_WIDTH = 8,     /* a field given to a packet's writer is over its width */
    BRANMUSLIN_NO_ROOM = 9,        /* the output is too short for the packet or record, or has fewer than 10,238 octets for a frame */
    BRANMUSLIN_DATA_LENGTH = 10,   /* data to write: none, or over 65,536 octets (Space); a packet over 65,542 octets (Encapsulation) */
    BRANMUSLIN_NOT_OPEN = 11,      /* the lane number is over 7, or the lane is not open (except at opening) */
    BRANMUSLIN_OCTETS_AFTER = 12,  /* octets after the packet */
    BRANMUSLIN_NOT_SPACE = 13,     /* an Encapsulation Packet sent to a lane */
    BRANMUSLIN_NOT_TELEMETRY = 14, /* type 1 */
    BRANMUSLIN_OTHER_APID = 15,    /* the APID is not the lane's */
    BRANMUSLIN_FLAG_DIFFERS = 16,  /* the secondary header flag is set and the lane's secondary length is 0, or clear and it isn't */
    BRANMUSLIN_UNDER_SECONDARY = 17, /* the data field is shorter than the secondary length */
    BRANMUSLIN_LANE_FULL = 18,     /* the lane has taken 262,144 packets */
    BRANMUSLIN_OVER_CAP = 19,      /* no room in the pool: the group would exceed the lane's own cap; sending the packet again can't help */
    BRANMUSLIN_UNIT_TOO_LONG = 20, /* the output is shorter than the finished unit */
    BRANMUSLIN_ALREADY_OPEN = 21,  /* the lane is already open */
    BRANMUSLIN_BAD_SETTINGS = 22,  /* apid over 2046, secondary over 63, share over cap, or cap over 64 */
    BRANMUSLIN_NOT_PROMISED = 23,  /* the share can't be promised */
    BRANMUSLIN_NOT_SOUND = 24,     /* the state is not sound, or the pool does not have 16,384 octets */
    BRANMUSLIN_NOT_POSSIBLE = 25,  /* the record is not possible */
    BRANMUSLIN_NOT_RECORDS = 26,   /* a record file that is not a multiple of 20 octets, or a single record that is not 20 */
    BRANMUSLIN_OTHERS_IN_THE_WAY = 27, /* no room in the pool: the group is within the lane's cap, but what it and the other lanes hold or are promised
                                         would exceed 64 blocks; the other lanes are in the way, and the packet may fit later */
    BRANMUSLIN_BAD_FRAME = 28      /* a field that has not 8 to 2,046 octets, a piece buffer that has not 8,192, a count over 255, a pointer that is an offset at
                                      or past the field's end, or a state whose piece is over 8,191 octets */
};

/* The version of either kind of packet, the sequence flags of a Space Packet, and the APID of idle ones. */
enum { BRANMUSLIN_SPACE = 0, BRANMUSLIN_ENCAPSULATION = 7 };
enum { BRANMUSLIN_CONTINUATION = 0, BRANMUSLIN_FIRST = 1, BRANMUSLIN_LAST = 2, BRANMUSLIN_UNSEGMENTED = 3 };
enum { BRANMUSLIN_IDLE_APID = 2047 };

/*
 * Octets of the longest packet of either kind, and of a record: an output of these lengths always suffices. So do data_length + 6 for a Space
 * Packet and content_length + 8 for an Encapsulation Packet.
 */
#define BRANMUSLIN_LONGEST_PACKET 65542
#define BRANMUSLIN_RECORD_LENGTH 20

/* The most octets that can be written as the data of a Space Packet, and as the content of an Encapsulation Packet. */
#define BRANMUSLIN_LONGEST_DATA 65536
#define BRANMUSLIN_LONGEST_CONTENT 65534

/* What reading a packet tells: eleven numbers of 32 bits, one after another. The packet has offset + length octets in all. */
struct branmuslin_packet {
    uint32_t version;   /* 0 (BRANMUSLIN_SPACE) or 7 (BRANMUSLIN_ENCAPSULATION) */

    /* The fields of a Space Packet; each is 0 for an Encapsulation Packet. */
    uint32_t type;      /* 0 telemetry, 1 telecommand */
    uint32_t secondary; /* the secondary header flag, 0 or 1 */
    uint32_t apid;      /* 0 to 2047, which is idle */
    uint32_t flags;     /* sequence flags: 0 continuation, 1 first, 2 last, 3 unsegmented */
    uint32_t count;     /* sequence count, 0 to 16,383; for type 1 it may be a name */

    /* The fields of an Encapsulation Packet; each is 0 for a Space Packet. */
    uint32_t protocol;  /* protocol ID, 0 to 7 */
    uint32_t user;      /* user field, 0 to 15; 0 where the header has none */
    uint32_t extension; /* protocol extension, 0 to 15; 0 where the header has none */

    /* Of either: the data field or the content. */
    uint32_t offset;    /* where it begins, which is the header's octets */
    uint32_t length;    /* its octets */
};

/*
 * Reads the packet at the front of the octets; octets after it are not looked at. Its data are the `length` octets from octets + offset on,
 * and the next packet of a run begins at octets + offset + length:
 *
 *     for (at = 0; at < n; at += packet.offset + packet.length)
 *         if (branmuslin_read_packet(octets + at, n - at, &packet, &place) != BRANMUSLIN_DONE)
 *             break;  (octets[at + place] is at fault; where the refusal is 1, the octets end there)
 *
 * Returns 0 with *packet set, and *place as it was; or 1 to 7, with *packet as it was and *place set. The order: 1 for no octets, 2, 1 for the header, then
 * 3 (Space) or 7, 4, 5, 6 (Encapsulation), then 1 for the packet.
 *
 * The place is the offset, from the front of the octets, of the field at fault:
 *   1        the number of octets present, octets_length;
 *   2, 3, 6  0: the version; the secondary header flag; the protocol ID that has no content;
 *   4, 5     where the length field begins: 1, 2 or 4 in a header of 2, 4 or 8 octets;
 *   7        0 for protocol ID 6 in a header of 1 or 2 octets; 1 for the extension; 2 for the CCSDS field, or 3 where octet 2 is 0. Where two of these are
 *            wrong, the earlier.
 */
uint8_t branmuslin_read_packet(const uint8_t *octets, size_t octets_length, struct branmuslin_packet *packet, size_t *place) BRANMUSLIN_NOT_NULL;

/*
 * Writes a Space Packet at the front of the output: six header octets, then the data, which has 1 to 65,536 octets. The fields are given in
 * the order in which the header has them.
 *
 * Returns 0 with the packet in the output and its octets (6 + data_length) in *written; every octet of the output after the packet stays as it
 * was. Or returns, in this order, and with the output and *written as they were:
 *   8   type over 1, secondary over 1, apid over 2,047, flags over 3 or count over 16,383;
 *   3   apid 2047 with secondary 1;
 *   10  no data, or over 65,536 octets;
 *   9   the output is shorter than the packet.
 */
uint8_t branmuslin_write_space(uint32_t type, uint32_t secondary, uint32_t apid, uint32_t flags, uint32_t count, const uint8_t *data,
                               size_t data_length, uint8_t *output, size_t output_length, size_t *written) BRANMUSLIN_NOT_NULL;

/*
 * Writes an Encapsulation Packet at the front of the output: the shortest header that can carry the fields (1, 2, 4 or 8 octets), then the
 * content. One octet only for no content, user 0 and protocol 0; at least 4 where user is not 0 or protocol is 6. The CCSDS field is 0.
 * Protocol 0 (idle) may have content; every other protocol must. For no content, pass any pointer that is not null, such as
 * (const uint8_t *)"".
 *
 * Returns 0 with the packet in the output and its octets, header and content, in *written; every octet of the output after the packet stays as
 * it was. Or returns, in this order, and with the output and *written as they were:
 *   8   protocol over 7, user over 15 or extension over 15;
 *   7   extension not 0 with a protocol other than 6;
 *   6   no content and protocol not 0;
 *   10  the packet would be over 65,542 octets, which is so exactly for content over 65,534;
 *   9   the output is shorter than the packet.
 */
uint8_t branmuslin_write_encapsulation(uint32_t protocol, uint32_t user, uint32_t extension, const uint8_t *content, size_t content_length,
                                       uint8_t *output, size_t output_length, size_t *written) BRANMUSLIN_NOT_NULL;

/*
 * A credit record, what a station is credited with for the packets of one APID: six numbers of 32 bits, one after another. It is possible if
 * apid is at most 2046, packets at most 262,144, units + broken at most packets, and missing at most 16,382 x (packets - 1), or 0 if packets
 * is 0. (Between two packets whose counts differ at most 16,382 can be missing, and a packet that repeats the last count is not counted.)
 */
struct branmuslin_record {
    uint32_t station; /* station number, 0 to 65,535 */
    uint32_t apid;    /* 0 to 2046, so not the idle one */
    uint32_t units;   /* units: unsegmented packets, and groups that were completed */
    uint32_t packets; /* packets that were taken */
    uint32_t missing; /* packets that the sequence counts show to be missing */
    uint32_t broken;  /* groups that were given up before they were complete */
};

/*
 * Writes a record at the front of the output: 20 octets, high octet first: station 2, apid 2, units 4, packets 4, missing 4, broken 4.
 *
 * Returns 0 with the record in the output, whose other octets stay as they were. Or returns, in this order, and with the output as it was:
 *   9   the output is shorter than 20 octets;
 *   25  the record is not possible.
 * The parameters have the record's widths, and C cuts a wider number to them without a word: test a station and an apid that come from
 * elsewhere before you pass them on. Those of a record that was read always fit.
 */
uint8_t branmuslin_write_record(uint16_t station, uint16_t apid, uint32_t units, uint32_t packets, uint32_t missing, uint32_t broken,
                                uint8_t *output, size_t output_length) BRANMUSLIN_NOT_NULL;

/*
 * Reads one record.
 *
 * Returns 0 with *record set. Or returns, in this order, and with *record as it was:
 *   26  there are not exactly 20 octets;
 *   25  the record is not possible.
 */
uint8_t branmuslin_read_record(const uint8_t *octets, size_t octets_length, struct branmuslin_record *record) BRANMUSLIN_NOT_NULL;

/*
 * Reads a file of records, one after another; a file of none is good. The record of index i is the 20 octets from octets + 20 * i on.
 *
 * Returns 0 with the number of records in *records, and *index as it was. Or returns, in this order, and with *records as it was:
 *   26  the octets are not a multiple of 20; *index stays as it was too;
 *   25  some record is not possible; *index is set to the index of the first such record, counted from 0.
 */
uint8_t branmuslin_read_record_file(const uint8_t *octets, size_t octets_length, size_t *records, size_t *index) BRANMUSLIN_NOT_NULL;

/*
 * The lanes. A lane is one source (APID) as uploaded by one station. Up to eight share a pool of 64 blocks of 256 octets, in which their open groups
 * lie. A lane is promised its share of blocks, and may hold more, up to its cap, where the others leave room.
 *
 *     static uint8_t pool[BRANMUSLIN_POOL_LENGTH];
 *     struct branmuslin_state state = branmuslin_fresh_start();
 *     struct branmuslin_change change = branmuslin_open_lane(state, 0, settings, pool, sizeof pool);
 *     state = change.state;
 *     for (each packet) {
 *         struct branmuslin_answer answer = branmuslin_take_packet(state, 0, packet, n, pool, sizeof pool, unit, sizeof unit);
 *         state = answer.state;
 *         if (answer.kind == BRANMUSLIN_UNIT)
 *             use(unit, answer.octets);
 *     }
 *     change = branmuslin_close_lane(state, 0, pool, sizeof pool, record, sizeof record);
 *     state = change.state;  (the record is there if change.refusal is 0)
 */
#define BRANMUSLIN_LANES 8
#define BRANMUSLIN_BLOCKS 64
#define BRANMUSLIN_POOL_LENGTH 16384

/* Octets of the longest unit: an output of this length always suffices for branmuslin_take_packet. */
#define BRANMUSLIN_LONGEST_UNIT 81920

/* The most packets that a lane takes from its opening to its closing. */
#define BRANMUSLIN_MOST_PACKETS 262144

/*
 * What an opening gives a lane. C cuts a wider number to these widths without a word: test numbers that come from elsewhere before you put them here.
 */
struct branmuslin_settings {
    uint16_t station;   /* station number */
    uint16_t apid;      /* 0 to 2046: whose packets the lane takes */
    uint8_t secondary;  /* octets of the secondary header, 0 to 63; 0 where its packets have none */
    uint8_t share;      /* blocks that the lane is promised, at most cap */
    uint8_t cap;        /* the most blocks that it may hold, at most 64 */
};

/* One lane, to look at. Every field of a closed lane is 0. */
struct branmuslin_lane {
    bool opened;
    struct branmuslin_settings settings;
    uint32_t units;     /* the tallies since the opening, as in struct branmuslin_record */
    uint32_t packets;
    uint32_t missing;
    uint32_t broken;
    uint16_t last;      /* the count of the last accepted packet, where packets is not 0 */
    bool grouped;       /* whether a group is open */
    uint16_t octets;    /* of the open group */
};

/*
 * The state of all lanes: 416 octets, by value. Hand each call the state that the last one gave back, with the same pool, and change neither in between. A
 * state or a pool that was kept elsewhere may be used again together; a state that is not sound is refused (24), but only you can know whether the
 * pool is the one that belongs to it. Each bool must be one that C made, 0 or 1 in memory: of other octets, as a damaged file may have, is_sound does not
 * tell. The octets between fields have no meaning: compare states field by field, not by memcmp.
 */
struct branmuslin_state {
    struct branmuslin_lane lanes[BRANMUSLIN_LANES];
    uint16_t marks[BRANMUSLIN_BLOCKS]; /* whose each block is: 512 if it is free, else lane x 64 + place in the lane's group */
};

/* What an opening or a closing gives back. */
struct branmuslin_change {
    uint8_t refusal;    /* 0, or the number of the refusal */
    struct branmuslin_state state;
};

/* What a packet is answered. */
enum { BRANMUSLIN_REFUSED = 0, BRANMUSLIN_REPEAT = 1, BRANMUSLIN_STRAY = 2, BRANMUSLIN_HELD = 3, BRANMUSLIN_UNIT = 4 };

struct branmuslin_answer {
    uint8_t refusal;    /* 0, or the number of the refusal */
    uint8_t kind;       /* refused; a repeat of the last packet; of no group; held in the pool; a unit, which lies at the front of the output */
    bool given_up;      /* whether an open group was given up */
    uint16_t missing;   /* packets missing between the last accepted one and this */
    size_t octets;      /* of the unit; 0 for every other kind */
    size_t place;       /* as branmuslin_read_packet tells it, where the refusal is 1 to 7; else 0 */
    struct branmuslin_state state;
};

/* Eight closed lanes. Refuses nothing. What lies in the pool then does not matter. */
struct branmuslin_state branmuslin_fresh_start(void);

/*
 * Whether the state is sound, which every state is that the calls give back from a fresh start: open lanes' settings are legal, what the lanes hold or
 * are promised is at most 64 blocks, each lane's blocks match its octets and cap, no block is held twice, a closed lane holds nothing, last is at
 * most 16,383, and the tallies, counting an open group as broken, form a possible record.
 */
bool branmuslin_is_sound(struct branmuslin_state state);

/*
 * Opens a lane, with its tallies at 0. The pool is not changed.
 *
 * Refusals, in this order: 24, 11 (lane over 7), 21, 22, 23 (the share and what the open lanes hold or are promised exceed 64).
 */
struct branmuslin_change branmuslin_open_lane(struct branmuslin_state state, size_t lane, struct branmuslin_settings settings, const uint8_t *pool,
                                              size_t pool_length) BRANMUSLIN_NOT_NULL;

/*
 * Gives a lane one packet: all of the octets. A packet that begins a group or adds to it is held in the pool; a last one ends the unit, which is written
 * at the front of the output, as is an unsegmented one. Octets of the output after the unit stay as they were, and so does all of it for other answers.
 *
 * Refusals, in this order: 24, 11, those of branmuslin_read_packet, 12 to 17, (here a repeat is answered,) 18, 19, 27, 20. With those of
 * branmuslin_read_packet comes the place that it tells; the others have none. A packet that is refused counts as not received: it may be given again, for
 * instance with a longer output, or, after 27, when the other lanes hold less or are closed; but before the lane's next packet, since after that one its
 * count would look like a gap. After 19 it is refused so again as long as the lane is as it is, whatever the others do; a lane that is alone in the pool
 * never gets 27, and one that would stay within its share gets neither.
 */
struct branmuslin_answer branmuslin_take_packet(struct branmuslin_state state, size_t lane, const uint8_t *packet, size_t packet_length, uint8_t *pool,
                                                size_t pool_length, uint8_t *output, size_t output_length) BRANMUSLIN_NOT_NULL;

/*
 * Closes a lane: gives up an open group, writes the credit record (20 octets) at the front of the output and frees the lane. The pool is not changed.
 *
 * Refusals, in this order: 24, 11, 9 (the output is shorter than 20 octets), 25.
 */
struct branmuslin_change branmuslin_close_lane(struct branmuslin_state state, size_t lane, const uint8_t *pool, size_t pool_length, uint8_t *output,
                                               size_t output_length) BRANMUSLIN_NOT_NULL;

/*
 * Frames. A frame recording is a run of transfer frame data fields (CCSDS 102.0-B-5), in which the packets lie one after another and across the fields. Each
 * field comes with its virtual channel frame count, 0 to 255, and its first header pointer: the offset at which the first packet begins that begins in this field, 2047
 * if none begins in it, 2046 if it has idle data only. A packet that goes on in the next frame is kept in a buffer that you lend: the piece.
 *
 *     static uint8_t piece[BRANMUSLIN_PIECE_LENGTH], packets[BRANMUSLIN_FRAME_OUTPUT];
 *     struct branmuslin_frames state = branmuslin_fresh_frames();
 *     for (each frame) {
 *         struct branmuslin_framed framed = branmuslin_take_frame(state, count, pointer, field, n, piece, sizeof piece, packets, sizeof packets);
 *         state = framed.state;
 *         use(packets, framed.octets);  (framed.packets packets, one after another)
 *     }
 *
 * A recording of one virtual channel needs a state and a buffer of its own. Packets of at most 8,192 octets come out; where frames were lost, never more than 254 in a
 * row, just those come out that lie wholly in received frames, each once and in order.
 */
#define BRANMUSLIN_SHORTEST_FIELD 8
#define BRANMUSLIN_LONGEST_FIELD 2046
#define BRANMUSLIN_PIECE_LENGTH 8192
#define BRANMUSLIN_FRAME_OUTPUT 10238
#define BRANMUSLIN_LONGEST_FRAMED 8192 /* the longest packet that comes out */

/* The first header pointers that are no offsets. */
enum { BRANMUSLIN_IDLE_ONLY = 2046, BRANMUSLIN_NO_PACKET = 2047 };

/*
 * What the frames before left. Hand each call the state that the last one gave back, with the buffer as that call left it. The bool must be one that C made, 0 or 1
 * in memory.
 */
struct branmuslin_frames {
    bool started;       /* whether a frame came before */
    uint8_t count;      /* its count */
    size_t piece;       /* octets of the piece, at the front of the buffer */
};

/* What a frame is answered. */
enum { BRANMUSLIN_FRAME_REFUSED = 0, BRANMUSLIN_FRAME_REPEAT = 1, BRANMUSLIN_FRAME_TAKEN = 2 };

struct branmuslin_framed {
    uint8_t refusal;    /* 0, or the number of the refusal */
    uint8_t kind;       /* refused; a repeat of the frame before; taken */
    bool given_up;      /* whether a piece of at least one octet was given up */
    bool dropped;       /* whether the rest of the field was dropped */
    size_t packets;     /* how many packets came out; 0 for every other kind */
    size_t octets;      /* their octets, at the front of the output */
    struct branmuslin_frames state;
};

/* No piece and no previous frame. Refuses nothing. What lies in the buffer then does not matter. */
struct branmuslin_frames branmuslin_fresh_frames(void);

/*
 * Takes one frame: its count, its first header pointer and its data field. count and pointer are wider than their fields, so that none is cut to them without a word.
 *
 * - A frame with the count of the frame before is a repeat and changes nothing. Every other frame that is not refused becomes the frame before.
 * - The piece goes on where the count is that of the frame before plus 1, mod 256, (or no frame came before,) and the pointer is not 2046 and does not contradict: the
 *   piece and the octets before the pointer (with 2047: the field) must be exactly one packet of at most 8,192 octets, which then comes out; or, with 2047, the beginning
 *   of one, which is then the longer piece. Else the piece is given up. With no piece every pointer but 0 contradicts, and there is nothing to give up.
 * - Reading resumes at the pointer; with 2046 and 2047 there is nothing to read. Whole packets come out, idle ones too. An unfinished one at the end is the new
 *   piece. A packet that branmuslin_read_packet refuses for anything but being unfinished, or one over 8,192 octets, drops the rest of the field, and there is no piece.
 * - The output has the packets at its front, the buffer the new piece; every other octet of both stays as it was.
 *
 * 102.0-B-5 lets idle-only frames stand inside a packet that goes on after them; here such a frame gives the packet up.
 *
 * Refusals, in this order, which change nothing: 28, 9 (the output has fewer than 10,238 octets).
 */
struct branmuslin_framed branmuslin_take_frame(struct branmuslin_frames state, uint32_t count, uint32_t pointer, const uint8_t *field, size_t field_length,
                                               uint8_t *piece, size_t piece_length, uint8_t *output, size_t output_length) BRANMUSLIN_NOT_NULL;

#ifdef __cplusplus
}
#endif

#endif
