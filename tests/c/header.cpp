// What the header promises to every compiler, seen from C++: names that link, the structs' layout, the numbers of the refusals.
#include <branmuslin.h>

#include <cstddef>

#define AT(record, field, place) static_assert(offsetof(record, field) == (place), #record "." #field)

static_assert(sizeof(branmuslin_packet) == 44, "branmuslin_packet");
AT(branmuslin_packet, version, 0);
AT(branmuslin_packet, type, 4);
AT(branmuslin_packet, secondary, 8);
AT(branmuslin_packet, apid, 12);
AT(branmuslin_packet, flags, 16);
AT(branmuslin_packet, count, 20);
AT(branmuslin_packet, protocol, 24);
AT(branmuslin_packet, user, 28);
AT(branmuslin_packet, extension, 32);
AT(branmuslin_packet, offset, 36);
AT(branmuslin_packet, length, 40);

static_assert(sizeof(branmuslin_record) == 24, "branmuslin_record");
AT(branmuslin_record, station, 0);
AT(branmuslin_record, apid, 4);
AT(branmuslin_record, units, 8);
AT(branmuslin_record, packets, 12);
AT(branmuslin_record, missing, 16);
AT(branmuslin_record, broken, 20);

static_assert(sizeof(branmuslin_settings) == 8, "branmuslin_settings");
AT(branmuslin_settings, station, 0);
AT(branmuslin_settings, apid, 2);
AT(branmuslin_settings, secondary, 4);
AT(branmuslin_settings, share, 5);
AT(branmuslin_settings, cap, 6);

static_assert(sizeof(branmuslin_lane) == 36, "branmuslin_lane");
AT(branmuslin_lane, opened, 0);
AT(branmuslin_lane, settings, 2);
AT(branmuslin_lane, units, 12);
AT(branmuslin_lane, packets, 16);
AT(branmuslin_lane, missing, 20);
AT(branmuslin_lane, broken, 24);
AT(branmuslin_lane, last, 28);
AT(branmuslin_lane, grouped, 30);
AT(branmuslin_lane, octets, 32);

static_assert(sizeof(branmuslin_state) == 416, "branmuslin_state");
AT(branmuslin_state, lanes, 0);
AT(branmuslin_state, marks, 288);

static_assert(sizeof(branmuslin_change) == 420, "branmuslin_change");
AT(branmuslin_change, refusal, 0);
AT(branmuslin_change, state, 4);

static_assert(sizeof(branmuslin_answer) == 440, "branmuslin_answer");
AT(branmuslin_answer, refusal, 0);
AT(branmuslin_answer, kind, 1);
AT(branmuslin_answer, given_up, 2);
AT(branmuslin_answer, missing, 4);
AT(branmuslin_answer, octets, 8);
AT(branmuslin_answer, place, 16);
AT(branmuslin_answer, state, 24);

static_assert(sizeof(branmuslin_frames) == 16, "branmuslin_frames");
AT(branmuslin_frames, started, 0);
AT(branmuslin_frames, count, 1);
AT(branmuslin_frames, piece, 8);

static_assert(sizeof(branmuslin_framed) == 40, "branmuslin_framed");
AT(branmuslin_framed, refusal, 0);
AT(branmuslin_framed, kind, 1);
AT(branmuslin_framed, given_up, 2);
AT(branmuslin_framed, dropped, 3);
AT(branmuslin_framed, packets, 8);
AT(branmuslin_framed, octets, 16);
AT(branmuslin_framed, state, 24);

static_assert(BRANMUSLIN_DONE == 0 && BRANMUSLIN_CUT_SHORT == 1 && BRANMUSLIN_BAD_VERSION == 2 && BRANMUSLIN_IDLE_FLAGGED == 3 && BRANMUSLIN_UNDER_HEADER == 4 &&
                  BRANMUSLIN_OVER_LIMIT == 5 && BRANMUSLIN_NO_CONTENT == 6 && BRANMUSLIN_NAMES_NOTHING == 7 && BRANMUSLIN_OVER_WIDTH == 8 &&
                  BRANMUSLIN_NO_ROOM == 9 && BRANMUSLIN_DATA_LENGTH == 10 && BRANMUSLIN_NOT_OPEN == 11 && BRANMUSLIN_OCTETS_AFTER == 12 &&
                  BRANMUSLIN_NOT_SPACE == 13 && BRANMUSLIN_NOT_TELEMETRY == 14 && BRANMUSLIN_OTHER_APID == 15 && BRANMUSLIN_FLAG_DIFFERS == 16 &&
                  BRANMUSLIN_UNDER_SECONDARY == 17 && BRANMUSLIN_LANE_FULL == 18 && BRANMUSLIN_OVER_CAP == 19 && BRANMUSLIN_UNIT_TOO_LONG == 20 &&
                  BRANMUSLIN_ALREADY_OPEN == 21 && BRANMUSLIN_BAD_SETTINGS == 22 && BRANMUSLIN_NOT_PROMISED == 23 && BRANMUSLIN_NOT_SOUND == 24 &&
                  BRANMUSLIN_NOT_POSSIBLE == 25 && BRANMUSLIN_NOT_RECORDS == 26 && BRANMUSLIN_OTHERS_IN_THE_WAY == 27 &&
                  BRANMUSLIN_BAD_FRAME == 28,
              "refusals");
static_assert(BRANMUSLIN_SPACE == 0 && BRANMUSLIN_ENCAPSULATION == 7 && BRANMUSLIN_IDLE_APID == 2047, "packets");
static_assert(BRANMUSLIN_CONTINUATION == 0 && BRANMUSLIN_FIRST == 1 && BRANMUSLIN_LAST == 2 && BRANMUSLIN_UNSEGMENTED == 3, "flags");
static_assert(BRANMUSLIN_REFUSED == 0 && BRANMUSLIN_REPEAT == 1 && BRANMUSLIN_STRAY == 2 && BRANMUSLIN_HELD == 3 && BRANMUSLIN_UNIT == 4, "answers");
static_assert(BRANMUSLIN_LANES == 8 && BRANMUSLIN_BLOCKS == 64 && BRANMUSLIN_POOL_LENGTH == 16384 && BRANMUSLIN_LONGEST_UNIT == 81920 &&
                  BRANMUSLIN_MOST_PACKETS == 262144,
              "lanes");
static_assert(BRANMUSLIN_LONGEST_PACKET == 65542 && BRANMUSLIN_RECORD_LENGTH == 20 && BRANMUSLIN_LONGEST_DATA == 65536 &&
                  BRANMUSLIN_LONGEST_CONTENT == 65534,
              "lengths");
static_assert(BRANMUSLIN_SHORTEST_FIELD == 8 && BRANMUSLIN_LONGEST_FIELD == 2046 && BRANMUSLIN_PIECE_LENGTH == 8192 && BRANMUSLIN_FRAME_OUTPUT == 10238 &&
                  BRANMUSLIN_LONGEST_FRAMED == 8192 && BRANMUSLIN_IDLE_ONLY == 2046 && BRANMUSLIN_NO_PACKET == 2047,
              "frames");
static_assert(BRANMUSLIN_FRAME_REFUSED == 0 && BRANMUSLIN_FRAME_REPEAT == 1 && BRANMUSLIN_FRAME_TAKEN == 2, "answers to frames");

static bool reads()
{
    const uint8_t idle = 0xE0, cut = 0x00;
    branmuslin_packet packet;
    size_t place = 9;
    return branmuslin_read_packet(&idle, 1, &packet, &place) == 0 && place == 9 && packet.version == 7 && packet.offset == 1 && packet.length == 0 &&
           branmuslin_read_packet(&cut, 1, &packet, &place) == 1 && place == 1;
}

// Structs by value, in and out.
static bool takes()
{
    static uint8_t pool[BRANMUSLIN_POOL_LENGTH];
    const uint8_t packet[] = {0x00, 0x2A, 0xC0, 0x05, 0x00, 0x01, 0xAA, 0xBB};
    const branmuslin_settings settings = {7, 42, 0, 0, 1};
    uint8_t unit[2], record[20];
    const branmuslin_change opened = branmuslin_open_lane(branmuslin_fresh_start(), 0, settings, pool, sizeof pool);
    const branmuslin_answer answer = branmuslin_take_packet(opened.state, 0, packet, sizeof packet, pool, sizeof pool, unit, sizeof unit);
    const branmuslin_change closed = branmuslin_close_lane(answer.state, 0, pool, sizeof pool, record, sizeof record);
    return opened.refusal == 0 && answer.refusal == 0 && answer.kind == BRANMUSLIN_UNIT && answer.octets == 2 && answer.place == 0 && unit[0] == 0xAA &&
           unit[1] == 0xBB && answer.state.lanes[0].units == 1 && closed.refusal == 0 && record[11] == 1 && branmuslin_is_sound(closed.state) &&
           !closed.state.lanes[0].opened;
}

// A packet of twelve octets over two fields of eight, with four idle packets after it.
static bool frames()
{
    static uint8_t piece[BRANMUSLIN_PIECE_LENGTH], packets[BRANMUSLIN_FRAME_OUTPUT];
    const uint8_t fields[] = {0x00, 0x2A, 0xC0, 0x05, 0x00, 0x05, 1, 2, 3, 4, 5, 6, 0xE0, 0xE0, 0xE0, 0xE0};
    const branmuslin_framed first = branmuslin_take_frame(branmuslin_fresh_frames(), 255, 0, fields, 8, piece, sizeof piece, packets, sizeof packets);
    const branmuslin_framed second = branmuslin_take_frame(first.state, 0, 4, fields + 8, 8, piece, sizeof piece, packets, sizeof packets);
    return first.refusal == 0 && first.kind == BRANMUSLIN_FRAME_TAKEN && first.packets == 0 && first.octets == 0 && first.state.piece == 8 &&
           second.kind == BRANMUSLIN_FRAME_TAKEN && !second.given_up && !second.dropped && second.packets == 5 && second.octets == 16 &&
           packets[11] == 6 && packets[15] == 0xE0 && second.state.started && second.state.count == 0 && second.state.piece == 0;
}

int main()
{
    return reads() && takes() && frames() ? 0 : 1;
}
