/*
 * deepest: how deep each function of the library goes into the stack, a line a call; the status is 1 if one goes deeper than MOST.
 *
 * The library copies octets by way of a local array of 65,542 (put_at_once in crates/putting), which the compiler makes vanish: the two copies become one
 * memmove. That is an optimisation, and nothing promises it. If it stopped, every answer would still be right, but a call would need 65 KB more of its
 * caller's stack, and copy everything twice. So each call is made here on a stack that was painted before: what is no longer paint was used. The calls
 * that copy are given the most that they can copy.
 */
#define _POSIX_C_SOURCE 200809L
#include <branmuslin.h>

#include <stdio.h>
#include <stdlib.h>
#include <string.h>
#include <ucontext.h>

/* MOST is about twice what the deepest call uses: room for another compiler's frames and another machine's memmove. The array would be eight times MOST,
   and a copy of the pool twice. */
enum { MOST = 8192, STACK = 1 << 20, PAINT = 0xA5, APID = 42, LONGEST_FRAMED_DATA = BRANMUSLIN_LONGEST_FRAMED - 6 };

/* A call and what it is given: lane 0 holds a group of so many octets, or none, and the packet that comes next has these flags and data of that length. Of
   frames, the piece has so many octets, and the packet that it is a piece of data of that length. */
struct call {
    const char *name, *what;
    bool (*make)(const struct call *call); /* tells whether the call did what it is measured for */
    size_t held;
    uint32_t flags;
    size_t length;
};

static uint8_t data[BRANMUSLIN_LONGEST_DATA], output[BRANMUSLIN_LONGEST_UNIT], pool[BRANMUSLIN_POOL_LENGTH], packet[BRANMUSLIN_LONGEST_PACKET];
static uint8_t record[BRANMUSLIN_RECORD_LENGTH], piece[BRANMUSLIN_PIECE_LENGTH], field[BRANMUSLIN_LONGEST_FIELD];
static size_t packet_length;
static struct branmuslin_state state;
static const struct branmuslin_settings settings = {.station = 7, .apid = APID, .secondary = 0, .share = BRANMUSLIN_BLOCKS, .cap = BRANMUSLIN_BLOCKS};

/* The calls. Each can be made again, since the state that it gives back is not kept and the pool gets the same octets. */

static bool read_packet(const struct call *call)
{
    struct branmuslin_packet read;
    size_t place;
    return branmuslin_read_packet(packet, packet_length, &read, &place) == BRANMUSLIN_DONE && read.length == call->length;
}

static bool write_space(const struct call *call)
{
    size_t written = 0;
    return branmuslin_write_space(0, 0, APID, call->flags, 0, data, call->length, output, sizeof output, &written) == BRANMUSLIN_DONE &&
           written == call->length + 6;
}

static bool write_encapsulation(const struct call *call)
{
    size_t written = 0;
    return branmuslin_write_encapsulation(2, 0, 0, data, call->length, output, sizeof output, &written) == BRANMUSLIN_DONE &&
           written == call->length + 8;
}

static bool write_record(const struct call *call)
{
    (void)call;
    return branmuslin_write_record(7, APID, 1, 2, 3, 1, record, sizeof record) == BRANMUSLIN_DONE;
}

static bool read_record(const struct call *call)
{
    struct branmuslin_record read;
    (void)call;
    return branmuslin_read_record(record, sizeof record, &read) == BRANMUSLIN_DONE;
}

static bool read_record_file(const struct call *call)
{
    size_t records = 0, index = 0;
    (void)call;
    return branmuslin_read_record_file(record, sizeof record, &records, &index) == BRANMUSLIN_DONE && records == 1;
}

static bool fresh_start(const struct call *call)
{
    (void)call;
    return !branmuslin_fresh_start().lanes[0].opened;
}

static bool is_sound(const struct call *call)
{
    (void)call;
    return branmuslin_is_sound(state);
}

/* Another lane than that of the packets, with no share: a full pool has no more. */
static bool open_lane(const struct call *call)
{
    const struct branmuslin_settings other = {.apid = APID};
    (void)call;
    return branmuslin_open_lane(state, 1, other, pool, sizeof pool).refusal == BRANMUSLIN_DONE;
}

static struct branmuslin_answer take(void)
{
    return branmuslin_take_packet(state, 0, packet, packet_length, pool, sizeof pool, output, sizeof output);
}

static bool take_held(const struct call *call)
{
    const struct branmuslin_answer answer = take();
    return answer.kind == BRANMUSLIN_HELD && answer.state.lanes[0].octets == call->held + call->length;
}

static bool take_unit(const struct call *call)
{
    const struct branmuslin_answer answer = take();
    return answer.kind == BRANMUSLIN_UNIT && answer.octets == call->held + call->length;
}

static bool close_lane(const struct call *call)
{
    (void)call;
    return branmuslin_close_lane(state, 0, pool, sizeof pool, output, sizeof output).refusal == BRANMUSLIN_DONE;
}

static bool fresh_frames(const struct call *call)
{
    (void)call;
    return !branmuslin_fresh_frames().started;
}

/* The frame after one that left the front of the packet as the piece; the field is made before. */
static struct branmuslin_framed frame(const struct call *call, uint32_t pointer)
{
    const struct branmuslin_frames frames = {true, 0, call->held};
    memcpy(piece, packet, call->held);
    return branmuslin_take_frame(frames, 1, pointer, field, sizeof field, piece, sizeof piece, output, sizeof output);
}

/* The most that comes out: the rest of the packet stands before the pointer, and packets of one octet after it. */
static bool take_most(const struct call *call)
{
    const size_t before = packet_length - call->held;
    memset(field, 0xE0, sizeof field);
    memcpy(field, packet + call->held, before);
    return frame(call, (uint32_t)before).octets == call->held + sizeof field;
}

static bool take_more_piece(const struct call *call)
{
    memcpy(field, packet + call->held, sizeof field);
    return frame(call, BRANMUSLIN_NO_PACKET).state.piece == call->held + sizeof field;
}

static bool take_new_piece(const struct call *call)
{
    memcpy(field, packet, sizeof field);
    return frame(call, 0).state.piece == sizeof field;
}

static const struct call calls[] = {
    {"branmuslin_read_packet", "the longest packet", read_packet, 0, BRANMUSLIN_UNSEGMENTED, BRANMUSLIN_LONGEST_DATA},
    {"branmuslin_write_space", "the longest data", write_space, 0, BRANMUSLIN_UNSEGMENTED, BRANMUSLIN_LONGEST_DATA},
    {"branmuslin_write_encapsulation", "the longest content", write_encapsulation, 0, BRANMUSLIN_UNSEGMENTED, BRANMUSLIN_LONGEST_CONTENT},
    {"branmuslin_write_record", "a record", write_record, 0, BRANMUSLIN_UNSEGMENTED, 1},
    {"branmuslin_read_record", "a record", read_record, 0, BRANMUSLIN_UNSEGMENTED, 1},
    {"branmuslin_read_record_file", "a record", read_record_file, 0, BRANMUSLIN_UNSEGMENTED, 1},
    {"branmuslin_fresh_start", "eight closed lanes", fresh_start, 0, BRANMUSLIN_UNSEGMENTED, 1},
    {"branmuslin_is_sound", "a full pool", is_sound, BRANMUSLIN_POOL_LENGTH, BRANMUSLIN_LAST, 1},
    {"branmuslin_open_lane", "beside a full pool", open_lane, BRANMUSLIN_POOL_LENGTH, BRANMUSLIN_LAST, 1},
    {"branmuslin_take_packet", "the longest unsegmented one", take_unit, 0, BRANMUSLIN_UNSEGMENTED, BRANMUSLIN_LONGEST_DATA},
    {"branmuslin_take_packet", "the longest that is held", take_held, 0, BRANMUSLIN_FIRST, BRANMUSLIN_POOL_LENGTH},
    {"branmuslin_take_packet", "the last of the longest unit", take_unit, BRANMUSLIN_POOL_LENGTH, BRANMUSLIN_LAST, BRANMUSLIN_LONGEST_DATA},
    {"branmuslin_close_lane", "a group of a full pool", close_lane, BRANMUSLIN_POOL_LENGTH, BRANMUSLIN_LAST, 1},
    {"branmuslin_fresh_frames", "no piece", fresh_frames, 0, BRANMUSLIN_UNSEGMENTED, 1},
    {"branmuslin_take_frame", "the most that comes out", take_most, BRANMUSLIN_PIECE_LENGTH - 1, BRANMUSLIN_UNSEGMENTED, LONGEST_FRAMED_DATA},
    {"branmuslin_take_frame", "a piece that goes on", take_more_piece, BRANMUSLIN_LONGEST_FIELD, BRANMUSLIN_UNSEGMENTED, LONGEST_FRAMED_DATA},
    {"branmuslin_take_frame", "a new piece", take_new_piece, 0, BRANMUSLIN_UNSEGMENTED, LONGEST_FRAMED_DATA},
};

static void stop(const struct call *call, const char *what)
{
    fprintf(stderr, "%s (%s): %s\n", call->name, call->what, what);
    exit(1);
}

static void next_packet(const struct call *call, uint32_t flags, uint32_t count, size_t length)
{
    if (branmuslin_write_space(0, 0, APID, flags, count, data, length, packet, sizeof packet, &packet_length) != BRANMUSLIN_DONE)
        stop(call, "its packet was not written");
}

static void prepare(const struct call *call)
{
    state = branmuslin_open_lane(branmuslin_fresh_start(), 0, settings, pool, sizeof pool).state;
    if (call->held > 0) {
        next_packet(call, BRANMUSLIN_FIRST, 0, call->held);
        state = take().state;
    }
    next_packet(call, call->flags, 1, call->length);
}

/* A call on another stack is told what to do in static variables. */
static const struct call *deep_call;
static bool deep_done;

static void go_deep(void)
{
    deep_done = deep_call->make(deep_call);
}

/* The octets of stack that a call uses, its caller's few and the caller's copies of the state included. */
static size_t stack_of(const struct call *call)
{
    static uint8_t stack[STACK];
    static ucontext_t here, there;
    size_t clean = 0;
    memset(stack, PAINT, sizeof stack);
    deep_call = call;
    deep_done = false;
    if (getcontext(&there) != 0)
        stop(call, "no context");
    there.uc_stack.ss_sp = stack;
    there.uc_stack.ss_size = sizeof stack;
    there.uc_link = &here;
    makecontext(&there, go_deep, 0);
    if (swapcontext(&here, &there) != 0)
        stop(call, "no context");
    while (clean < sizeof stack && stack[clean] == PAINT)
        clean++;
    return sizeof stack - clean;
}

/* The first time is not measured: it may bind memmove, which takes stack that is not the call's. */
static bool is_shallow(const struct call *call)
{
    prepare(call);
    if (!call->make(call))
        stop(call, "it was refused, or did something else");
    const size_t used = stack_of(call);
    if (!deep_done)
        stop(call, "it was refused, or did something else");
    printf("%6zu octets of stack: %s (%s)\n", used, call->name, call->what);
    if (used > MOST)
        fprintf(stderr, "too deep: %s (%s) used %zu octets of stack, and may use %d\n", call->name, call->what, used, MOST);
    return used <= MOST;
}

int main(void)
{
    bool shallow = true;
    memset(data, 0x3C, sizeof data);
    for (size_t i = 0; i < sizeof calls / sizeof *calls; i++)
        shallow = is_shallow(&calls[i]) && shallow;
    return shallow ? 0 : 1;
}
