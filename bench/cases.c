/* The cases: see cases.h. All inputs lie in static memory, and are small enough for a cache. */
#include "cases.h"

#include <stdlib.h>
#include <string.h>

enum { MOST_STEPS = 1024, WALK_OCTETS = 16384, CALLS = 64, RECORDS = 4096, FRAMES = 16, LONG_DATA = 65536, APID = 42 };

/* A packet for a lane, or a frame with its pointer; and for every case the octets that memcpy copies. */
struct step {
    size_t lane;
    const uint8_t *octets;
    size_t length;
    uint32_t pointer;
};

static struct step steps[MOST_STEPS];
static size_t step_count, units, data_length, input_length;
static uint8_t input[2 * BRANMUSLIN_LONGEST_PACKET], output[BRANMUSLIN_LONGEST_UNIT], pool[BRANMUSLIN_POOL_LENGTH];
static uint8_t piece[BRANMUSLIN_PIECE_LENGTH];
static struct branmuslin_state start;
static uint32_t counts[BRANMUSLIN_LANES]; /* the next count of each lane */

/* Called through a pointer that may change, so that the compiler neither drops a copy nor knows its length. */
static void *(*volatile copy)(void *to, const void *from, size_t n) = memcpy;

size_t units_in_batch(void)
{
    return units;
}

uint64_t copy_batch(void)
{
    uint64_t sum = 0;
    for (size_t i = 0; i < step_count; i++) {
        copy(output, steps[i].octets, steps[i].length);
        sum += output[0];
    }
    return sum;
}

static void begin(size_t size)
{
    step_count = units = input_length = 0;
    data_length = size;
    memset(counts, 0, sizeof counts);
    for (size_t i = 0; i < sizeof input; i++)
        input[i] = (uint8_t)(i * 7);
}

static void add_step(size_t lane, size_t length)
{
    if (step_count == MOST_STEPS || sizeof input - input_length < length)
        abort();
    steps[step_count++] = (struct step){lane, input + input_length, length, 0};
    input_length += length;
    units++;
}

/* Adds a Space Packet after the others; its data are zeros, at which nobody looks. */
static void add_space(size_t lane, uint32_t type, uint32_t apid, uint32_t flags, size_t length)
{
    static const uint8_t data[LONG_DATA];
    size_t written;
    if (baseline.write_space(type, 0, apid, flags, counts[lane]++ & 16383, data, length, input + input_length, sizeof input - input_length, &written))
        abort();
    add_step(lane, written);
}

/* Walks, and one packet alone. */

static void prepare_space_walk(size_t size)
{
    begin(size);
    for (size_t n = size + 6; input_length + n <= WALK_OCTETS || step_count < 4;)
        add_space(0, 0, APID, BRANMUSLIN_UNSEGMENTED, size);
}

/* As many packets, with headers of 1, 2, 4 and 8 octets in an irregular order, and 1 to 64 octets of content, or none after one octet. */
static void prepare_encapsulation_walk(size_t packets)
{
    uint32_t seed = 1;
    begin(0);
    while (step_count < packets) {
        seed = seed * 1664525 + 1013904223;
        const uint32_t l = seed >> 30, header = 1u << l, content = l == 0 ? 0 : 1 + (seed >> 16 & 63);
        uint8_t *at = input + input_length;
        memset(at, 0, 8);
        at[header - 1] = (uint8_t)(header + content);
        at[0] = (uint8_t)(0xE0 | (l == 0 ? 0u : 2u) << 2 | l);
        add_step(0, header + content);
    }
}

static uint64_t run_walk(const struct side *side)
{
    struct branmuslin_packet packet;
    size_t place;
    uint64_t sum = 0;
    for (size_t at = 0; at < input_length; at += packet.offset + packet.length) {
        if (side->read_packet(input + at, input_length - at, &packet, &place) != BRANMUSLIN_DONE)
            break;
        sum += packet.length;
    }
    return sum;
}

/* The same packet CALLS times: memcpy has to copy it as often. */
static void prepare_one(size_t size)
{
    begin(size);
    add_space(0, 0, APID, BRANMUSLIN_UNSEGMENTED, size);
    for (; step_count < CALLS; step_count++)
        steps[step_count] = steps[0];
    units = CALLS;
}

static uint64_t run_read(const struct side *side)
{
    struct branmuslin_packet packet;
    size_t place;
    uint64_t sum = 0;
    for (int i = 0; i < CALLS; i++) {
        sum += side->read_packet(input, input_length, &packet, &place);
        sum += packet.length;
    }
    return sum;
}

/* Writers. */

static uint64_t run_write_space(const struct side *side)
{
    uint64_t sum = 0;
    for (uint32_t i = 0; i < CALLS; i++) {
        size_t written = 0;
        sum += side->write_space(0, 0, APID, 3, i, input, data_length, output, sizeof output, &written);
        sum += written + output[3];
    }
    return sum;
}

static uint64_t run_write_encapsulation(const struct side *side)
{
    uint64_t sum = 0;
    for (uint32_t i = 0; i < CALLS; i++) {
        size_t written = 0;
        sum += side->write_encapsulation(2, 0, 0, input, data_length, output, sizeof output, &written);
        sum += written + output[1];
    }
    return sum;
}

/* Records. */

static void prepare_records(size_t size)
{
    begin(size);
    for (uint32_t i = 0; i < size; i++)
        if (baseline.write_record((uint16_t)i, APID, i, 2 * i, i, i / 2, input + BRANMUSLIN_RECORD_LENGTH * i, BRANMUSLIN_RECORD_LENGTH))
            abort();
    add_step(0, BRANMUSLIN_RECORD_LENGTH * size);
    units = size;
}

static uint64_t run_records(const struct side *side)
{
    size_t records = 0, index = 0;
    const uint8_t refusal = side->read_record_file(input, input_length, &records, &index);
    return refusal + records + index;
}

/* Lanes. A batch begins with the prepared state, so that no lane fills up and every batch is the same. */

static uint64_t run_lanes(const struct side *side)
{
    struct branmuslin_state state = start;
    uint64_t sum = 0;
    for (size_t i = 0; i < step_count; i++) {
        const struct branmuslin_answer answer =
            side->take_packet(state, steps[i].lane, steps[i].octets, steps[i].length, pool, sizeof pool, output, sizeof output);
        state = answer.state;
        sum += answer.octets + answer.kind + 1000u * answer.refusal;
    }
    return sum;
}

static uint64_t run_soundness(const struct side *side)
{
    uint64_t sum = 0;
    for (int i = 0; i < CALLS; i++)
        sum += side->is_sound(start);
    return sum;
}

/* Eight open lanes, of which those from `first` on hold `blocks` blocks each; they took them in turn, so that no lane's lie side by side. */
static void prepare_state(size_t first, size_t blocks)
{
    static const uint8_t block[256];
    uint8_t packet[6 + sizeof block];
    size_t written;
    start = baseline.fresh_start();
    for (size_t lane = 0; lane < BRANMUSLIN_LANES; lane++)
        start = baseline.open_lane(start, lane, (struct branmuslin_settings){7, APID, 0, 0, 64}, pool, sizeof pool).state;
    for (size_t n = 0; n < blocks; n++)
        for (size_t lane = first; lane < BRANMUSLIN_LANES; lane++) {
            baseline.write_space(0, 0, APID, n == 0, (uint32_t)n, block, sizeof block, packet, sizeof packet, &written);
            start = baseline.take_packet(start, lane, packet, written, pool, sizeof pool, output, sizeof output).state;
        }
}

static void prepare_unsegmented(size_t size)
{
    begin(size);
    prepare_state(0, 0);
    for (int i = 0; i < CALLS; i++)
        add_space(0, 0, APID, BRANMUSLIN_UNSEGMENTED, size);
}

static void prepare_unsegmented_beside(size_t size)
{
    prepare_unsegmented(size);
    prepare_state(1, 9);
}

/* Two packets a group, and four groups open at a time, which fill the pool: lane 4 begins when lane 0 has ended, and so on. */
static void prepare_large_groups(size_t size)
{
    begin(size);
    prepare_state(0, 0);
    for (size_t lane = 0; lane < BRANMUSLIN_LANES + 4; lane++) {
        if (lane >= 4)
            add_space(lane - 4, 0, APID, BRANMUSLIN_LAST, size);
        if (lane < BRANMUSLIN_LANES)
            add_space(lane, 0, APID, BRANMUSLIN_FIRST, size);
    }
}

/* Nine packets a group, one of each lane in turn: eight are held, a block each, which fills the pool; the ninth ends the unit. */
static void prepare_small_groups(size_t size)
{
    begin(size);
    prepare_state(0, 0);
    for (int n = 0; n < 9; n++)
        for (size_t lane = 0; lane < BRANMUSLIN_LANES; lane++)
            add_space(lane, 0, APID, n == 0 ? BRANMUSLIN_FIRST : n == 8 ? BRANMUSLIN_LAST : BRANMUSLIN_CONTINUATION, size);
}

static void prepare_longest_unit(size_t size)
{
    begin(size);
    prepare_state(0, 0);
    add_space(0, 0, APID, BRANMUSLIN_FIRST, BRANMUSLIN_POOL_LENGTH);
    add_space(0, 0, APID, BRANMUSLIN_LAST, size);
}

/* In turn: octets after the packet, a telecommand, another APID, and a packet that is cut short. */
static void prepare_refused(size_t size)
{
    begin(size);
    prepare_state(0, 0);
    while (step_count < CALLS) {
        add_space(0, 0, APID, BRANMUSLIN_UNSEGMENTED, size);
        steps[step_count - 1].length++;
        add_space(0, 1, APID, BRANMUSLIN_UNSEGMENTED, size);
        add_space(0, 0, APID + 1, BRANMUSLIN_UNSEGMENTED, size);
        add_space(0, 0, APID, BRANMUSLIN_UNSEGMENTED, size);
        steps[step_count - 1].length--;
    }
}

/* The calls on one state, which memcpy copies as often. */
static void soundness_of(size_t first, size_t blocks)
{
    begin(0);
    prepare_state(first, blocks);
    for (; step_count < CALLS; step_count++)
        steps[step_count] = (struct step){0, (const uint8_t *)&start, sizeof start, 0};
    units = CALLS;
}

static void prepare_nothing_held(size_t size)
{
    (void)size;
    soundness_of(0, 0);
}

static void prepare_all_hold(size_t size)
{
    soundness_of(0, size);
}

static void prepare_one_holds(size_t size)
{
    soundness_of(BRANMUSLIN_LANES - 1, size);
}

/* Frames. A batch is a recording from a fresh start, of which no frame is lost. */

static uint64_t run_frames(const struct side *side)
{
    struct branmuslin_frames state = side->fresh_frames();
    uint64_t sum = 0;
    for (size_t i = 0; i < step_count; i++) {
        const struct branmuslin_framed framed = side->take_frame(state, (uint32_t)i, steps[i].pointer, steps[i].octets, steps[i].length, piece,
                                                                 sizeof piece, output, sizeof output);
        state = framed.state;
        sum += framed.octets + framed.packets + state.piece + 1000u * framed.refusal;
    }
    return sum;
}

/* Packets with so many octets of data, one after another, cut into fields: each one's pointer is where the first packet begins in it. */
static void prepare_frames(size_t size, size_t field)
{
    const size_t packet = size + 6;
    begin(size);
    while (input_length < FRAMES * field)
        add_space(0, 0, APID, BRANMUSLIN_UNSEGMENTED, size);
    for (size_t i = 0; i < FRAMES; i++) {
        const size_t before = (packet - i * field % packet) % packet;
        steps[i] = (struct step){0, input + i * field, field, before < field ? (uint32_t)before : BRANMUSLIN_NO_PACKET};
    }
    step_count = units = FRAMES;
}

/* The field of a frame of 1,115 octets, a common length, and the longest. */
static void prepare_common_frames(size_t size)
{
    prepare_frames(size, 1115);
}

static void prepare_longest_frames(size_t size)
{
    prepare_frames(size, BRANMUSLIN_LONGEST_FIELD);
}

const struct measured_case cases[] = {
    {"walk, Space Packets, 16 octets", "packet", 1.2, prepare_space_walk, 16, run_walk},
    {"walk, Space Packets, 64 octets", "packet", 1.2, prepare_space_walk, 64, run_walk},
    {"walk, Space Packets, 512 octets", "packet", 1.2, prepare_space_walk, 512, run_walk},
    {"walk, Space Packets, 4,096 octets", "packet", 1.2, prepare_space_walk, 4096, run_walk},
    {"walk, mixed Encapsulation Packets", "packet", 1.5, prepare_encapsulation_walk, 512, run_walk},
    {"read one packet, 64 octets", "packet", 1.5, prepare_one, 64, run_read},
    {"write Space, 64 octets", "packet", 1.1, prepare_one, 64, run_write_space},
    {"write Space, 4,096 octets", "packet", 1.1, prepare_one, 4096, run_write_space},
    {"write Encapsulation, 64 octets", "packet", 1.1, prepare_one, 64, run_write_encapsulation},
    {"write Encapsulation, 4,096 octets", "packet", 1.1, prepare_one, 4096, run_write_encapsulation},
    {"record file of 4,096", "record", 1.1, prepare_records, RECORDS, run_records},
    {"lane, unsegmented, 64 octets", "packet", 1.25, prepare_unsegmented, 64, run_lanes},
    {"lane, the same, others hold 63", "packet", 1.0, prepare_unsegmented_beside, 64, run_lanes},
    {"lane, groups of 4,096 octets", "packet", 0.8, prepare_large_groups, 4096, run_lanes},
    {"lane, groups of 256 octets", "packet", 1.0, prepare_small_groups, 256, run_lanes},
    {"lane, the longest unit", "packet", 0.7, prepare_longest_unit, LONG_DATA, run_lanes},
    {"lane, refused, 64 octets", "packet", 1.25, prepare_refused, 64, run_lanes},
    {"soundness, nothing held", "call", 1.1, prepare_nothing_held, 0, run_soundness},
    {"soundness, eight lanes hold 8", "call", 0.95, prepare_all_hold, 8, run_soundness},
    {"soundness, one lane holds 64", "call", 1.05, prepare_one_holds, 64, run_soundness},
    {"frames of 1,115, packets of 64", "frame", 1.3, prepare_common_frames, 64, run_frames},
    {"frames of 1,115, packets of 512", "frame", 1.3, prepare_common_frames, 512, run_frames},
    {"frames of 1,115, packets of 4,096", "frame", 1.3, prepare_common_frames, 4096, run_frames},
    {"frames of 2,046, packets of 64", "frame", 1.3, prepare_longest_frames, 64, run_frames},
    {"frames of 2,046, packets of 512", "frame", 1.3, prepare_longest_frames, 512, run_frames},
    {"frames of 2,046, packets of 4,096", "frame", 1.3, prepare_longest_frames, 4096, run_frames},
};

const size_t case_count = sizeof cases / sizeof *cases;
