/*
 * Recordings: packets laid one after another, cut into fields with right pointers, of which some are lost, come again or are idle only. What comes out are
 * just the packets that lie wholly in received frames. All that is expected is worked out from where the packets were laid.
 */
#include "frame_calls.h"

#define RUNS 40
enum { MOST_PACKETS = 4000, IDLE = BRANMUSLIN_IDLE_ONLY, NONE = BRANMUSLIN_NO_PACKET };

/* Where each packet begins, and at last where the stream ends. */
static size_t begins[MOST_PACKETS + 1], packets;

static size_t below(size_t limit)
{
    return next_random() % limit;
}

/* Short ones, some of one octet, and at times one of the longest. */
static void lay_some(void)
{
    const size_t dice = below(100);
    if (dice < 10)
        lay(OCTETS(0xE0));
    else if (dice < 25)
        lay(joined(OCTETS(0xE9, 0x1E), 28));
    else if (dice < 35)
        lay(joined(OCTETS(0xFA, 0x52, 0x01, 0x00), 252));
    else if (dice < 45)
        lay(joined(OCTETS(0xEB, 0x00, 0x00, 0x00, 0x00, 0x00, 0x00, 0x0A), 2));
    else
        lay_packet(dice < 90 ? 7 + below(200) : dice < 98 ? 7 + below(3000) : BRANMUSLIN_LONGEST_FRAMED - below(3));
}

/* As many octets as are to be there, of which the last few are idle packets, so that fields end where packets do. */
static void lay_stream(size_t length)
{
    empty_stream();
    for (packets = 0; laid() + BRANMUSLIN_LONGEST_FRAMED < length; packets++) {
        begins[packets] = laid();
        lay_some();
    }
    for (; laid() < length; packets++) {
        begins[packets] = laid();
        lay(length - laid() >= 500 ? joined(OCTETS(0xEA, 0x00, 0x01, 0xF4), 496) : OCTETS(0xE0));
    }
    begins[packets] = laid();
}

/* How many packets end at some place or before it; the next one begins there, or goes on over it. */
static size_t ended(size_t at)
{
    size_t low = 0, high = packets;
    while (low < high) {
        const size_t middle = (low + high + 1) / 2;
        if (begins[middle] <= at)
            low = middle;
        else
            high = middle - 1;
    }
    return low;
}

/* The first packet that begins at some place or after it. */
static size_t first_from(size_t at)
{
    return begins[ended(at)] == at ? ended(at) : ended(at) + 1;
}

/* The next frame of a recording: its count, where it begins, and from where on nothing was lost before it. */
struct run {
    uint32_t count;
    size_t at, whole_from;
};

/* A frame of n octets is received. Out come the packets that end in it, unless some of their octets were lost. */
static void receive(const struct run *run, size_t n)
{
    const size_t end = run->at + n, first = first_from(run->at), kept = first_from(run->whole_from), to = ended(end);
    const size_t from = ended(run->at) > kept ? ended(run->at) : kept;
    const uint32_t pointer = begins[first] < end ? (uint32_t)(begins[first] - run->at) : NONE;
    struct framed framed = TAKEN(0, NO_OCTETS, NO_OCTETS);
    if (from < to) {
        framed.packets = to - from;
        framed.out = cut(begins[from], begins[to]);
    }
    if (to >= kept)
        framed.piece = cut(begins[to], end);
    framed.given_up = tape.state.piece > 0 && run->whole_from == run->at;
    frames(HERE, run->count, pointer, cut(run->at, end), framed);
    if (below(8) == 0)
        frames(HERE, run->count, pointer, cut(run->at, end), SAME_AGAIN);
}

/* An idle-only frame stands where no packet goes on. Only a piece whose end was lost can still be there. */
static void idle_between(struct run *run)
{
    struct framed framed = TAKEN(0, NO_OCTETS, NO_OCTETS);
    framed.given_up = tape.state.piece > 0;
    frames(HERE, run->count, IDLE, part(below(1000), 8 + below(100)), framed);
    run->count = (run->count + 1) % 256;
}

/* How many frames are lost in a row, 254 at most: one more, and the next frame would have the count of the last one that was received. */
static size_t lost_in_a_row(size_t lossy)
{
    if (lossy == 0 || below(lossy) > 0)
        return 0;
    return below(10) == 0 ? 254 : 1 + below(3);
}

/* The next field's octets: those that are wanted, but so that no field has fewer than 8. */
static size_t field_of(size_t wanted, size_t left)
{
    if (left >= wanted + 8)
        return wanted;
    return left <= BRANMUSLIN_LONGEST_FIELD ? left : left - 8;
}

/* One of so many frames is followed by a loss; where no length of the fields is given, each has another. */
static void one_run(size_t field, size_t length, size_t lossy)
{
    struct run run = {next_random() % 256, 0, 0};
    size_t lost = lost_in_a_row(lossy);
    lay_stream(length);
    start_recording();
    while (run.at < length) {
        const size_t n = field_of(field > 0 ? field : 8 + below(2039), length - run.at);
        const bool is_lost = lost > 0;
        if (is_lost)
            run.whole_from = run.at + n;
        else
            receive(&run, n);
        lost = is_lost ? lost - 1 : lost_in_a_row(lossy);
        run.count = (run.count + 1) % 256;
        run.at += n;
        if (lost == 0 && begins[ended(run.at)] == run.at && below(3) == 0)
            idle_between(&run);
    }
}

void test_frame_runs(void)
{
    static const size_t fields[] = {8, 13, 100, 1115, 2046, 0};
    for (size_t i = 0; i < sizeof fields / sizeof *fields; i++)
        for (size_t lossy = 0; lossy <= 9; lossy += 9)
            one_run(fields[i], fields[i] > 0 && fields[i] <= 100 ? 12000 : 50000, lossy);
    for (size_t run = 0; run < RUNS; run++)
        one_run(run % 3 == 0 ? 8 + below(60) : 0, 10000 + below(20000), run % 7);
}
