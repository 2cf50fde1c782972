/* replay once more, in C over the baseline: what `./branmuslin replay` prints for the same run file. */
#include "baseline.h"

#include <stdio.h>
#include <unistd.h>

enum { LONGEST = 1048576, MOST_OUTPUT = 131072 };

static uint8_t run[LONGEST + 1], pool[BRANMUSLIN_POOL_LENGTH], output[MOST_OUTPUT];
static struct branmuslin_state state;

static uint32_t be(const uint8_t *s, size_t n)
{
    uint32_t x = 0;
    for (size_t i = 0; i < n; i++)
        x = x << 8 | s[i];
    return x;
}

/* The sums stay below 2^32 for 5,552 octets, so the remainders are taken once for as many. */
static uint32_t adler32(const uint8_t *s, size_t n)
{
    uint32_t a = 1, b = 0;
    while (n > 0) {
        const size_t part = n < 5552 ? n : 5552;
        for (size_t i = 0; i < part; i++) {
            a += s[i];
            b += a;
        }
        a %= 65521;
        b %= 65521;
        s += part;
        n -= part;
    }
    return b << 16 | a;
}

static size_t room(const uint8_t *s)
{
    const uint32_t n = be(s, 4);
    return n < MOST_OUTPUT ? n : MOST_OUTPUT;
}

static void open_lane(const uint8_t *s)
{
    const struct branmuslin_settings settings = {(uint16_t)be(s + 2, 2), (uint16_t)be(s + 4, 2), s[6], s[7], s[8]};
    const struct branmuslin_change change = base_open_lane(state, s[1], settings, pool, sizeof pool);
    state = change.state;
    if (change.refusal != BRANMUSLIN_DONE)
        printf("open %u refused %u\n", s[1], change.refusal);
    else
        printf("open %u ok\n", s[1]);
}

static void take_packet(const uint8_t *s)
{
    const struct branmuslin_answer a = base_take_packet(state, s[1], s + 10, be(s + 6, 4), pool, sizeof pool, output, room(s + 2));
    state = a.state;
    if (a.kind == BRANMUSLIN_REFUSED && a.refusal <= BRANMUSLIN_NAMES_NOTHING)
        printf("packet %u refused %u %zu\n", s[1], a.refusal, a.place);
    else if (a.kind == BRANMUSLIN_REFUSED)
        printf("packet %u refused %u\n", s[1], a.refusal);
    else if (a.kind == BRANMUSLIN_REPEAT)
        printf("packet %u repeat\n", s[1]);
    else if (a.kind == BRANMUSLIN_UNIT)
        printf("packet %u unit %u %u %zu %u\n", s[1], a.missing, a.given_up, a.octets, adler32(output, a.octets));
    else
        printf("packet %u %s %u %u\n", s[1], a.kind == BRANMUSLIN_HELD ? "held" : "stray", a.missing, a.given_up);
}

static void close_lane(const uint8_t *s)
{
    struct branmuslin_record r;
    const struct branmuslin_change change = base_close_lane(state, s[1], pool, sizeof pool, output, room(s + 2));
    state = change.state;
    if (change.refusal != BRANMUSLIN_DONE || base_read_record(output, BRANMUSLIN_RECORD_LENGTH, &r) != BRANMUSLIN_DONE)
        printf("close %u refused %u\n", s[1], change.refusal);
    else
        printf("close %u record %u %u %u %u %u %u\n", s[1], r.station, r.apid, r.units, r.packets, r.missing, r.broken);
}

/* Makes the call at the front of n octets; tells its octets, or 0 if there is none. */
static size_t call(const uint8_t *s, size_t n, size_t at)
{
    const size_t length = s[0] == 'O' ? 9 : s[0] == 'C' ? 6 : s[0] == 'P' && n >= 10 ? 10 + (size_t)be(s + 6, 4) : SIZE_MAX;
    printf("%zu ", at);
    if (n < length) {
        printf("bad\n");
        return 0;
    }
    if (s[0] == 'O')
        open_lane(s);
    else if (s[0] == 'P')
        take_packet(s);
    else
        close_lane(s);
    return length;
}

int main(void)
{
    size_t n = 0, at = 0, calls = 0;
    for (ssize_t got; (got = read(0, run + n, sizeof run - n)) > 0;)
        n += (size_t)got;
    if (n > LONGEST) {
        printf("too long\n");
        return 0;
    }
    state = base_fresh_start();
    for (size_t length; at < n && (length = call(run + at, n - at, at)) != 0; at += length)
        calls++;
    printf("end %zu %zu %u\n", at, calls, adler32(pool, sizeof pool));
    return fflush(stdout) != 0;
}
