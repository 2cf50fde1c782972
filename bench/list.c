/* list once more, in C over the baseline: what `./branmuslin list` prints for the same input. */
#include "baseline.h"

#include <stdio.h>
#include <string.h>
#include <unistd.h>

enum { LONGEST = 65536, ROOM = 20 * LONGEST + 64 };

static char text[ROOM];
static size_t written;

static void put_word(const char *word)
{
    const size_t n = strlen(word);
    memcpy(text + written, word, n);
    written += n;
}

static void put_number(uint32_t x)
{
    char digits[10];
    size_t n = 0;
    do
        digits[n++] = (char)('0' + x % 10);
    while ((x /= 10) != 0);
    while (n > 0)
        text[written++] = digits[--n];
}

static void put_line(size_t at, const char *word, const uint32_t *numbers, size_t n)
{
    put_number((uint32_t)at);
    put_word(word);
    for (size_t i = 0; i < n; i++) {
        text[written++] = ' ';
        put_number(numbers[i]);
    }
    text[written++] = '\n';
}

static void put_packet(size_t at, const struct branmuslin_packet *p)
{
    const uint32_t space[] = {p->apid, p->flags, p->count, p->length}, encapsulation[] = {p->protocol, p->extension, p->offset, p->length};
    if (p->version == BRANMUSLIN_SPACE)
        put_line(at, " space", space, 4);
    else
        put_line(at, " encap", encapsulation, 4);
}

static void put_listing(const uint8_t *octets, size_t n)
{
    struct branmuslin_packet packet;
    uint32_t packets = 0;
    size_t at = 0, place;
    for (; at < n; at += packet.offset + packet.length, packets++) {
        const uint8_t refusal = base_read_packet(octets + at, n - at, &packet, &place);
        if (refusal != BRANMUSLIN_DONE) {
            put_line(at, " refused", (const uint32_t[]){refusal, (uint32_t)place}, 2);
            break;
        }
        put_packet(at, &packet);
    }
    put_word("end ");
    put_line(at, "", &packets, 1);
}

int main(void)
{
    static uint8_t octets[LONGEST + 1];
    size_t n = 0;
    for (ssize_t got; (got = read(0, octets + n, sizeof octets - n)) > 0;)
        n += (size_t)got;
    if (n > LONGEST)
        put_word("too long\n");
    else
        put_listing(octets, n);
    for (size_t done = 0; done < written;) {
        const ssize_t put = write(1, text + done, written - done);
        if (put < 0)
            return 1;
        done += (size_t)put;
    }
    return 0;
}
