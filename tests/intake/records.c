/* records: prints the records of the file on standard input, a line each, as the library reads them; for the tests of the example intake. */
#include <branmuslin.h>

#include <stdio.h>

int main(void)
{
    static uint8_t octets[4096];
    const size_t length = fread(octets, 1, sizeof octets, stdin);
    size_t records = 0, index = 0;
    const uint8_t refusal = branmuslin_read_record_file(octets, length, &records, &index);
    if (refusal != 0) {
        printf("refused %u, record %zu\n", (unsigned)refusal, index);
        return 1;
    }
    for (size_t i = 0; i < records; i++) {
        struct branmuslin_record r;
        if (branmuslin_read_record(octets + BRANMUSLIN_RECORD_LENGTH * i, BRANMUSLIN_RECORD_LENGTH, &r) != 0)
            return 1;
        printf("%lu %lu units %lu packets %lu missing %lu broken %lu\n", (unsigned long)r.station, (unsigned long)r.apid, (unsigned long)r.units,
               (unsigned long)r.packets, (unsigned long)r.missing, (unsigned long)r.broken);
    }
    return 0;
}
