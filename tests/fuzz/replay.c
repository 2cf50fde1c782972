/* Runs stored inputs through the harness, without a fuzzer: the last name that is printed is that of the input that failed. */
#include "harness/harness.h"
#include <stdio.h>
#include <stdlib.h>

#define LONGEST_STORED (1 << 20)

/* In memory of exactly its length, so that the sanitizer sees what the harness itself reads beyond it. */
static int run(const char *name)
{
    static uint8_t octets[LONGEST_STORED];
    FILE *const file = fopen(name, "rb");
    if (!file) {
        perror(name);
        return 1;
    }
    const size_t length = fread(octets, 1, sizeof octets, file);
    const int failed = ferror(file);
    fclose(file);
    uint8_t *const input = malloc(length > 0 ? length : 1);
    if (failed || !input) {
        fprintf(stderr, "can't read %s\n", name);
        return 1;
    }
    for (size_t i = 0; i < length; i++)
        input[i] = octets[i];
    printf("%s\n", name);
    fflush(stdout);
    LLVMFuzzerTestOneInput(input, length);
    free(input);
    return 0;
}

int main(int count, char **names)
{
    for (int i = 1; i < count; i++)
        if (run(names[i]) != 0)
            return 1;
    const unsigned missed = tell_met();
    printf("%d inputs passed; refusals that none met: %u\n", count - 1, missed);
    return 0;
}
