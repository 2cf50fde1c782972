/* Linked into programs with AddressSanitizer that are to run in emulation: the emulator breaks off where a program opens /proc/self/maps, and does not
 * where it opens the same file by its thread's name. The sanitizer's function for reading a file comes here first (-Wl,--wrap). */
#include <stdbool.h>
#include <stddef.h>

#define READ_FILE(which) which##__ZN11__sanitizer16ReadFileToBufferEPKcPPcPmS4_mPi

bool READ_FILE(__real)(const char *, char **, size_t *, size_t *, size_t, int *);

/* Called before the C library is ready, so without strcmp. */
static bool same(const char *a, const char *b)
{
    for (; *a == *b; a++, b++)
        if (*a == 0)
            return true;
    return false;
}

bool READ_FILE(__wrap)(const char *path, char **text, size_t *room, size_t *length, size_t most, int *error)
{
    return READ_FILE(__real)(same(path, "/proc/self/maps") ? "/proc/thread-self/maps" : path, text, room, length, most, error);
}
