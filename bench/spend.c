/*
 * spend: runs programs in turn on one input, and tells how long each took and how much memory it had at its peak.
 *
 *     spend ROUNDS INPUT PROGRAM..
 *
 * For each program a line: the median of its milliseconds from start to end, and kibibytes. What it prints is thrown away.
 */
#define _GNU_SOURCE
#include <fcntl.h>
#include <stdio.h>
#include <stdlib.h>
#include <sys/resource.h>
#include <sys/wait.h>
#include <time.h>
#include <unistd.h>

enum { MOST_ROUNDS = 101, MOST_PROGRAMS = 4 };

static double now(void)
{
    struct timespec t;
    clock_gettime(CLOCK_MONOTONIC, &t);
    return (double)t.tv_sec * 1e3 + (double)t.tv_nsec / 1e6;
}

static void become(const char *input, char *program)
{
    char *const words[] = {program, NULL};
    const int in = open(input, O_RDONLY), out = open("/dev/null", O_WRONLY);
    if (in >= 0 && out >= 0 && dup2(in, 0) == 0 && dup2(out, 1) == 1)
        execv(program, words);
    perror(program);
    _exit(127);
}

/* One run: its milliseconds, or -1 if it failed. */
static double run(const char *input, char *program, long *kibibytes)
{
    struct rusage usage;
    int status;
    const double from = now();
    const pid_t child = fork();
    if (child == 0)
        become(input, program);
    if (child < 0 || wait4(child, &status, 0, &usage) != child || !WIFEXITED(status) || WEXITSTATUS(status) != 0)
        return -1;
    if (usage.ru_maxrss > *kibibytes)
        *kibibytes = usage.ru_maxrss;
    return now() - from;
}

static int by_size(const void *a, const void *b)
{
    const double x = *(const double *)a, y = *(const double *)b;
    return (x > y) - (x < y);
}

int main(int argc, char **argv)
{
    static double took[MOST_PROGRAMS][MOST_ROUNDS];
    long kibibytes[MOST_PROGRAMS] = {0};
    const long rounds = argc > 3 ? strtol(argv[1], NULL, 10) : 0;
    if (rounds < 1 || rounds > MOST_ROUNDS || argc > 3 + MOST_PROGRAMS) {
        fprintf(stderr, "usage: spend ROUNDS INPUT PROGRAM..\n");
        return 1;
    }
    for (long r = 0; r < rounds; r++)
        for (int p = 0; p < argc - 3; p++) {
            took[p][r] = run(argv[2], argv[3 + p], &kibibytes[p]);
            if (took[p][r] < 0) {
                fprintf(stderr, "spend: %s failed\n", argv[3 + p]);
                return 1;
            }
        }
    for (int p = 0; p < argc - 3; p++) {
        qsort(took[p], (size_t)rounds, sizeof(double), by_size);
        printf("%.2f\t%ld\n", took[p][rounds / 2], kibibytes[p]);
    }
    return 0;
}
