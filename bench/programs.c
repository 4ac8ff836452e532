/* Two whole programs on the same input, start-up included: each is started many times in turn, and the smallest and
 * the middle time count. Before that both must print the same bytes.
 *
 *     programs FIRST SECOND INPUT.. */
#include <fcntl.h>
#include <stdbool.h>
#include <stdio.h>
#include <stdlib.h>
#include <string.h>
#include <sys/wait.h>
#include <unistd.h>

#include "clock.h"

enum { RUNS = 400, OUTPUT_MOST = 1 << 17 };

/* Starts a program with its input from a file and its output to a descriptor; its process. */
static pid_t start(const char *program, const char *input, int out)
{
    pid_t child = fork();
    if (child != 0)
        return child;
    int in = open(input, O_RDONLY);
    if (in < 0 || dup2(in, 0) < 0 || dup2(out, 1) < 0)
        _exit(126);
    execl(program, program, (char *)NULL);
    _exit(127);
}

/* What a program prints; -1 where it could not be run. */
static ssize_t output_of(const char *program, const char *input, char *into)
{
    int ends[2], status;
    size_t n = 0;
    ssize_t got;
    if (pipe(ends) != 0)
        return -1;
    pid_t child = start(program, input, ends[1]);
    close(ends[1]);
    while (n < OUTPUT_MOST && (got = read(ends[0], into + n, OUTPUT_MOST - n)) > 0)
        n += (size_t)got;
    close(ends[0]);
    if (child < 0 || waitpid(child, &status, 0) != child || !WIFEXITED(status) || WEXITSTATUS(status) > 125)
        return -1;
    return (ssize_t)n;
}

static bool same_output(char **programs, const char *input)
{
    static char ours[OUTPUT_MOST], theirs[OUTPUT_MOST];
    ssize_t n = output_of(programs[0], input, ours), m = output_of(programs[1], input, theirs);
    return n >= 0 && n == m && memcmp(ours, theirs, (size_t)n) == 0;
}

static int by_size(const void *a, const void *b)
{
    int64_t x = *(const int64_t *)a, y = *(const int64_t *)b;
    return (x > y) - (x < y);
}

/* Times both programs in turn and prints one line. */
static void time_both(char **programs, const char *input)
{
    static int64_t ns[2][RUNS];
    int nowhere = open("/dev/null", O_WRONLY);
    for (int i = 0; i < RUNS; i++)
        for (int p = 0; p < 2; p++) {
            int64_t from = now_ns();
            waitpid(start(programs[p], input, nowhere), NULL, 0);
            ns[p][i] = now_ns() - from;
        }
    close(nowhere);
    for (int p = 0; p < 2; p++)
        qsort(ns[p], RUNS, sizeof ns[p][0], by_size);
    const char *name = strrchr(input, '/');
    printf("  %-24s%9.0f%9.0f%7.2f%9.0f%9.0f%7.2f\n", name ? name + 1 : input, (double)ns[0][0] / 1e3,
           (double)ns[1][0] / 1e3, (double)ns[0][0] / (double)ns[1][0], (double)ns[0][RUNS / 2] / 1e3,
           (double)ns[1][RUNS / 2] / 1e3, (double)ns[0][RUNS / 2] / (double)ns[1][RUNS / 2]);
}

int main(int count, char **arguments)
{
    if (count < 4) {
        fprintf(stderr, "usage: programs FIRST SECOND INPUT..\n");
        return 2;
    }
    printf("\nWhole programs, start-up included, in microseconds, %d runs each\n", RUNS);
    printf("%-26s%9s%9s%7s%9s%9s%7s\n", "", "least", "plain C", "ratio", "middle", "plain C", "ratio");
    for (int i = 3; i < count; i++) {
        if (!same_output(arguments + 1, arguments[i])) {
            printf("%s and %s differ on %s\n", arguments[1], arguments[2], arguments[i]);
            return 1;
        }
        time_both(arguments + 1, arguments[i]);
    }
    return 0;
}
