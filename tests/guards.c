/* The guard pages themselves: a child that touches the byte after a buffer, or the byte before it, must be stopped, and
 * one that touches the first and the last byte must not. Without this a guard that guards nothing would pass unseen. */
#define _DEFAULT_SOURCE
#include "guard.h"
#include <signal.h>
#include <stdio.h>
#include <stdlib.h>
#include <sys/wait.h>
#include <unistd.h>

static int tried;

/* whether a child that writes at this place of a buffer of n bytes is stopped */
static int stopped(guard_place place, size_t n, long at)
{
    int status;
    fflush(stdout);
    pid_t child = fork();
    if (child == 0) {
        signal(SIGSEGV, SIG_DFL);
        guard_at(place);
        volatile uint8_t *room = guard_room(1, n);
        room[at] = 1;
        _exit(0);
    }
    if (child < 0 || waitpid(child, &status, 0) != child) {
        perror("guards");
        exit(1);
    }
    return WIFSIGNALED(status);
}

static void expect(const char *what, guard_place place, size_t n, long at, int wanted)
{
    tried++;
    if (stopped(place, n, at) == wanted) return;
    printf("%s: a buffer of %zu bytes, byte %ld: %s\n", what, n, at, wanted ? "not stopped" : "stopped");
    exit(1);
}

int main(void)
{
    static const size_t sizes[] = {1, 7, 304, 4096, 49408, 1000000, 7000000};
    for (size_t i = 0; i < sizeof sizes / sizeof sizes[0]; i++) {
        size_t n = sizes[i];
        expect("ends at a guard", GUARD_AFTER, n, (long)n, 1);
        expect("ends at a guard", GUARD_AFTER, n, (long)n - 1, 0);
        expect("ends at a guard", GUARD_AFTER, n, 0, 0);
        expect("begins after a guard", GUARD_BEFORE, n, -1, 1);
        expect("begins after a guard", GUARD_BEFORE, n, 0, 0);
        expect("begins after a guard", GUARD_BEFORE, n, (long)n - 1, 0);
    }
    expect("an empty buffer", GUARD_AFTER, 0, 0, 1);
    expect("an empty buffer", GUARD_BEFORE, 0, -1, 1);
    printf("%d touches stopped or not, as they must be\n", tried);
    return 0;
}
