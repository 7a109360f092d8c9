// timer wall|cpu RUNS INPUT OUTPUT PROGRAM [WORDS...]: runs a program so many times, with standard input and output from and to
// files, and prints the shortest time in microseconds: from its start to its end, or what it had of a processor. The exit status
// is 1 if a run fails.
#include <fcntl.h>
#include <spawn.h>
#include <stdio.h>
#include <stdlib.h>
#include <string.h>
#include <sys/resource.h>
#include <sys/wait.h>
#include <time.h>

static long long micros(struct timeval t) { return 1000000LL * t.tv_sec + t.tv_usec; }

static long long now(void) {
    struct timespec t;
    clock_gettime(CLOCK_MONOTONIC, &t);
    return 1000000LL * t.tv_sec + t.tv_nsec / 1000;
}

int main(int argc, char** argv) {
    extern char** environ;
    if (argc < 6) {
        fputs("timer wall|cpu RUNS INPUT OUTPUT PROGRAM [WORDS...]\n", stderr);
        return 2;
    }
    int cpu = strcmp(argv[1], "cpu") == 0;
    long long best = -1;
    for (int i = 0; i < atoi(argv[2]); i++) {
        posix_spawn_file_actions_t files;
        posix_spawn_file_actions_init(&files);
        posix_spawn_file_actions_addopen(&files, 0, argv[3], O_RDONLY, 0);
        posix_spawn_file_actions_addopen(&files, 1, argv[4], O_WRONLY | O_CREAT | O_TRUNC, 0644);
        pid_t child;
        int status;
        struct rusage used;
        long long start = now();
        if (posix_spawn(&child, argv[5], &files, NULL, argv + 5, environ) != 0 || wait4(child, &status, 0, &used) != child) {
            fprintf(stderr, "timer: %s does not start\n", argv[5]);
            return 1;
        }
        long long took = cpu ? micros(used.ru_utime) + micros(used.ru_stime) : now() - start;
        if (!WIFEXITED(status) || WEXITSTATUS(status) != 0) {
            fprintf(stderr, "timer: %s failed on %s\n", argv[5], argv[3]);
            return 1;
        }
        if (best < 0 || took < best) best = took;
        posix_spawn_file_actions_destroy(&files);
    }
    printf("%lld\n", best);
    return 0;
}
