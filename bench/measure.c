/* Runs a program and reports what it used, in a line on standard error.

     measure SECONDS PACE PROGRAM [WORD..]
     measure

   The line has the user and the system time in microseconds, the peak memory in kilobytes, the program's status (128 and more: a
   signal), and the pace of its processor: the most nanoseconds that a fixed piece of work took, done twice just before the program and
   twice just after it. On a shared machine a processor can take twice as long while others work. So the program runs on one that does
   this work in PACE nanoseconds both times, if one is found within a second. Without a program, the line has the least pace within a
   second.

   The program has this one's standard input and output, and SECONDS of processor time at most. The runner is far larger than this
   program, and a process begins with the peak memory of what started it: so the runner starts this one. */
#define _GNU_SOURCE
#include <fcntl.h>
#include <limits.h>
#include <sched.h>
#include <stdint.h>
#include <stdio.h>
#include <stdlib.h>
#include <sys/resource.h>
#include <sys/wait.h>
#include <time.h>
#include <unistd.h>

enum { STEPS = 200000 };

static long nanoseconds(void) {
    struct timespec now;
    clock_gettime(CLOCK_MONOTONIC, &now);
    return now.tv_sec * 1000000000L + now.tv_nsec;
}

static volatile uint64_t kept;

/* Four chains of steps, so that a processor has much to do at once, and loses where it shares its units. */
static long pace(void) {
    uint64_t a = 1, b = 2, c = 3, d = 4;
    long start = nanoseconds();
    for (uint64_t step = 0; step < STEPS; step++) {
        a = a * 3 + step;
        b = b * 5 + step;
        c ^= c << 7;
        c ^= c >> 9;
        d += a ^ b;
    }
    kept = c + d;
    return nanoseconds() - start;
}

static void bind_to(int processor) {
    cpu_set_t set;
    CPU_ZERO(&set);
    CPU_SET(processor, &set);
    sched_setaffinity(0, sizeof set, &set);
}

/* The greater pace of two in turn. */
static long steady_pace(void) {
    long first = pace(), second = pace();
    return first > second ? first : second;
}

/* Tries one processor after another for a second, up to one of this pace, and returns the least. This process stays on the last one. */
static long find_pace(long wanted) {
    long count = sysconf(_SC_NPROCESSORS_ONLN), least = LONG_MAX, end = nanoseconds() + 1000000000L;
    for (long turn = getpid(); least > wanted && nanoseconds() < end; turn++) {
        bind_to((int)(turn % count));
        long found = steady_pace();
        if (found < least) least = found;
    }
    return least;
}

static void become(char **words, long seconds) {
    struct rlimit limit = {seconds, seconds};
    int nowhere = open("/dev/null", O_WRONLY);
    setrlimit(RLIMIT_CPU, &limit);
    dup2(nowhere, 2);
    execvp(words[0], words);
    _exit(127);
}

static long microseconds(struct timeval time) { return time.tv_sec * 1000000L + time.tv_usec; }

int main(int count, char **words) {
    struct rusage used;
    int status;
    if (count == 1) return fprintf(stderr, "%ld\n", find_pace(0)) < 0;
    if (count < 4) return 2;
    long before = find_pace(atol(words[2]));
    pid_t child = fork();
    if (child < 0) return 2;
    if (child == 0) become(words + 3, atol(words[1]));
    if (wait4(child, &status, 0, &used) != child) return 2;
    long after = steady_pace();
    int ended = WIFEXITED(status) ? WEXITSTATUS(status) : 128 + WTERMSIG(status);
    fprintf(stderr, "%ld %ld %ld %d %ld\n", microseconds(used.ru_utime), microseconds(used.ru_stime), used.ru_maxrss, ended,
            before > after ? before : after);
    return 0;
}
