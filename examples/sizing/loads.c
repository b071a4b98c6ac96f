/* Loads to be sized: a periodic thread whose work varies (ld_per), a server of bursts of requests (ld_req), and a pipeline of two
 * threads of which the first wakes the second (ld_one, ld_two). Each thread counts its jobs, and those that were not done within
 * their time by its own clock, from the moment at which it was to wake.
 *
 *     cc -O2 -pthread -o loads examples/sizing/loads.c
 *     chrt -f 50 ./loads SECONDS                           with real-time priority, to be recorded
 *     ./loads SECONDS ld_per=RUNTIME:PERIOD ..             as SCHED_DEADLINE tasks, in microseconds
 */
#define _GNU_SOURCE
#include <errno.h>
#include <pthread.h>
#include <stdint.h>
#include <stdio.h>
#include <stdlib.h>
#include <string.h>
#include <sys/prctl.h>
#include <sys/syscall.h>
#include <time.h>
#include <unistd.h>

struct attr {
    uint32_t size, policy;
    uint64_t flags;
    int32_t nice;
    uint32_t priority;
    uint64_t runtime, deadline, period;
};

static int seconds, words;
static char **word;
static double loops_per_us;
static volatile uint64_t sink;

static int64_t now(void) {
    struct timespec t;
    clock_gettime(CLOCK_MONOTONIC, &t);
    return t.tv_sec * 1000000000LL + t.tv_nsec;
}

static void until(int64_t at) {
    struct timespec t = {at / 1000000000, at % 1000000000};
    while (clock_nanosleep(CLOCK_MONOTONIC, TIMER_ABSTIME, &t, NULL) == EINTR) {}
}

static void spin(uint64_t loops) {
    uint64_t x = sink;
    for (uint64_t i = 0; i < loops; i++) x = x * 6364136223846793005ULL + 1442695040888963407ULL;
    sink = x;
}

static void work(int us) { spin((uint64_t)(us * loops_per_us)); }

static void calibrate(void) {
    int64_t least = INT64_MAX;
    for (int i = 0; i < 200; i++) {
        int64_t from = now();
        spin(200000);
        int64_t took = now() - from;
        if (took < least) least = took;
    }
    loops_per_us = 200000 * 1000.0 / least;
}

static uint32_t dice(uint64_t *seed, uint32_t n) {
    *seed = *seed * 6364136223846793005ULL + 1442695040888963407ULL;
    return (uint32_t)(*seed >> 33) % n;
}

/* The thread's name, and its reservation where a word gives one. */
static void become(const char *name) {
    prctl(PR_SET_NAME, name);
    for (int i = 0; i < words; i++) {
        unsigned long runtime, period;
        size_t n = strlen(name);
        if (strncmp(word[i], name, n) || word[i][n] != '=' || sscanf(word[i] + n + 1, "%lu:%lu", &runtime, &period) != 2) continue;
        struct attr a = {.size = sizeof a, .policy = 6, .runtime = runtime * 1000, .deadline = period * 1000, .period = period * 1000};
        if (syscall(SYS_sched_setattr, 0, &a, 0)) { fprintf(stderr, "%s: %s\n", name, strerror(errno)); exit(1); }
    }
}

struct count { int jobs, late; };

static void done(struct count *c, int64_t release, int within_us) {
    c->jobs++;
    c->late += now() - release > within_us * 1000LL;
}

static void tell(const char *name, struct count c) { printf("%s: %d of %d jobs late\n", name, c.late, c.jobs); }

/* Every 20 ms: 1.2 to 4.2 ms, one in sixty twice as long. */
static void *periodic(void *nothing) {
    struct count c = {0, 0};
    uint64_t seed = 7;
    become("ld_per");
    int64_t end = now() + seconds * 1000000000LL, at = now() + 50000000;
    for (; at < end; at += 20000000) {
        until(at);
        int us = 1200 + dice(&seed, 3000);
        if (!dice(&seed, 60)) us *= 2;
        work(us);
        done(&c, at, 20000);
    }
    tell("ld_per", c);
    return nothing;
}

/* Bursts of one to four requests; each takes 0.4 to 2 ms, one in eighty 6 ms. */
static int requests[2];

static void *sender(void *nothing) {
    uint64_t seed = 11;
    prctl(PR_SET_NAME, "ld_send");
    int64_t end = now() + seconds * 1000000000LL, at = now() + 50000000;
    while (at < end) {
        int n = 1 + dice(&seed, 4);
        for (int i = 0; i < n && at < end; i++) {
            until(at);
            int64_t release = now();
            if (write(requests[1], &release, sizeof release) < 0) return nothing;
            at += 1000000 + dice(&seed, 4000) * 1000LL;
        }
        at += 20000000 + dice(&seed, 80000) * 1000LL;
    }
    close(requests[1]);
    return nothing;
}

static void *server(void *nothing) {
    struct count c = {0, 0};
    uint64_t seed = 13;
    int64_t release;
    become("ld_req");
    while (read(requests[0], &release, sizeof release) == sizeof release) {
        work(dice(&seed, 80) ? 400 + dice(&seed, 1600) : 6000);
        done(&c, release, 30000);
    }
    tell("ld_req", c);
    return nothing;
}

/* Every 10 ms: 0.3 to 0.8 ms, then 0.5 to 1.6 ms in the second thread; all of it within 10 ms. */
static int stages[2];

static void *first(void *nothing) {
    struct count c = {0, 0};
    uint64_t seed = 17;
    become("ld_one");
    int64_t end = now() + seconds * 1000000000LL, at = now() + 50000000;
    for (; at < end; at += 10000000) {
        until(at);
        work(300 + dice(&seed, 500));
        done(&c, at, 4000);
        if (write(stages[1], &at, sizeof at) < 0) break;
    }
    close(stages[1]);
    tell("ld_one", c);
    return nothing;
}

static void *second(void *nothing) {
    struct count c = {0, 0};
    uint64_t seed = 19;
    int64_t release;
    become("ld_two");
    while (read(stages[0], &release, sizeof release) == sizeof release) {
        work(500 + dice(&seed, 1100));
        done(&c, release, 10000);
    }
    tell("ld_two, from the first wake on", c);
    return nothing;
}

int main(int argc, char **argv) {
    if (argc < 2 || (seconds = atoi(argv[1])) < 1) { fprintf(stderr, "usage: loads SECONDS [NAME=RUNTIME:PERIOD ..]\n"); return 2; }
    word = argv + 2, words = argc - 2;
    if (pipe(requests) || pipe(stages)) { perror("pipe"); return 1; }
    calibrate();
    void *(*threads[])(void *) = {periodic, server, second, first, sender};
    pthread_t id[5];
    for (int i = 0; i < 5; i++) if (pthread_create(id + i, NULL, threads[i], NULL)) { fprintf(stderr, "no thread\n"); return 1; }
    for (int i = 0; i < 5; i++) pthread_join(id[i], NULL);
    return 0;
}
