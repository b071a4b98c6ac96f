/* How long a transition takes by the library, beside other ways to make it, in one run in which all ways take turns:
 *
 *   nd_apply        the book, by one thread
 *   plain book      the same in plain C, with nothing proved
 *   mutex           nd_apply under one mutex for all threads; what the others are told in
 *   spinlock        nd_apply under one spinlock
 *   mutex each      nd_apply under a mutex for each runqueue, where no task moves
 *   table           nd_call
 *   plain table     the atomic steps of the table in plain C
 *
 * speed kinds [ROUNDS]: each kind of transition on one thread. speed threads [ROUNDS]: throughput of 1, 2 and 4 threads on one
 * runqueue, and on a runqueue each. Each figure is the median of the rounds' ratios. speed loop WAY ROUNDS: one way alone, for
 * a profiler. It ends with 1 where a way's replies are not those of nd_apply. */
#define _GNU_SOURCE
#include "speed.h"
#include <pthread.h>
#include <stdio.h>
#include <stdlib.h>
#include <string.h>
#include <time.h>
#include <unistd.h>

enum { THREADS = 4, EACH = 4, TASKS = 64, TURNS = 4, ROUNDS_MAX = 1001, LINE = 128 };
enum { APPLY, PLAIN_BOOK, MUTEX, SPINLOCK, MUTEX_EACH, TABLE, PLAIN_TABLE, WAYS };
static const char *const names[WAYS] = {"nd_apply", "plain book", "mutex", "spinlock", "mutex each", "table", "plain table"};

/* What all threads share. Each lock and pass has a line of its own. */
static nd_task tasks[TASKS];
static nd_runqueue queues[THREADS];
static size_t task_count, queue_count;
static plain_table table;
static pthread_mutex_t mutex = PTHREAD_MUTEX_INITIALIZER;
static pthread_spinlock_t spinlock;
static struct {
    _Alignas(LINE) pthread_mutex_t mutex;
} each[THREADS];
static struct {
    _Alignas(LINE) nd_pass pass;
} passes[THREADS];

static inline __attribute__((always_inline)) nd_reply applied(uint32_t task, nd_op op) {
    return nd_apply(tasks, task_count, queues, queue_count, task, op);
}

/* Asks an op for a task on a runqueue, by a thread. */
static inline __attribute__((always_inline)) nd_reply asked(int way, uint32_t thread, uint32_t queue, uint32_t task, nd_op op) {
    nd_reply reply;
    switch (way) {
    case APPLY:
        return applied(task, op);
    case PLAIN_BOOK:
        return plain_apply(tasks, task_count, queues, queue_count, task, op);
    case MUTEX:
        pthread_mutex_lock(&mutex);
        reply = applied(task, op);
        pthread_mutex_unlock(&mutex);
        return reply;
    case SPINLOCK:
        pthread_spin_lock(&spinlock);
        reply = applied(task, op);
        pthread_spin_unlock(&spinlock);
        return reply;
    case MUTEX_EACH:
        pthread_mutex_lock(&each[queue].mutex);
        reply = applied(task, op);
        pthread_mutex_unlock(&each[queue].mutex);
        return reply;
    case TABLE:
        return nd_call(&passes[thread].pass, task, op, 255);
    default:
        return plain_call(&table, task, op, 255);
    }
}

static void must(int is_well, const char *what) {
    if (!is_well) {
        fprintf(stderr, "speed: %s\n", what);
        exit(1);
    }
}

static void open_all(size_t of_tasks, size_t of_queues, uint32_t period, uint32_t threads) {
    task_count = of_tasks, queue_count = of_queues;
    for (size_t t = 0; t < task_count; t++)
        tasks[t] = (nd_task){100, period, 0, 0, 0, 0, 0};
    for (size_t r = 0; r < queue_count; r++)
        queues[r] = (nd_runqueue){996147, 0, 0, 0};
    must(nd_open(tasks, task_count, queues, queue_count) == ND_DONE, "no book");
    must(nd_table_open(tasks, task_count, queues, queue_count, threads, &passes[0].pass) == ND_DONE, "no table");
    for (uint32_t i = 1; i < threads; i++)
        must(nd_part(&passes[0].pass, &passes[i].pass) == ND_DONE, "no pass");
    must(plain_open(&table, tasks, task_count, queues, queue_count) == 0, "no memory");
}

static void close_all(uint32_t threads) {
    for (uint32_t i = 0; i < threads; i++)
        nd_free(&passes[i].pass);
    plain_close(&table);
}

static double now(void) {
    struct timespec t;
    clock_gettime(CLOCK_MONOTONIC, &t);
    return (double)t.tv_sec + 1e-9 * (double)t.tv_nsec;
}

static int by_size(const void *a, const void *b) {
    const double x = *(const double *)a, y = *(const double *)b;
    return (x > y) - (x < y);
}

/* The median of x[i] / y[i]. */
static double ratio(const double *x, const double *y, int count) {
    static double found[ROUNDS_MAX];
    for (int i = 0; i < count; i++)
        found[i] = x[i] / y[i];
    qsort(found, (size_t)count, sizeof *found, by_size);
    return found[count / 2];
}

static uint64_t sum_of(const nd_reply *reply) {
    return reply->kind + 3ull * reply->number + 5ull * reply->budget + 7ull * reply->deadline + 11 * reply->charged;
}

/* ---- each kind of transition, by one thread: all tasks make it one after another, on one runqueue */
enum { JOIN, CHARGE, WAITING, EARLY_WAKE, WAITING_AGAIN, RETIRED, WAKE, ASLEEP, LEAVE, KINDS };
static const char *const kind_names[KINDS + 1] = {"join", "charge", "block that waits", "wake in time", "block again", "timer", "wake of inactive", "block asleep", "leave", "all"};
static uint32_t tickets[TASKS], zero_lags[TASKS];

static nd_op op_of(int kind, uint32_t task, uint32_t base) {
    switch (kind) {
    case JOIN:
        return (nd_op){ND_JOIN, 0, base};
    case CHARGE:
        return (nd_op){ND_CHARGE, 0, 30};
    case WAITING:
    case WAITING_AGAIN:
        return (nd_op){ND_BLOCK, 0, base + 30};
    case EARLY_WAKE:
        return (nd_op){ND_WAKE, 0, base + 30};
    case RETIRED:
        return (nd_op){ND_TIMER, tickets[task], zero_lags[task]};
    case WAKE:
        return (nd_op){ND_WAKE, 0, base + 6000};
    case ASLEEP:
        return (nd_op){ND_BLOCK, 0, base + 60000};
    default:
        return (nd_op){ND_LEAVE, 0, 0};
    }
}

static inline __attribute__((always_inline)) uint64_t all_ask(int way, int kind, uint32_t base) {
    uint64_t sum = 0;
    for (uint32_t t = 0; t < TASKS; t++) {
        const nd_reply reply = asked(way, 0, 0, t, op_of(kind, t, base));
        if (kind == WAITING_AGAIN)
            tickets[t] = reply.number, zero_lags[t] = reply.deadline;
        sum += sum_of(&reply);
    }
    return sum;
}

/* (each way has a loop of its own, in which nothing of another stands) */
static __attribute__((noinline)) uint64_t all_asked(int way, int kind, uint32_t base) {
    switch (way) {
    case APPLY:
        return all_ask(APPLY, kind, base);
    case PLAIN_BOOK:
        return all_ask(PLAIN_BOOK, kind, base);
    case MUTEX:
        return all_ask(MUTEX, kind, base);
    case SPINLOCK:
        return all_ask(SPINLOCK, kind, base);
    case MUTEX_EACH:
        return all_ask(MUTEX_EACH, kind, base);
    case TABLE:
        return all_ask(TABLE, kind, base);
    default:
        return all_ask(PLAIN_TABLE, kind, base);
    }
}

static double took[WAYS][KINDS + 1][ROUNDS_MAX];

/* One way makes all kinds in some turns, of which the last counts. */
static uint64_t kinds_once(int way, int round, double clock) {
    uint64_t sum = 0;
    open_all(TASKS, 1, 10000, 1);
    for (uint32_t turn = 0; turn < TURNS; turn++) {
        took[way][KINDS][round] = 0;
        for (int kind = 0; kind < KINDS; kind++) {
            const double begin = now();
            sum = 13 * sum + all_asked(way, kind, turn * 100000);
            took[way][kind][round] = now() - begin - clock;
            took[way][KINDS][round] += took[way][kind][round];
        }
    }
    close_all(1);
    return sum;
}

static void kinds(int rounds) {
    double clock = 1; /* what reading it takes */
    for (int i = 0; i < 1000; i++) {
        const double begin = now(), least = now() - begin;
        clock = least < clock ? least : clock;
    }
    for (int round = 0; round < rounds; round++) {
        uint64_t sum = 0;
        for (int way = 0; way < WAYS; way++) {
            const uint64_t found = kinds_once(way, round, clock);
            must(way == APPLY || found == sum, names[way]);
            sum = found;
        }
    }
    printf("one thread, time of a transition; medians of %d rounds\n%-17s %-46s of the same in plain C\n%-17s", rounds, "", "of mutex + nd_apply", "");
    for (int way = 0; way < WAYS; way++)
        if (way != MUTEX && way != MUTEX_EACH)
            printf("%12s", names[way]);
    printf("%12s%12s\n", names[APPLY], names[TABLE]);
    for (int kind = 0; kind <= KINDS; kind++) {
        printf("%-17s", kind_names[kind]);
        for (int way = 0; way < WAYS; way++)
            if (way != MUTEX && way != MUTEX_EACH)
                printf("%12.2f", ratio(took[way][kind], took[MUTEX][kind], rounds));
        printf("%12.2f%12.2f\n", ratio(took[APPLY][kind], took[PLAIN_BOOK][kind], rounds), ratio(took[TABLE][kind], took[PLAIN_TABLE][kind], rounds));
    }
}

/* ---- throughput of threads: a charge, a block, its timer and a wake, of four tasks a thread in turn */
enum { OPS = 20000 };
static uint32_t threads;
static int is_apart, way_now;
static pthread_barrier_t together;
static struct {
    _Alignas(LINE) double began;
    double ended;
} spans[THREADS];

static inline __attribute__((always_inline)) void work(int way, uint32_t thread) {
    const uint32_t queue = is_apart ? thread : 0;
    uint32_t moments[EACH] = {0}, ticket[EACH] = {0}, zero_lag[EACH] = {0};
    for (uint32_t n = 0; n < OPS; n++) {
        const uint32_t k = n % EACH, task = thread * EACH + k;
        nd_op op = {ND_WAKE, queue, moments[k]};
        nd_reply reply;
        switch (n / EACH % 4) {
        case 0:
            op = (nd_op){ND_CHARGE, queue, 3};
            moments[k] += 3;
            break;
        case 1:
            op.kind = ND_BLOCK;
            break;
        case 2:
            op = (nd_op){ND_TIMER, ticket[k], zero_lag[k]};
            moments[k] = zero_lag[k] > moments[k] ? zero_lag[k] : moments[k];
            break;
        }
        do
            reply = asked(way, thread, queue, task, op);
        while (reply.kind == ND_LOST || reply.kind == ND_BUSY);
        must(reply.kind >= ND_JOINED, names[way]);
        if (reply.kind == ND_WAITING)
            ticket[k] = reply.number, zero_lag[k] = reply.deadline;
    }
}

static void *worker(void *given) {
    const uint32_t thread = (uint32_t)(uintptr_t)given;
    pthread_barrier_wait(&together);
    spans[thread].began = now();
    switch (way_now) {
    case MUTEX:
        work(MUTEX, thread);
        break;
    case SPINLOCK:
        work(SPINLOCK, thread);
        break;
    case MUTEX_EACH:
        work(MUTEX_EACH, thread);
        break;
    case TABLE:
        work(TABLE, thread);
        break;
    default:
        work(PLAIN_TABLE, thread);
    }
    spans[thread].ended = now();
    return NULL;
}

/* Transitions a second. */
static double throughput(int way) {
    pthread_t id[THREADS];
    double began, ended;
    way_now = way;
    open_all(threads * EACH, is_apart ? threads : 1, 5000, threads);
    for (uint32_t t = 0; t < threads * EACH; t++)
        must(asked(way, 0, 0, t, (nd_op){ND_JOIN, is_apart ? t / EACH : 0, 0}).kind == ND_JOINED, names[way]);
    pthread_barrier_init(&together, NULL, threads);
    for (uint32_t i = 0; i < threads; i++)
        must(pthread_create(&id[i], NULL, worker, (void *)(uintptr_t)i) == 0, "no thread");
    for (uint32_t i = 0; i < threads; i++)
        pthread_join(id[i], NULL);
    pthread_barrier_destroy(&together);
    close_all(threads);
    began = spans[0].began, ended = spans[0].ended;
    for (uint32_t i = 1; i < threads; i++) {
        began = spans[i].began < began ? spans[i].began : began;
        ended = spans[i].ended > ended ? spans[i].ended : ended;
    }
    return threads * (double)OPS / (ended - began);
}

static void throughputs(int rounds) {
    static double made[WAYS][ROUNDS_MAX];
    printf("throughput; medians of %d rounds\n%-24s %-46s of plain table\n%-24s", rounds, "", "of mutex + nd_apply", "");
    for (int way = SPINLOCK; way < WAYS; way++)
        printf("%12s", names[way]);
    printf("%12s\n", names[TABLE]);
    for (is_apart = 0; is_apart < 2; is_apart++)
        for (threads = 1; threads <= THREADS; threads *= 2) {
            for (int round = 0; round < rounds; round++)
                for (int way = MUTEX; way < WAYS; way++)
                    made[way][round] = throughput(way);
            printf("%-13s %u thread%-3s", is_apart ? "its own" : "one runqueue", threads, threads > 1 ? "s" : "");
            for (int way = SPINLOCK; way < WAYS; way++)
                printf("%12.2f", ratio(made[way], made[MUTEX], rounds));
            printf("%12.2f\n", ratio(made[TABLE], made[PLAIN_TABLE], rounds));
            fflush(stdout);
        }
}

/* (a process of one thread would get a mutex without atomic steps from its C library) */
static void *asleep(void *given) {
    pause();
    return given;
}

int main(int argc, char **argv) {
    const char *what = argc > 1 ? argv[1] : "kinds";
    const int rounds = argc > 2 ? atoi(argv[argc - 1]) : 101;
    pthread_t idle;
    must(pthread_create(&idle, NULL, asleep, NULL) == 0, "no thread");
    pthread_spin_init(&spinlock, 0);
    for (int i = 0; i < THREADS; i++)
        pthread_mutex_init(&each[i].mutex, NULL);
    if (!strcmp(what, "loop") && argc == 4) {
        for (int round = 0; round < rounds; round++)
            kinds_once(atoi(argv[2]), 0, 0);
        return 0;
    }
    must(rounds >= 1 && rounds <= ROUNDS_MAX, "speed kinds | threads [ROUNDS, 1 to 1001], speed loop WAY ROUNDS");
    if (!strcmp(what, "threads"))
        throughputs(rounds);
    else
        kinds(rounds);
    return 0;
}
