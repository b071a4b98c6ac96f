/* Four threads over one shared table, a pass each. Each thread has a runqueue of its own and two tasks on a fifth, which all
 * share, and writes down what it was answered and read. Then one order of all that is looked for, which nd_check finds to be
 * the book's; the last sums of the table have to be those of that book. */
#define _POSIX_C_SOURCE 200809L
#include "neddwyrol_table.h"
#include <pthread.h>
#include <stdio.h>
#include <stdlib.h>
#include <string.h>

enum { THREADS = 4, EACH = 4, TASKS = THREADS * EACH, QUEUES = THREADS + 1, SHARED = THREADS, ROUNDS = 3, EVENTS = 128, SPAN = 48 };

typedef struct {
    nd_pass pass;
    uint32_t number;
    size_t count;
    nd_event events[EVENTS];
} worker;

typedef struct {
    nd_task tasks[TASKS];
    nd_runqueue queues[QUEUES];
    size_t at[THREADS], shared[THREADS];
} point;

static worker workers[THREADS];
static nd_event order[THREADS * EVENTS];
static unsigned char seen[SPAN * SPAN * SPAN * SPAN];
static pthread_barrier_t together;

static void note(worker *w, nd_event event) {
    if (w->count == EVENTS)
        abort();
    w->events[w->count++] = event;
}

/* One try. The first thread takes each task, and gives it back once before it makes the call. */
static nd_reply asked(worker *w, uint32_t task, nd_op op) {
    nd_claim claim = {NULL};
    if (w->number != 0)
        return nd_call(&w->pass, task, op, 1);
    nd_reply reply = nd_start(&w->pass, task, op, &claim);
    if (reply.kind == ND_HELD) {
        nd_cancel(&claim, &w->pass);
        reply = nd_start(&w->pass, task, op, &claim);
    }
    if (reply.kind == ND_HELD)
        reply = nd_finish(&claim, 1, &w->pass);
    if (reply.kind == ND_LOST)
        nd_cancel(&claim, &w->pass);
    return reply;
}

static nd_reply call(worker *w, uint32_t task, uint32_t kind, uint32_t a, uint32_t b) {
    nd_op op = {kind, a, b};
    for (;;) {
        nd_reply reply = asked(w, task, op);
        if (reply.kind != ND_BUSY && reply.kind != ND_LOST) {
            nd_event event = {ND_CALL, w->number, task, op, 0, 0, reply};
            note(w, event);
            return reply;
        }
    }
}

static void *work(void *given) {
    worker *w = given;
    pthread_barrier_wait(&together);
    for (uint32_t round = 0; round < ROUNDS; round++)
        for (uint32_t k = 0; k < EACH; k++) {
            uint32_t task = w->number * EACH + k, queue = k < 2 ? w->number : SHARED, now = 40 * round;
            nd_reading reading = {0, 0};
            nd_reply reply = call(w, task, round ? ND_WAKE : ND_JOIN, queue, now);
            call(w, task, ND_CHARGE, queue, 3 + k);
            if (nd_read(&w->pass, queue, &reading) != ND_DONE)
                abort();
            nd_event event = {ND_READING, w->number, queue, {0, 0, 0}, reading.running_bw, reading.this_bw, {0, 0, 0, 0, 0}};
            note(w, event);
            reply = call(w, task, ND_BLOCK, queue, now + 1);
            if (reply.kind == ND_WAITING && round % 2 == 0)
                call(w, task, ND_TIMER, reply.number, reply.deadline);
        }
    return NULL;
}

static int is_shared(const nd_event *event) { return event->kind == ND_READING ? event->number == SHARED : event->number % EACH >= 2; }

/* An order of the events from here on that the book gives: a thread's own in its order, those of the fifth runqueue in any
 * that fits. The events of a thread's own runqueue stand for themselves, so they come first. */
static int ordered(point *p, size_t done) {
    size_t left = 0, place = 0;
    for (int i = 0; i < THREADS; i++) {
        worker *w = &workers[i];
        for (; p->at[i] < w->count && !is_shared(&w->events[p->at[i]]); p->at[i]++) {
            order[done++] = w->events[p->at[i]];
            if (nd_check(p->tasks, TASKS, p->queues, QUEUES, &order[done - 1], 1) != 1)
                return 0;
        }
        left += w->count - p->at[i];
        place = place * SPAN + p->shared[i];
    }
    if (left == 0)
        return 1;
    if (seen[place]++)
        return 0;
    for (int i = 0; i < THREADS; i++) {
        point next = *p;
        if (next.at[i] == workers[i].count)
            continue;
        order[done] = workers[i].events[next.at[i]++];
        next.shared[i]++;
        if (nd_check(next.tasks, TASKS, next.queues, QUEUES, &order[done], 1) == 1 && ordered(&next, done + 1))
            return 1;
    }
    return 0;
}

static int tried(void) {
    point start;
    nd_pass passes[THREADS];
    nd_reading last[QUEUES];
    pthread_t threads[THREADS];
    size_t count = 0;
    memset(&start, 0, sizeof start);
    memset(seen, 0, sizeof seen);
    for (int t = 0; t < TASKS; t++)
        start.tasks[t].runtime = 10, start.tasks[t].period = 100;
    for (int r = 0; r < QUEUES; r++)
        start.queues[r].umax = ND_UNIT, start.queues[r].uextra = ND_UNIT / 10;
    if (nd_table_open(start.tasks, TASKS, start.queues, QUEUES, THREADS, &passes[0]) != ND_DONE)
        return 0;
    for (int i = 1; i < THREADS; i++)
        if (nd_part(&passes[0], &passes[i]) != ND_DONE)
            return 0;
    pthread_barrier_init(&together, NULL, THREADS);
    for (uint32_t i = 0; i < THREADS; i++) {
        workers[i].pass = passes[i];
        workers[i].number = i;
        workers[i].count = 0;
        pthread_create(&threads[i], NULL, work, &workers[i]);
    }
    for (int i = 0; i < THREADS; i++) {
        pthread_join(threads[i], NULL);
        count += workers[i].count;
    }
    pthread_barrier_destroy(&together);
    if (nd_meet(&workers[0].pass, &workers[1].pass) != ND_DONE || nd_close(&workers[0].pass, last, QUEUES) != ND_MISSING)
        return 0;
    for (int i = 1; i < THREADS; i++)
        if (nd_gather(&workers[0].pass, &workers[i].pass) != ND_DONE)
            return 0;
    if (nd_close(&workers[0].pass, last, QUEUES) != ND_DONE || workers[0].pass.at)
        return 0;
    if (nd_open(start.tasks, TASKS, start.queues, QUEUES) != ND_DONE)
        return 0;
    point again = start;
    if (!ordered(&start, 0) || nd_check(again.tasks, TASKS, again.queues, QUEUES, order, count) != count)
        return 0;
    for (int r = 0; r < QUEUES; r++)
        if (last[r].running_bw != again.queues[r].running_bw || last[r].this_bw != again.queues[r].this_bw)
            return 0;
    return 1;
}

int main(int argc, char **argv) {
    int rounds = argc > 1 ? atoi(argv[1]) : 100, good = 0;
    for (int i = 0; i < rounds; i++)
        good += tried();
    printf("of %d tables of four threads, %d have a history that nd_check finds to be the book's, and its sums at the end\n", rounds, good);
    return good == rounds ? 0 : 1;
}
