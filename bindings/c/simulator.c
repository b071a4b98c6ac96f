/* A simulator: global EDF of five reservations over two processors, each with a runqueue. A ready task is pushed to, or pulled by, the
 * processor that should run it; what others leave is reclaimed. A processor looks again when a job comes or ends, a 0-lag time is there,
 * or a budget is used up. Moments are in microseconds.
 *
 * `simulator` prints what ran in 16 milliseconds. `simulator SECONDS` plays so many. Each second the origin of time is moved, so neither
 * moments nor counts come to their end, and nd_check holds what happened since to the book. */
#include "neddwyrol.h"
#include <inttypes.h>
#include <stdio.h>
#include <stdlib.h>
#include <string.h>

enum { TASKS = 5, QUEUES = 2, SHOWN = 16000, EPOCH = 1000000, EVENTS = 1 << 15, NEVER = INT32_MAX };

static nd_task tasks[TASKS] = {ND_TASK(250, 1000), ND_TASK(4000, 48000), ND_TASK(6000, 64000), ND_TASK(4000, 40000), ND_TASK(8000, 80000)}, before[TASKS];
static nd_runqueue queues[QUEUES] = {ND_RUNQUEUE(996147, 209715), ND_RUNQUEUE(996147, 209715)}, sums[QUEUES];
static const nd_book book = {tasks, TASKS, queues, QUEUES};
static const uint32_t demand[TASKS] = {200, 3000, 4000, 2500, 4000}; /* of a job; one comes each period, and each seventh takes twice as long */
static uint32_t left[TASKS], next[TASKS], fires[TASKS], ticket[TASKS];

/* A processor: which ready tasks of its runqueue come first and second, since when the first runs, and until when nothing changes. */
typedef struct {
    uint32_t first, second, since, until;
} processor;

static processor processors[QUEUES];
static nd_event history[EVENTS];
static size_t events;
static uint64_t all_events, jobs, rebases, origin;
static uint32_t highest;
static int is_shown;

static void fail(const char *what, const char *why) {
    fprintf(stderr, "%s: %s\n", what, why);
    exit(1);
}

/* The next event of the history. */
static nd_event *event_of(uint32_t kind, uint32_t number) {
    nd_event *event = &history[events++];
    if (events == EVENTS)
        fail("the history", "it is full");
    event->kind = kind, event->number = number;
    return event;
}

/* Asks an op, and writes the call down. A move alone may be refused. */
static const nd_reply *ask(uint32_t task, uint32_t kind, uint32_t a, uint32_t b) {
    nd_event *call = event_of(ND_CALL, task);
    call->op.kind = kind, call->op.a = a, call->op.b = b;
    call->reply = nd_apply(tasks, TASKS, queues, QUEUES, task, call->op);
    if (!nd_granted(call->reply) && kind != ND_MOVE)
        fail("an op", nd_strerror(call->reply.kind));
    return &call->reply;
}

/* Charges what ran by the sums of now: before another op changes them. */
static void charge(uint32_t q, uint32_t now) {
    uint32_t task = processors[q].first, since = processors[q].since;
    processors[q].since = now;
    if (task == TASKS || since == now)
        return;
    const nd_reply *ran = ask(task, ND_CHARGE, q, now - since);
    left[task] -= now - since;
    if (is_shown)
        printf("at %5" PRIu32 " on %" PRIu32 " task %" PRIu32 " ran %4" PRIu32 " charged %4" PRIu64 " budget %4" PRIu32 " deadline %5" PRIu32 " running_bw %" PRIu32 "\n",
               since, q, task, now - since, ran->charged, ran->budget, ran->deadline, queues[q].running_bw);
}

static uint32_t least(uint32_t a, uint32_t b) { return a < b ? a : b; }

static int is_before(uint32_t task, uint32_t other) { return other == TASKS || tasks[task].deadline < tasks[other].deadline; }

/* What a processor runs from now on, and until when. */
static void look(uint32_t q, uint32_t now) {
    uint32_t first = TASKS, second = TASKS, until = NEVER;
    uint64_t most;
    for (uint32_t t = 0; t < TASKS; t++) {
        if (tasks[t].queue != q)
            continue;
        until = least(until, least(next[t], fires[t]));
        if (tasks[t].state == ND_CONTENDING && is_before(t, first))
            second = first, first = t;
        else if (tasks[t].state == ND_CONTENDING && is_before(t, second))
            second = t;
    }
    if (first < TASKS) {
        until = least(until, now + left[first]);
        /* (no more is charged than is run) */
        if (tasks[first].budget <= until - now && nd_task_exhaustion(&book, first, &most) == ND_DONE && most < until - now)
            until = now + (uint32_t)most;
    }
    processor it = {first, second, now, until};
    processors[q] = it;
}

/* A job ends, timers fire and jobs come. */
static void step(uint32_t q, uint32_t now) {
    uint32_t ran = processors[q].first;
    charge(q, now);
    if (ran < TASKS && left[ran] == 0) {
        const nd_reply *reply = ask(ran, ND_BLOCK, q, now);
        if (reply->kind == ND_WAITING)
            fires[ran] = reply->deadline, ticket[ran] = reply->number;
    }
    for (uint32_t t = 0; t < TASKS; t++) {
        if (tasks[t].queue != q)
            continue;
        if (fires[t] <= now) {
            ask(t, ND_TIMER, ticket[t], now);
            fires[t] = NEVER;
        }
        if (next[t] <= now) {
            left[t] += demand[t] * (++jobs % 7 ? 1 : 2);
            next[t] += tasks[t].period;
            if (tasks[t].state != ND_CONTENDING) {
                ask(t, ND_WAKE, q, now);
                fires[t] = NEVER;
            }
        }
    }
}

/* The second ready task of a runqueue goes to the other one, where it comes before what runs there: whether it went. */
static int pushes(uint32_t q, uint32_t now) {
    uint32_t second = processors[q].second;
    if (second == TASKS || !is_before(second, processors[1 - q].first))
        return 0;
    charge(0, now);
    charge(1, now);
    const nd_reply *moved = ask(second, ND_MOVE, 1 - q, 0);
    if (is_shown)
        printf("at %5" PRIu32 " task %" PRIu32 " goes to runqueue %" PRIu32 ": %s\n", now, second, 1 - q, nd_strerror(moved->kind));
    return nd_granted(*moved);
}

/* The history since the last time is the book's: it leads from the memory of then to the memory of now. */
static void hold(void) {
    size_t given = nd_check(before, TASKS, sums, QUEUES, history, events);
    if (given != events || memcmp(before, tasks, sizeof tasks) || memcmp(sums, queues, sizeof queues))
        fail("nd_check", "what happened is not the book's");
    all_events += events;
    events = 0;
}

/* Moves the origin of time as far as may be, to now at most: how far. */
static uint32_t rebase(uint32_t now) {
    uint32_t by, fault = nd_rebase_limit(tasks, TASKS, queues, QUEUES, &by);
    if (fault != ND_DONE)
        fail("nd_rebase_limit", nd_strerror(fault));
    by = by < now ? by : now;
    for (uint32_t t = 0; t < TASKS; t++)
        highest = tasks[t].count > highest ? tasks[t].count : highest;
    nd_event *event = event_of(ND_REBASE, by);
    event->reply = nd_rebase(tasks, TASKS, queues, QUEUES, by);
    if (!nd_granted(event->reply))
        fail("nd_rebase", nd_strerror(event->reply.kind));
    for (uint32_t t = 0; t < TASKS; t++)
        next[t] -= by, fires[t] -= fires[t] == NEVER ? 0 : by;
    for (uint32_t q = 0; q < QUEUES; q++)
        processors[q].since -= by, processors[q].until -= by;
    origin += by;
    rebases++;
    return by;
}

int main(int argc, char **argv) {
    uint64_t end = SHOWN;
    uint32_t now = 0, fault = nd_open(tasks, TASKS, queues, QUEUES);
    is_shown = argc == 1;
    if (!is_shown)
        end = strtoull(argv[1], NULL, 10) * 1000000;
    if (fault != ND_DONE)
        fail("nd_open", nd_strerror(fault));
    memcpy(before, tasks, sizeof tasks);
    memcpy(sums, queues, sizeof queues);
    for (uint32_t t = 0; t < TASKS; t++) {
        left[t] = demand[t];
        next[t] = tasks[t].period;
        fires[t] = NEVER;
        ask(t, ND_JOIN, t % QUEUES, 0);
    }
    look(0, 0);
    look(1, 0);
    while (origin + now < end) {
        now = least(processors[0].until, processors[1].until);
        for (uint32_t q = 0; q < QUEUES; q++)
            if (processors[q].until <= now) {
                step(q, now);
                look(q, now);
            }
        if (pushes(0, now) || pushes(1, now)) {
            look(0, now);
            look(1, now);
        }
        if (now >= EPOCH) {
            charge(0, now);
            charge(1, now);
            now -= rebase(now);
            hold();
        }
    }
    hold();
    printf("%" PRIu64 " events are the book's by nd_check; nd_audit: %" PRIu32 "\n", all_events, nd_audit(tasks, TASKS, queues, QUEUES));
    if (!is_shown)
        printf("%" PRIu64 " seconds, %" PRIu64 " jobs, %" PRIu64 " rebases; the highest count of waits was %" PRIu32 "\n", origin / 1000000, jobs, rebases, highest);
    return 0;
}
