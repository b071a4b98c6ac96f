/* The shared table has no rebase, so a table lasts for an epoch. At its end a claim gives the record of each task. With the last sums the
 * records are a book, which is rebased. A task joins the next table at its deadline in that book, and gets what the book gives it. */
#include "neddwyrol_table.h"
#include <inttypes.h>
#include <stdio.h>
#include <stdlib.h>

enum { TASKS = 4, QUEUES = 2, EPOCHS = 3 };

static const uint32_t LENGTH = 100000;

static nd_task tasks[TASKS] = {ND_TASK(4000, 8000), ND_TASK(2000, 10000), ND_TASK(3000, 15000), ND_TASK(1000, 40000)};
static nd_runqueue queues[QUEUES] = {ND_RUNQUEUE(ND_UNIT, 0), ND_RUNQUEUE(ND_UNIT, ND_UNIT / 10)};
static const nd_book book = {tasks, TASKS, queues, QUEUES};

static const char *const names[] = {"away", "ready", "waiting", "asleep", "gone"};

/* When each task joins the next table, and what the book gives it then. */
static uint32_t arrivals[TASKS];
static nd_reply wanted[TASKS];

static void must(int is_well, const char *what) {
    if (!is_well) {
        fprintf(stderr, "epochs: %s\n", what);
        exit(1);
    }
}

static nd_reply granted(nd_reply reply) {
    must(nd_granted(reply), nd_strerror(reply.kind));
    return reply;
}

static nd_reply asked(nd_pass *pass, uint32_t task, uint32_t kind, uint32_t a, uint32_t b) {
    nd_op op = {kind, a, b};
    return granted(nd_call(pass, task, op, 1));
}

/* A job runs for half of the task's runtime. */
static void run(nd_pass *pass, uint32_t task) { asked(pass, task, ND_CHARGE, task % QUEUES, tasks[task].runtime / 2); }

/* The task blocks. The timers of tasks 2 and 3 fire at their 0-lag times. */
static void block(nd_pass *pass, uint32_t task, uint32_t now) {
    nd_reply blocked = asked(pass, task, ND_BLOCK, task % QUEUES, now);
    if (blocked.kind == ND_WAITING && task > 1)
        asked(pass, task, ND_TIMER, blocked.number, blocked.deadline);
}

/* From its arrival on a task has a job each period. Of tasks 0 and 2 the last job has not ended. */
static void play(nd_pass *pass, uint32_t task) {
    const uint32_t queue = task % QUEUES, half = tasks[task].runtime / 2;
    nd_reply joined = asked(pass, task, ND_JOIN, queue, arrivals[task]);
    must(wanted[task].kind == 0 || (joined.budget == wanted[task].budget && joined.deadline == wanted[task].deadline), "it is not what the book gives");
    printf("  task %" PRIu32 " joins at %5" PRIu32 ": budget %4" PRIu32 ", deadline %5" PRIu32 "\n", task, arrivals[task], joined.budget, joined.deadline);
    uint32_t now = arrivals[task];
    for (; now + tasks[task].period < LENGTH; now += tasks[task].period) {
        run(pass, task);
        block(pass, task, now + half);
        asked(pass, task, ND_WAKE, queue, now + tasks[task].period);
    }
    run(pass, task);
    if (task % 2)
        block(pass, task, now + half);
}

/* The record of a task that has not ended: wherever it is, a join, a leave or a charge takes it. */
static nd_task record_of(nd_pass *pass, uint32_t task) {
    const nd_op join = {ND_JOIN, 0, 0}, leave = {ND_LEAVE, 0, 0};
    nd_claim claim = {NULL};
    nd_task record = {0, 0, 0, 0, 0, 0, 0};
    nd_reply reply = nd_start(pass, task, join, &claim);
    if (reply.kind == ND_ALREADY_ON) {
        nd_op charge = {ND_CHARGE, reply.number, 1};
        reply = nd_start(pass, task, leave, &claim);
        if (reply.kind == ND_STILL_CONTENDING)
            reply = nd_start(pass, task, charge, &claim);
    }
    must(reply.kind == ND_HELD && nd_claim_task(&claim, &record) == ND_DONE, "no record");
    nd_cancel(&claim, pass);
    return record;
}

/* What the book gives a task that sleeps until its deadline and comes then. */
static nd_reply at_deadline(uint32_t task) {
    const nd_task *it = &tasks[task];
    if (it->state == ND_AWAY)
        return granted(nd_join(&book, task, task % QUEUES, it->deadline));
    if (it->state == ND_CONTENDING)
        granted(nd_block(&book, task, it->queue, it->deadline));
    return granted(nd_wake(&book, task, it->queue, it->deadline));
}

int main(void) {
    uint64_t origin = 0;
    for (int epoch = 0; epoch < EPOCHS; epoch++) {
        nd_pass first = {NULL}, second = {NULL};
        nd_reading last[QUEUES];
        uint32_t by;
        printf("a table from %" PRIu64 " on\n", origin);
        must(nd_table_open(tasks, TASKS, queues, QUEUES, 2, &first) == ND_DONE && nd_part(&first, &second) == ND_DONE, "no table");
        for (uint32_t t = 0; t < TASKS; t++)
            play(t % 2 ? &second : &first, t);

        must(nd_gather(&first, &second) == ND_DONE, "not gathered");
        for (uint32_t t = 0; t < TASKS; t++)
            tasks[t] = record_of(&first, t);
        must(nd_close(&first, last, QUEUES) == ND_DONE, "not closed");
        for (uint32_t q = 0; q < QUEUES; q++)
            queues[q].running_bw = last[q].running_bw, queues[q].this_bw = last[q].this_bw;
        must(nd_audit(tasks, TASKS, queues, QUEUES) == ND_DONE, "no book");
        must(nd_rebase_limit(tasks, TASKS, queues, QUEUES, &by) == ND_DONE, "no limit");
        by = by < LENGTH ? by : LENGTH;
        granted(nd_rebase(tasks, TASKS, queues, QUEUES, by));
        origin += by;
        for (uint32_t t = 0; t < TASKS; t++) {
            printf("  task %" PRIu32 " is left %s: budget %4" PRIu32 ", deadline %5" PRIu32 "\n", t, names[tasks[t].state], tasks[t].budget, tasks[t].deadline);
            arrivals[t] = tasks[t].deadline;
            wanted[t] = at_deadline(t);
        }
    }
    return 0;
}
