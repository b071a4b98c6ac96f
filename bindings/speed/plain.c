/* The book and the table in plain C, with nothing proved: what the library's own steps would cost by hand. */
#include "speed.h"
#include "transition.h"
#include <stdlib.h>
#include <string.h>

/* ---- the book */
nd_reply plain_apply(nd_task *tasks, size_t task_count, nd_runqueue *queues, size_t queue_count, uint32_t task, nd_op op) {
    nd_reply reply = {0, 0, 0, 0, 0};
    if (task >= task_count) {
        reply.kind = ND_NO_TASK;
        return reply;
    }
    if (!is_asked(op, queue_count)) {
        reply.kind = ND_NO_OP;
        return reply;
    }
    nd_task now = tasks[task];
    reply.kind = refusal(&now, op, &reply);
    if (reply.kind)
        return reply;
    nd_runqueue *queue = &queues[runqueue(&now, op)];
    nd_runqueue sums = *queue;
    reply.kind = transition(&now, &sums, op, &reply);
    if (reply.kind < ND_JOINED)
        return reply;
    tasks[task] = now;
    queue->running_bw = sums.running_bw;
    queue->this_bw = sums.this_bw;
    return reply;
}

/* ---- the table */
enum { SPACING = 16, CLAIM = 8 };

static uint64_t pair(uint32_t low, uint32_t high) { return (uint64_t)high << 32 | low; }

/* The words of a task: place and count, server, parameters. */
static uint64_t place_word(const nd_task *task) { return task->state | (uint64_t)task->queue << 4 | (uint64_t)task->count << 12; }
static uint64_t server_word(const nd_task *task) { return pair(task->budget, task->deadline); }

int plain_open(plain_table *table, const nd_task *tasks, size_t task_count, const nd_runqueue *queues, size_t queue_count) {
    const size_t bytes = SPACING * (queue_count + task_count) * sizeof *table->words;
    table->words = aligned_alloc(128, bytes);
    if (!table->words)
        return 1;
    memset((void *)table->words, 0, bytes);
    table->queues = queues;
    table->queue_count = (uint32_t)queue_count;
    table->task_count = (uint32_t)task_count;
    for (size_t t = 0; t < task_count; t++) {
        _Atomic uint64_t *words = table->words + SPACING * (queue_count + t);
        atomic_store(&words[1], pair(tasks[t].runtime, 0));
        atomic_store(&words[2], pair(tasks[t].runtime, tasks[t].period));
    }
    return 0;
}

void plain_close(plain_table *table) { free((void *)table->words); }

/* The task is taken, and its words are loaded. */
static int is_taken(_Atomic uint64_t *words, uint64_t place, nd_task *task) {
    uint64_t found = place;
    if (!atomic_compare_exchange_strong(&words[0], &found, place | CLAIM))
        return 0;
    const uint64_t params = atomic_load(&words[2]), server = atomic_load(&words[1]);
    task->runtime = (uint32_t)params;
    task->period = (uint32_t)(params >> 32);
    task->budget = (uint32_t)server;
    task->deadline = (uint32_t)(server >> 32);
    return 1;
}

nd_reply plain_call(plain_table *table, uint32_t t, nd_op op, uint8_t tries) {
    nd_reply reply = {0, 0, 0, 0, 0};
    nd_task task = {0, 0, 0, 0, 0, 0, 0};
    if (t >= table->task_count) {
        reply.kind = ND_NO_TASK;
        return reply;
    }
    if (!is_asked(op, table->queue_count)) {
        reply.kind = ND_NO_OP;
        return reply;
    }
    _Atomic uint64_t *words = table->words + SPACING * (table->queue_count + t);
    const uint64_t place = atomic_load(&words[0]);
    task.state = place & 7;
    task.queue = place >> 4 & 255;
    task.count = (uint32_t)(place >> 12);
    reply.kind = place & CLAIM ? ND_BUSY : refusal(&task, op, &reply);
    if (reply.kind)
        return reply;
    if (!is_taken(words, place, &task)) {
        reply.kind = ND_BUSY;
        return reply;
    }
    const nd_task held = task;
    const uint32_t r = runqueue(&task, op);
    _Atomic uint64_t *sums = table->words + SPACING * r;
    nd_runqueue queue = {table->queues[r].umax, table->queues[r].uextra, 0, 0};
    int is_quiet = 0;
    if (op.kind == ND_TIMER && waits(&task, op.b)) {
        reply.kind = ND_EARLY;
        reply.deadline = zero_lag(&task);
    } else if (op.kind == ND_CHARGE || changes_sum(&task, op)) {
        for (;;) {
            if (op.kind != ND_CHARGE && tries-- == 0) {
                reply = (nd_reply){ND_LOST, 0, 0, 0, 0};
                break;
            }
            uint64_t now = atomic_load(sums);
            queue.running_bw = (uint32_t)now;
            queue.this_bw = (uint32_t)(now >> 32);
            task = held;
            reply.kind = transition(&task, &queue, op, &reply);
            if (reply.kind < ND_JOINED || op.kind == ND_CHARGE || atomic_compare_exchange_strong(sums, &now, pair(queue.running_bw, queue.this_bw)))
                break;
        }
    } else {
        reply.kind = transition(&task, &queue, op, &reply);
        is_quiet = 1;
    }
    if (reply.kind < ND_JOINED) {
        atomic_store(&words[0], place);
        return reply;
    }
    /* (the store of the server is the event of an op that changes no sum and looks at none) */
    if (is_quiet || server_word(&task) != server_word(&held))
        atomic_store(&words[1], server_word(&task));
    atomic_store(&words[0], place_word(&task));
    return reply;
}
