/* A transition of one task in plain C, as nd_apply answers it. */
#ifndef TRANSITION_H
#define TRANSITION_H

#include "neddwyrol.h"

enum { MOMENT_MAX = 2147483647, RUN_MAX = 16777216, COUNT_MAX = 16777215 };

/* A division by 32 bits where both numbers have no more: a processor makes it in less time. */
static inline uint64_t divided(uint64_t a, uint64_t b) { return (a | b) >> 32 ? a / b : (uint32_t)a / (uint32_t)b; }

static inline uint32_t bandwidth(const nd_task *task) { return (uint32_t)divided((uint64_t)task->runtime << 20, task->period); }

static inline uint32_t zero_lag(const nd_task *task) {
    return task->deadline - (uint32_t)divided((uint64_t)task->budget * task->period, task->runtime);
}

/* Whether its 0-lag time is after the moment. */
static inline int waits(const nd_task *task, uint32_t moment) {
    return task->deadline > moment && (uint64_t)task->budget * task->period < (uint64_t)(task->deadline - moment) * task->runtime;
}

static inline int is_asked(nd_op op, size_t queue_count) {
    switch (op.kind) {
    case ND_JOIN:
    case ND_WAKE:
    case ND_BLOCK:
        return op.a < queue_count && op.b <= MOMENT_MAX;
    case ND_CHARGE:
        return op.a < queue_count && op.b >= 1 && op.b <= RUN_MAX;
    case ND_TIMER:
        return op.b <= MOMENT_MAX;
    default:
        return op.kind == ND_LEAVE;
    }
}

/* The runqueue that the op is about. */
static inline uint32_t runqueue(const nd_task *task, nd_op op) { return op.kind == ND_TIMER || op.kind == ND_LEAVE ? task->queue : op.a; }

/* The refusal that the place, the count or the ticket decides, or 0. */
static inline uint32_t refusal(const nd_task *task, nd_op op, nd_reply *reply) {
    if (task->state == ND_GONE_FOR_GOOD)
        return op.kind == ND_TIMER ? ND_STALE : ND_GONE;
    if (op.kind == ND_TIMER)
        return task->state == ND_NON_CONTENDING && task->count == op.a ? 0 : ND_STALE;
    if (op.kind == ND_JOIN) {
        reply->number = task->queue;
        return task->state == ND_AWAY ? 0 : ND_ALREADY_ON;
    }
    if (task->state == ND_AWAY)
        return ND_NOT_ON;
    if (op.kind == ND_LEAVE)
        return task->state == ND_CONTENDING ? ND_STILL_CONTENDING : 0;
    if (task->queue != op.a) {
        reply->number = task->queue;
        return ND_ELSEWHERE;
    }
    if (op.kind == ND_WAKE)
        return task->state == ND_CONTENDING ? ND_ALREADY_CONTENDING : 0;
    if (task->state != ND_CONTENDING)
        return ND_NOT_CONTENDING;
    return op.kind == ND_BLOCK && task->count == COUNT_MAX ? ND_WORN : 0;
}

/* Whether it changes a sum of its runqueue, where it is granted. */
static inline int changes_sum(const nd_task *task, nd_op op) {
    switch (op.kind) {
    case ND_CHARGE:
        return 0;
    case ND_WAKE:
        return task->state == ND_INACTIVE;
    case ND_BLOCK:
        return !waits(task, op.b);
    default:
        return 1;
    }
}

static inline void arrive(nd_task *task, nd_op op, nd_reply *reply) {
    if ((uint64_t)task->budget * task->period + (uint64_t)op.b * task->runtime > (uint64_t)task->deadline * task->runtime) {
        task->budget = task->runtime;
        task->deadline = op.b + task->period;
    }
    task->state = ND_CONTENDING;
    task->queue = op.a;
    reply->budget = task->budget;
    reply->deadline = task->deadline;
}

static inline uint32_t charge(nd_task *task, const nd_runqueue *queue, nd_op op, nd_reply *reply) {
    const int64_t left = (int64_t)queue->umax - (queue->this_bw - queue->running_bw) - queue->uextra, bw = bandwidth(task);
    const uint64_t charged = divided((uint64_t)op.b * (uint64_t)(left < bw ? bw : left), queue->umax);
    const uint64_t times = charged < task->budget ? 0 : divided(charged - task->budget, task->runtime) + 1;
    if (times > (UINT32_MAX - task->deadline) / task->period)
        return ND_DEADLINE_OVERFLOW;
    task->budget = (uint32_t)(task->budget + times * task->runtime - charged);
    task->deadline += (uint32_t)(times * task->period);
    reply->number = (uint32_t)times;
    reply->budget = task->budget;
    reply->deadline = task->deadline;
    reply->charged = charged;
    return ND_CHARGED;
}

/* The transition of an op that `refusal` does not refuse, in the task and the sums of its runqueue: the kind of the reply. */
static inline uint32_t transition(nd_task *task, nd_runqueue *queue, nd_op op, nd_reply *reply) {
    switch (op.kind) {
    case ND_JOIN: {
        const uint32_t bw = bandwidth(task);
        if (queue->this_bw + bw > queue->umax)
            return ND_FULL;
        arrive(task, op, reply);
        queue->running_bw += bw;
        queue->this_bw += bw;
        return ND_JOINED;
    }
    case ND_WAKE:
        if (task->state == ND_INACTIVE)
            queue->running_bw += bandwidth(task);
        arrive(task, op, reply);
        return ND_WOKEN;
    case ND_BLOCK:
        if (waits(task, op.b)) {
            task->state = ND_NON_CONTENDING;
            reply->number = ++task->count;
            reply->deadline = zero_lag(task);
            return ND_WAITING;
        }
        task->state = ND_INACTIVE;
        queue->running_bw -= bandwidth(task);
        return ND_ASLEEP;
    case ND_TIMER:
        if (waits(task, op.b)) {
            reply->deadline = zero_lag(task);
            return ND_EARLY;
        }
        task->state = ND_INACTIVE;
        queue->running_bw -= bandwidth(task);
        return ND_RETIRED;
    case ND_LEAVE: {
        const uint32_t bw = bandwidth(task);
        reply->number = task->queue;
        if (task->state == ND_NON_CONTENDING)
            queue->running_bw -= bw;
        queue->this_bw -= bw;
        task->state = ND_AWAY;
        task->queue = 0;
        return ND_LEFT;
    }
    default:
        return charge(task, queue, op, reply);
    }
}

#endif
