/* Neddwyrol: the bandwidth accounting of Linux SCHED_DEADLINE (GRUB, greedy reclamation of unused bandwidth), for C.
 *
 * No call asks anything of the numbers that it is given. Whatever they are it returns, writes only what is said below,
 * and answers; that is proved, with every other sentence that stands before a call of the library.
 *
 * What the caller owes:
 *   - each pointer is aligned and points to as many valid structs as the count beside it says; where that is 0, any pointer
 *     serves, also a null one;
 *   - what a call writes overlaps nothing else that it is given;
 *   - nobody else reads or writes it during the call.
 *
 * Moments, runs, runtimes, periods, budgets and deadlines have one unit, which the caller chooses. Moments end at 2^31 - 1:
 * that is 2.1 seconds in nanoseconds, and 36 minutes in microseconds. Before that nd_rebase moves their origin. Periods and runs
 * end at 2^24. Bandwidths are in 1/2^20 (ND_UNIT is a whole processor). Tasks and runqueues are numbered from 0.
 *
 * Calls on a book or by a pass have their arguments in one order: the book or pass, the task, the runqueue or ticket, the
 * moment or run, and last what the call writes.
 *
 * Two books need no lock between them, and calls are reentrant. Nothing is throttled: a budget that is used up is recharged
 * at once, and the deadline postponed by a period. */
#ifndef NEDDWYROL_H
#define NEDDWYROL_H

#ifdef __KERNEL__
#include <linux/types.h>
#else
#include <stddef.h>
#include <stdint.h>
#endif

/* A compiler warns where the answer of such a call is dropped. Who means to drop one stores it in a variable. */
#if (defined(__cplusplus) && __cplusplus >= 201703L) || (defined(__STDC_VERSION__) && __STDC_VERSION__ >= 202311L)
#define ND_MUST_USE [[nodiscard]]
#elif defined(__GNUC__)
#define ND_MUST_USE __attribute__((warn_unused_result))
#else
#define ND_MUST_USE
#endif

#ifdef __cplusplus
extern "C" {
#endif

/* The version of the structs, the numbers of codes and the arguments of calls: that of nd_abi, of the library that is
 * linked, and of its soname. */
#define ND_ABI 1

/* The version of this header, 0.3.0: major * 1000000 + minor * 1000 + patch. nd_version() is that of the library. */
#define ND_VERSION 3000

#define ND_UNIT 1048576
#define ND_QUEUES_MAX 65536
#define ND_TASKS_MAX 1048576

/* A task and a runqueue as they are before nd_open, to begin an array with. */
#define ND_TASK(runtime, period) {(runtime), (period), 0, 0, 0, 0, 0}
#define ND_RUNQUEUE(umax, uextra) {(umax), (uextra), 0, 0}

/* A task. Before nd_open its runtime and period alone count. */
typedef struct {
    uint32_t runtime;  /* in each period: the full budget */
    uint32_t period;   /* the relative deadline too */
    uint32_t budget;   /* what is left of the runtime */
    uint32_t deadline; /* a moment */
    uint32_t count;    /* how many of its blocks have waited: the ticket of the latest */
    uint32_t state;    /* ND_AWAY to ND_GONE_FOR_GOOD */
    uint32_t queue;    /* its runqueue, in the states 1 to 3 */
} nd_task;

/* A runqueue. Before nd_open its umax and uextra alone count. */
typedef struct {
    uint32_t umax;       /* the most bandwidth that is admitted */
    uint32_t uextra;     /* what running tasks may reclaim at all times */
    uint32_t running_bw; /* the bandwidth of its active tasks */
    uint32_t this_bw;    /* the bandwidth of all its tasks */
} nd_runqueue;

/* What is asked for a task. */
typedef struct {
    uint32_t kind; /* ND_JOIN to ND_MOVE */
    uint32_t a;    /* join, wake, block, charge, move: the runqueue; timer: the ticket; retune: the runtime */
    uint32_t b;    /* join, wake, block, timer: the moment; charge: the run; retune: the period */
} nd_op;

/* What is answered. A kind below 101 refuses, and from 101 on the op was granted; a later library may have more kinds. */
typedef struct {
    uint32_t kind;     /* ND_GONE to ND_TOO_FAR, ND_JOINED to ND_REBASED */
    uint32_t number;   /* the ticket of ND_WAITING, the runqueue of ND_LEFT, ND_MOVED (the old one), ND_ALREADY_ON and
                          ND_ELSEWHERE, the task of ND_TOO_FAR, how often ND_CHARGED recharged */
    uint32_t budget;   /* of ND_JOINED, ND_WOKEN and ND_CHARGED: what is left of the runtime */
    uint32_t deadline; /* of the same: the deadline; of ND_WAITING and ND_EARLY: the 0-lag time */
    uint64_t charged;  /* of ND_CHARGED: what was taken from the budget */
} nd_reply;

/* An op that is asked for a task. */
typedef struct {
    uint32_t task;
    nd_op op;
} nd_ask;

/* An event of a recorded history: a call with its reply, a reading, or a rebase with its reply. */
typedef struct {
    uint32_t kind;       /* ND_CALL, ND_READING or ND_REBASE */
    uint32_t pass;       /* who called or read: it is not looked at */
    uint32_t number;     /* the task of a call, the runqueue of a reading, the moment of a rebase */
    nd_op op;            /* what a call asked */
    uint32_t running_bw; /* what a reading gave */
    uint32_t this_bw;
    nd_reply reply; /* what a call or rebase was answered */
} nd_event;

/* Plain numbers for the arithmetic: a reservation, the constants of a runqueue, a task's server, the sums of a runqueue. */
typedef struct {
    uint32_t runtime;
    uint32_t period;
} nd_params;

typedef struct {
    uint32_t umax;
    uint32_t uextra;
} nd_capacity;

typedef struct {
    uint32_t budget;
    uint32_t deadline;
} nd_server;

typedef struct {
    uint32_t running_bw;
    uint32_t this_bw;
} nd_reading;

/* The states of a task (sched-deadline.rst, "Bandwidth reclaiming"). */
enum {
    ND_AWAY = 0,           /* on no runqueue */
    ND_CONTENDING = 1,     /* ready or executing */
    ND_NON_CONTENDING = 2, /* blocked, and its 0-lag time is to come */
    ND_INACTIVE = 3,       /* blocked, and its 0-lag time has passed */
    ND_GONE_FOR_GOOD = 4
};

/* The ops. The task's bandwidth is u, and its runqueue has running_bw R and this_bw T. After 70 and 71 the tests are made in
 * the order of their line. The first that holds is the answer, and then nothing is written.
 *
 *   join    An away task comes to the runqueue and contends, by the wake rule; R + u, T + u: 101.
 *           9 gone, 11 on a runqueue already, 20 T + u > umax
 *   wake    A non-contending or inactive task contends, by the wake rule; from inactive R + u: 102.
 *           9 gone, 10 away, 12 elsewhere, 13 it contends already
 *   block   A contending task is non-contending before its 0-lag time, and its count goes up: 103;
 *           else it is inactive, R - u: 104.
 *           9 gone, 10 away, 12 elsewhere, 14 it does not contend, 17 its count is 16777215
 *   leave   A non-contending or inactive task is away; T - u, from non-contending R - u: 105.
 *           9 gone, 10 away, 15 it contends
 *   timer   A non-contending task is inactive; R - u: 106.
 *           18 in any other state, or with another ticket than its count, 19 before its 0-lag time
 *   exit    An away or inactive task is gone for good; from inactive T - u: 107.
 *           9 gone, 16 it is active
 *   charge  A contending task has run: nd_charge by the sums of now, then nd_deplete: 108.
 *           9 gone, 10 away, 12 elsewhere, 14 it does not contend, 21 the deadline is out of range
 *   retune  An away or inactive task has another reservation, a full budget and the deadline 0; from inactive T changes: 109.
 *           9 gone, 16 it is active, 20 from inactive, where T would be more than umax
 *   move    A contending task contends on the other runqueue, with budget, deadline and count as they are; here R - u and
 *           T - u, there R + u and T + u: 110.
 *           9 gone, 10 away, 11 on that one already, 14 it does not contend, 20 there T + u > umax
 *
 * The wake rule (nd_woken) is asked of budget and deadline as they were left, also at a join. A run is charged by the sums of
 * the moment at which nd_run is called, so charge it before an op changes them. A contending task whose count is 16777215 is
 * worn: it can only run and move, and its bandwidth stays taken, until a rebase. */
enum {
    ND_JOIN = 1,
    ND_WAKE = 2,
    ND_BLOCK = 3,
    ND_LEAVE = 4,
    ND_TIMER = 5,
    ND_EXIT = 6,
    ND_CHARGE = 7,
    ND_RETUNE = 8,
    ND_MOVE = 9
};

enum {
    ND_CALL = 1,
    ND_READING = 2,
    ND_REBASE = 3
};

enum {
    ND_DONE = 0,
    /* faults of numbers */
    ND_PERIOD_OUT_OF_RANGE = 1,  /* not 1 to 16777216 */
    ND_RUNTIME_OUT_OF_RANGE = 2, /* not 1 to the period */
    ND_TOO_SMALL = 3,            /* a bandwidth that is rounded down to 0 */
    ND_UMAX_OUT_OF_RANGE = 4,    /* not 1 to 1048576 */
    ND_UEXTRA_OUT_OF_RANGE = 5,  /* more than umax */
    ND_TOO_MANY_QUEUES = 6,      /* more than 65536 */
    ND_TOO_MANY_TASKS = 7,       /* more than 1048576 */
    ND_NO_QUEUE = 8,
    /* what the book refuses */
    ND_GONE = 9,                /* the task has ended */
    ND_NOT_ON = 10,             /* the task is on no runqueue */
    ND_ALREADY_ON = 11,         /* a join of a task that is on a runqueue */
    ND_ELSEWHERE = 12,          /* the task is on another runqueue than the op's */
    ND_ALREADY_CONTENDING = 13, /* a wake of a task that contends */
    ND_NOT_CONTENDING = 14,     /* a block or charge of a task that does not contend */
    ND_STILL_CONTENDING = 15,   /* a leave of a task that contends */
    ND_STILL_ACTIVE = 16,       /* an exit or retune of an active task */
    ND_WORN = 17,               /* a block of a task whose count is 16777215, the highest */
    ND_STALE = 18,              /* a timer that is not that of the task's latest block, or whose task does not wait */
    ND_EARLY = 19,              /* a timer before the 0-lag time */
    ND_FULL = 20,               /* the runqueue would have more than its umax */
    ND_DEADLINE_OVERFLOW = 21,  /* the deadline would be after 4294967295 */
    /* more faults of numbers */
    ND_BUDGET_OUT_OF_RANGE = 60,  /* not 1 to the runtime */
    ND_MOMENT_OUT_OF_RANGE = 61,  /* more than 2147483647 */
    ND_RUNNING_OUT_OF_RANGE = 62, /* running_bw is more than this_bw */
    ND_COUNT_OUT_OF_RANGE = 63,   /* more than 16777215 */
    ND_QUEUE_OUT_OF_RANGE = 64,   /* a task on a runqueue that is not there */
    ND_WRONG_RUNNING_BW = 65,     /* running_bw is not that of the active tasks */
    ND_WRONG_THIS_BW = 66,        /* this_bw is not that of all tasks */
    ND_OVERFULL = 67,             /* this_bw is more than umax */
    ND_STATE_OUT_OF_RANGE = 68,   /* a state of 5 or more */
    /* no book was asked */
    ND_NO_TASK = 70, /* there is no task of this number */
    ND_NO_OP = 71,   /* no such op: its kind, runqueue, moment, run (1 to 16777216) or reservation is out of range */
    ND_DAMAGED = 72, /* the memory is no book */
    ND_NOBODY = 73,  /* no task of the runqueue contends, or waits for its 0-lag time */
    ND_TOO_FAR = 74, /* a rebase past a contending task's deadline, or past a waiting task's 0-lag time */
    /* what the book grants */
    ND_JOINED = 101,
    ND_WOKEN = 102,
    ND_WAITING = 103,
    ND_ASLEEP = 104,
    ND_LEFT = 105,
    ND_RETIRED = 106,
    ND_ENDED = 107,
    ND_CHARGED = 108,
    ND_RETUNED = 109,
    ND_MOVED = 110,
    ND_REBASED = 111 /* the origin of time was moved */
};

/* Makes a book of the reservations and the constants that stand in the memory: every task is away, with the count 0, a
 * full budget and the deadline 0, and every sum is 0. It answers 0 exactly where there are 1 to 65536 runqueues and at
 * most 1048576 tasks, and each number is within its limits. Else it answers the number of the first fault, and writes
 * nothing: 6, 7 and 8, then 4 and 5 of the runqueues in order, then 1, 2 and 3 of the tasks in order. */
ND_MUST_USE uint32_t nd_open(nd_task *tasks, size_t task_count, nd_runqueue *queues, size_t queue_count);

/* Asks an op for a task. On memory that is a book the answer is exactly that of the one-thread book, and the memory is
 * the book after the step. It is 70 where there is no such task, and then 71 where no such op may be asked. 72 says that
 * the memory is no book. A reply whose kind is below 101 refuses, and then nothing is written. */
ND_MUST_USE nd_reply nd_apply(nd_task *tasks, size_t task_count, nd_runqueue *queues, size_t queue_count, uint32_t task,
                              nd_op op);

/* Asks ops one after another, as many as there is room for replies, and answers how many that were. Each is asked and
 * answered as nd_apply does. Replies past that count are left as they were. */
ND_MUST_USE size_t nd_apply_all(nd_task *tasks, size_t task_count, nd_runqueue *queues, size_t queue_count,
                                const nd_ask *asks, size_t ask_count, nd_reply *replies, size_t reply_count);

/* Answers 0 exactly where the memory is a book: its numbers are within their limits, and the sums of each runqueue are
 * those of its tasks, added up afresh. Else it answers the number of the first fault: 1 to 8 as of nd_open, then 60, 63,
 * 68 and 64 of the tasks in order, then 65, 66 and 67 of the runqueues in order. It takes time by runqueues times tasks. */
ND_MUST_USE uint32_t nd_audit(const nd_task *tasks, size_t task_count, const nd_runqueue *queues, size_t queue_count);

/* What nd_open would answer, and what nd_audit answers. Where that is a fault, they write which task or runqueue has it. Of
 * the faults 6, 7 and 8 the number is 0. */
ND_MUST_USE uint32_t nd_open_fault(const nd_task *tasks, size_t task_count, const nd_runqueue *queues, size_t queue_count,
                                   uint32_t *number);
ND_MUST_USE uint32_t nd_audit_fault(const nd_task *tasks, size_t task_count, const nd_runqueue *queues, size_t queue_count,
                                    uint32_t *number);

/* Moves the origin of time of a book: what was the moment by is the moment 0 from then on. Each deadline falls by as much, and
 * is 0 where it was below. The count of a task that waits for its 0-lag time stays, and that of each other task becomes 0.
 * Budgets, reservations, states, runqueues and sums stay. 111 where it was done. It is refused where a contending task's
 * deadline, or a waiting task's 0-lag time, is below by: 74, and the number is the first such task. 72 says that the memory is
 * no book. A reply whose kind is below 101 writes nothing.
 *
 * From then on an op at a moment less by is answered as it would have been at the moment, with its deadline or 0-lag time less
 * by, and its ticket less the count that was forgotten. Two refusals come later than they would have: 17 and 21. A timer of a
 * task that did not wait has to be dropped before: its ticket would be taken for a new one. A waiting task keeps its ticket. */
ND_MUST_USE nd_reply nd_rebase(nd_task *tasks, size_t task_count, nd_runqueue *queues, size_t queue_count, uint32_t by);

/* Writes the greatest by that nd_rebase does not refuse, and answers 0. It is the least of the deadlines of contending tasks
 * and of the 0-lag times of waiting ones, and 4294967295 where no task is active. 72 says that the memory is no book; then
 * nothing is written. */
ND_MUST_USE uint32_t nd_rebase_limit(const nd_task *tasks, size_t task_count, const nd_runqueue *queues, size_t queue_count,
                                     uint32_t *by);

/* Replays a recorded history on a book, as one that nd_open made. It answers the index of the first event that is out of
 * range or is not what the book replies or reads, and the number of events where each is the book's. A history that
 * nd_apply answered is out of range where a reply is 70 or 71. The memory becomes the book after the events that are
 * counted: the call that is not the book's is not made. Of a rebase the event has by as its number, and what nd_rebase
 * answered as its reply. */
ND_MUST_USE size_t nd_check(nd_task *tasks, size_t task_count, nd_runqueue *queues, size_t queue_count,
                            const nd_event *events, size_t event_count);

/* Answers 0 exactly where the numbers are a reservation, else 1, 2 or 3, the first that holds. */
ND_MUST_USE uint32_t nd_params_fault(nd_params params);

/* Answers 0 exactly where the numbers are the constants of a runqueue, else 4 or 5, the first that holds. */
ND_MUST_USE uint32_t nd_capacity_fault(nd_capacity queue);

/* The bandwidth of a reservation, runtime * 2^20 / period rounded down; 0 where the numbers are none. */
ND_MUST_USE uint32_t nd_bw(nd_params params);

/* The calls below write what they are to find, and answer 0. Else they answer the first fault in the order that is given,
 * and write nothing.
 *
 * The 0-lag time of a server, deadline - budget * period / runtime, where the quotient is rounded down. It may be below
 * 0. Faults: 1, 2, 3, 60. */
ND_MUST_USE uint32_t nd_zero_lag(nd_server server, nd_params params, int64_t *z);

/* The server of a task that wakes at a moment: a full budget and the deadline a period later where the budget until the
 * deadline would be more than the reservation gives, else the server that it has. Faults: 1, 2, 3, 60, 61. */
ND_MUST_USE uint32_t nd_woken(nd_server server, nd_params params, uint32_t moment, nd_server *woken);

/* What a run takes from the budget of a task of bandwidth bw: run * rate / umax rounded down, where rate is the greater
 * of bw and umax - (this_bw - running_bw) - uextra. Faults: 4, 5, 62. */
ND_MUST_USE uint32_t nd_charge(uint32_t run, uint32_t bw, nd_capacity queue, nd_reading now, uint64_t *charged);

/* The least run of a task of bandwidth bw whose charge, by these sums, is at least the budget: when a dispatcher has to look
 * again. A run of one less is charged less. Faults: 4, 5, 62, and 3 where bw is 0, since then a run may be charged nothing. */
ND_MUST_USE uint32_t nd_exhaustion(uint32_t budget, uint32_t bw, nd_capacity queue, nd_reading now, uint64_t *run);

/* The server after this was taken from its budget, and how often the budget was recharged meanwhile, each time with the
 * runtime and a deadline a period later: the least count that leaves a budget. Faults: 1, 2, 3, 60, 21. */
ND_MUST_USE uint32_t nd_deplete(nd_server server, nd_params params, uint64_t charged, nd_server *left, uint32_t *recharges);

/* What a kernel itself charges for a run of dt nanoseconds, in nanoseconds and with its rounding (grub_reclaim of
 * kernel/sched/deadline.c). kernel is its version as KERNEL_VERSION has it, 0x060100 for 6.1: before 6.5 the charge goes
 * by the whole processor, and from 6.5 on by max_bw. The sums are those of its runqueue. Every number is taken modulo
 * 2^64, as the kernel's are, so any numbers have a charge. */
ND_MUST_USE uint64_t nd_kernel_charge(uint32_t kernel, uint64_t dt, uint64_t bw, uint64_t this_bw, uint64_t running_bw,
                                      uint64_t extra_bw, uint64_t max_bw, uint64_t bw_ratio);

/* The contending task of a runqueue with the earliest deadline, and that deadline; of equals the one of the least number.
 * Faults: 7, and 73 where none contends there. It looks at each task once, on any memory. */
ND_MUST_USE uint32_t nd_earliest(const nd_task *tasks, size_t task_count, uint32_t queue, uint32_t *task,
                                 uint32_t *deadline);

/* The task of a runqueue that waits for the earliest 0-lag time, and that moment, 0 where it is below 0; of equals the one of
 * the least number. The ticket of its timer is its count. Faults: 7, and 73 where none waits there. */
ND_MUST_USE uint32_t nd_next_timer(const nd_task *tasks, size_t task_count, uint32_t queue, uint32_t *task,
                                   uint32_t *moment);

/* Answers the ND_ABI, and the ND_VERSION, that the library was made with. */
ND_MUST_USE uint32_t nd_abi(void);
ND_MUST_USE uint32_t nd_version(void);

/* The name of a fault or of a reply's kind, without ND_, also of those that neddwyrol_table.h adds; "UNKNOWN" where the
 * number is none of them. The text is static. */
ND_MUST_USE static inline const char *nd_strerror(uint32_t kind) {
    switch (kind) {
#define ND_NAMED(name) case ND_##name: return #name;
        ND_NAMED(DONE) ND_NAMED(PERIOD_OUT_OF_RANGE) ND_NAMED(RUNTIME_OUT_OF_RANGE) ND_NAMED(TOO_SMALL)
        ND_NAMED(UMAX_OUT_OF_RANGE) ND_NAMED(UEXTRA_OUT_OF_RANGE) ND_NAMED(TOO_MANY_QUEUES) ND_NAMED(TOO_MANY_TASKS)
        ND_NAMED(NO_QUEUE) ND_NAMED(GONE) ND_NAMED(NOT_ON) ND_NAMED(ALREADY_ON) ND_NAMED(ELSEWHERE)
        ND_NAMED(ALREADY_CONTENDING) ND_NAMED(NOT_CONTENDING) ND_NAMED(STILL_CONTENDING) ND_NAMED(STILL_ACTIVE)
        ND_NAMED(WORN) ND_NAMED(STALE) ND_NAMED(EARLY) ND_NAMED(FULL) ND_NAMED(DEADLINE_OVERFLOW)
        ND_NAMED(BUDGET_OUT_OF_RANGE) ND_NAMED(MOMENT_OUT_OF_RANGE) ND_NAMED(RUNNING_OUT_OF_RANGE)
        ND_NAMED(COUNT_OUT_OF_RANGE) ND_NAMED(QUEUE_OUT_OF_RANGE) ND_NAMED(WRONG_RUNNING_BW) ND_NAMED(WRONG_THIS_BW)
        ND_NAMED(OVERFULL) ND_NAMED(STATE_OUT_OF_RANGE) ND_NAMED(NO_TASK) ND_NAMED(NO_OP) ND_NAMED(DAMAGED)
        ND_NAMED(NOBODY) ND_NAMED(TOO_FAR) ND_NAMED(JOINED) ND_NAMED(WOKEN) ND_NAMED(WAITING) ND_NAMED(ASLEEP)
        ND_NAMED(LEFT) ND_NAMED(RETIRED) ND_NAMED(ENDED) ND_NAMED(CHARGED) ND_NAMED(RETUNED) ND_NAMED(MOVED)
        ND_NAMED(REBASED)
#undef ND_NAMED
        case 23: return "NO_PASS";
        case 24: return "TOO_MANY_PASSES";
        case 25: return "NO_TABLE_MEMORY";
        case 26: return "MISSING";
        case 27: return "NO_PART";
        case 42: return "NO_MEMORY";
        case 50: return "BUSY";
        case 51: return "EMPTY";
        case 52: return "LOST";
        case 53: return "TWO_TABLES";
        case 100: return "HELD";
        default: return "UNKNOWN";
    }
}

/* Whether an op was granted. Else nothing was written. */
ND_MUST_USE static inline int nd_granted(nd_reply reply) { return reply.kind >= ND_JOINED; }

/* The two arrays of a book in one struct, and a call for each op. */
typedef struct {
    nd_task *tasks;
    size_t task_count;
    nd_runqueue *queues;
    size_t queue_count;
} nd_book;

ND_MUST_USE static inline nd_reply nd_ask_for(const nd_book *book, uint32_t task, uint32_t kind, uint32_t a, uint32_t b) {
    nd_op op;
    op.kind = kind;
    op.a = a;
    op.b = b;
    return nd_apply(book->tasks, book->task_count, book->queues, book->queue_count, task, op);
}

ND_MUST_USE static inline nd_reply nd_join(const nd_book *book, uint32_t task, uint32_t queue, uint32_t moment) {
    return nd_ask_for(book, task, ND_JOIN, queue, moment);
}

ND_MUST_USE static inline nd_reply nd_wake(const nd_book *book, uint32_t task, uint32_t queue, uint32_t moment) {
    return nd_ask_for(book, task, ND_WAKE, queue, moment);
}

ND_MUST_USE static inline nd_reply nd_block(const nd_book *book, uint32_t task, uint32_t queue, uint32_t moment) {
    return nd_ask_for(book, task, ND_BLOCK, queue, moment);
}

ND_MUST_USE static inline nd_reply nd_leave(const nd_book *book, uint32_t task) {
    return nd_ask_for(book, task, ND_LEAVE, 0, 0);
}

ND_MUST_USE static inline nd_reply nd_timer(const nd_book *book, uint32_t task, uint32_t ticket, uint32_t moment) {
    return nd_ask_for(book, task, ND_TIMER, ticket, moment);
}

ND_MUST_USE static inline nd_reply nd_exit(const nd_book *book, uint32_t task) {
    return nd_ask_for(book, task, ND_EXIT, 0, 0);
}

ND_MUST_USE static inline nd_reply nd_run(const nd_book *book, uint32_t task, uint32_t queue, uint32_t run) {
    return nd_ask_for(book, task, ND_CHARGE, queue, run);
}

ND_MUST_USE static inline nd_reply nd_retune(const nd_book *book, uint32_t task, uint32_t runtime, uint32_t period) {
    return nd_ask_for(book, task, ND_RETUNE, runtime, period);
}

ND_MUST_USE static inline nd_reply nd_move(const nd_book *book, uint32_t task, uint32_t queue) {
    return nd_ask_for(book, task, ND_MOVE, queue, 0);
}

/* nd_exhaustion of a task of the book by the sums of its runqueue. Faults: 70, 14 where it does not contend, and 72. */
ND_MUST_USE static inline uint32_t nd_task_exhaustion(const nd_book *book, uint32_t task, uint64_t *run) {
    nd_params params;
    nd_capacity capacity;
    nd_reading now;
    const nd_task *held;
    const nd_runqueue *on;
    if (task >= book->task_count)
        return ND_NO_TASK;
    held = &book->tasks[task];
    if (held->state != ND_CONTENDING)
        return ND_NOT_CONTENDING;
    if (held->queue >= book->queue_count)
        return ND_DAMAGED;
    on = &book->queues[held->queue];
    params.runtime = held->runtime;
    params.period = held->period;
    capacity.umax = on->umax;
    capacity.uextra = on->uextra;
    now.running_bw = on->running_bw;
    now.this_bw = on->this_bw;
    return nd_exhaustion(held->budget, nd_bw(params), capacity, now, run) == ND_DONE ? ND_DONE : ND_DAMAGED;
}

#if defined(__STDC_VERSION__) && __STDC_VERSION__ >= 201112L
_Static_assert(sizeof(nd_task) == 28 && sizeof(nd_runqueue) == 16 && sizeof(nd_op) == 12 && sizeof(nd_reply) == 24, "layout");
_Static_assert(sizeof(nd_ask) == 16 && sizeof(nd_event) == 56, "layout");
#endif

#ifdef __cplusplus
}
#endif
#endif
