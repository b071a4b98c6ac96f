/* Neddwyrol: the shared table, which threads use without a lock. Each thread has a pass of its own. It needs
 * libneddwyrol_table.a, which takes memory by malloc, beside libneddwyrol.a.
 *
 * Every call that is made stands at one point of one history, which a book of one thread could have given: what a pass was
 * answered and read stands in it in its order. That is proved, with every other sentence that stands before a call. The order of
 * two passes before they meet is not promised: no call tells which of two calls of two threads came first.
 *
 * What the caller owes, beside what neddwyrol.h says:
 *   - a pass is one that nd_table_open wrote, or that a call gave back, and it is in one call at a time;
 *   - a claim is one that nd_pass_start or nd_claim_finish wrote, and it is in one call at a time;
 *   - each claim goes to nd_claim_finish or nd_claim_cancel: one that is never spent keeps its task;
 *   - two passes of one nd_pass_meet or nd_pass_gather are of one table; nd_meet and nd_gather refuse others;
 *   - between two threads that use one pass or claim lies a thread's start or end, a lock or an atomic.
 *
 * A call takes a pass and gives it back by its argument `back`. The calls at the end, as nd_call, do so by themselves.
 *
 * The table has no move, which it answers 71, and no nd_rebase: a table lasts for an epoch.
 *
 * A pass or claim is empty before a call writes it and after a call has spent it. A call with an empty one answers 51 where it
 * answers, and does nothing more: passes come back as they were, and nothing else is written. */
#ifndef NEDDWYROL_TABLE_H
#define NEDDWYROL_TABLE_H

#include "neddwyrol.h"

#ifdef __cplusplus
extern "C" {
#endif

#define ND_PASSES_MAX 64
#define ND_TABLE_QUEUES_MAX 64
#define ND_TABLE_TASKS_MAX 256

/* A pass of a table, with those that it gathered; nothing where it is null. */
typedef struct {
    void *at;
} nd_pass;

/* A pass that has a task, with those that it gathered; nothing where it is null. */
typedef struct {
    void *at;
} nd_claim;

/* Where a table lies. It may be compared, and is no place to read or write. */
typedef struct {
    void *at;
} nd_table;

enum {
    ND_NO_PASS = 23,         /* a table of no pass */
    ND_TOO_MANY_PASSES = 24, /* more than 64 */
    ND_NO_TABLE_MEMORY = 25, /* memory for the table was refused */
    ND_MISSING = 26,         /* a pass of the table is not gathered */
    ND_NO_PART = 27,         /* no pass is gathered, or memory was refused */
    ND_NO_MEMORY = 42,       /* memory was refused */
    ND_BUSY = 50,            /* another pass has the task, or changed it meanwhile: no call was made */
    ND_EMPTY = 51,           /* the pass or claim is empty: no call was made */
    ND_LOST = 52,            /* every try was lost to a change of the runqueue's sums: no call was made */
    ND_TWO_TABLES = 53,      /* the two passes are of two tables: they did not meet, and were not gathered */
    ND_HELD = 100            /* the pass has the task: a claim was written, and no call is made yet */
};

/* Opens a table of the reservations and constants that stand in the memory, at most 256 tasks and 64 runqueues, with 1 to 64
 * passes, and writes one pass with all others gathered. It answers 0, or the first fault: 1 to 8 as of nd_open, 23, 24 or
 * 25; then nothing is written. */
ND_MUST_USE uint32_t nd_table_open(const nd_task *tasks, size_t task_count, const nd_runqueue *queues, size_t queue_count,
                                   uint32_t passes, nd_pass *all);

/* Gives the last pass that was gathered a handle of its own. It answers 0; or 27 where none is gathered or memory was
 * refused, and then the pass is given back as it was and no other is written. */
ND_MUST_USE uint32_t nd_pass_part(nd_pass pass, nd_pass *back, nd_pass *part);

/* Asks an op for a task. The call with its reply, as of nd_apply, is all that is new of the pass in the one history of the
 * table. No call is made where it answers 50, another pass has the task; 52, so many tries were lost, each to a change of the
 * runqueue's sums; 70 and 71 as of nd_apply, and 71 to a move (ND_MOVE), which a table has not. An op that changes no sum needs
 * no try. */
ND_MUST_USE nd_reply nd_pass_apply(nd_pass pass, uint32_t task, nd_op op, uint8_t tries, nd_pass *back);

/* The same in two steps. Where it answers 100 the pass has the task: its claim is written, and the pass is spent. Else the
 * pass is given back and no claim is written. No call is made where it answers 50, 70 or 71 as above, to a move too. Any
 * other reply is one that the place, the count, the ticket or an early timer decided. The call with it is all that is new of
 * the pass in the history. */
ND_MUST_USE nd_reply nd_pass_start(nd_pass pass, uint32_t task, nd_op op, nd_pass *back, nd_claim *claim);

/* Makes the call of a claim. The call with its reply is all that is new of the pass in the history; the task and the pass are
 * given back. Or it answers 52: so many tries were lost, each to a change of the runqueue's sums. Then no call is made, and
 * the claim is given back. An op that changes no sum needs no try. */
ND_MUST_USE nd_reply nd_claim_finish(nd_claim claim, uint8_t tries, nd_pass *back, nd_claim *claim_back);

/* Writes the record of the claim's task, which is the task's in the history that the pass has seen, and gives the claim back.
 * It answers 0, or 51 where the claim is empty. */
ND_MUST_USE uint32_t nd_claim_record(nd_claim claim, nd_task *task, nd_claim *claim_back);

/* Gives the task and the pass back: no call is made, and nothing is new of the pass in the history. */
void nd_claim_cancel(nd_claim claim, nd_pass *back);

/* Reads the sums of a runqueue, at one moment. It answers 0, or 64 where there is no such runqueue and nothing is written. */
ND_MUST_USE uint32_t nd_pass_read(nd_pass pass, uint32_t queue, nd_reading *reading, nd_pass *back);

/* Writes where the table of a pass lies, and gives the pass back as it is: two tables that are there lie at two places. It
 * answers 0, or 51 where the pass is empty. */
ND_MUST_USE uint32_t nd_pass_table(nd_pass pass, nd_table *table, nd_pass *back);

/* Afterwards what one of the two has seen is a beginning of what the other has. */
void nd_pass_meet(nd_pass first, nd_pass second, nd_pass *first_back, nd_pass *second_back);

/* The first pass takes in the second, with those that it gathered. It answers 0, and the second is spent; or 42 where memory
 * was refused, and both are given back as they were. */
ND_MUST_USE uint32_t nd_pass_gather(nd_pass first, nd_pass second, nd_pass *first_back, nd_pass *second_back);

/* Closes the table by a pass that has gathered all others, and writes the last sums of each runqueue, as many as there is
 * room for: those of the book after the whole history. It answers 0, and the pass is spent. Where it is refused nothing is
 * written and the pass is given back: 26 where a pass is not gathered, 42 where memory was refused. Where there is no memory
 * even to give it back the table is freed. */
ND_MUST_USE uint32_t nd_table_close(nd_pass pass, nd_reading *readings, size_t reading_count, nd_pass *back);

/* Frees a pass with those that it gathered, and the table with its last one. It does nothing with an empty one. */
void nd_pass_free(nd_pass pass);

/* The same calls, which take a pass where it stands and put it back. */
ND_MUST_USE static inline nd_pass nd_taken(nd_pass *pass) {
    nd_pass it = *pass;
    pass->at = NULL;
    return it;
}

ND_MUST_USE static inline uint32_t nd_part(nd_pass *pass, nd_pass *part) { return nd_pass_part(nd_taken(pass), pass, part); }

/* (a pass that comes back as it was is not written, so that threads whose passes lie side by side do not wait for each other) */
ND_MUST_USE static inline nd_reply nd_call(nd_pass *pass, uint32_t task, nd_op op, uint8_t tries) {
    nd_pass it = *pass, back;
    nd_reply reply = nd_pass_apply(it, task, op, tries, &back);
    if (back.at != it.at)
        *pass = back;
    return reply;
}

ND_MUST_USE static inline nd_claim nd_claimed(nd_claim *claim) {
    nd_claim it = *claim;
    claim->at = NULL;
    return it;
}

ND_MUST_USE static inline nd_reply nd_start(nd_pass *pass, uint32_t task, nd_op op, nd_claim *claim) {
    return nd_pass_start(nd_taken(pass), task, op, pass, claim);
}

ND_MUST_USE static inline nd_reply nd_finish(nd_claim *claim, uint8_t tries, nd_pass *pass) {
    return nd_claim_finish(nd_claimed(claim), tries, pass, claim);
}

/* The record of the task that a claim has. */
ND_MUST_USE static inline uint32_t nd_claim_task(nd_claim *claim, nd_task *task) {
    return nd_claim_record(nd_claimed(claim), task, claim);
}

static inline void nd_cancel(nd_claim *claim, nd_pass *pass) { nd_claim_cancel(nd_claimed(claim), pass); }

ND_MUST_USE static inline uint32_t nd_read(nd_pass *pass, uint32_t queue, nd_reading *reading) {
    return nd_pass_read(nd_taken(pass), queue, reading, pass);
}

/* 0 where two passes are there and of one table, else 51 or 53. A pass beside itself is 51. */
ND_MUST_USE static inline uint32_t nd_apart(nd_pass *first, nd_pass *second) {
    nd_table one, other;
    if (first == second || nd_pass_table(nd_taken(first), &one, first) || nd_pass_table(nd_taken(second), &other, second))
        return ND_EMPTY;
    if (one.at != other.at)
        return ND_TWO_TABLES;
    return ND_DONE;
}

/* It answers 0, 51 or 53. */
ND_MUST_USE static inline uint32_t nd_meet(nd_pass *first, nd_pass *second) {
    uint32_t fault = nd_apart(first, second);
    if (fault == ND_DONE) {
        nd_pass one = nd_taken(first), other = nd_taken(second);
        nd_pass_meet(one, other, first, second);
    }
    return fault;
}

/* It answers 0, 42, 51 or 53. */
ND_MUST_USE static inline uint32_t nd_gather(nd_pass *first, nd_pass *second) {
    nd_pass one, other;
    uint32_t fault = nd_apart(first, second);
    if (fault != ND_DONE)
        return fault;
    one = nd_taken(first);
    other = nd_taken(second);
    return nd_pass_gather(one, other, first, second);
}

ND_MUST_USE static inline uint32_t nd_close(nd_pass *pass, nd_reading *readings, size_t reading_count) {
    return nd_table_close(nd_taken(pass), readings, reading_count, pass);
}

static inline void nd_free(nd_pass *pass) { nd_pass_free(nd_taken(pass)); }

#ifdef __cplusplus
}
#endif
#endif
