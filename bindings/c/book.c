/* A book as memory: two runqueues, tasks that leave and move, admission, a batch, a snapshot, another origin of time, an audit, a
 * recorded history. */
#include "neddwyrol.h"
#include <inttypes.h>
#include <stdio.h>
#include <stdlib.h>
#include <string.h>

static void show(const char *what, const nd_book *book) {
    printf("%s:", what);
    for (size_t r = 0; r < book->queue_count; r++)
        printf(" %" PRIu32 "/%" PRIu32, book->queues[r].running_bw, book->queues[r].this_bw);
    printf("; audit %" PRIu32 "\n", nd_audit(book->tasks, book->task_count, book->queues, book->queue_count));
}

/* The reply of an op, which has to be granted. */
static nd_reply granted(nd_reply reply) {
    if (!nd_granted(reply)) {
        fprintf(stderr, "refused: %s\n", nd_strerror(reply.kind));
        exit(1);
    }
    return reply;
}

int main(void) {
    nd_task tasks[3] = {ND_TASK(4, 8), ND_TASK(4, 8), ND_TASK(1, 8)}, saved[3];
    nd_runqueue queues[2] = {ND_RUNQUEUE(ND_UNIT, 0), ND_RUNQUEUE(ND_UNIT, ND_UNIT / 4)}, sums[2], wrong[2] = {ND_RUNQUEUE(ND_UNIT, 0), ND_RUNQUEUE(5, 6)};
    nd_book book = {tasks, 3, queues, 2};
    nd_ask asks[6] = {{0, {ND_JOIN, 0, 0}}, {1, {ND_JOIN, 0, 0}}, {2, {ND_JOIN, 0, 0}}, {7, {ND_LEAVE, 0, 0}}, {0, {ND_JOIN, 9, 0}}, {0, {ND_BLOCK, 0, 0}}};
    nd_reply replies[5];
    nd_event history[4];

    printf("open: %" PRIu32 " %" PRIu32 " %" PRIu32 "\n", nd_open(tasks, 3, wrong, 2), nd_open(tasks, 3, queues, 0), nd_open(tasks, 3, queues, 2));
    printf("answered %zu:", nd_apply_all(tasks, 3, queues, 2, asks, 6, replies, 5));
    for (int i = 0; i < 5; i++)
        printf(" %" PRIu32, replies[i].kind);
    printf("\n");
    show("two are on the first", &book);

    memcpy(saved, tasks, sizeof tasks);
    memcpy(sums, queues, sizeof queues);
    granted(nd_block(&book, 0, 0, 0));
    printf("blocked, and left runqueue %" PRIu32 "\n", granted(nd_leave(&book, 0)).number);
    nd_reply joined = granted(nd_join(&book, 0, 1, 3));
    printf("joined with budget %" PRIu32 " and deadline %" PRIu32 "\n", joined.budget, joined.deadline);
    show("one moved", &book);
    printf("retuned while active: %" PRIu32 "\n", nd_retune(&book, 0, 2, 8).kind);

    /* A ready task moves as it is, unless it is there already, or the runqueue is full. */
    uint32_t t = 0, moment = 0;
    printf("earliest %s", nd_strerror(nd_earliest(tasks, 3, 1, &t, &moment)));
    printf(": task %" PRIu32 ", deadline %" PRIu32, t, moment);
    printf("; next timer %s\n", nd_strerror(nd_next_timer(tasks, 3, 1, &t, &moment)));
    nd_reply move = granted(nd_move(&book, 1, 1));
    printf("moved: %s from runqueue %" PRIu32 " with budget %" PRIu32 " and deadline %" PRIu32 "\n", nd_strerror(move.kind), move.number, tasks[1].budget, tasks[1].deadline);
    printf("again: %s %" PRIu32, nd_strerror(nd_move(&book, 1, 1).kind), nd_move(&book, 1, 1).number);
    printf("; to no runqueue: %s", nd_strerror(nd_move(&book, 1, 2).kind));
    printf("; no such task: %s", nd_strerror(nd_move(&book, 3, 0).kind));
    granted(nd_join(&book, 2, 0, 3));
    printf("; full: %s", nd_strerror(nd_move(&book, 2, 1).kind));
    granted(nd_run(&book, 1, 1, 2));
    granted(nd_block(&book, 1, 1, 1));
    printf("; not ready: %s", nd_strerror(nd_move(&book, 1, 0).kind));
    printf("; next timer %s", nd_strerror(nd_next_timer(tasks, 3, 1, &t, &moment)));
    printf(" of task %" PRIu32 " at %" PRIu32 ", ticket %" PRIu32 "\n", t, moment, tasks[t].count);
    show("two are on the second", &book);

    /* Between calls a runqueue's uextra may be written, and the whole record of a task that is away or gone. */
    granted(nd_block(&book, 2, 0, 3));
    granted(nd_exit(&book, 2));
    nd_task fresh = {2, 16, 2, 0, 0, ND_AWAY, 0};
    tasks[2] = fresh;
    queues[0].uextra = ND_UNIT / 8;
    show("written anew", &book);
    printf("joined again with budget %" PRIu32, granted(nd_join(&book, 2, 0, 4)).budget);
    printf(", charged %" PRIu64 " for 8\n", granted(nd_run(&book, 2, 0, 8)).charged);

    /* A snapshot is the memory: it is put back, or a history that was recorded since is held to it. */
    memcpy(tasks, saved, sizeof tasks);
    memcpy(queues, sums, sizeof queues);
    show("put back", &book);

    /* The origin of time goes as far as the deadlines of ready tasks and the 0-lag times of waiting ones allow. */
    uint32_t by = 0;
    granted(nd_run(&book, 0, 0, 2));
    nd_reply waits = granted(nd_block(&book, 0, 0, 2));
    printf("rebase limit %s", nd_strerror(nd_rebase_limit(tasks, 3, queues, 2, &by)));
    printf(" %" PRIu32, by);
    nd_reply far = nd_rebase(tasks, 3, queues, 2, by + 1);
    printf("; by one more: %s, task %" PRIu32, nd_strerror(far.kind), far.number);
    printf("; by one less: %s", nd_strerror(nd_rebase(tasks, 3, queues, 2, by - 1).kind));
    printf(", deadlines %" PRIu32 " %" PRIu32 " %" PRIu32 ", counts %" PRIu32 " %" PRIu32, tasks[0].deadline, tasks[1].deadline, tasks[2].deadline, tasks[0].count, tasks[1].count);
    printf("; timer at 0 %s", nd_strerror(nd_timer(&book, 0, waits.number, 0).kind));
    printf(", at 1 %s\n", nd_strerror(nd_timer(&book, 0, waits.number, 1).kind));
    show("another origin", &book);
    memcpy(tasks, saved, sizeof tasks);
    memcpy(queues, sums, sizeof queues);

    memset(history, 0, sizeof history);
    history[0].kind = ND_CALL, history[0].number = 0, history[0].op.kind = ND_CHARGE, history[0].op.b = 2;
    history[0].reply.kind = ND_CHARGED, history[0].reply.budget = 2, history[0].reply.deadline = 8, history[0].reply.charged = 2;
    history[1].kind = ND_READING, history[1].number = 0, history[1].running_bw = ND_UNIT, history[1].this_bw = ND_UNIT;
    history[2].kind = ND_CALL, history[2].number = 0, history[2].op.kind = ND_BLOCK, history[2].op.b = 2;
    history[2].reply.kind = ND_WAITING, history[2].reply.number = 1, history[2].reply.deadline = 4;
    history[3] = history[1];
    printf("given: %zu of 4\n", nd_check(tasks, 3, queues, 2, history, 4));
    memcpy(tasks, saved, sizeof tasks);
    memcpy(queues, sums, sizeof queues);
    history[3].running_bw = ND_UNIT / 2;
    printf("with another reading: %zu of 4\n", nd_check(tasks, 3, queues, 2, history, 4));

    memcpy(tasks, saved, sizeof tasks);
    memcpy(queues, sums, sizeof queues);
    history[0].reply.budget = 3;
    size_t none = nd_check(tasks, 3, queues, 2, history, 4);
    printf("with another reply: %zu of 4, and the memory is %s\n", none, memcmp(tasks, saved, sizeof tasks) || memcmp(queues, sums, sizeof queues) ? "another" : "as it was");

    tasks[1].state = 5;
    show("no task has such a state", &book);
    uint32_t number = 9, fault = nd_audit_fault(tasks, 3, queues, 2, &number);
    printf("%s: task %" PRIu32, nd_strerror(fault), number);
    tasks[1].state = saved[1].state;
    fault = nd_open_fault(tasks, 3, wrong, 2, &number);
    printf("; %s: runqueue %" PRIu32 "\n", nd_strerror(fault), number);
    queues[0].this_bw--;
    show("a sum was changed", &book);
    queues[0].this_bw++;
    tasks[1].queue = 5;
    show("a task is nowhere", &book);
    printf("a call then: %" PRIu32 "\n", nd_block(&book, 1, 5, 0).kind);
    tasks[1].queue = 0, tasks[1].budget = 9;
    printf("no budget is so large: %" PRIu32 "\n", nd_block(&book, 1, 0, 0).kind);

    /* Where there are none, a pointer may be null. */
    nd_book empty = {NULL, 0, NULL, 0};
    printf("nothing: open %" PRIu32 ", audit %" PRIu32 ", a leave %" PRIu32, nd_open(NULL, 0, NULL, 0), nd_audit(NULL, 0, NULL, 0), nd_leave(&empty, 0).kind);
    printf(", asked %zu, given %zu, earliest %" PRIu32 "\n", nd_apply_all(NULL, 0, NULL, 0, NULL, 0, NULL, 0), nd_check(NULL, 0, NULL, 0, NULL, 0), nd_earliest(NULL, 0, 0, &t, &moment));
    return 0;
}
