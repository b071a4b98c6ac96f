/* The kernel documentation's example: two tasks of 4 in 8 on one runqueue. The first blocks at 2, so until its 0-lag
 * moment, 4, the second is charged in full; afterwards it runs at half the charge. */
#include "neddwyrol.h"
#include <inttypes.h>
#include <stdio.h>
#include <stdlib.h>

/* The reply of an op, which has to be granted. */
static nd_reply granted(nd_reply reply) {
    if (!nd_granted(reply)) {
        fprintf(stderr, "refused: %s\n", nd_strerror(reply.kind));
        exit(1);
    }
    return reply;
}

int main(void) {
    nd_task tasks[2] = {ND_TASK(4, 8), ND_TASK(4, 8)};
    nd_runqueue queues[1] = {ND_RUNQUEUE(ND_UNIT, 0)};
    nd_book book = {tasks, 2, queues, 1};
    if (nd_open(tasks, 2, queues, 1) != ND_DONE)
        return 1;
    granted(nd_join(&book, 0, 0, 0));
    granted(nd_join(&book, 1, 0, 0));
    granted(nd_run(&book, 0, 0, 2));
    nd_reply waits = granted(nd_block(&book, 0, 0, 2));
    printf("waiting ticket=%" PRIu32 " z=%" PRIu32 " running_bw=%" PRIu32 "\n", waits.number, waits.deadline, queues[0].running_bw);
    nd_reply ran = granted(nd_run(&book, 1, 0, 2));
    printf("charged dq=%" PRIu64 " k=%" PRIu32 " q=%" PRIu32 " d=%" PRIu32 "\n", ran.charged, ran.number, ran.budget, ran.deadline);
    nd_reply fired = granted(nd_timer(&book, 0, waits.number, 4));
    printf("timer %" PRIu32 " running_bw=%" PRIu32 "\n", fired.kind, queues[0].running_bw);
    ran = granted(nd_run(&book, 1, 0, 4));
    printf("charged dq=%" PRIu64 " k=%" PRIu32 " q=%" PRIu32 " d=%" PRIu32 "\n", ran.charged, ran.number, ran.budget, ran.deadline);
    nd_reply woken = granted(nd_wake(&book, 0, 0, 8));
    printf("woken q=%" PRIu32 " d=%" PRIu32 " running_bw=%" PRIu32 " this_bw=%" PRIu32 "\n", woken.budget, woken.deadline,
           queues[0].running_bw, queues[0].this_bw);
    return 0;
}
