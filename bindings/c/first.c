#include <neddwyrol.h>
#include <stdio.h>
#include <stdlib.h>

/* The reply of an op, which has to be granted. */
static nd_reply granted(nd_reply reply) {
    if (!nd_granted(reply))
        exit(1);
    return reply;
}

int main(void) {
    nd_task tasks[2] = {ND_TASK(4, 8), ND_TASK(4, 8)}; /* each has 4 in 8 */
    nd_runqueue queues[1] = {ND_RUNQUEUE(ND_UNIT, 0)}; /* a whole processor */
    nd_book book = {tasks, 2, queues, 1};
    if (nd_open(tasks, 2, queues, 1) != ND_DONE)
        return 1;
    granted(nd_join(&book, 0, 0, 0)); /* task 0 on runqueue 0 at the moment 0 */
    granted(nd_join(&book, 1, 0, 0));
    granted(nd_run(&book, 0, 0, 2)); /* it runs for 2 */
    nd_reply waits = granted(nd_block(&book, 0, 0, 2));
    printf("waits until %u, running_bw %u\n", waits.deadline, queues[0].running_bw);
    granted(nd_timer(&book, 0, waits.number, 4));
    nd_reply ran = granted(nd_run(&book, 1, 0, 4));
    printf("a run of 4 is charged %u, running_bw %u\n", (unsigned)ran.charged, queues[0].running_bw);
    return 0;
}
