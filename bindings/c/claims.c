/* A call in two steps. While a pass has a task, another pass finds it busy, and other tasks are free. A claim that is given
 * back was no call: the history has the others alone, and nd_check finds it to be the book's, with the table's last sums. */
#include "neddwyrol_table.h"
#include <inttypes.h>
#include <stdio.h>

static nd_event events[8];
static size_t count;

static uint32_t noted(uint32_t task, nd_op op, nd_reply reply) {
    nd_event event = {ND_CALL, 0, task, op, 0, 0, reply};
    events[count++] = event;
    return reply.kind;
}

int main(void) {
    nd_task tasks[2] = {{4, 8, 0, 0, 0, 0, 0}, {2, 8, 0, 0, 0, 0, 0}};
    nd_runqueue queues[1] = {{ND_UNIT, 0, 0, 0}};
    const nd_op join = {ND_JOIN, 0, 0}, block = {ND_BLOCK, 0, 2}, charge = {ND_CHARGE, 0, 1}, nowhere = {ND_JOIN, 9, 0};
    nd_pass first = {NULL}, second = {NULL};
    nd_claim claim = {NULL}, other = {NULL};
    nd_reading last = {0, 0};
    if (nd_table_open(tasks, 2, queues, 1, 2, &first) != ND_DONE || nd_part(&first, &second) != ND_DONE)
        return 1;

    printf("no such task and op: %" PRIu32, nd_start(&first, 2, join, &claim).kind);
    printf(" %" PRIu32 "\n", nd_start(&first, 0, nowhere, &claim).kind);
    printf("answered at once: %" PRIu32 "\n", noted(0, block, nd_start(&first, 0, block, &claim)));
    printf("held: %" PRIu32, nd_start(&first, 0, join, &claim).kind);
    printf(", %s", first.at ? "a pass" : "no pass");
    printf(", busy for another: %" PRIu32 "\n", nd_start(&second, 0, join, &other).kind);
    printf("another task: %" PRIu32, nd_start(&second, 1, join, &other).kind);
    printf(" %" PRIu32 "\n", noted(1, join, nd_finish(&other, 1, &second)));

    printf("no try: %" PRIu32, nd_finish(&claim, 0, &first).kind);
    nd_cancel(&claim, &first);
    printf(", given back: %s\n", first.at && !claim.at ? "a pass" : "no pass");
    printf("free for another: %" PRIu32, nd_start(&second, 0, join, &other).kind);
    printf(" %" PRIu32 "\n", noted(0, join, nd_finish(&other, 1, &second)));
    printf("a charge needs no try: %" PRIu32, nd_start(&first, 1, charge, &claim).kind);
    printf(" %" PRIu32 "\n", noted(1, charge, nd_finish(&claim, 0, &first)));

    if (nd_gather(&first, &second) != ND_DONE || nd_close(&first, &last, 1) != ND_DONE)
        return 1;
    if (nd_open(tasks, 2, queues, 1) != ND_DONE)
        return 1;
    printf("nd_check: %zu of %zu\n", nd_check(tasks, 2, queues, 1, events, count), count);
    printf("the last sums are its: %d\n", last.running_bw == queues[0].running_bw && last.this_bw == queues[0].this_bw);
    return 0;
}
