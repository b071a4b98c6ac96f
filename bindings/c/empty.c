/* Empty passes and claims, as a call that did not get or give back one leaves them: each call says so, none does more. The
 * table is as it was, and closes. So do two tables of which passes meet. */
#include "neddwyrol_table.h"
#include <inttypes.h>
#include <stdio.h>

static nd_reading reading = {7, 8}, last = {7, 8};
static nd_task shown = {1, 2, 3, 4, 5, 6, 7};
static const nd_op join = {ND_JOIN, 0, 0};

static void told(const char *what, uint32_t code) { printf("%-28s %" PRIu32 " %s\n", what, code, nd_strerror(code)); }

/* Each call of a pass, each of a claim, and those of two passes, of which one is there. */
static void tried(nd_pass *pass) {
    nd_pass none = {NULL}, part = {NULL}, back = {NULL}, other = {NULL};
    nd_claim claim = {NULL}, nothing = {NULL};
    told("nd_pass_part", nd_pass_part(none, &back, &part));
    told("nd_pass_apply", nd_pass_apply(none, 0, join, 1, &back).kind);
    told("nd_pass_start", nd_pass_start(none, 0, join, &back, &claim).kind);
    told("nd_pass_read", nd_pass_read(none, 0, &reading, &back));
    told("nd_table_close", nd_table_close(none, &last, 1, &back));
    told("nd_claim_finish", nd_claim_finish(nothing, 1, &back, &claim).kind);
    told("nd_claim_record", nd_claim_record(nothing, &shown, &claim));
    nd_claim_cancel(nothing, &back);
    nd_pass_free(none);
    nd_pass_meet(none, none, &back, &other);
    told("nd_pass_gather", nd_pass_gather(none, none, &back, &other));
    printf("nothing was written: %d\n", !part.at && !back.at && !other.at && !claim.at && reading.running_bw == 7 && last.this_bw == 8 && shown.queue == 7);

    nd_pass_meet(*pass, none, pass, &other);
    told("nd_pass_gather of one", nd_pass_gather(*pass, none, pass, &other));
    told("nd_pass_gather into none", nd_pass_gather(none, *pass, &other, pass));
    printf("the pass came back: %d\n", pass->at && !other.at);
}

int main(void) {
    nd_task tasks[2] = {ND_TASK(4, 8), ND_TASK(2, 8)};
    nd_runqueue queues[1] = {ND_RUNQUEUE(ND_UNIT, 0)};
    nd_pass first = {NULL}, second = {NULL}, stranger = {NULL};
    nd_claim claim = {NULL};
    if (nd_table_open(tasks, 2, queues, 1, 2, &first) || nd_part(&first, &second) || nd_table_open(tasks, 2, queues, 1, 1, &stranger))
        return 1;
    tried(&first);

    told("nd_start", nd_start(&first, 0, join, &claim).kind);
    told("nd_claim_task", nd_claim_task(&claim, &shown));
    printf("the task is away: %d, with a budget of %" PRIu32 "\n", shown.state == ND_AWAY, shown.budget);
    told("nd_call of what it left", nd_call(&first, 1, join, 1).kind);
    told("nd_read", nd_read(&first, 0, &reading));
    told("nd_part", nd_part(&first, &second));
    told("nd_meet", nd_meet(&first, &second));
    told("nd_close", nd_close(&first, &last, 1));
    told("nd_start of a busy task", nd_start(&second, 0, join, &claim).kind);
    told("nd_finish", nd_finish(&claim, 1, &first).kind);
    told("nd_finish again", nd_finish(&claim, 1, &first).kind);
    told("nd_claim_task", nd_claim_task(&claim, &shown));
    nd_cancel(&claim, &first);

    told("nd_meet with itself", nd_meet(&first, &first));
    told("nd_gather of itself", nd_gather(&first, &first));
    told("nd_meet of two tables", nd_meet(&first, &stranger));
    told("nd_gather of two tables", nd_gather(&first, &stranger));
    told("nd_meet", nd_meet(&first, &second));
    told("nd_gather", nd_gather(&first, &second));
    told("nd_gather again", nd_gather(&first, &second));
    told("nd_close", nd_close(&first, &last, 1));
    told("nd_close again", nd_close(&first, &last, 1));
    printf("running_bw %" PRIu32 "\n", last.running_bw);
    told("nd_close", nd_close(&stranger, &last, 1));
    nd_free(&stranger);
    nd_free(&stranger);
    return 0;
}
