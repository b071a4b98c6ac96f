/* Memory that is no book, and numbers that are none: every call comes back, and writes nothing where it refuses.
 * `damage ROUNDS` tries so many memories, all different and the same each time; it prints what was answered how often. */
#include "neddwyrol.h"
#include <inttypes.h>
#include <stdio.h>
#include <stdlib.h>
#include <string.h>

enum { TASKS = 4, QUEUES = 3, ASKS = 4 };

static uint64_t seed = UINT64_C(88172645463325252);

static uint32_t any(void) {
    seed ^= seed << 13;
    seed ^= seed >> 7;
    seed ^= seed << 17;
    return (uint32_t)(seed >> 16);
}

static uint32_t below(uint32_t n) { return any() % n; }

static uint32_t number(void) {
    switch (below(6)) {
    case 0: return any();
    case 1: return below(8);
    case 2: return below(1024);
    case 3: return below(ND_UNIT);
    case 4: return UINT32_MAX - below(4);
    default: return UINT32_C(1) << below(32);
    }
}

static void fill(void *at, size_t size) {
    uint32_t word;
    for (size_t i = 0; i + sizeof word <= size; i += sizeof word) {
        word = number();
        memcpy((char *)at + i, &word, sizeof word);
    }
}

int main(int argc, char **argv) {
    long rounds = argc > 1 ? atol(argv[1]) : 100000;
    static uint64_t kinds[128], opened[128], audited[128];
    uint64_t given = 0, digest = 0;
    for (long i = 0; i < rounds; i++) {
        nd_task tasks[TASKS], was[TASKS];
        nd_runqueue queues[QUEUES], were[QUEUES];
        nd_ask asks[ASKS];
        nd_event events[ASKS];
        nd_reply replies[ASKS], reply;
        nd_op op;
        size_t n = i % 8 ? TASKS : below(TASKS + 1), m = i % 8 ? QUEUES : below(QUEUES + 1);
        uint32_t fault, limit;
        fill(tasks, sizeof tasks);
        fill(queues, sizeof queues);
        fill(asks, sizeof asks);
        fill(events, sizeof events);
        fill(replies, sizeof replies);
        /* some memories are nearly books */
        for (size_t k = 0; (i & 1) && k < n; k++)
            tasks[k].runtime = 1 + below(4), tasks[k].period = 4 + below(9), tasks[k].budget = 1 + below(2), tasks[k].count = below(99), tasks[k].state = below(5),
            tasks[k].queue = below(4);
        for (size_t k = 0; (i & 2) && k < m; k++)
            queues[k].umax = ND_UNIT, queues[k].uextra = below(ND_UNIT), queues[k].running_bw = below(ND_UNIT), queues[k].this_bw = ND_UNIT - below(99);
        op.kind = below(11), op.a = (i & 4) ? below(QUEUES + 1) : number(), op.b = (i & 32) ? below(1024) : number();
        memcpy(was, tasks, sizeof tasks);
        memcpy(were, queues, sizeof queues);
        fault = nd_audit(tasks, n, queues, m);
        audited[fault < 127 ? fault : 127]++;
        reply = nd_apply(tasks, n, queues, m, i % 16 ? below(TASKS) : below(TASKS + 2), op);
        kinds[reply.kind < 127 ? reply.kind : 127]++;
        digest = digest * 31 + reply.kind + reply.number + reply.budget + reply.deadline + reply.charged;
        if (reply.kind < 101 && (memcmp(was, tasks, sizeof tasks) || memcmp(were, queues, sizeof queues))) {
            printf("a refusal wrote: %" PRIu32 "\n", reply.kind);
            return 1;
        }
        if (nd_apply_all(tasks, n, queues, m, asks, below(ASKS + 1), replies, below(ASKS + 1)) > ASKS)
            return 1;
        for (int k = 0; k < ASKS; k++)
            events[k].kind = below(3), events[k].number = below(4), digest = digest * 31 + replies[k].kind;
        given += nd_check(tasks, n, queues, m, events, ASKS);
        memcpy(was, tasks, sizeof tasks);
        memcpy(were, queues, sizeof queues);
        fault = nd_audit(tasks, n, queues, m);
        if (nd_rebase_limit(tasks, n, queues, m, &limit) != ND_DONE && fault == ND_DONE) {
            printf("a book is told to be none\n");
            return 1;
        }
        reply = nd_rebase(tasks, n, queues, m, op.b);
        if (nd_granted(reply) ? fault == ND_DONE && nd_audit(tasks, n, queues, m) : memcmp(was, tasks, sizeof tasks) || memcmp(were, queues, sizeof queues)) {
            printf("a rebase is wrong: %" PRIu32 "\n", reply.kind);
            return 1;
        }
        memcpy(tasks, was, sizeof tasks);
        memcpy(queues, were, sizeof queues);
        fault = nd_open(tasks, n, queues, m);
        opened[fault < 127 ? fault : 127]++;
        if (fault ? memcmp(was, tasks, sizeof tasks) || memcmp(were, queues, sizeof queues) : nd_audit(tasks, n, queues, m)) {
            printf("an opening is wrong: %" PRIu32 "\n", fault);
            return 1;
        }
        if (fault == ND_DONE && (nd_rebase_limit(tasks, n, queues, m, &limit) != ND_DONE || limit != UINT32_MAX || !nd_granted(nd_rebase(tasks, n, queues, m, op.b)) || nd_audit(tasks, n, queues, m))) {
            printf("the rebase of an opening is wrong\n");
            return 1;
        }
    }
    printf("%ld memories\nreplies", rounds);
    for (int k = 0; k < 128; k++)
        if (kinds[k])
            printf(" %d:%" PRIu64, k, kinds[k]);
    printf("\nopenings");
    for (int k = 0; k < 128; k++)
        if (opened[k])
            printf(" %d:%" PRIu64, k, opened[k]);
    printf("\naudits");
    for (int k = 0; k < 128; k++)
        if (audited[k])
            printf(" %d:%" PRIu64, k, audited[k]);
    printf("\nevents given %" PRIu64 ", digest %016" PRIx64 "\n", given, digest);
    return 0;
}
