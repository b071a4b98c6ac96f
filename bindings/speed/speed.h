/* What is timed beside the library: the book in plain C, and a table in plain C that makes the atomic steps of the shared one. */
#ifndef SPEED_H
#define SPEED_H

#include "neddwyrol_table.h"
#include <stdatomic.h>

/* What nd_apply does, with no test for memory that is no book. */
nd_reply plain_apply(nd_task *tasks, size_t task_count, nd_runqueue *queues, size_t queue_count, uint32_t task, nd_op op);

/* A table: a word for each runqueue, then three for each task, in lines of their own. */
typedef struct {
    _Atomic uint64_t *words;
    const nd_runqueue *queues;
    uint32_t queue_count, task_count;
} plain_table;

/* It answers 0, or 1 where memory was refused. */
int plain_open(plain_table *table, const nd_task *tasks, size_t task_count, const nd_runqueue *queues, size_t queue_count);
void plain_close(plain_table *table);

/* What nd_call does. */
nd_reply plain_call(plain_table *table, uint32_t task, nd_op op, uint8_t tries);

#endif
