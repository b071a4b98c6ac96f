#!/bin/sh
# SCHED_FLAG_KEEP_PARAMS with a change into the class: bandwidth is reserved, and the task stays a fair one.
. /kernel/finds/sums.sh
sums 'after boot'
for time in 1 2; do
    dlgen 0.6 1 fair_0,fair=1,q=5000,p=50000,w=20-80,s=5-65,xc=300:10000:100000:100000:8
    sleep 1
    sums "task $time was to keep its parameters, and has ended"
done
