#!/bin/sh
# Reading sched_rt_runtime_us changes total_bw and extra_bw (6.12.43 and later 6.12).
. /kernel/finds/sums.sh
sums 'after boot'
deadline 8 gr_0,q=20000,p=100000 gr_1,q=30000,p=100000
sums 'two tasks of 20 and 30 %'
for time in 1 2 3; do
    cat /proc/sys/kernel/sched_rt_runtime_us > /dev/null
    sums "after reading $time of sched_rt_runtime_us"
done
wait
sleep 0.3
sums 'the tasks have ended'
echo 950000 > /proc/sys/kernel/sched_rt_runtime_us
sums 'after writing 950000'
