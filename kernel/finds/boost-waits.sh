#!/bin/sh
# A task overruns with a mutex, and is throttled. A task of the other processor waits for the mutex. Its boost replenishes the first
# one, and nothing runs that one until its processor chooses anew for another reason.
. /kernel/finds/sums.sh
limit=/proc/sys/kernel/sched_rt_runtime_us
# Without a limit a deadline task may keep to one processor.
echo -1 > $limit
# 2 ms in 1 s, of which it works 6 ms with the mutex; the other one asks for that at 100, 200, 300 ms and so on.
/scripts/record.sh /tmp/record dlgen 2 1 gr_0,q=2000,p=1000000,r=0,w=300-300,s=10-10,pi=1,pin=0 \
    gr_1,q=10000,p=100000,r=0,w=10-10,st=100,per=1,pi=1,pin=1 2> /dev/null
echo 950000 > $limit
# An enqueue of a throttled task that another one's parameters serve is a boost; sched_switch tells when the task runs.
awk '
{ moment = 0; for (i = 1; i < 7; i++) if ($i ~ /^[0-9]+\.[0-9]+:$/) moment = $i + 0 }
/ enq: / && / thr=1 / {
    split("", value)
    for (i = 1; i <= NF; i++) { n = index($i, "="); if (n) value[substr($i, 1, n - 1)] = substr($i, n + 1) }
    if (value["se"] != value["ps"] && !(value["pid"] in boosted)) boosted[value["pid"]] = moment
}
/ sched_switch: / {
    pid = $0; sub(/.*next_pid=/, "", pid); sub(/ .*/, "", pid)
    if (pid in boosted) {
        printf "pid %d was boosted while it was throttled, and ran %.1f ms later\n", pid, 1000 * (moment - boosted[pid])
        delete boosted[pid]
    }
}' /tmp/record
