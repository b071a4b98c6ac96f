#!/bin/sh
# What the scripts of this directory print: the bandwidth of the root domain, and the sums of each runqueue.
sums() {
    echo "--- $1: total_bw $(awk '$1 == ".dl_bw->total_bw" { print $3; exit }' /sys/kernel/debug/sched/debug)"
    /kernel/probes.sh sums | sed 's/^# grub: //; s/ rd=.*//'
}
# What the kernel has warned of since the last call.
warned() { dmesg -c | sed -n 's/.*WARNING: //p'; }
# deadline SECONDS TASK..: tasks in the background.
deadline() { seconds=$1; shift; dlgen "$seconds" 1 "$@" & sleep 0.6; }
warned > /dev/null
uname -r
