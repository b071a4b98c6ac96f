#!/bin/sh
# A write of a stopped fair server's runtime takes its bandwidth off running_bw once more, and the kernel warns. It wants several
# processors, and some writes until one meets the server stopped.
. /kernel/finds/sums.sh
dmesg -c > /dev/null
for time in 1 2 3 4 5 6 7 8 9 10 11 12 13 14 15 16 17 18 19 20; do
    sleep 1.5
    echo 50000000 > /sys/kernel/debug/sched/fair_server/cpu1/runtime
    if dmesg | grep -q 'WARNING.*deadline'; then
        echo "--- at write $time of fair_server/cpu1/runtime, always 50000000:"
        dmesg | sed -n 's/.*WARNING: //p'
        break
    fi
done
