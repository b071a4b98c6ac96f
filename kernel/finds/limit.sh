#!/bin/sh
# A value of sched_rt_runtime_us that is written after boot reaches the first processor of the root domain only (before 6.12).
# It wants two processors.
show() {
    echo "--- $1"
    /scripts/record.sh /tmp/record dlgen 0.6 1 gr_0,q=20000,p=40000,w=60-90,s=5-20 gr_1,q=20000,p=40000,w=60-90,s=5-20 2> /dev/null
    for cpu in 0 1; do
        sed -n "s/.* upd: .* cpu=$cpu .* ex=\([0-9]*\).* ra=\([0-9]*\).*/cpu $cpu extra=\1 bw_ratio=\2/p" /tmp/record | tail -n 1
    done
}
uname -r
show 'after boot, two tasks of 50 %'
echo 800000 > /proc/sys/kernel/sched_rt_runtime_us
show 'after writing 800000'
