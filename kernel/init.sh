#!/bin/busybox sh
# The init of the guest in check-kernel.sh. It runs /run.sh where that is there, and sends what it says to the second serial line.
# Else it records each line of /loads (NAME FAIR SECONDS TASKS, with tabs) by record.sh, and sends the record there, packed, with what
# the kernel warned of, and sums that are others after all tasks have ended. There it ends, as bandwidth was left behind: the next load
# begins with a new boot.
/bin/busybox --install -s /bin
mount -t proc proc /proc
mount -t sysfs sysfs /sys
mount -t devtmpfs dev /dev
mount -t tracefs tracefs /sys/kernel/tracing
mount -t debugfs debugfs /sys/kernel/debug
mount -t cgroup2 cgroup2 /sys/fs/cgroup 2> /dev/null
# The kernel hands its words records= and again= on to its init.
records=/dev/${records:-ttyS1}
[ ! "${again:-}" ] || sleep "0.0${again}3"
stty raw -F "$records"
if [ -f /run.sh ]; then
    { sh /run.sh 2>&1; echo "=== END"; } > "$records"
    poweroff -f
fi
tab=$(printf '\t')
admitted() { awk '$1 == ".dl_bw->total_bw" { print $3; exit }' /sys/kernel/debug/sched/debug; }
# The sums of each processor, where the kernel takes the probe; of these sums this_bw, and extra_bw.
sums() { TRACEFS=/sys/kernel/tracing /kernel/probes.sh sums 2> /dev/null; }
this() { echo "$1" | sed -n 's/^# grub: \(cpu [0-9]* this=[0-9]*\).*/\1/p' | tr '\n' ' '; }
extra() { echo "$1" | sed -n 's/^# grub: \(cpu [0-9]*\) .*\( extra=[0-9]*\).*/\1\2/p' | tr '\n' ' '; }
warnings() { dmesg | sed 's/^\[[^]]*\] *//' | grep -E 'WARNING|BUG|Oops|^sched: ' | sed "s/^/=== WARNED $1 /"; }
# A kernel of coverage.sh counts what it runs.
counts=/sys/kernel/debug/gcov
at_boot=$(admitted)
sums_at_boot=$(sums)
this_at_boot=$(this "$sums_at_boot")
extra_at_boot=$(extra "$sums_at_boot")
while IFS=$tab read -r name fair seconds words; do
    IFS=' '
    hogs=
    while [ "$fair" -gt 0 ]; do
        (while :; do :; done) &
        hogs="$hogs $!"
        fair=$((fair - 1))
    done
    echo "=== load $name"
    [ ! -e "$counts/reset" ] || echo 1 > "$counts/reset"
    # What the kernel warns of once it says again.
    [ ! -e /sys/kernel/debug/clear_warn_once ] || echo 1 > /sys/kernel/debug/clear_warn_once
    dmesg -c > /dev/null
    /scripts/record.sh /tmp/record dlgen "$seconds" "${SEED:-107}" $words 2> /tmp/said
    status=$?
    cat /tmp/said
    { sed "s/^/=== SAID $name /" /tmp/said; warnings "$name"; } > "$records"
    rm /tmp/said
    for hog in $hogs; do kill "$hog"; done
    if [ -f /tmp/record ]; then
        { echo "=== LOAD $name $status"; gzip -1 < /tmp/record | base64; echo "=== END"; } > "$records"
        rm /tmp/record
    fi
    # The 0-lag time of what has ended can be some seconds away.
    for second in 1 2 3 4 5 6 7 8 9 10; do
        sleep 1
        left=$(admitted)
        [ "$left" != "$at_boot" ] || break
    done
    for file in $(find "$counts" -name build_policy.gcda 2> /dev/null); do
        { echo "=== GCDA $name"; gzip -9 < "$file" | base64; echo "=== END"; } > "$records"
    done
    sums_left=$(sums)
    this_left=$(this "$sums_left")
    { [ "$left" = "$at_boot" ] || echo "=== LEFT $name total_bw $at_boot at boot, $left after all tasks had ended"
      [ "$this_left" = "$this_at_boot" ] || echo "=== SUMS $name this_bw after all tasks had ended: $this_left; at boot: $this_at_boot"; } > "$records"
    [ "$left $this_left $(extra "$sums_left")" = "$at_boot $this_at_boot $extra_at_boot" ] || { echo "=== bandwidth left behind"; break; }
done < /loads
echo "=== left behind: $(ls -d /sys/kernel/tracing/events/grub* /sys/kernel/tracing/instances/* /tmp/* 2> /dev/null)"
dmesg | grep -E 'WARN|BUG|deadline.c' | tail -n 5
poweroff -f
