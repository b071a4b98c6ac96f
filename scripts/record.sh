#!/bin/sh
# record.sh [--all] [--no-probes] [--few] OUT PROGRAM ARG..: runs PROGRAM as root and writes to OUT the kernel's trace of
# SCHED_DEADLINE tasks meanwhile, with notes of what the kernel knows at its head, as the text that grubtrace reads.
#   --all         the switches and moves of tasks of any class
#   --no-probes   the kernel's own events alone (a probe of the sums is set for a moment before)
#   --few         of the probes only upd and enq: budgets and deadlines, half of the lines
# It uses tracefs instances of its own and removes all that it made, also after a signal or where it fails. A signal ends PROGRAM
# and the record. RECORD_BUFFER_KB is the buffer of each CPU (32768 where it is not set).
# It ends with PROGRAM's status; with 3 where nothing could be recorded, with 4 where events were lost or lines are not in their order.
# It reads no file of /proc/sys/kernel/sched_rt_*: some kernels rebuild what is measured when these are read.
set -u
export LC_ALL=C
say() { echo "record: $*" >&2; }
fail() { say "$*"; exit 3; }
usage() { echo "usage: record.sh [--all] [--no-probes] [--few] OUT PROGRAM ARG.." >&2; exit 2; }

all= probes=all
while :; do
    case ${1-} in
    --all) all=1 ;;
    --no-probes) probes= ;;
    --few) probes=few ;;
    -*) usage ;;
    *) break ;;
    esac
    shift
done
[ $# -ge 2 ] || usage
out=$1
shift
kernel_scripts=${0%/*}/../kernel
[ "$(id -u)" = 0 ] || fail "it has to be run as root"
command -v "$1" > /dev/null || fail "there is no program $1"
[ ! -e "$out" ] || [ -f "$out" ] || fail "$out is no file"
part=$out.part

# ---- What is made here is unmade in finish, in the opposite order.
mounts= record= exits= enters= notes= program= set=
finish() {
    trap '' HUP INT TERM
    for process in $program $notes; do kill "$process" 2> /dev/null; done
    for instance in $record $exits $enters; do
        [ -d "$instance" ] || continue
        echo 0 > "$instance/tracing_on"
        echo 0 > "$instance/events/enable"
        rmdir "$instance" 2> /dev/null || { sleep 0.2; rmdir "$instance"; } || say "$instance could not be removed"
    done
    [ ! "$set" ] || "$kernel_scripts/probes.sh" clear || say "the events of group grub could not be removed"
    rm -f "$part" "$part.2"
    [ "$mounts" ] || return
    for place in "$mounts"/*; do [ ! -d "$place" ] || { umount "$place" && rmdir "$place"; }; done
    rmdir "$mounts"
}
trap finish EXIT
trap 'exit 129' HUP
trap 'exit 130' INT
trap 'exit 143' TERM

true 2> /dev/null > "$part" || fail "$out cannot be written"
# Mounts of its own, so that it is in nobody's way; where that is not allowed, those that are there.
mounts=$(mktemp -d) || fail "no temporary directory can be made"
mounted_at() {
    mkdir "$mounts/$1"
    if mount -t "$1" "$1" "$mounts/$1" 2> /dev/null; then echo "$mounts/$1"; else rmdir "$mounts/$1"; echo "$2"; fi
}
tracefs=$(mounted_at tracefs /sys/kernel/tracing)
debugfs=$(mounted_at debugfs /sys/kernel/debug)
[ -d "$tracefs/instances" ] || fail "this machine has no tracefs, or is locked down (lockdown=confidentiality)"
[ -d "$debugfs/sched" ] || say "no debugfs: the notes do not have max-bw and total-bw"
export TRACEFS=$tracefs

instance() {
    mkdir "$1" 2> /dev/null || fail "a tracefs instance cannot be made"
    { echo 0 > "$1/tracing_on"; } 2> /dev/null || fail "tracefs cannot be written (lockdown=confidentiality?)"
    { echo mono > "$1/trace_clock"; } 2> /dev/null || fail "the clock mono is not there"
    { echo "$2" > "$1/buffer_size_kb"; } 2> /dev/null || fail "a buffer of $2 KB cannot be had; set RECORD_BUFFER_KB"
}
turn_on() { echo 1 > "$1/events/$2/enable"; } 2> /dev/null

# ---- The record's instance.
record=$tracefs/instances/grub.$$
instance "$record" "${RECORD_BUFFER_KB:-32768}"
for event in sched_switch sched_wakeup sched_wakeup_new sched_migrate_task sched_stat_runtime; do
    turn_on "$record" "sched/$event" || fail "the event sched/$event is not there"
done
for event in hrtimer_start hrtimer_cancel hrtimer_expire_entry; do
    turn_on "$record" "timer/$event" || fail "the event timer/$event is not there"
done
# Steps of CPU hotplug, where the kernel tells of them.
turn_on "$record" cpuhp/cpuhp_enter || :
system_calls='sys_enter_sched_setattr sys_exit_sched_setattr sys_enter_sched_setscheduler sys_exit_sched_setscheduler'
no_calls=
for event in $system_calls; do turn_on "$record" "syscalls/$event" || no_calls=1; done
if [ ! "$all" ]; then
    # A deadline task has priority -1. A kernel that takes no filter records all.
    { echo 'prev_prio == -1 || next_prio == -1' > "$record/events/sched/sched_switch/filter"
      echo 'prio == -1' > "$record/events/sched/sched_migrate_task/filter"; } 2> /dev/null
fi

# ---- The head: what holds at the start.
# The CPUs of the root domain that PROGRAM is in: those of its cpuset partition, or those that no partition has.
domain() {
    top=$(awk '$3 == "cgroup2" { print $2; exit }' /proc/mounts)
    group=$top$(sed -n 's/^0:://p' /proc/self/cgroup)
    while [ "$group" != "$top" ] && ! grep -qs '^root' "$group/cpuset.cpus.partition"; do group=${group%/*}; done
    cat "$group/cpuset.cpus.effective" 2> /dev/null || cat /sys/devices/system/cpu/online
}
# A list of CPUs without those of another one.
without() {
    awk -v all="$1" -v out="$2" '
    function each(text, into,  i, n, parts, ends) {
        n = split(text, parts, ",")
        for (i = 1; i <= n; i++) { split(parts[i] "-" parts[i], ends, "-"); for (c = ends[1]; c <= ends[2] + 0; c++) into[c + 0] = 1 }
    }
    BEGIN {
        each(all, have); each(out, gone)
        for (c = 0; c < 8192; c++) {
            if (!(c in have) || c in gone) continue
            first = c
            while (c + 1 in have && !(c + 1 in gone)) c++
            printf "%s%s", sep, first == c ? c : first "-" c; sep = ","
        }
    }'
}
isolated=$(cat /sys/devices/system/cpu/isolated 2> /dev/null)
domain=$(domain)
# CPUs that isolcpus= keeps apart are in the root domain of no other.
apart=$(without "$domain" "$isolated")
[ ! "$apart" ] || domain=$apart
limits() {
    awk -v runqueue="dl_rq[${domain%%[-,]*}]:" '
        $1 == runqueue { here = 1 }
        here && $1 == ".dl_bw->bw" { printf " max-bw=%s", $3 == -1 ? "18446744073709551615" : $3 }
        here && $1 == ".dl_bw->total_bw" { printf " total-bw=%s", $3; exit }' "$debugfs/sched/debug" 2> /dev/null
}
kinds=
if [ "$probes" ]; then
    if [ -d "$tracefs/events/grub" ]; then
        say "no probes: another recording has set them; if none runs: $kernel_scripts/probes.sh clear"
        probes=
    else
        set=1
        kinds=$("$kernel_scripts/probes.sh" set "$record" "$probes") || [ $? = 1 ] || probes=
    fi
fi
echo "# grub: notes 1 kernel=$(uname -r) domain=$domain$(limits)" 2> /dev/null > "$part" || fail "$out cannot be written"
"$kernel_scripts/probes.sh" sums | while read -r line; do
    cpu=${line#*cpu }
    cpu=${cpu%% *}
    server=$debugfs/sched/fair_server/cpu$cpu
    [ ! -e "$server/runtime" ] || line="$line server=$(cat "$server/runtime")/$(cat "$server/period")"
    echo "$line"
done >> "$part"
# What a reader of the record asks first.
{
    echo "# grub: version $(uname -v)"
    echo "# grub: command $(cat /proc/cmdline)"
    preemption=$(sed -n 's/.*(\(.*\)).*/\1/p' "$debugfs/sched/preempt" 2> /dev/null)
    # Jiffies begin five minutes before they wrap at 2^32.
    hz=$(awk '$1 == "ktime" { at = $3 / 1000 } $1 == "jiffies" { jiffies = $3 } END {
        if (!jiffies) exit
        split("100 250 300 1000", rates, " ")
        for (i in rates) { off = rates[i] * (at - 300) - (jiffies - 4294967296); off = off < 0 ? -off : off; if (!best || off < least) { best = rates[i]; least = off } }
        print best }' "$debugfs/sched/debug" 2> /dev/null)
    echo "# grub: config${hz:+ HZ=$hz}${preemption:+ preemption=$preemption}"
    echo "# grub: isolated $isolated"
    for file in /sys/devices/system/cpu/cpu[0-9]*/cpufreq/scaling_governor; do
        [ -e "$file" ] || continue
        cpu=${file%/cpufreq/*}
        echo "# grub: governor cpu=${cpu##*/cpu} $(cat "$file")"
    done
} >> "$part"
# Processors of different speed: what each can do, in 1024ths of the fastest.
for file in /sys/devices/system/cpu/cpu[0-9]*/cpu_capacity; do
    [ -e "$file" ] || continue
    cpu=${file%/*}
    echo "# grub: capacity cpu=${cpu##*/cpu} of=$(cat "$file")" >> "$part"
done

exits=$tracefs/instances/grub.$$.exits
enters=$tracefs/instances/grub.$$.enters
instance "$exits" 256
instance "$enters" 256
for event in $system_calls; do
    case $event in sys_enter*) turn_on "$enters" "syscalls/$event" ;; *) turn_on "$exits" "syscalls/$event" ;; esac
done
[ ! "$no_calls" ] || say "no events of sched_setattr: the notes have the tasks that are there at the start alone"
echo 1 > "$enters/tracing_on"
"$kernel_scripts/notes.pl" "$exits" "$enters" >> "$part" &
notes=$!
until [ "$(cat "$exits/tracing_on")" = 1 ] || ! kill -0 "$notes" 2> /dev/null; do sleep 0.05; done

# ---- The run. A signal ends PROGRAM, and what was recorded by then is kept.
stopped=
stop() {
    stopped=$1
    [ ! "$program" ] || kill "$program" 2> /dev/null
}
trap 'stop 129' HUP
trap 'stop 130' INT
trap 'stop 143' TERM
echo 1 > "$record/tracing_on" || fail "the record cannot be begun"
exec 3<&0
"$@" <&3 3<&- &
program=$!
[ ! "$stopped" ] || stop "$stopped"
wait "$program"
status=$?
[ ! "$stopped" ] || { wait "$program"; status=$stopped; }
program=
echo 0 > "$record/tracing_on"
trap 'exit 129' HUP
trap 'exit 130' INT
trap 'exit 143' TERM

# ---- The text.
{ echo 'grub: end' > "$exits/trace_marker"; } 2> /dev/null
wait "$notes" || say "the notes of tasks end early: give --task for what they lack"
notes=
lost=$(cat "$record"/per_cpu/cpu*/stats | awk '/^(overrun|commit overrun|dropped events):/ { lost += $NF } END { print lost + 0 }')
missed=$(awk -v names="^($("$kernel_scripts/probes.sh" names))$" '$1 ~ names { missed += $3 } END { print missed + 0 }' "$tracefs/kprobe_profile" 2> /dev/null)
drop=
if [ "$probes" ]; then
    "$kernel_scripts/probes.sh" check < "$record/trace" || { say "no probe lines: their numbers are not those of this kernel"; drop=drop; }
fi
{
    echo "# grub: end$(limits)"
    [ ! "$kinds" ] || [ "$drop" ] || echo "$kinds"
    echo "# grub: lost $lost missed ${missed:-0}"
    # What the kernel itself has warned of since it runs.
    dmesg 2> /dev/null | grep -E '(WARNING|BUG):.*(sched|deadline)|[]] sched: ' | tail -n 10 | sed 's/^/# grub: log /'
    cat "$record/trace"
} | cat 2> /dev/null >> "$part" && "$kernel_scripts/probes.sh" mask $drop < "$part" > "$part.2" && mv -f "$part.2" "$part" && mv -f "$part" "$out" || fail "$out cannot be written"
say "$((lost + ${missed:-0})) events were lost"
[ $((lost + ${missed:-0})) = 0 ] || exit 4
# Where the first moment of a page of the buffer is spoiled, its lines seem to be earlier than those before them.
back=$(awk '!/^#/ && match($0, / [0-9]+[.][0-9]+: /) { at = substr($0, RSTART, RLENGTH) + 0; if (at < last) { print last - at; exit } last = at }' "$out")
[ ! "$back" ] || { say "the kernel's moments go back by $back s, so lines are not in their order: record again"; exit 4; }
exit "$status"
