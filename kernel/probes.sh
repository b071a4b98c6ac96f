#!/bin/sh
# The probe events of a record (probes.txt), in the tracefs group grub. It needs root, awk and perl.
#   probes.sh set INSTANCE [few]  makes the events and enables them in that tracefs instance; few: upd and enq alone. A line tells
#                                 the kind of each. Ends with 0; with 1 where only upd and enq can be had; with 2 where none can
#   probes.sh check < TRACE       are the first lines of sense? A kernel does not refuse a wrong offset: it reads some number
#   probes.sh clear               removes the events
#   probes.sh sums                a note a CPU: the sums of its runqueue and its root domain, by an event that is there for a moment
#   probes.sh names               the names of all events, with | between them
#   probes.sh mask [drop] < TRACE puts numbers for the kernel's addresses; drop: leaves the probe lines out
# TRACEFS is where tracefs is mounted, BTF the kernel's type information.
export LC_ALL=C
here=$(cd "$(dirname "$0")" && pwd)
tracefs=${TRACEFS:-/sys/kernel/tracing}
btf=${BTF:-/sys/kernel/btf/vmlinux}
events=$tracefs/events
# What some kernels do not have: servers, and functions that change sums by no rule of a task.
optional='ede|pck|dls|idl|pid|att|reb|lim|sap|bwa|bwf|aff|onl|off'

# The definitions of probes.txt (or standard input), one a line: NAME FUNCTION FIELD=EXPRESSION ..
definitions() {
    awk '
    function told(  i, n, parts) {
        if (!match(line, /[^ ]*[|][^ ]*/)) { if (line != "") print line; return }
        head = substr(line, 1, RSTART - 1); tail = substr(line, RSTART + RLENGTH)
        n = split(substr(line, RSTART, RLENGTH), parts, "|")
        field = substr(parts[1], 1, index(parts[1], "="))
        for (i = 1; i <= n; i++) print head (i == 1 ? parts[1] : parts[i] == "" ? "" : field parts[i]) tail
    }
    /^#/ || /^ *$/ || /^ +if / { next }
    /^ / { $1 = $1; line = line " " $0; next }
    { told(); line = $0 }
    END { told() }' "$@"
}
filters() { awk '/^[a-z]/ { name = $1 } /^ +if / { sub(/^ +if /, ""); if (!(name in seen)) print name, $0; seen[name] = 1 }' "$here/probes.txt"; }

put() { echo "$1" >> "$tracefs/dynamic_events" 2> /dev/null; }
# Makes the events that $work/wanted defines, in group $1, and prints NAME KIND of each: as fprobes, which find arguments and
# members by name, else as kprobes and events on top of events.
make() {
    if grep -q '<argname>' "$tracefs/README" 2> /dev/null; then
        while read -r name function fields; do
            [ -d "$events/$1/$name" ] && continue
            put "f:$1/$name ${function#!} $fields" && echo "$name fprobe"
        done < "$work/wanted"
    fi
    for name in $(cut -d' ' -f1 "$work/wanted"); do [ -d "$events/$1/$name" ] || break; name=; done
    [ "$name" ] && [ -e "$tracefs/kprobe_events" ] || return 0
    "$here/btf.pl" "$btf" "$1" < "$work/wanted" | while read -r name event; do
        [ -d "$events/$1/$name" ] || [ "$event" = - ] && continue
        put "$event" && case $event in e:*) echo "$name eprobe" ;; *) echo "$name kprobe" ;; esac
    done
}
remove() {
    for event in "$events/$1"/*/; do [ -d "$event" ] && put "-:$1/$(basename "$event")"; done
    [ ! -d "$events/$1" ]
}
cannot() { echo "no probes: $*" >&2; exit 2; }

set_probes() {
    instance=$1
    [ -e "$btf" ] || cannot "this kernel has no type information ($btf)"
    [ -e "$tracefs/dynamic_events" ] || cannot "this kernel has no dynamic events, or is locked down"
    [ -d "$events/grub" ] && cannot "another recording has set them; if none runs: $0 clear"
    definitions "$here/probes.txt" | "$here/btf.pl" "$btf" | { [ "$2" = few ] && grep -E '^(upd|enq) ' || cat; } > "$work/wanted"
    make grub > "$work/kinds"
    missing=
    for name in $(cut -d' ' -f1 "$work/wanted" | sort -u | grep -vE "^($optional)$"); do
        [ -d "$events/grub/$name" ] || missing="$missing $name"
    done
    case $missing in
    *upd* | *enq*)
        [ -s "$work/kinds" ] || cannot "this kernel takes neither fprobes nor kprobes"
        remove grub
        cannot "this kernel does not take$missing" ;;
    ?*)
        for name in $(cut -d' ' -f1 "$work/kinds" | grep -vE '^(upd|enq)$'); do put "-:grub/$name"; done
        echo "only the probes upd and enq: the kernel does not take$missing" >&2 ;;
    esac
    filters | while read -r name filter; do
        grep -q "${filter%% *};" "$events/grub/$name/format" 2> /dev/null && echo "$filter" > "$instance/events/grub/$name/filter"
    done
    echo "# grub: probes$(sort "$work/kinds" | while read -r name kind; do [ -d "$events/grub/$name" ] && printf ' %s=%s' "$name" "$kind"; done)"
    echo 1 > "$instance/events/grub/enable"
    [ ! "$missing" ]
}

check() {
    grep -E ' (upd|enq): \(' | head -n 400 | tr '=' ' ' | awk -v cpus="$(grep -c '^processor' /proc/cpuinfo)" '
    {
        line_cpu = -1; split("", f)
        for (i = 1; i < NF; i++) { if ($i ~ /^\[[0-9]+\]$/) line_cpu = substr($i, 2) + 0; f[$i] = $(i + 1) }
        if (f["cpu"] != line_cpu) elsewhere++
        sums = f["cpu"] < cpus && f["th"] + 0 <= 64 * 1048576
        flags = f["thr"] <= 1 && f["yld"] <= 1
        ratio = !("ra" in f) || f["ra"] >= 256 && f["ra"] <= 65536
        task = !("rt" in f) || f["rt"] + 0 <= f["dl"] + 0 && f["dl"] + 0 <= f["pe"] + 0 && f["oq"] <= 2
        if (!(sums && flags && ratio && task)) wrong++
    }
    END { if (wrong || elsewhere > NR / 2) { print "of " NR " probe lines " wrong + 0 " have no sense" > "/dev/stderr"; exit 1 } }'
}

clear_probes() {
    [ -d "$events" ] || mount -t tracefs tracefs "$tracefs"
    for on in "$events/grub" "$tracefs"/instances/*/events/grub; do [ -d "$on" ] && echo 0 > "$on/enable"; done
    remove grub
}

sums() {
    instance=$tracefs/instances/grubsums.$$
    trap 'end_of_sums; rm -rf "$work"' EXIT
    trap 'exit 1' HUP INT TERM
    echo 'sum enqueue_task_fair cpu=rq->cpu this=rq->dl.this_bw running=rq->dl.running_bw extra=rq->dl.extra_bw rd=rq->rd:x64' > "$work/wanted"
    make grubsums > /dev/null
    [ -d "$events/grubsums" ] || return 0
    mkdir "$instance" && echo 1 > "$instance/events/grubsums/enable"
    # It wakes a thread of the kernel on each processor, also where this script may not run.
    cat /proc/sys/vm/stat_refresh > /dev/null 2>&1
    for cpu in $(sed -n 's/^processor.*: *//p' /proc/cpuinfo); do
        taskset -c "$cpu" true 2> /dev/null
        sed -n "s/.* sum: .* cpu=$cpu this=\(.*\)/# grub: cpu $cpu this=\1/p" "$instance/trace" | tail -n 1
    done
}
end_of_sums() {
    [ ! -d "$instance" ] || { echo 0 > "$instance/events/grubsums/enable"; rmdir "$instance"; }
    remove grubsums
}

mask() {
    awk -v drop="$1" -v lines=" (enq|upd|deq|mig|sfr|adm|ina|dlt|hst|$optional): [(]" '
    $0 ~ lines {
        if (drop) next
        hide("timer="); hide("se="); hide("ps="); hide("rd=")
    }
    /^# grub: cpu / { hide("rd=") }
    / hrtimer=(0x)?ff/ { hide("hrtimer=") }
    { print }
    function hide(field,  address) {
        if (!match($0, " " field "[^ ]*")) return
        address = substr($0, RSTART + length(field) + 1, RLENGTH - length(field) - 1); sub(/^0x/, "", address)
        if (!(address in number)) number[address] = ++numbers
        $0 = substr($0, 1, RSTART) field number[address] substr($0, RSTART + RLENGTH)
    }'
}

work=$(mktemp -d) || exit 2
trap 'rm -rf "$work"' EXIT
case ${1-} in
set) set_probes "$2" "${3-}" ;;
check) check ;;
clear) clear_probes ;;
sums) sums ;;
mask) mask "${2-}" ;;
names) echo "enq|upd|deq|mig|sfr|adm|ina|dlt|hst|$optional" ;;
*) sed -n '2,11s/^# *//p' "$0" >&2; exit 2 ;;
esac
