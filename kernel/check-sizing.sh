#!/usr/bin/env bash
# check-sizing.sh [--out DIR] KERNEL [LOAD..]: closes the loop of `grubtrace size` on KERNEL in qemu, as check-kernel.sh boots it. The
# tasks of a load are recorded under SCHED_FIFO and sized. They run again under the very commands that `size` printed, are recorded,
# and are sized once more. A task of which no job may be late with its runtime is in time where each job ended by its due moment, or by
# no more behind it than its budgets were had after their deadlines.
#   --out DIR   where LOAD.fifo.txt, LOAD.size, LOAD.deadline.txt and LOAD.again are left; the directory of the call where it is not given
# A line for each task. It ends with 0 where all are in time, 4 where one is late, 2 for wrong words, 3 where a tool is missing, and
# 125 where a load could not be recorded. GRUBTRACE is the program that sizes. The guest gets the machine's chrt, and for the load rtapp
# its rt-app (Debian's package rt-app).
set -u
usage() { echo "usage: check-sizing.sh [--out DIR] KERNEL [LOAD..]; loads: $all" >&2; exit 2; }
say() { echo "check-sizing: $*" >&2; }
fail() { say "$*"; exit 3; }

here=$(cd "$(dirname "$0")" && pwd)
check_kernel=${here%/*}/scripts/check-kernel.sh
grubtrace=${GRUBTRACE:-${here%/*}/crates/grubtrace/out/grubtrace}
all='regular bursts mixed rtapp'
out=$PWD
while [[ ${1:-} == -* ]]; do
    case $1 in
    --out) [[ -n ${2:-} ]] || usage; mkdir -p "$2" || fail "$2 cannot be made"; out=$(cd "$2" && pwd); shift ;;
    *) usage ;;
    esac
    shift
done
[[ $# -ge 1 ]] || usage
kernel=$1
shift
loads=${*:-$all}

# The tasks of a load, as dlgen takes them; of rtapp names and periods. Each is sized for its period p=. Those of dlgen begin once they
# have their reservations.
tasks_of() {
    case $1 in
    regular) echo gr_0,q=5000,p=50000,w=20-80,per=1,st=500 gr_1,q=10000,p=40000,w=20-80,per=1,st=500 ;;
    bursts) echo gr_0,q=5000,p=50000,w=20-60,s=60-160,b=4,st=500 gr_1,q=6000,p=60000,w=20-80,s=40-120,st=500 ;;
    mixed) echo gr_0,q=3000,p=30000,w=10-90,per=1,st=500 gr_1,q=10000,p=100000,w=40-60,s=80-120,b=3,st=500 gr_2,q=8000,p=80000,w=5-95,s=70-140,st=500 ;;
    rtapp) echo ra_0,p=50000 ra_1,p=30000 ra_2,p=40000 ;;
    *) return 1 ;;
    esac
}
# The load rtapp, in a class (a loop of rt-app takes some 390 ns in such a guest): a loop of three short jobs and a long one, a job every 30 ms, and jobs with sleeps between them.
rtapp() {
    cat << END
{ "global": { "duration": 4, "calibration": 400, "default_policy": "$1", "logdir": "/tmp", "ftrace": false },
  "tasks": {
    "ra_0": { "loop": -1, "phases": {
        "short": { "loop": 3, "run": 3000, "timer": { "ref": "ra_0", "period": 50000 } },
        "long": { "loop": 1, "run": 8000, "timer": { "ref": "ra_0", "period": 50000 } } } },
    "ra_1": { "loop": -1, "run": 4000, "timer": { "ref": "ra_1", "period": 30000 } },
    "ra_2": { "loop": -1, "phases": {
        "few": { "loop": 2, "run": 2000, "sleep": 15000 },
        "more": { "loop": 1, "run": 6000, "sleep": 40000 } } } } }
END
}
# The command that runs a load in the guest, in a class.
program() {
    if [[ $1 == rtapp ]]; then
        [[ $2 == fifo ]] && echo rt-app /tmp/fifo.json || echo rt-app /tmp/fair.json
    else
        echo "dlgen 4.5 107$(for task in $(tasks_of "$1"); do printf ' %s' "$task,$2=1"; done)"
    fi
}
for load in $loads; do tasks_of "$load" > /dev/null || { say "there is no load $load"; exit 2; }; done
command -v chrt > /dev/null || fail "there is no chrt; it is of the package util-linux"
tools=chrt
case " $loads " in *' rtapp '*)
    command -v rt-app > /dev/null || fail "there is no rt-app; it is of the package rt-app, and the load rtapp wants it"
    tools='chrt rt-app' ;;
esac
command -v "$grubtrace" > /dev/null || fail "there is no $grubtrace; 'make tracer' makes it"
name_of() { echo "${1%%,*}"; }
period_of() { local it=${1#*,p=}; echo "${it%%,*}"; }
work=$(mktemp -d "${TMPDIR:-/tmp}/check-sizing.XXXXXX")
trap 'rm -rf "$work"' EXIT
trap 'exit 130' HUP INT TERM

# told SCRIPT KIND: runs a script in the guest, and unpacks each record that it tells to $out/LOAD.KIND.txt.
told() {
    "$check_kernel" --run "$1" "$kernel" > "$work/told" || exit
    for load in $loads; do
        sed -n "/^--- record $load\$/,/^--- end/p" "$work/told" | grep -v '^---' | base64 -d | gzip -d > "$out/$load.$2.txt"
        [[ -s $out/$load.$2.txt ]] || { say "$load could not be recorded: $(grep -m 1 '^record:' "$work/told")"; exit 125; }
    done
}
# Shell for the guest: the record of a program is told under the name of its load.
pid_of='pid_of() { for it in /proc/[0-9]*/task/*; do read -r comm 2> /dev/null < $it/comm; [ "$comm" != "$1" ] || { echo "${it##*/}"; return; }; done; }'
{
    echo 'PATH=/bin:/usr/bin'
    echo 'tell() { load=$1; shift; /scripts/record.sh --all /tmp/record "$@" 2> /tmp/said || cat /tmp/said'
    echo '    echo "--- record $load"; gzip -1 < /tmp/record | base64; echo "--- end"; rm -f /tmp/record; sleep 1; }'
    echo "base64 -d << 'END' | gzip -d | tar -x -C / -f -"
    for tool in $tools; do
        command -v "$tool"
        ldd "$(command -v "$tool")" | grep -o '/[^ ]*'
    done | sort -u | sed 's,^/,,' | tar -C / -chf - -T - | gzip -1 | base64
    echo END
    for class in fifo:SCHED_FIFO fair:SCHED_OTHER; do
        echo "cat > /tmp/${class%:*}.json << 'END'"
        rtapp "${class#*:}"
        echo END
    done
} > "$work/head"

# ---- Under SCHED_FIFO.
cp "$work/head" "$work/fifo.sh"
for load in $loads; do
    echo "tell $load $(program "$load" fifo)" >> "$work/fifo.sh"
done
told "$work/fifo.sh" fifo

# ---- Each load is sized, and runs under the commands.
cp "$work/head" "$work/deadline.sh"
for load in $loads; do
    words=()
    for task in $(tasks_of "$load"); do words+=(--task "$(name_of "$task")=$(period_of "$task")"); done
    "$grubtrace" size --cpus 1 "${words[@]}" "$out/$load.fifo.txt" > "$out/$load.size" || fail "$load cannot be sized"
    mapfile -t commands < <(grep -o 'chrt -d .*' "$out/$load.size")
    {
        echo "cat > /tmp/$load << 'END'"
        echo "$pid_of"
        echo "$(program "$load" fair) &"
        echo 'sleep 0.2'
        place=0
        for task in $(tasks_of "$load"); do
            [[ -z ${commands[place]:-} ]] || echo "/usr/bin/${commands[place]}" | sed "s/[0-9]*\$/\$(pid_of $(name_of "$task"))/"
            place=$((place + 1))
        done
        echo wait
        echo END
        echo "tell $load sh /tmp/$load"
    } >> "$work/deadline.sh"
done
told "$work/deadline.sh" deadline

# ---- What became of the jobs. A supply of 1.2 ms is at most 1300 us.
status=0
for load in $loads; do
    words=()
    mapfile -t commands < <(grep -o 'chrt -d .*' "$out/$load.size")
    place=0
    for task in $(tasks_of "$load"); do
        runtime=$(sed -n 's/.* -T \([0-9]*\)000 .*/\1/p' <<< "${commands[place]:-}")
        words+=(--task "$(name_of "$task")=${runtime:-2}:$(period_of "$task")")
        place=$((place + 1))
    done
    "$grubtrace" size --cpus 1 "${words[@]}" "$out/$load.deadline.txt" > "$out/$load.again" || fail "$load cannot be sized again"
    awk -v load="$load" '
        /^supply: / {
            for (i = 2; i <= NF; i++) {
                if ($i == "us") late = $(i - 1) + 1
                if ($i == "ms") late = ($(i - 1) + 0.1) * 1000
                if ($i == "s") late = ($(i - 1) + 0.1) * 1000000
            }
            supply = $0
        }
        $1 == "task" && $3 ~ /^pid=/ { n++; name[n] = $2; jobs[n] = $4 }
        $1 == "ran" { ran[n] = $NF }
        $1 == "done" && $2 == "after" { done[n] = $NF }
        $1 == "each" { within[n] = $8 }
        / given/ { given[n] = $1; may[n] = $3 }
        END {
            bad = n == 0
            for (i = 1; i <= n; i++) {
                fits = may[i] == 0
                in_time = done[i] <= within[i] + late
                printf "%-8s %s: %d jobs, ran at most %d us of %d, done after at most %d us of %d: %s\n", load, name[i], jobs[i], ran[i], \
                    given[i], done[i], within[i], !fits ? may[i] " may be late" : in_time ? "in time" : "late"
                if (fits && !in_time) bad = 1
            }
            if (supply != "") printf "%-8s %s\n", load, supply
            exit bad ? 4 : 0
        }' "$out/$load.again" || status=4
done
exit $status
