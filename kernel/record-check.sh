#!/usr/bin/env bash
# Records a load of four SCHED_DEADLINE tasks on this machine and checks the record with grubtrace, which has to be built (GRUBTRACE may
# name another one). Where the machine does not let it, it says why, and ends with 0. A record with which something is wrong is left in
# the directory for temporary files.
set -u
root=$(cd "$(dirname "$0")/.." && pwd)
grubtrace=${GRUBTRACE:-$root/crates/grubtrace/out/grubtrace}
work=$(mktemp -d)
trap 'rm -rf "$work"' EXIT
cannot() { echo "record-check: it cannot be done here: $*"; exit 0; }
fail() {
    local left=${TMPDIR:-/tmp}/record-check.$$.txt
    echo "record-check: $*"
    [[ ! -f $work/trace.txt ]] || { mv "$work/trace.txt" "$left" && echo "record-check: the record is $left"; }
    exit 1
}

[[ $(id -u) == 0 ]] || cannot "it has to be run as root"
command -v cc > /dev/null || cannot "there is no C compiler"
cc -O2 -o "$work/dlgen" "$root/kernel/dlgen.c" -lpthread || fail "the load cannot be compiled"
# The last one is changed by another task.
tasks='gr_0,q=5000,p=50000 gr_1,q=10000,p=40000,en=900 gr_2,q=3000,p=30000,r=0,st=300 gr_3,q=2000,p=40000,xc=700:3000:60000:60000:1'
"$root/scripts/record.sh" "$work/trace.txt" "$work/dlgen" 1.5 1 $tasks 2> "$work/said"
status=$?
cat "$work/said"
[[ $status != 3 ]] || cannot "$(tail -n 1 "$work/said")"
[[ $status != 77 ]] || cannot "the kernel gives root no SCHED_DEADLINE task"
[[ $status == 0 ]] || fail "the record ended with status $status"

grep -qE '^# grub: task .* runtime=3000000 deadline=60000000 period=60000000 .*comm=gr_3$' "$work/trace.txt" \
    || fail "there is no note of a change that another task made"
$grubtrace tasks "$work/trace.txt" || fail "the trace was not read"
$grubtrace check "$work/trace.txt"
status=$?
case $status in
0) echo "record-check: recorded, and this kernel accounts by the rules" ;;
4) fail "recorded, and this kernel differs from the rules" ;;
5) fail "recorded, and this kernel breaks a law" ;;
*) fail "the check ended with status $status" ;;
esac
