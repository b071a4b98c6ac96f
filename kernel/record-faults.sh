#!/bin/sh
# Runs record.sh in each way in which it can end, as root, and sees that it says why, has the right status, and leaves nothing behind:
# no tracefs instance, no event, no mount, no process, no half-written file. Its last line is 'N passed, M failed'.
# On a kernel that can be probed: scripts/check-kernel.sh --run kernel/record-faults.sh KERNEL
set -u
record=$(cd "$(dirname "$0")/.." && pwd)/scripts/record.sh
[ -f "$record" ] || record=/scripts/record.sh
work=$(mktemp -d)
tracefs=$work/tracefs
mkdir "$tracefs" "$work/small" "$work/temporary"
trap 'umount "$work/small" "$tracefs" 2> /dev/null; rm -rf "$work"' EXIT
passed=0 failed=0

mounts() { grep -E ' (tracefs|debugfs) ' /proc/mounts; }
mounts > "$work/mounts"
left() {
    mount -t tracefs tracefs "$tracefs"
    ls -d "$tracefs"/instances/grub* "$tracefs"/events/grub* "$work"/*.part "$work"/small/* "$work"/temporary/* 2> /dev/null
    umount "$tracefs"
    mounts | diff "$work/mounts" -
    ps | grep -E '[n]otes\.pl|[p]robes\.sh'
}
# expect NAME STATUS GOT TEXT: the status, words of what it said, and that nothing is left.
expect() {
    behind=$(left)
    if [ "$3" = "$2" ] && { [ ! "$4" ] || grep -q "$4" "$work/said"; } && [ ! "$behind" ]; then
        passed=$((passed + 1))
    else
        failed=$((failed + 1))
        echo "record-faults: $1: status $3, wanted $2; said: $(cat "$work/said"); left: $behind"
    fi
}
run() {
    name=$1 status=$2 text=$3
    shift 3
    TMPDIR=$work/temporary "$record" "$@" 2> "$work/said"
    expect "$name" "$status" $? "$text"
}
# signal NAME SIGNAL STATUS FILE: a signal once the program runs (FILE: with a record) or before.
signal() {
    rm -f "$work/runs" "$work/out"
    TMPDIR=$work/temporary "$record" "$work/out" sh -c "echo > $work/runs; exec sleep 60" 2> "$work/said" &
    recorder=$!
    if [ "$4" ]; then until [ -e "$work/runs" ]; do sleep 0.1; done; else sleep 0.1; fi
    kill "-$2" "$recorder"
    wait "$recorder"
    expect "$1" "$3" $? ''
    if [ "$4" ] && ! [ -s "$work/out" ]; then failed=$((failed + 1)); echo "record-faults: $1: no record"; fi
}

run 'it ends' 0 '^record: 0 events were lost' "$work/out" true
run 'the status of the program' 9 'lost' "$work/out" sh -c 'exit 9'
run 'few probes' 0 'lost' --few "$work/out" true
run 'no probes' 0 'lost' --no-probes "$work/out" true
run 'all tasks' 0 'lost' --all "$work/out" true
run 'no words' 2 '^usage: '
run 'an unknown option' 2 '^usage: ' --other "$work/out" true
run 'no program' 2 '^usage: ' "$work/out"
run 'a program that is not there' 3 'there is no program nosuch' "$work/out" nosuch
run 'a directory that is not there' 3 'cannot be written' "$work/none/out" true
run 'no file' 3 'is no file' /dev/null true
RECORD_BUFFER_KB=999999999 run 'a buffer that cannot be had' 3 'RECORD_BUFFER_KB' "$work/out" true
sleeps='for i in 1 2 3 4 5 6 7 8 9; do sleep 0.01; done'
RECORD_BUFFER_KB=4 run 'events are lost' 4 '[1-9].* events were lost' "$work/out" sh -c "$sleeps"
grep -qE '^# grub: lost [1-9]' "$work/out" || { failed=$((failed + 1)); echo "record-faults: the record does not tell of lost events"; }
probes=${record%/*}/../kernel/probes.sh
mount -t tracefs tracefs "$tracefs"
mkdir "$tracefs/instances/others"
if TRACEFS=$tracefs "$probes" set "$tracefs/instances/others" few > /dev/null 2>&1; then
    "$record" "$work/out" true 2> "$work/said"
    status=$?
    TRACEFS=$tracefs "$probes" clear
else
    status=
fi
rmdir "$tracefs/instances/others"
umount "$tracefs"
[ ! "$status" ] || expect 'the probes of another recording' 0 $status 'another recording has set them'
signal 'a signal before the program' TERM 143 ''
for pair in HUP:129 TERM:143; do signal "a signal ${pair%:*}" "${pair%:*}" "${pair#*:}" record; done
mount -t tmpfs -o size=4k tmpfs "$work/small"
run 'a disk that is too small' 3 'cannot be written' "$work/small/out" sh -c "$sleeps; $sleeps; $sleeps; $sleeps; $sleeps; $sleeps; $sleeps; $sleeps"
umount "$work/small"
echo "$passed passed, $failed failed"
[ "$failed" = 0 ]
