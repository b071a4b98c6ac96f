#!/usr/bin/env bash
# check-kernel.sh [--arch ARCH] [--cpus N] [--virtual] [--ktap] [--out DIR] [--random SEEDS [--with EVENTS]] [--loads FILE] [--run FILE]
# KERNEL [LOAD..]: boots KERNEL in qemu, records loads of SCHED_DEADLINE tasks there (kernel/loads.tsv), and checks the records with
# grubtrace. KERNEL is a bzImage (arm64: an Image), or the name of a Debian package.
#   --arch ARCH amd64 or arm64. arm64 takes the guest's programs from Debian's packages too, and installs none of them: it wants
#               'dpkg --add-architecture arm64; apt-get update'
#   --cpus N    N processors, in the host's time, so that lines lag where the host is busy. Without: one, in virtual time
#   --virtual   the N processors in virtual time, one after the other (6.12 boots so; 6.1 does not start its second processor)
#   --random SEEDS  in place of the loads those that kernel/randload.py makes of these seeds: 7, 1-10, 1,2,40-50. A seed is the same load
#               everywhere. Each has a boot of its own, so one processor makes the same record again, byte for byte
#   --with EVENTS   these loads with events of the system: some of hotplug, partition, server, limit, with commas between them
#   --loads FILE    loads of FILE, in the form of kernel/loads.tsv
#   --ktap      prints KTAP: a test a load
#   --run FILE  runs the shell script FILE in the guest in place of loads, and prints what it says; it finds these scripts in /scripts
#   --out DIR   where LOAD.txt (the record), LOAD.verdict, and LOAD.said (what stands against it beside) are left; the directory of the
#               call where it is not given. The head of a record names the command that makes it again, and the words of the load
# The kernel, and a line a load; below a load that something stands against what it is, and the command that makes it again
# (kernel/verdicts.py). It ends with 0 where nothing stands against any, 4 where one differs, a task was stuck, the kernel warned or sums
# are left behind, 5 where a law is broken by no known fault, 1 where one has a fault, 2 for wrong words, 3 where a tool is missing, and
# 125 where a load could not be recorded: so `git bisect run` takes a kernel that does not boot for one to skip.
# GRUBTRACE is the program that checks, SECONDS_A_BOOT how long a boot may take (of a busy host more than 300 and 60 a load),
# SECONDS_AFTER_OOPS how long it may go on after the kernel's oops (60), APPEND words for the kernel. With KEEP_CONSOLE=1 the last boot's
# console is left in DIR. It needs Debian's packages qemu-system-x86 busybox-static gcc libc6-dev cpio python3; for arm64
# qemu-system-arm gcc-aarch64-linux-gnu libc6-dev-arm64-cross cpio python3.
set -u
usage() {
    echo "usage: check-kernel.sh [--arch amd64|arm64] [--cpus N] [--virtual] [--ktap] [--out DIR]"
    echo "           [--random SEEDS [--with hotplug,partition,server,limit] | --loads FILE | --run FILE] KERNEL [LOAD..]"
    echo "loads of one processor: $(names 1)"
    echo "loads of four (--cpus 4): $(names 4)"
    exit 2
} >&2
say() { echo "check-kernel: $*" >&2; }
fail() { say "$*"; exit 3; }

scripts=$(cd "$(dirname "$0")" && pwd)
kernel_scripts=$scripts/../kernel
all_loads=$kernel_scripts/loads.tsv
names() { awk -F'\t' -v cpus="$1" '$2 == cpus && !/^(#|warm)/ { printf "%s%s", sep, $1; sep = " " }' "$all_loads"; }
grubtrace=${GRUBTRACE:-${scripts%/*}/crates/grubtrace/out/grubtrace}
loads='four come noflag overr constr yield change outer other back pi burst mig6 high all'
arch=amd64 cpus=1 virtual= out=$PWD run= ktap= random= events= given=
while [[ ${1:-} == -* ]]; do
    case $1 in
    --arch) [[ ${2:-} == amd64 || ${2:-} == arm64 ]] || usage; arch=$2; shift ;;
    --cpus) [[ ${2:-} =~ ^[1-9][0-9]?$ ]] || usage; cpus=$2; shift ;;
    --virtual) virtual=1 ;;
    --ktap) ktap=--ktap ;;
    --random) [[ -n ${2:-} ]] || usage; random=$2; shift ;;
    --with) [[ -n ${2:-} ]] || usage; events=$2; shift ;;
    --loads) [[ -f ${2:-} ]] || { say "there is no file ${2:-}"; exit 2; }; given=$2; shift ;;
    --run) [[ -f ${2:-} ]] || { say "there is no file ${2:-}"; exit 2; }; run=$2; shift ;;
    --out) [[ -n ${2:-} ]] || usage; mkdir -p "$2" || fail "$2 cannot be made"; out=$(cd "$2" && pwd); shift ;;
    *) usage ;;
    esac
    shift
done
[[ $# -ge 1 ]] || usage
kernel=$1
shift
asked=$kernel
[[ -z $events || -n $random ]] || { say "--with wants --random"; exit 2; }
[[ -z $random || -z $given ]] || { say "--random and --loads are not given together"; exit 2; }
command -v python3 > /dev/null || fail "there is no python3"

work=$(mktemp -d "${TMPDIR:-/tmp}/check-kernel.XXXXXX")
runs=
trap '[[ -z $runs ]] || kill "$runs" 2> /dev/null; rm -rf "$work"' EXIT
trap 'exit 130' HUP INT TERM
if [[ -n $random$given ]]; then
    if [[ -n $random ]]; then
        [[ $# == 0 ]] || { say "--random has no load $1"; exit 2; }
        "$kernel_scripts/randload.py" --cpus "$cpus" --with "$events" "$random" > "$work/loads.tsv" || exit 2
    else
        grep -vE '^(#|warm|$)' "$given" > "$work/loads.tsv"
        wrong=$(awk -F'\t' 'NF != 5 || $1 !~ /^[A-Za-z0-9_.-]+$/ || $2$3 !~ /^[0-9]+$/ || $4 + 0 <= 0 || $1 in seen { print $1; exit } { seen[$1] }' \
            "$work/loads.tsv")
        [[ -z $wrong && -s $work/loads.tsv ]] || { say "$given: ${wrong:-there} is no line of name, processors, loops, seconds, words"; exit 2; }
    fi
    loads=$(cut -f1 "$work/loads.tsv")
    grep '^warm' "$all_loads" >> "$work/loads.tsv"
    all_loads=$work/loads.tsv
fi
line_of() { awk -F'\t' -v name="$1" '$1 == name' "$all_loads"; }
fits() { [[ $(line_of "$1" | cut -f2) -le $cpus ]]; }
if [[ $# -gt 0 ]]; then
    loads=$*
    for load in $loads; do
        [[ -n $(line_of "$load") ]] || { say "there is no load $load"; exit 2; }
        fits "$load" || { say "the load $load wants --cpus $(line_of "$load" | cut -f2)"; exit 2; }
    done
else
    loads=$(for load in $loads; do fits "$load" && echo "$load"; done)
    [[ -n $loads ]] || { say "no load of ${given##*/} is one of --cpus $cpus"; exit 2; }
fi
case $arch in
amd64) qemu=(qemu-system-x86_64 -cpu 'max,-rdrand,-rdseed') cc=gcc tools='busybox perl' needed='qemu-system-x86 busybox-static gcc libc6-dev cpio' ;;
arm64)
    qemu=(qemu-system-aarch64 -M 'virt,gic-version=3' -cpu cortex-a72) cc=aarch64-linux-gnu-gcc tools=''
    needed='qemu-system-arm gcc-aarch64-linux-gnu libc6-dev-arm64-cross cpio' ;;
esac
for tool in "${qemu[0]}" $cc cpio $tools; do
    command -v "$tool" > /dev/null || fail "there is no $tool; needed are $needed"
done
[[ -n $run ]] || command -v ${grubtrace%% *} > /dev/null || fail "there is no $grubtrace; 'make tracer' makes it"

# unpacked PACKAGE..: Debian's packages of that architecture, below $work/package.
unpacked() {
    (cd "$work" && apt-get download -qq "${@/%/:$arch}" 2> said && for deb in *.deb; do dpkg-deb -x "$deb" package; rm "$deb"; done)
}
if [[ ! -f $kernel ]]; then
    unpacked "$kernel" || { say "$kernel is neither a file nor a package of Debian: $(grep -m 1 '^E:' "$work/said")"; exit 2; }
    kernel=$(ls "$work"/package/boot/vmlinuz-*)
fi

# The guest's files: busybox, the recorder with what it runs on, the load generator.
guest=$work/guest
mkdir -p "$guest"/{bin,proc,sys,dev,tmp,scripts,kernel}
cp "$scripts/record.sh" "$guest/scripts/"
cp "$kernel_scripts"/{btf.pl,notes.pl,probes.sh,probes.txt} "$guest/kernel/"
[[ -z $run ]] || cp -r "$kernel_scripts"/{finds,record-faults.sh} "$guest/kernel/"
cp "$kernel_scripts/init.sh" "$guest/init"
$cc -O2 -static -o "$guest/bin/dlgen" "$kernel_scripts/dlgen.c" -lpthread || fail "the load generator cannot be compiled"
if [[ $arch == amd64 ]]; then
    cp "$(command -v busybox)" "$guest/bin/busybox"
    perl=$(perl -Mstrict -Mwarnings -e 'print "$_\n" for $^X, @INC{"strict.pm", "warnings.pm"}')
    files="$perl $(ldd ${perl%%$'\n'*} | grep -o '/[^ ]*')"
    from=
else
    unpacked busybox-static perl-base libc6 libcrypt1 \
        || fail "the guest's packages of $arch cannot be had: $(grep -m 1 '^E:' "$work/said")"
    from=$work/package
    cp "$from/bin/busybox" "$guest/bin/busybox"
    perl=/usr/bin/perl
    files=$(cd "$from" && ls -d usr/bin/perl usr/lib/*/perl-base/{strict,warnings}.pm lib/ld-linux-*.so.1 lib/*/lib{c.so.6,m.so.6,crypt.so.1} \
        | sed 's,^,/,')
fi
mkdir -p "$guest/usr/bin"
[[ ${perl%%$'\n'*} == /usr/bin/perl ]] || ln -s "${perl%%$'\n'*}" "$guest/usr/bin/perl"
for file in $files; do
    mkdir -p "$guest${file%/*}"
    cp -L --remove-destination "$from$file" "$guest$file"
done

# In virtual time the same words make the same record, byte for byte: so no random numbers, dates and orders of the host.
steady=(-rtc 'base=2026-01-01,clock=vm' -seed 107)
if [[ $cpus == 1 ]]; then machine=(-accel tcg -icount 'shift=1,sleep=off' "${steady[@]}")
elif [[ -n $virtual ]]; then machine=(-accel 'tcg,thread=single' -icount 'shift=2,sleep=off' "${steady[@]}")
else machine=(-accel 'tcg,thread=multi'); fi
# The console, and the line for the records: arm64's board has one line, and the other one is on its PCI bus.
if [[ $arch == amd64 ]]; then
    lines=(-serial "file:$work/console" -serial "file:$work/records") words='console=ttyS0 records=ttyS1 tsc=reliable'
else
    lines=(-serial "file:$work/console" -chardev "file,id=records,path=$work/records" -device pci-serial,chardev=records)
    words='console=ttyAMA0 records=ttyS0'
fi
# In host time the first load pays for the translation of code that is run for the first time.
[[ $cpus -gt 1 && -z $virtual ]] && warm='warm warm2' || warm=

# boot TRIED LOAD..: boots once. So many boots of these loads have ended before: in virtual time another one would end in the same way,
# so it begins a little later. A kernel that has an oops may hang: it has a minute more.
boot() {
    local again=${1#0} seconds after=${SECONDS_AFTER_OOPS:-60} said
    shift
    say "boot $boots${1:+: $*}"
    find "$guest" -exec touch -hd @0 {} +
    (cd "$guest" && find . | LC_ALL=C sort | cpio -o -H newc --quiet --reproducible | gzip -1n) > "$work/initramfs"
    slow=
    seconds=${SECONDS_A_BOOT:-$((300 + 60 * $#))}
    : > "$work/console"
    : > "$work/records"
    timeout "$seconds" "${qemu[@]}" "${machine[@]}" -smp "$cpus" -m 1024 -no-reboot \
        -display none -monitor none "${lines[@]}" \
        -kernel "$kernel" -initrd "$work/initramfs" -append "$words quiet panic=-1 noirqdebug nokaslr norandmaps ${again:+again=$again }${APPEND:-}" \
        < /dev/null 2> "$work/said" &
    runs=$!
    while sleep 0.2 && kill -0 "$runs" 2> /dev/null; do
        [[ $after != 0 ]] || kill "$runs"
        ! grep -qaE 'Oops:|kernel BUG' "$work/console" || { sleep 0.8; after=$((after - 1)); }
    done
    wait "$runs" || {
        [[ $? != 124 ]] || slow="it took more than $seconds s (SECONDS_A_BOOT)"
        said=${slow:-$(head -n 1 "$work/said")}
        say "qemu: ${said:-it was ended after an oops}"
    }
    runs=
    [[ -z ${KEEP_CONSOLE:-} ]] || cp "$work/console" "$out/console"
    tr -d '\r' < "$work/records" > "$work/told"
}
died() { grep -aE 'Oops|BUG|panic|=== bandwidth left behind' "$work/console" | head -n 2 | tr '\r\n' '  ' | grep . || echo "$slow"; }
# Under emulation about one boot in ten dies, so it is repeated.
if [[ -n $run ]]; then
    cp "$run" "$guest/run.sh"
    for boots in $(seq "${BOOTS:-6}"); do
        boot $((boots - 1)) "${run##*/}"
        grep -q '^=== END' "$work/told" && break
        say "boot $boots ended before the script: $(died)"
    done
    grep -v '^=== END' "$work/told"
    grep -q '^=== END' "$work/told" || exit 125
    exit 0
fi

# The command that makes a record again.
command_of() {
    local line=scripts/check-kernel.sh
    [[ $arch == amd64 ]] || line+=" --arch $arch"
    [[ $cpus == 1 ]] || line+=" --cpus $cpus${virtual:+ --virtual}"
    if [[ -n $random ]]; then
        local seed=${1#r}
        echo "$line --random ${seed%%[!0-9]*}${events:+ --with $events} $asked"
    else
        echo "$line${given:+ --loads $given} $asked $1"
    fi
}
# What spoiled the record of a load, for which record.sh ends with 4: the last that it said.
spoiled() { ! grep -q "^=== LOAD $1 4\$" "$work/told" || sed -n "s/^=== SAID $1 record: //p" "$work/told" | tail -n 1; }
# kept LOAD: takes what the boot told of LOAD: its record, with the command and the words behind the first line, and LOAD.said.
kept() {
    rm -f "$out/$1.said"
    sed -n "s/^=== \(WARNED\|LEFT\|SUMS\) $1 /\1 /p; s/^=== SAID $1 dlgen: stuck: /STUCK /p" "$work/told" > "$work/said"
    [[ ! -s $work/said ]] || mv "$work/said" "$out/$1.said"
    sed -n "s/^=== SAID $1 /check-kernel: $1: /p" "$work/told" | grep -v ' 0 events were lost$' >&2
    sed -n "/^=== GCDA $1\$/,/^=== END/p" "$work/told" > "$work/one"
    ! grep -q '^=== END' "$work/one" || grep -v '^===' "$work/one" | base64 -d | gzip -d > "$out/$1.gcda"
    [[ -z $(spoiled "$1") ]] || return
    sed -n "/^=== LOAD $1 /,/^=== END/p" "$work/told" > "$work/one"
    grep -q '^=== END' "$work/one" && grep -v '^===' "$work/one" | base64 -d | gzip -d > "$work/record" || return
    awk -v made="$(command_of "$1")" -v words="$(line_of "$1" | tr '\t' ' ')" \
        '{ print } NR == 1 { print "# grub: made by " made; print "# grub: load " words }' "$work/record" > "$out/$1.txt"
}

# A boot records what is left to be recorded; of random loads one. A load that three boots ended at, or spoiled, is given up, and so are
# all after six boots in a row that recorded nothing.
left=$loads
boots=0 failed=0 ended=
for load in $loads; do rm -f "$out/$load".{txt,verdict,said,gcda}; done
while [[ -n $left && $failed -lt ${BOOTS:-6} ]]; do
    boots=$((boots + 1))
    now=$left
    [[ -z $random ]] || now=${left%%[[:space:]]*}
    for load in $warm $now; do line_of "$load" | cut -f1,3-; done > "$guest/loads"
    # shellcheck disable=SC2086
    boot "$(tr ' ' '\n' <<< "$ended" | grep -cxF "${now%%[[:space:]]*}")" $now
    recorded=
    for load in $now; do kept "$load" && recorded+=" $load"; done
    release=$(sed -n '1s/^# grub: notes.* kernel=\([^ ]*\).*/\1/p' "$out/${recorded##* }.txt" 2> /dev/null || echo "${release:-}")
    [[ -n $recorded ]] && failed=0 || failed=$((failed + 1))
    for load in $now; do
        [[ " $recorded " != *" $load "* ]] || continue
        why=$(spoiled "$load")
        why=${why:-its boots ended: $(died)}
        say "boot $boots recorded no $load: $why"
        ended+=" $load "
        [[ " $ended " != *" $load "*" $load "*" $load "* ]] || recorded+=" $load"
        echo "$why" > "$out/$load.said"
        break
    done
    left=$(for load in $left; do [[ " $recorded " == *" $load "* ]] || echo "$load"; done)
done

[[ $cpus == 1 || -n $virtual ]] && time=virtual || time="the host's"
# shellcheck disable=SC2086
GRUBTRACE=$grubtrace python3 "$kernel_scripts/verdicts.py" $ktap --out "$out" --head "kernel ${release:-$asked}, processors $cpus, in $time time" $loads
