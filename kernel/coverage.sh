#!/usr/bin/env bash
# coverage.sh build TREE [CONFIG]: builds the kernel of TREE, configured by CONFIG or as it is, so that it counts what it runs of
#     kernel/sched/deadline.c, and of nothing else. scripts/check-kernel.sh then leaves LOAD.gcda beside a record
# coverage.sh report TREE FILE.gcda..: what these loads reached together: a line a function, with its lines and branches; then the lines
#     that none reached
# 'build' wants what a kernel wants to be built, with BTF; 'report' wants gcov and gcov-tool of the same gcc. JOBS is how many jobs build.
set -eu
usage() { echo "usage: coverage.sh build TREE [CONFIG] | coverage.sh report TREE FILE.gcda.." >&2; exit 2; }
fail() { echo "coverage: $*" >&2; exit "${status:-2}"; }
[[ $# -ge 2 && ($1 == build || $1 == report) ]] || usage
step=$1 tree=$2
shift 2
source=kernel/sched/deadline.c
[[ -f $tree/$source ]] || fail "$tree has no $source"
tree=$(cd "$tree" && pwd)

if [[ $step == build ]]; then
    [[ $# -le 1 ]] || usage
    [[ $# == 0 ]] || cp "$1" "$tree/.config" || fail "there is no file $1"
    [[ -f $tree/.config ]] || fail "$tree has no .config"
    "$tree/scripts/config" --file "$tree/.config" -e GCOV_KERNEL -d GCOV_PROFILE_ALL
    # deadline.c is compiled as a part of this file.
    grep -q GCOV_PROFILE_build_policy "$tree/kernel/sched/Makefile" || echo 'GCOV_PROFILE_build_policy.o := y' >> "$tree/kernel/sched/Makefile"
    make -s -C "$tree" olddefconfig
    exec make -s -C "$tree" -j"${JOBS:-$(nproc)}" bzImage
fi

[[ $# -ge 1 ]] || usage
notes=$tree/kernel/sched/build_policy.gcno
status=3
[[ -f $notes ]] || fail "there is no $notes; 'coverage.sh build $tree' makes it"
command -v gcov gcov-tool > /dev/null || fail "there is no gcov and gcov-tool; they are of the package gcc"
work=$(mktemp -d "${TMPDIR:-/tmp}/coverage.XXXXXX")
trap 'rm -rf "$work"' EXIT
# The counts of all loads are added up.
for file; do
    mkdir -p "$work/one"
    cp "$file" "$work/one/build_policy.gcda" 2> /dev/null || { status=2; fail "there is no file $file"; }
    if [[ -d $work/all ]]; then
        gcov-tool merge -o "$work/sum" "$work/all" "$work/one" 2> "$work/said" || fail "$file is of another kernel: $(head -n 1 "$work/said")"
        rm -r "$work/all"
        mv "$work/sum" "$work/all"
    else
        mv "$work/one" "$work/all"
    fi
done
cp "$notes" "$work/all/"
(cd "$tree" && gcov -t -b -c "$work/all/build_policy.gcda" 2> "$work/said") > "$work/lines" || fail "gcov: $(head -n 1 "$work/said")"
# A line of code begins with its count, or ##### where it was never run, and its number. Its branches stand below it.
awk -F: '
    function rows(  i, name) {
        printf "%-34s %5s %7s %9s %6s\n", "function", "lines", "reached", "branches", "taken"
        for (i = 1; i <= n; i++) {
            name = order[i]
            if (!lines[name]) continue
            printf "%-34s %5d %7d %9d %6d\n", name, lines[name], reached[name], branches[name], taken[name]
            all += lines[name]; all_reached += reached[name]; all_branches += branches[name]; all_taken += taken[name]
        }
        printf "%-34s %5d %7d %9d %6d\n", "all", all, all_reached, all_branches, all_taken
        if (!all) { print "coverage: these counts are of no deadline.c" > "/dev/stderr"; exit 1 }
    }
    $3 == "Source" { wanted = $4 ~ /sched\/deadline[.]c$/ }
    !wanted { next }
    /^branch / { split($0, word, " "); branches[here]++; if ($0 !~ /never executed|taken 0( |$)/) taken[here]++; next }
    /^(function|call|unconditional) / || $2 + 0 == 0 { next }
    {
        no = $2 + 0
        text = $0
        sub(/^[^:]*:[^:]*:/, "", text)
        if (text ~ /^[A-Za-z_].*[A-Za-z_0-9]+\(/ && text !~ /;[ \t]*$/ && text !~ /^(DEFINE|enum|struct [a-z_]* \{)/) {
            name = text; sub(/\(.*/, "", name); sub(/.*[ *]/, "", name)
            if (!(name in known)) { known[name]; order[++n] = name }
            here = name
        }
        if ($1 ~ /^ *-$/) next
        if (no in seen) next
        seen[no]
        lines[here]++
        if ($1 ~ /[0-9]/) reached[here]++
        else { missed[++m] = sprintf("  %d: %s", no, text); of[m] = here }
    }
    END {
        rows()
        if (m) print "\nnot reached:"
        for (i = 1; i <= m; i++) { if (of[i] != last) print of[i]; last = of[i]; sub(/[ \t]+/, " ", missed[i]); print missed[i] }
    }' "$work/lines"
