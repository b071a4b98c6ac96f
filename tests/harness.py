#!/usr/bin/env python3
"""harness.py: tries what check-kernel.sh does around a kernel, with none: that a seed is the same load for ever, what the words of the
scripts answer to bad ones, what stands against a load in a table and in KTAP, what shrink.py leaves of a load, and what states.py
and coverage.sh count. Programs that print what is given stand for grubtrace and for check-kernel.sh. The last line is 'N passed, M failed'."""
import hashlib
import json
import os
import re
import shutil
import sys
import tempfile

sys.path.append(f"{os.path.dirname(os.path.abspath(__file__))}/../scripts")
# pylint: disable=wrong-import-position
from shared import ROOT, Tried, ran, text_of

KERNEL = f"{ROOT}/kernel"
TRIED = Tried("harness")
# A seed is the same load for ever, or what a seed has found cannot be found again.
PINNED = {
    "17": r"r17\t1\t0\t4.5\tseed=17 gr_0,q=223108.893,p=247898.771,w=60-98,s=5-65,pi=3,may=1 fair_1,q=11925,p=71550,fair=1,pi=1,m=0,w=40-90,s=5-65",
    "25": r"r25\t1\t0\t6\tseed=25 gr_0,q=822622,p=914024,d=914022.518,w=20-80,s=5-65,ch=4236:0:0:0:0,ch=4674:658097.6:914022.518:914024:1,may=1",
}
HASHES = {
    ("1-100",): "78c375fc1ad2ecd3",
    ("--cpus", "4", "1-100"): "796278d27a300742",
    ("--cpus", "2", "--with", "limit,server,partition,hotplug", "1-100"): "c60edfbc8a0628a4",
}
# Words, the status, and what is said.
BAD = [
    (["randload.py", "x"], "the seed x is no number"),
    (["randload.py", "1,"], "the seed  is no number"),
    (["randload.py", "9-3"], "the range 9-3 goes down"),
    (["randload.py", "1-100000"], "more than 10000 seeds"),
    (["randload.py", "--cpus", "0", "1"], "--cpus is no number from 1 to 64: 0"),
    (["randload.py", "--with", "weather", "1"], "there are no events weather; there are hotplug, partition, server, limit"),
    (["randload.py", "--with", "hotplug", "1"], "the events hotplug want two processors"),
    (["randload.py"], "randload.py [--cpus N]"),
    (["randload.py", "--other", "1"], "randload.py [--cpus N]"),
    (["check-kernel.sh", "--random", "x", "KERNEL"], "the seed x is no number"),
    (["check-kernel.sh", "--random", "1", "--with", "weather", "KERNEL"], "there are no events weather"),
    (["check-kernel.sh", "--with", "limit", "KERNEL"], "--with wants --random"),
    (["check-kernel.sh", "--random", "1", "KERNEL", "four"], "--random has no load four"),
    (["check-kernel.sh", "--loads", "nosuch", "KERNEL"], "there is no file nosuch"),
    (["check-kernel.sh", "--loads", f"{KERNEL}/init.sh", "KERNEL"], "init.sh: "),
    (["check-kernel.sh", "--loads", f"{KERNEL}/loads.tsv", "--random", "1", "KERNEL"], "--random and --loads are not given together"),
    (["check-kernel.sh", "KERNEL", "nosuch"], "there is no load nosuch"),
    (["check-kernel.sh", "--random"], "usage: check-kernel.sh"),
    (["shrink.py", "KERNEL"], "shrink.py [--arch ARCH]"),
    (["shrink.py", "--minutes", "x", "KERNEL", "FILE"], "--minutes is no number: x"),
    (["shrink.py", "--like", "(", "KERNEL", "FILE"], "--like is no regular expression"),
    (["shrink.py", "KERNEL", "nosuch"], "nosuch: No such file"),
    (["shrink.py", "KERNEL", f"{KERNEL}/loads.tsv", "nosuch"], "has no load nosuch"),
    (["states.py"], "states.py [--list]"),
    (["states.py", "nosuch"], "nosuch: "),
    (["verdicts.py", "four"], "verdicts.py [--ktap]"),
    (["coverage.sh"], "usage: coverage.sh build TREE"),
    (["coverage.sh", "report", "nosuch", "FILE"], "coverage: nosuch has no kernel/sched/deadline.c"),
    (["check-sizing.sh"], "usage: check-sizing.sh"),
    (["check-sizing.sh", "KERNEL", "nosuch"], "check-sizing: there is no load nosuch"),
]
AGREES = "20 values compared: 20 equal\nagrees, bit for bit\nlaws: 9 values hold: budget 9\n"
DIFFERS = """20 values compared: 18 equal, 2 differ
differs: 2 of these values, first at line 7, 1.5, enq (enqueue_task_dl) on CPU 0
  runtime of gr_3 (pid 133): 2972418 by the rules, -27582 in the kernel: 3000000 less
  last changed at line 6, ina, by the rule "0-lag timer fired"
  functions of kernel/sched/deadline.c to look at: inactive_task_timer, enqueue_task_dl
laws: 9 values hold: budget 9
"""
LAW = AGREES + "  run: 1 broken, first at line 9, 1.6, upd of gr_1 (pid 12) on CPU 0: two spans overlap\n"
HANG = AGREES + """  progress: 1 broken, first at line 9, 1.6, enq of gr_1 (pid 12) on CPU 0: no replenishment timer is armed
    its timer fired at line 8; known: a throttled task that comes back (KERNEL, "Throttled for ever")
"""
READ = {"keeps_laws": True, "rules": {"kinds": [{"kind": "budget", "differ": 0}, {"kind": "extra_bw", "differ": 2}],
                                      "evidence": {"lines": ["dlgen-9 [000] ..... 1.3: lim: (sched_rt_handler+0x4/0xd0) write=0"]}}}
NOTHING = "grubtrace: a.txt: 61 NothingCompared: no task blocks\n"
SUMS = "SUMS this_bw after all tasks had ended: cpu 0 this={}; at boot: cpu 0 this=52428\n"
REBUILT = {"lines": ["cat-9 [000] .N... 1.4: reb: (dl_add_task_root_domain+0x4/0x160) pid=12 po=6"]}
REPORTS = {"read": READ, "rebuilt": {**READ, "rules": {**READ["rules"], "evidence": REBUILT}},
           "written": {**READ, "rules": {**READ["rules"], "evidence": {"lines": []}}},
           "budget": {**READ, "rules": {**READ["rules"], "kinds": [{"kind": "budget", "differ": 1}]}}, "breach": {**READ, "keeps_laws": False}}
# A load: the check's status and what it says, what stands beside it, the KTAP line, and the script's status.
LOADS = [
    ("healthy", 0, AGREES, "", "ok 1 healthy", 0),
    ("values", 4, DIFFERS, "", "not ok 1 values # differs", 4),
    ("laws", 5, LAW, "", "not ok 1 laws # a law is broken", 5),
    ("fault", 1, "grubtrace: a.txt: 52 LostEvents: line 3\n", "", "not ok 1 fault # the record has a fault", 1),
    ("nothing", 1, NOTHING, "", "ok 1 nothing # SKIP nothing was compared", 1),
    ("zombie", 1, NOTHING, SUMS.format(157285), "not ok 1 zombie # this_bw is wrong at the end", 4),
    ("stuck", 0, AGREES, "STUCK gr_0 (pid 9) was killed\n", "not ok 1 stuck # a task was stuck", 4),
    ("hang", 0, HANG, "STUCK gr_1 (pid 12) was killed\n", 'ok 1 hang # XFAIL known: a throttled task that comes back (KERNEL, "Throttled for ever")', 0),
    ("warned", 5, LAW, "WARNED WARNING: CPU: 0 PID: 1 at kernel/sched/deadline.c:253 task_contending\n",
     "not ok 1 warned # a law is broken, the kernel warned", 4),
    ("lagged", 0, AGREES, "WARNED sched: DL replenish lagged too much\n", "ok 1 lagged", 0),
    ("sums", 0, AGREES, SUMS.format(157285), "not ok 1 sums # this_bw is wrong at the end", 4),
    ("same", 0, AGREES, SUMS.format(52428), "ok 1 same", 0),
    ("left", 0, AGREES, "LEFT total_bw 52428 at boot, 157285 after all tasks had ended\n", "ok 1 left", 0),
    ("servers", 0, AGREES, SUMS.format(1), "ok 1 servers", 0),
    ("read", 4, DIFFERS, "", 'ok 1 read # XFAIL known: the limit is read (KERNEL, "Reading sched_rt_runtime_us")', 0),
    ("rebuilt", 4, DIFFERS, "", 'ok 1 rebuilt # XFAIL known: the limit is read (KERNEL, "Reading sched_rt_runtime_us")', 0),
    ("written", 4, DIFFERS, "", "not ok 1 written # differs", 4),
    ("budget", 4, DIFFERS, "", "not ok 1 budget # differs", 4),
    ("breach", 4, DIFFERS, "", "not ok 1 breach # a law is broken", 5),
    ("lost", None, "", "its boots ended: Oops\n", "ok 1 lost # SKIP it could not be recorded; its boots ended: Oops", 125),
]
MADE = "scripts/check-kernel.sh --random 7 KERNEL"
# grubtrace: prints the file beside the record, leaves the report that is there, and ends with its status.
CHECKER = '#!/bin/sh\nstem=${2%.txt}\n[ ! -f "$stem.report" ] || cp "$stem.report" "$4"\ncat "$stem.told"\nexit "$(cat "$stem.status")"\n'
# check-kernel.sh: a load differs where a task changes itself and another one is there.
RECORDER = r"""#!/bin/sh
while [ "$1" != --loads ]; do case $1 in --out) out=$2; shift ;; esac; shift; done
tab=$(printf '\t')
while IFS=$tab read -r name cpus loops seconds words; do
    echo 'agrees, bit for bit' > "$out/$name.verdict"
    case $words in *gr_1*ch=*) cat "$DIFFERS" > "$out/$name.verdict" ;; esac
done < "$2"
"""
# What stands for qemu: it records the loads of the guest one after the other. It ends at a load with the word dies=1, and in a first
# boot at one with once=1. It hangs at one with hangs=1, tells of a load with stuck=1 that a task was stuck,
# and spoils the record of one with lost=1.
QEMU = r"""#!/bin/sh
while [ $# -gt 0 ]; do
    case $1 in -serial) records=${2#file:} ;; -initrd) guest=${2%/*}/guest ;; -append) words=$2 ;; esac
    shift
done
case $words in *' again='*) once=never ;; *) once=once=1 ;; esac
tab=$(printf '\t')
while IFS=$tab read -r name loops seconds words; do
    case $words in *dies=1* | *$once*) echo 'Oops: 0000' > "${records%/*}/console"; exit 1 ;; esac
    case $words in *hangs=1*) echo 'kernel BUG at lib/list_debug.c:62!' > "${records%/*}/console"; sleep 600 ;; esac
    case $words in *stuck=1*) echo "=== SAID $name dlgen: stuck: gr_0 (pid 9) was killed" ;; esac
    lost=0 status=0
    case $words in *lost=1*) lost=7 status=4 ;; esac
    echo "=== SAID $name record: $lost events were lost"
    echo "=== LOAD $name $status"
    printf '# grub: notes 1 kernel=6.12.117 domain=0\n# grub: lost 0\n' | gzip | base64
    echo '=== END'
done < "$guest/loads" >> "$records"
"""
ECHOES = "#!/bin/sh\ncat > /dev/null\n"
TABLE = """good\t1\t0\t1\tgr_0,q=1,p=2
dies\t1\t0\t1\tgr_0,q=1,p=2,dies=1
once\t1\t0\t1\tgr_0,q=1,p=2,once=1
hangs\t1\t0\t1\tgr_0,q=1,p=2,hangs=1
stuck\t1\t2\t1\tgr_0,q=1,p=2,stuck=1
lost\t1\t0\t1\tgr_0,q=1,p=2,lost=1
"""
LONG = "r7\t1\t2\t3\tseed=7 gr_0,q=5000,p=50000,w=5-65 gr_1,q=10000.125,p=40000,st=1.5,ch=700.25:1:2:3:1,may=1 fair_2,q=1,p=2,fair=1 sys,rd=3:/proc/x"
SHORT = "r7\t1\t0\t0.5\tseed=7 gr_1,q=10000,p=40000,ch=700:1:2:3:1"
RECORD = """# grub: notes 1 kernel=6.12.117 domain=0
 gr_0-9 [000] d..2. 1.0: enq: (enqueue_task_dl+0x4/0x1f0) pid=9 cpu=0 fl=9 clk=100 q=5 d=200 thr=0 yld=0 non=0 rt=1 dl=2 pe=2 sf=2 oq=0 np=-1 se=1 ps=1
 gr_0-9 [000] d..2. 1.1: deq: (dequeue_task_dl+0x4/0x1f0) pid=9 cpu=0 fl=9 clk=150 q=-5 d=200 thr=1 yld=0 non=0 oq=1
 gr_0-9 [000] d..2. 1.1: hst: (hrtimer_start_range_ns+0x4/0x1f0) timer=4 fn=inactive_task_timer
 <idle>-0 [000] d..2. 1.2: ina: (inactive_task_timer+0x4/0x1f0) timer=4
 gr_0-9 [000] d..2. 1.3: enq: (enqueue_task_dl+0x4/0x1f0) pid=9 cpu=0 fl=9 clk=300 q=5 d=200 thr=0 yld=0 non=0 rt=1 dl=1 pe=2 sf=0 oq=0 np=-1 se=1 ps=2
"""
SITUATIONS = [
    "deq, queued, throttled, flags 0x9, no budget, ahead",
    "enq, blocked, boosted, flags 0x9, budget, past, in full, constrained",
    "enq, blocked, flags 0x9, budget, ahead, reclaims",
    "ina, known, blocked",
]

# What stands for a kernel that counts: deadline.c as a part of build_policy.c, and what two loads reach of it.
DEADLINE = """#include <stdlib.h>
static inline int dl_time_before(int a, int b)
{
	return a - b < 0;
}
static int replenish(int runtime, int period)
{
	while (runtime <= 0)
		runtime += period;
	return runtime;
}
int enqueue_task_dl(int runtime)
{
	if (runtime < 0)
		return replenish(runtime, 5);
	return dl_time_before(runtime, 2);
}
void yield_task_dl(void)
{
	exit(2);
}
"""
POLICY = '#include "deadline.c"\nint main(int n, char **v) { return enqueue_task_dl(atoi(v[1])) < 0; }\n'
# Of the loads together: functions with their lines, reached, branches, taken; then what none reached.
REACHED = {
    "1": ["dl_time_before 2 2 0 0", "replenish 4 0 2 0", "enqueue_task_dl 4 3 2 1", "yield_task_dl 2 0 0 0", "all 12 5 4 1"],
    "1 -7": ["dl_time_before 2 2 0 0", "replenish 4 4 2 2", "enqueue_task_dl 4 4 2 2", "yield_task_dl 2 0 0 0", "all 12 10 4 4"],
}


def put(path, text, mode=0o644):
    with open(path, "w", encoding="utf-8") as it:
        it.write(text)
    os.chmod(path, mode)


def told(*words, **more):
    script = f"{ROOT}/scripts/{words[0]}" if words[0] == "check-kernel.sh" else f"{KERNEL}/{words[0]}"
    return ran(script, *words[1:], env={**os.environ, **more})


def differs(what, got, wanted):
    return [] if got == wanted else [f"{what}: {got!r}, wanted {wanted!r}"]


def seeds():
    """The generator."""
    for seed, wanted in PINNED.items():
        done = told("randload.py", seed)
        TRIED.add(f"seed {seed}", differs("its load", done.stdout.rstrip("\n").replace("\t", "\\t"), wanted))
    for words, wanted in HASHES.items():
        done = told("randload.py", *words)
        TRIED.add(f"seeds {' '.join(words)}", differs("their hash", hashlib.sha256(done.stdout.encode()).hexdigest()[:16], wanted))
    lines = told("randload.py", "--cpus", "4", "--with", "hotplug,partition,server,limit", "3,1-2").stdout.splitlines()
    TRIED.add("seeds as they are asked for", differs("names", [it.split("\t")[0] for it in lines], ["r3.4hpsl", "r1.4hpsl", "r2.4hpsl"]))
    source = text_of(f"{KERNEL}/dlgen.c")
    known = set(re.findall(r'\{ "(\w+)", &t->|!strcmp\(key, "(\w+)"\)', source))
    known = {it for pair in known for it in pair if it}
    lines += told("randload.py", "1-300").stdout.splitlines()
    used = {word.split("=")[0] for line in lines for task in line.split("\t")[4].split()[1:] for word in task.split(",")[1:]}
    TRIED.add("words of the load generator", [f"it has no {it}=" for it in sorted(used - known)])
    tasks = [dict(it.split("=", 1) for it in task.split(",")[1:]) for line in lines for task in line.split("\t")[4].split() if task.startswith("gr_")]
    wrong = [str(it) for it in tasks if not 2 <= float(it["q"]) <= float(it.get("d", it["p"])) <= float(it["p"]) <= 4_194_000]
    TRIED.add("runtime, deadline and period are in order", wrong)


def verdicts(folder):
    """A table and KTAP of each load alone, then of all."""
    put(f"{folder}/checker", CHECKER, 0o755)
    for name, status, verdict, said, line, wanted in LOADS:
        if status is not None:
            words = "sys,wr=1:/sys/kernel/debug/sched/fair_server/cpu0/runtime:1" if name == "servers" else "gr_0,q=1,p=2"
            put(f"{folder}/{name}.txt", f"# grub: notes 1\n# grub: made by {MADE}\n# grub: load {name} 1 0 1 {words}\n")
            put(f"{folder}/{name}.told", verdict)
            put(f"{folder}/{name}.status", str(status))
        if name in REPORTS:
            put(f"{folder}/{name}.report", json.dumps(REPORTS[name]))
        if said:
            put(f"{folder}/{name}.said", said)
        ktap = told("verdicts.py", "--ktap", "--out", folder, "--head", "kernel K", name, GRUBTRACE=f"{folder}/checker")
        lines = ktap.stdout.splitlines()
        wrong = differs("KTAP", lines[-2], line) + differs("status", ktap.returncode, wanted)
        wrong += differs("head", lines[:3], ["KTAP version 1", "1..1", "# kernel K"])
        wrong += [f"neither a test nor a comment: {it}" for it in lines[2:] if not it.startswith(("# ", "ok 1", "not ok 1"))]
        table = told("verdicts.py", "--out", folder, "--head", "kernel K", name, GRUBTRACE=f"{folder}/checker")
        wrong += differs("status of the table", table.returncode, wanted)
        for output, made in ((ktap.stdout, f"# made by {MADE}"), (table.stdout, f"       made by {MADE}")):
            wrong += differs("the command is told", made in output, line.startswith("not ok") or name in ("nothing", "hang", "read", "rebuilt") and output is ktap.stdout)
        TRIED.add(f"the load {name}", wrong)
    names = [it[0] for it in LOADS if it[0] not in ("lost", "fault", "nothing", "zombie")]
    done = told("verdicts.py", "--ktap", "--out", folder, "--head", "kernel K", *names, GRUBTRACE=f"{folder}/checker")
    wrong = differs("the counts", done.stdout.splitlines()[-1], "# Totals: pass:5 fail:8 xfail:3 xpass:0 skip:0 error:0")
    wrong += differs("status", done.returncode, 4) + differs("plan", done.stdout.splitlines()[1], f"1..{len(names)}")
    wrong += [f"lacks {it}" for it in ("#   runtime of gr_3 (pid 133): 2972418 by the rules", f"# record: {folder}/values.txt") if it not in done.stdout]
    TRIED.add("all loads", wrong)


def shrinks(folder):
    """What is left of a load."""
    put(f"{folder}/recorder", RECORDER, 0o755)
    put(f"{folder}/differs", DIFFERS)
    put(f"{folder}/long.tsv", f"# a table\n{LONG}\n")
    put(f"{folder}/long.txt", "# grub: notes 1\n# grub: load " + LONG.replace("\t", " ") + "\n")
    more = {"CHECK_KERNEL": f"{folder}/recorder", "DIFFERS": f"{folder}/differs"}
    for words in ([f"{folder}/long.tsv"], [f"{folder}/long.txt"], [f"{folder}/long.tsv", "r7"]):
        done = told("shrink.py", "KERNEL", *words, **more)
        TRIED.add(f"shrink.py {os.path.basename(words[0])}", differs("the last line", done.stdout.splitlines()[-1:], [SHORT]) + differs("status", done.returncode, 0))
    done = told("shrink.py", "--like", "deadline of", "KERNEL", f"{folder}/long.tsv", **more)
    TRIED.add("shrink.py of what is not said", differs("status", done.returncode, 1))
    put(f"{folder}/sound.tsv", LONG.replace("ch=", "xc=") + "\n")
    done = told("shrink.py", "KERNEL", f"{folder}/sound.tsv", **more)
    TRIED.add("shrink.py of a sound load", differs("status", done.returncode, 1) + differs("what it says", done.stderr, "shrink: nothing stands against this load\n"))


def states(folder):
    put(f"{folder}/a.txt", RECORD)
    put(f"{folder}/b.txt", "".join(it + "\n" for it in RECORD.split("\n")[:3]))
    done = told("states.py", "--list", f"{folder}/a.txt")
    TRIED.add("states.py", differs("all", [it.strip() for it in done.stdout.splitlines()[2:]], SITUATIONS) + differs("count", done.stdout.split("\n")[0], "records: 4 situations"))
    done = told("states.py", f"b={folder}/b.txt", f"a={folder}/a.txt,{folder}/b.txt")
    TRIED.add("states.py of two sets", differs("counts", done.stdout.splitlines()[:3], ["b: 2 situations", "a: 4 situations, 2 of them not in b", "all: 4 situations"]))


def probes():
    """The events of a record: a filter asks for a field of its event, and no member of single bits is the last field; a processor that could
    not be taken off comes back by another function."""
    forms, last, wrong = [], {}, []
    for line in text_of(f"{KERNEL}/probes.txt").splitlines():
        if re.match("[a-z]", line):
            forms.append((*line.split(), []))
        elif line.startswith("    if "):
            wrong += [f"{forms[-1][0]} has no {it}=" for it in re.findall(r"([a-z]\w*) (?:==|>|&)", line) if it not in forms[-1][2]]
        elif line.startswith("    "):
            forms[-1][2].extend(it.split("=")[0] for it in line.split())
            last[forms[-1][0]] = line.split()[-1]
    wrong += [f"{name} ends with {it}" for name, it in last.items() if re.search(r"\bdl_(throttled|yielded|non_contending|server|server_active)$", it)]
    gone = [it[:2] for it in forms if it[0] in ("onl", "off")]
    wanted = [("onl", "balance_push_set"), ("onl", "sched_cpu_activate"), ("off", "balance_push_set"), ("off", "sched_cpu_deactivate")]
    TRIED.add("probes.txt", wrong + differs("of processors that come and go", gone, wanted))


def coverage(folder):
    """A kernel that counts: what is asked of its build, and what a report says of two loads."""
    for it in ("kernel/sched", "scripts", "bin"):
        os.makedirs(f"{folder}/{it}")
    put(f"{folder}/kernel/sched/deadline.c", DEADLINE)
    put(f"{folder}/kernel/sched/build_policy.c", POLICY)
    put(f"{folder}/kernel/sched/Makefile", "obj-y += build_policy.o\n")
    put(f"{folder}/CONFIG", "CONFIG_DEBUG_INFO_BTF=y\n")
    put(f"{folder}/scripts/config", f'#!/bin/sh\necho "config $*" >> {folder}/asked\n', 0o755)
    put(f"{folder}/bin/make", f'#!/bin/sh\necho "make $*" >> {folder}/asked\n', 0o755)
    for _ in range(2):
        done = told("coverage.sh", "build", folder, f"{folder}/CONFIG", PATH=f"{folder}/bin:{os.environ['PATH']}", JOBS="3")
    asked = [f"config --file {folder}/.config -e GCOV_KERNEL -d GCOV_PROFILE_ALL", f"make -s -C {folder} olddefconfig", f"make -s -C {folder} -j3 bzImage"]
    wrong = differs("status", done.returncode, 0) + differs("what is asked", text_of(f"{folder}/asked").splitlines(), 2 * asked)
    wrong += differs("the Makefile", text_of(f"{folder}/kernel/sched/Makefile"), "obj-y += build_policy.o\nGCOV_PROFILE_build_policy.o := y\n")
    TRIED.add("coverage.sh build", wrong + differs("the configuration", text_of(f"{folder}/.config"), text_of(f"{folder}/CONFIG")))
    if not all(map(shutil.which, ("gcc", "gcov", "gcov-tool"))):
        return
    policy = "kernel/sched/build_policy"
    for words in (["-c", f"{policy}.c", "-o", f"{policy}.o"], ["-o", "run", f"{policy}.o"]):
        ran("gcc", "--coverage", "-O0", *words, cwd=folder)
    for runtime in ("1", "-7"):
        ran("./run", runtime, cwd=folder)
        os.rename(f"{folder}/{policy}.gcda", f"{folder}/{runtime}.gcda")
    for loads, rows in REACHED.items():
        done = told("coverage.sh", "report", folder, *(f"{folder}/{it}.gcda" for it in loads.split()))
        got, _, missed = done.stdout.partition("\n\nnot reached:\n")
        wrong = differs("rows", [" ".join(it.split()) for it in got.splitlines()[1:]], rows)
        TRIED.add(f"coverage.sh report of {loads}", wrong + differs("the last lines", " ".join(missed.split()[-6:]), "yield_task_dl 18: void yield_task_dl(void) 20: exit(2);"))


def boots(folder):
    """The script around a machine that records without a kernel."""
    os.makedirs(f"{folder}/bin")
    for name, text in (("qemu-system-x86_64", QEMU), ("cpio", ECHOES), ("busybox", ECHOES), ("gcc", '#!/bin/sh\nwhile [ "$1" != -o ]; do shift; done; : > "$2"\n'),
                       ("perl", '#!/bin/sh\necho /bin/sh\n'), ("checker", "#!/bin/sh\necho '20 values compared: 20 equal'\necho agrees, bit for bit\n")):
        put(f"{folder}/bin/{name}", text, 0o755)
    put(f"{folder}/kernel", "")
    put(f"{folder}/table.tsv", TABLE)
    more = {"PATH": f"{folder}/bin:{os.environ['PATH']}", "GRUBTRACE": f"{folder}/bin/checker", "TMPDIR": folder, "SECONDS_AFTER_OOPS": "1"}
    for words, name in ((["--random", "1"], "r1"), (["--cpus", "4", "--virtual", "--random", "3", "--with", "limit"], "r3.4l")):
        done = told("check-kernel.sh", "--out", folder, *words, f"{folder}/kernel", **more)
        at = words.index("--random")
        load = told("randload.py", *[it for it in words[:at] + words[at + 2:] if it != "--virtual"], words[at + 1])
        lines = text_of(f"{folder}/{name}.txt").splitlines()[1:3]
        made = [f"# grub: made by scripts/check-kernel.sh {' '.join(words)} {folder}/kernel", "# grub: load " + load.stdout.rstrip("\n").replace("\t", " ")]
        wrong = differs("its head", lines, made) + differs("status", done.returncode, 0)
        wrong += differs("what it prints", done.stdout.splitlines()[1:], [f"{name:<8} agrees, bit for bit; 20 values compared: 20 equal"])
        TRIED.add(f"check-kernel.sh {' '.join(words)}", wrong)
    done = told("check-kernel.sh", "--ktap", "--out", folder, "--loads", f"{folder}/table.tsv", f"{folder}/kernel", **more)
    tests = [it for it in done.stdout.splitlines() if it.startswith(("ok", "not ok"))]
    wanted = ["ok 1 good", "ok 2 dies # SKIP it could not be recorded; its boots ended: Oops: 0000", "ok 3 once",
              "ok 4 hangs # SKIP it could not be recorded; its boots ended: kernel BUG at lib/list_debug.c:62!", "not ok 5 stuck # a task was stuck",
              "ok 6 lost # SKIP it could not be recorded; 7 events were lost"]
    TRIED.add("loads that end boots and that are spoiled", differs("tests", tests, wanted) + differs("status", done.returncode, 125))
    TRIED.add("it leaves nothing behind", [it for it in os.listdir(folder) if it.startswith("check-kernel.")])


def main():
    for words, wanted in BAD:
        done = told(*words)
        TRIED.add(" ".join(words), differs("status", done.returncode, 2) + ([] if wanted in done.stderr else [f"it says {done.stderr[:200]!r}"]))
    seeds()
    probes()
    for part in (verdicts, shrinks, states, coverage, boots):
        with tempfile.TemporaryDirectory() as folder:
            part(folder)
    TRIED.end()


if __name__ == "__main__":
    main()
