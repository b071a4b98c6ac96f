#!/usr/bin/env python3
"""sizing.py [COUNT [SEED]]: holds `grubtrace size` to its definition by brute force, over 300 small random records or so many,
and to the table of examples/sizing. A job is late with a runtime Q in each period P where, from some job up to it on, release
+ ceil(work / Q) * (P - Q) + work is after its due moment. Tasks share names, have pids up to 2^22, run on processors up to 8191,
are priced without a period, and are proposed together. The last line is 'N passed, M failed'."""
import os
import random
import re
import sys
import tempfile
from bisect import bisect_left

sys.path.append(f"{os.path.dirname(os.path.abspath(__file__))}/../scripts")
# pylint: disable=wrong-import-position
from cases import try_tables
from shared import ROOT, Tried, built, ran

BATCH = 100
UNIT, MOST, FAIR = 1 << 20, (950000 << 20) // 1000000, (50000 << 20) // 1000000
LINE = "          <idle>-0       [{:03}] d..2. {:.6f}: {}\n"
ENDS = "prev_prio=120 prev_state=S ==> next_comm=swapper/1 next_pid=0 next_prio=120"


class Task:
    """A task of a random record: a few jobs, each a release and its work, or more with little time between, in microseconds."""

    def __init__(self, pid, dice):
        self.pid, self.period, self.jobs, at = pid, dice.randint(100, 160), [], 1000 + dice.randint(0, 50)
        self.comm, self.cpu = f"t{pid % 7}", dice.choice([0, 1, 9, 13, 63, 64, 8191])
        longest, pause = dice.choice([10, 60, 120]), dice.choice([5, 60, 200])
        for _ in range(dice.randint(1, dice.choice([3, 5, 8]))):
            work = dice.randint(1, longest)
            self.jobs.append((at, work))
            at += work + dice.randint(0, pause)
        self.within = dice.choice([self.period, self.period, dice.randint(1, 400)])
        self.given = dice.randint(2, self.period)

    def words(self):
        within = ["--within", f"{self.pid}={self.within}"] if self.within != self.period else []
        return ["--task", f"{self.pid}={self.given}:{self.period}", *within]

    def lines(self, dice):
        """Its lines of a trace, with their moments and processors: each job ends when its work is done."""
        shown = f"comm={self.comm} pid={self.pid}"
        for release, work in self.jobs:
            cut = dice.randint(0, work)
            yield release, self.cpu, f"sched_wakeup: {shown} prio=120 target_cpu={self.cpu:03}"
            for nanos in (cut * 1000, (work - cut) * 1000 - dice.randint(0, 999) if work > cut else 0):
                if nanos:
                    yield release + work, self.cpu, f"sched_stat_runtime: {shown} runtime={nanos} [ns]"
            yield release + work, self.cpu, f"sched_switch: prev_comm={self.comm} prev_pid={self.pid} {ENDS}"

    def is_late(self, last, runtime, period=None):
        """Whether a job may be late."""
        work = 0
        for release, more in reversed(self.jobs[:last + 1]):
            work += more
            if release - (-work // runtime) * ((period or self.period) - runtime) + work > self.jobs[last][0] + self.within:
                return True
        return False

    def least(self, period, allowed):
        """The least runtime in a period with which so many jobs may be late, or '-'."""
        runtimes = range(1, period + 1)
        late = bisect_left(runtimes, -allowed, key=lambda it: -sum(self.is_late(job, it, period) for job in range(len(self.jobs))))
        return str(runtimes[late]) if late < period else "-"

    def price_faults(self, report):
        """What is wrong in what it costs at several periods, where its wakes are not regular."""
        rows = re.findall(r"^ +(\d+) +(\d+|-) +\S+ +(\d+|-) +\S+ +(\d+|-) +\S+$", report, re.M)
        if "not regular" in report and not rows:
            yield f"{self.jobs}: no prices: {report}"
        for period, *found in rows:
            wanted = [self.least(int(period), it) for it in (0, 1, len(self.jobs) // 100)]
            if found != wanted:
                yield f"{self.jobs}: within {self.within}, at {period}: {found}, wanted {wanted}"

    def faults(self, reports):
        """What is wrong in the reports of this task, where no job, one, two and so on may be late."""
        late = [sum(self.is_late(it, runtime) for it in range(len(self.jobs))) for runtime in range(1, self.period + 1)]
        for allowed, report in enumerate(reports[:len(self.jobs)]):
            rows = re.findall(r"^ +(\d+) +\d+\.\d\d +(\d+) +\d+\.\d\d(.*)$", report, re.M)
            least = next((runtime for runtime, count in enumerate(late, 1) if count <= allowed), None)
            found = next((int(it[0]) for it in rows if "the least" in it[2]), None)
            if found != least or (found is None) != ("no runtime is enough" in report):
                yield f"{self.jobs}: the least with {allowed} late is {found}, wanted {least}: {report[:300]}"
            if found is None and f"  with the whole period {late[-1]} of {len(self.jobs)} jobs may be late" not in report:
                yield f"{self.jobs}: with the whole period {late[-1]} may be late: {report[:300]}"
            yield from (f"{self.jobs}: row {it}" for it in rows if int(it[1]) != late[int(it[0]) - 1])
            proposed = next((int(it[0]) for it in rows if "proposed" in it[2]), None)
            command = f"chrt -d -T {1000 * (proposed or 0)} -D {1000 * self.period} -P {1000 * self.period} -p 0 {self.pid}\n"
            if proposed is not None and command not in report:
                yield f"{self.jobs}: no {command}"
            if rows and not any(int(it[0]) == self.given and "given" in it[2] for it in rows):
                yield f"{self.jobs}: no row of the given runtime {self.given}"


def record(trace, tasks, dice):
    """Writes a trace of these tasks."""
    lines = sorted((it for task in tasks for it in task.lines(dice)), key=lambda it: it[0])
    trace.write("# tracer: nop\n" + "".join(LINE.format(cpu, at / 10**6, text) for at, cpu, text in lines))
    trace.flush()


def reports_of(text):
    """The report of each task by its pid."""
    return dict(re.findall(r"^task \S+ pid=(\d+): (.*?)(?=^task|\nall proposals|\Z)", text, re.M | re.S))


def percent(bandwidth):
    hundredths = bandwidth * 10000 // UNIT
    return f"{hundredths // 100}.{hundredths % 100:02}"


def placed(shares, cpus):
    """The reservations of each processor, the greatest first, each on the first with room; none where they do not fit so."""
    rooms = [[] for _ in range(cpus)]
    for at in sorted(range(len(shares)), key=lambda it: -shares[it]):
        fitting = [it for it in rooms if sum(shares[other] for other in it) + shares[at] <= MOST - FAIR]
        if not fitting:
            return None
        fitting[0].append(at)
    return [sorted(it) for it in rooms if it]


def together(proposals, cpus):
    """What is told of all proposals below their table, each a name, a runtime and a period."""
    shares = [(runtime << 20) // period for _, runtime, period in proposals]
    total, fair, greatest = sum(shares), percent(FAIR * cpus), max(shares)
    admitted = "admitted" if total <= (MOST - FAIR) * cpus else "refused, EBUSY"
    keeps = total + FAIR * cpus + (cpus - 1) * greatest <= cpus * UNIT
    head, sign = ("in time", "<=") if keeps else ("late by a bounded time, maybe,", ">")
    rooms = placed(shares, cpus)
    told = "they do not fit so" if rooms is None else "; ".join(
        f"{' '.join(proposals[it][0] for it in room)} {percent(sum(shares[it] for it in room))} %" for room in rooms)
    return (f"  {percent(total)} % of a processor; {cpus} processors admit {percent(MOST * cpus)} %, less {fair} % for fair servers: {admitted}\n"
            f"  {head} on {cpus} processors together: {percent(total)} + {fair} {sign} {100 * cpus} - {cpus - 1} * {percent(greatest)}\n"
            f"  a processor each: {told}\n")


def try_together(tried, program, trace, tasks, dice):
    """Tries what is told of some tasks together, on a few processors."""
    chosen, cpus = dice.sample(tasks, dice.randint(1, 5)), dice.randint(1, 4)
    words = [word for it in chosen for word in it.words()]
    text = ran(program, "size", *words, "--late", str(dice.randint(0, 2)), "--cpus", str(cpus), trace).stdout
    table = text.partition("\nall proposals\n")[2]
    proposals = [(name, int(runtime), int(period)) for name, runtime, period in re.findall(r"^  (t\d) +(\d+) +(\d+) +\S+$", table, re.M)]
    reports = reports_of(text)
    wanted = [(it.comm, runtime, str(it.period)) for it in chosen
              for runtime in re.findall(r"^ +(\d+) +\S+ +\d+ +\S+ .*proposed", reports.get(str(it.pid), ""), re.M)]
    faults = [f"{proposals}, wanted {wanted}"] if [(it[0], str(it[1]), str(it[2])) for it in proposals] != wanted else []
    if proposals and not table.endswith(together(proposals, cpus)):
        faults.append(f"{table}, wanted {together(proposals, cpus)}")
    tried.add(f"together {[it.pid for it in chosen]}", faults)


def try_random(tried, program, count=300, seed=1):
    """Tries so many records, each a task of its own in the traces."""
    dice = random.Random(seed)
    for start in range(0, count, BATCH):
        tasks = [Task(dice.choice([1000, 32768, 4194000]) + it, dice) for it in range(min(BATCH, count - start))]
        words = ["--margin", dice.choice(["0", "10"]), *(word for it in tasks for word in it.words())]
        with tempfile.NamedTemporaryFile("w", suffix=".txt") as trace:
            record(trace, tasks, dice)
            most = max(len(it.jobs) for it in tasks)
            runs = [ran(program, "size", *words, "--late", str(it), trace.name).stdout for it in range(most)]
            within = [word for it in tasks for word in ("--task", str(it.pid), "--within", f"{it.pid}={it.within}")]
            prices = reports_of(ran(program, "size", *within, trace.name).stdout)
            for _ in range(20):
                try_together(tried, program, trace.name, tasks, dice)
        reports = [reports_of(it) for it in runs]
        for task in tasks:
            faults = [*task.faults([it.get(str(task.pid), "") for it in reports]), *task.price_faults(prices.get(str(task.pid), ""))]
            tried.add(f"task {task.pid}", faults)


def try_many(tried, program, dice, count=12000):
    """Tries a task of more than 10,000 jobs that keep apart: a job is late where it runs longer than the runtime."""
    task = Task(4194303, dice)
    task.jobs = [(1000 + 200 * it, 37 if it == count - 2 else 10) for it in range(count)]
    with tempfile.NamedTemporaryFile("w", suffix=".txt") as trace:
        record(trace, [task], dice)
        text = ran(program, "size", "--task", f"{task.pid}=200", "--margin", "0", trace.name).stdout
    wanted = [f": {count} jobs in ", "37 18.49 0 0.00 proposed, the least: with 36 job ", f"{count} jobs were seen", f" -p 0 {task.pid}\n"]
    tried.add("more than 10,000 jobs", [f"no {it!r} in {text}" for it in wanted if it not in re.sub(" +", " ", text)])


def main(numbers):
    tried = Tried("sizing")
    if not numbers:
        try_tables(tried, [f"{ROOT}/examples/sizing/sizing.cases"])
    try_random(tried, built("grubtrace"), *numbers)
    try_many(tried, built("grubtrace"), random.Random(1))
    tried.end()


if __name__ == "__main__":
    main([int(it) for it in sys.argv[1:]])
