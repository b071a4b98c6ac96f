"""Inputs that a table of cases names: file NAME made KIND WORD.. (scripts/cases.py reads the tables)."""
import os
import random
import re
import subprocess

from shared import RECORDS, ROOT, each, files_below, text_of, unpacked

PROCESSOR = 1048576
# What a line of another task has in a trace, which tells nothing of a SCHED_DEADLINE task.
OTHER = "      x-1       [000] d..2.   {}: sched_wakeup: comm=x pid=1 prio=120 target_cpu=000\n"


def write(path, *parts):
    with open(path, "w", encoding="ascii") as it:
        it.writelines(parts)


def zeros(path, size):
    """So many bytes of no line."""
    write(path)
    os.truncate(path, size)


def readings(path, size):
    """An event file of exactly so many bytes, which reads its runqueue in each line."""
    head = f"grub 1\nqueue {PROCESSOR} 0\n"
    longer = (size - len(head)) % 10
    shorter = (size - len(head) - 11 * longer) // 10
    write(path, head, "at 0 read\n" * shorter, "at 10 read\n" * longer)


def queues(folder, count):
    """An event file for each of so many runqueues: one task goes through all of them, and each has a task of its own."""
    os.mkdir(folder)
    for r in range(count):
        own = [f"task OWN{r} 1 8\n", *["task GUEST 1 8\n"] * (r == 0)]
        acts = ["join OWN{r}", "run OWN{r} 1", "block OWN{r}", "join GUEST", "run GUEST 1", "block GUEST", "leave GUEST", "read"]
        lines = [f"at {10 * r + k} {it.format(r=r)}\n" for k, it in enumerate(acts)]
        write(f"{folder}/{r:02}.grub", "grub 1\n", f"queue {PROCESSOR} 0\n", *own, *lines)


def crowded(folder, count, tasks):
    """So many runqueues, each with a lane for each of so many tasks, which are on it twice, the second time at the very last moment: a picture of
    this has too many bytes, however wide its least bar is."""
    os.mkdir(folder)
    names = [f"A_LONG_NAME_{t:04}" for t in range(tasks)]
    for r in range(count):
        lines = [f"at {m} {act.format(name)}\n" for m in (1000000000 + r, 2000000000) for name in names
                 for act in ("join {}", "run {} 2", "block {}", "leave {}")]
        declared = [f"task {name} 1 {PROCESSOR}\n" for name in names if r == 0]
        write(f"{folder}/{r:02}.grub", "grub 1\n", f"queue {PROCESSOR} 0\n", *declared, *lines)


def shifted(line, millis):
    """A line of a trace, later by so much, wherever it tells a moment."""
    words = line.split(" ")
    for at, word in enumerate(words):
        if word.startswith("100.") and word.endswith(":"):
            words[at] = f"{int(word[:-1].replace('.', '')) + millis * 1000000:012}"
            words[at] = f"{words[at][:-9]}.{words[at][-9:]}:"
        for key in ("expires=", "now="):
            if word.startswith(key):
                words[at] = f"{key}{int(word[len(key):]) + millis * 1000000}" + "\n" * word.endswith("\n")
    return " ".join(words)


def trace(path, size, times):
    """The short trace of the tests, the same again so many times in all, every 100 ms, and other tasks' lines up to this size at least."""
    with open(f"{ROOT}/tests/blocks.txt", encoding="ascii") as it:
        head, first, *lines = it.readlines()
    told = [shifted(it, 100 * k) for k in range(times) for it in lines]
    other = OTHER.format(f"{101 + times // 10}.000000000")
    write(path, head, first, *told, other * ((size - sum(map(len, told))) // len(other) + 1))


def processors(path, count):
    """A trace of so many processors, on each of which a task of its own wakes, runs for 1 ms and blocks."""
    lines = [f"# entries-in-buffer/entries-written: {4 * count}/{4 * count}   #P:{count}\n"]
    for cpu in range(count):
        task, at = f"t{cpu}-{1000 + cpu} [{cpu:03}] d.", 100 + cpu
        lines += [
            f"x-1 [{cpu:03}] d. {at}.020000000: sched_wakeup: comm=t{cpu} pid={1000 + cpu} prio=-1 target_cpu={cpu:03}\n",
            f"{task} {at}.021000000: sched_stat_runtime: comm=t{cpu} pid={1000 + cpu} runtime=1000000 [ns]\n",
            f"{task} {at}.021000100: hrtimer_start: hrtimer={cpu:x} function=inactive_task_timer expires={at}030000000\n",
            f"{task} {at}.021000200: sched_switch: prev_comm=t{cpu} prev_pid={1000 + cpu} prev_prio=-1 prev_state=S ==> next_comm=x next_pid=1 next_prio=120\n",
        ]
    write(path, *lines)


def noted(path, count):
    """A record with notes: so many tasks, each alone on one of the last CPUs that a record may name. Each wakes, runs for 1 ms and blocks, four times."""
    head = ["# grub: notes 1 kernel=6.18.44 domain=0-8191 max-bw=996147\n"]
    lines = []
    for task in range(count):
        cpu, pid, at = 8191 - task, 100000 + task, 10**12 + 20000 * task
        head.append(f"# grub: task pid={pid} at=start cpu={cpu} runtime=5000000 deadline=100000000 period=100000000 flags=0x2 comm=task_{task}\n")
        for wake in range(at, at + 8 * 10**8, 2 * 10**8):
            # A run of 1 ms costs the budget 79318 ns, by what is left of the processor.
            lines += [
                (wake, f"x-1 [{cpu:03}] d. {{}}: sched_wakeup: comm=task_{task} pid={pid} prio=-1 target_cpu={cpu:03}\n"),
                (wake + 1000000, f"task_{task}-{pid} [{cpu:03}] d. {{}}: sched_stat_runtime: comm=task_{task} pid={pid} runtime=1000000 [ns]\n"),
                (wake + 1000001, f"task_{task}-{pid} [{cpu:03}] d. {{}}: hrtimer_start: hrtimer={0xffff0000 + task:x} function=inactive_task_timer expires={wake + 1586361}\n"),
                (wake + 1000002, f"task_{task}-{pid} [{cpu:03}] d. {{}}: sched_switch: prev_comm=task_{task} prev_pid={pid} prev_prio=-1 prev_state=S ==> next_comm=x next_pid=0 next_prio=120\n"),
            ]
    lines.sort(key=lambda it: it[0])
    write(path, *head, *(text.format(f"{at // 10**9}.{at % 10**9:09}") for at, text in lines))


def edited(path, name, *edits):
    """A file of the repository, changed by these commands of sed."""
    with open(path, "wb") as it:
        subprocess.run(["sed", "-E", *each("-e", ["", *edits])], input=unpacked(f"{ROOT}/{name}"), stdout=it, check=True)


def record(path, name, *edits):
    """A record of examples/records, so changed."""
    edited(path, f"examples/records/{name}.txt.xz", *edits)


def longer(path, count, *edits):
    """The record of tests/probes-small.txt, so changed, with so many lines behind its 0-lag timer, of a limit that is only read."""
    edited(path, "tests/probes-small.txt", *edits)
    lines = text_of(path).splitlines(True)
    at = next(number for number, it in enumerate(lines) if " ina: " in it) + 1
    write(path, *lines[:at], *["<idle>-0 [000] d..2. 10.002000: lim: (sched_rt_handler+0x0/0x10) write=0\n"] * count, *lines[at:])


def steered(path, name, millionths):
    """A record of examples/records by a clock that is steered by so many millionths, without its lines of timers that fire."""
    def later(line):
        told = re.search(r" (\d+)\.(\d+): ", line)
        if not told:
            return line
        nanos = int(told[1]) * 10**9 + int(told[2].ljust(9, "0"))
        more = nanos * millionths // 10**6
        seconds, rest = divmod(nanos + more, 10**9)
        # A timer of the class is started for a moment of this clock (mode 8).
        line = re.sub(r" tim=(\d+) mode=8 ", lambda it: f" tim={int(it[1]) + more} mode=8 ", line)
        return line.replace(told[0], f" {seconds}.{rest:09}: ", 1)

    lines = unpacked(f"{ROOT}/examples/records/{name}.txt.xz").decode().splitlines(True)
    write(path, *(later(it) for it in lines if " hrtimer_expire_entry: " not in it))


def changed(dice, line):
    """The line with one of its numbers changed."""
    spot = dice.choice(list(re.finditer(r"-?\d+", line)) or [re.search("$", line)])
    number = int(spot[0] or 0)
    other = dice.choice([number + 1, number - 1, number * 2, number + 100_000, 0, 10**19])
    return f"{line[:spot.start()]}{other}{line[spot.end():]}"


def damaged(folder, kind, count):
    """So many files, each the first 600 lines of a record of this kind, of which one is dropped, doubled, moved or changed."""
    os.mkdir(folder)
    dice, records = random.Random(kind), [it for it in files_below(f"{RECORDS}/{kind}") if it.endswith(".txt.xz")]
    begun = [(os.path.basename(it).removesuffix(".txt.xz"), unpacked(it).decode().splitlines(True)[:600]) for it in records]
    for number in range(count):
        name, lines = dice.choice(begun)
        lines, at, what = list(lines), dice.randrange(len(lines)), dice.choice(["dropped", "doubled", "moved", "changed"])
        if what == "changed":
            lines[at] = changed(dice, lines[at])
        elif what == "doubled":
            lines.insert(at, lines[at])
        elif what == "dropped":
            del lines[at]
        else:
            line = lines.pop(at)
            lines.insert(max(0, at + dice.randrange(-20, 20)), line)
        write(f"{folder}/{number:03}-{name}-line-{at + 1}-{what}", *lines)


def make(path, kind, words):
    kinds = (zeros, readings, queues, crowded, trace, processors, noted, edited, record, longer, steered, damaged)
    {it.__name__: it for it in kinds}[kind](path, *(int(it) if it.isdecimal() else it for it in words))
