#!/usr/bin/env python3
"""randload.py [--cpus N] [--with EVENTS] SEEDS: random loads of SCHED_DEADLINE tasks, as lines of loads.tsv (name, processors, busy
fair loops, seconds, words of dlgen.c). SEEDS are numbers and ranges with commas between them: 1,2 or 1-10,40. The same seed, N and
EVENTS give the same words with each Python and on each machine: it reckons in whole numbers, with random numbers of its own.
  --cpus N       for N processors (1 to 64; without: 1)
  --with EVENTS  with events of the system too, some of these with commas between them:
    hotplug      processors go off and on (from two on)
    partition    a cpuset partition is made, tasks move into it, and it is unmade (from two on)
    server       the fair servers get other parameters by debugfs
    limit        sched_rt_runtime_us and sched_rt_period_us are read and written"""
import re
import sys

EVENTS = {"hotplug": "h", "partition": "p", "server": "s", "limit": "l"}
MILLI = 1_000_000
MOST_SEEDS, MOST_CPUS = 10_000, 64


class Dice:
    """Numbers by splitmix64."""

    def __init__(self, seed):
        self.state = seed * 0xD1342543DE82EF95 % 2**64

    def bits(self):
        self.state = (self.state + 0x9E3779B97F4A7C15) % 2**64
        z = self.state
        z = (z ^ z >> 30) * 0xBF58476D1CE4E5B9 % 2**64
        z = (z ^ z >> 27) * 0x94D049BB133111EB % 2**64
        return z ^ z >> 31

    def whole(self, low, high):
        return low + self.bits() % (high - low + 1)

    def one(self, *of):
        return of[self.bits() % len(of)]

    def chance(self, percent):
        return self.bits() % 100 < percent

    def some(self, low, high):
        """From low to high, each doubling as likely as another."""
        low = max(low, 1)
        doublings = (max(high // low, 1)).bit_length()
        low <<= self.whole(0, doublings - 1)
        return self.whole(low, max(low, min(2 * low, high)))

    def kind(self, **weights):
        """A key of these weights."""
        at = self.bits() % sum(weights.values())
        for key, weight in weights.items():
            at -= weight
            if at < 0:
                return key
        return None


def decimal(number, parts):
    """A number of so small parts as the decimal of its unit, with as few digits as it has."""
    digits = len(str(parts)) - 1
    text = f"{number // parts}.{number % parts:0{digits}}"
    return text.rstrip("0").rstrip(".")


def us(nanos):
    return decimal(nanos, 1000)


def ms(nanos):
    return decimal(nanos // 1000, 1000)


def flags(dice):
    """SCHED_FLAG_RECLAIM alone, none, with DL_OVERRUN, DL_OVERRUN alone."""
    return int(dice.kind(f1=55, f0=25, f3=10, f2=10)[1:])


class World:
    """What all tasks of a load have in common; times are nanoseconds, shares thousandths of a processor."""

    def __init__(self, dice, cpus):
        self.dice, self.cpus = dice, cpus
        self.longest = {"usual": 400, "long": 1_500, "longest": 4_100}[dice.kind(usual=60, long=25, longest=15)] * MILLI
        self.end = dice.one(1_000, 1_500, 2_000, 2_500) * MILLI
        self.end += (0 if self.longest == 400 * MILLI else 2_000 if self.longest == 1_500 * MILLI else 5_000) * MILLI
        self.mutexes = int(dice.kind(m0=65, m1=20, m2=10, m3=5)[1:])
        # Chances in percent.
        self.changes, self.leaves, self.own = dice.one(0, 15, 40), dice.one(0, 15, 45), dice.one(0, 10, 35)
        self.kills = dice.one(0, 0, 10, 40)

    def moment(self, low=100, high=900):
        """A moment between these thousandths of the load, in ms."""
        return ms(self.end * self.dice.whole(low, high) // 1000)


class Parameters:
    """A reservation with so great a share, and periods within these bounds."""

    def __init__(self, dice, share, least, most):
        kind = dice.kind(short=12, usual=55, long=16, longest=7, tiny=10)
        low, high = {"short": (200, 2_000), "usual": (5_000, 200_000), "long": (200_000, 1_000_000),
                     "longest": (1_000_000, 4_100_000), "tiny": (10_000, 1_000_000)}[kind]
        low = max(low * 1000 if low * 1000 < most else most // 8, least)
        self.period = dice.some(low, max(low, min(high * 1000, most)))
        self.runtime = self.period * share // 1000
        # Budgets of less than a tick.
        if kind == "tiny":
            self.runtime = dice.some(2_000, 900_000)
        self.runtime = min(max(self.runtime, 100_000 if self.period < MILLI else 2_000), self.period * 95 // 100)
        whole = dice.chance(60)
        if whole:
            self.runtime, self.period = self.runtime // 1000 * 1000, self.period // 1000 * 1000
        room = self.period - self.runtime
        kind = dice.kind(implicit=55, constrained=25, runtime=8, near=6, edge=6)
        self.deadline = {"implicit": self.period, "constrained": self.runtime + room * dice.whole(0, 1000) // 1000, "runtime": self.runtime,
                         "near": self.runtime + self.runtime // 1000 + 1000, "edge": self.period - dice.whole(1, 2000)}[kind]
        if whole and kind != "edge":
            self.deadline = self.deadline // 1000 * 1000
        self.deadline = min(max(self.deadline, self.runtime), self.period)

    def of(self, runtime):
        """The same with another runtime."""
        other = object.__new__(Parameters)
        other.period = self.period
        other.runtime = min(max(runtime, 2_000), self.period)
        other.deadline = max(self.deadline, other.runtime)
        return other

    def words(self):
        return [f"q={us(self.runtime)}", f"p={us(self.period)}"] + ([f"d={us(self.deadline)}"] if self.deadline != self.period else [])

    def change(self, with_flags):
        return f"{us(self.runtime)}:{us(self.deadline)}:{us(self.period)}:{with_flags}"


class Task:
    """The words of one random task."""

    def __init__(self, world, name, share):
        self.world, self.dice, self.share = world, world.dice, share
        self.own = Parameters(self.dice, share, 200_000, world.longest)
        self.begin, self.end = 0, world.end
        self.words = [name, *self.own.words()]
        with_flags = flags(self.dice)
        self.words += [] if with_flags == 1 else [f"r={with_flags}"]
        self.live()
        self.jobs()
        self.hold()
        self.change()
        self.words.append("may=1")

    def live(self):
        """When it starts and ends: short periods live for a while only, so that a record does not grow."""
        dice, end = self.dice, self.world.end
        if self.own.period < 2_500_000:
            self.begin = end * dice.whole(0, 700) // 1000
            self.end = min(end, self.begin + 40 * MILLI + self.own.period * dice.whole(0, 160))
        elif dice.chance(25):
            self.begin = end * dice.whole(0, 400) // 1000
            self.end = self.begin + (end - self.begin) * dice.whole(300, 1000) // 1000

    def jobs(self):
        """Work and sleep of its jobs, at most some hundred of them."""
        dice, period = self.dice, self.own.period
        is_long = period > 500 * MILLI
        low, high = {"some": (20, 80), "most": (60, 98), "over": (80, 350), "bits": (1, 5), "edge": (95, 108)}[
            dice.kind(some=40, most=15, over=25, bits=10, edge=10)]
        high = min(high, 110) if is_long else high
        rest = dice.kind(some=40, short=20, long=15, none=6, period=10, fit=9)
        if is_long and rest in ("long", "none"):
            rest = "short"
        sleeps = {"some": (5, 65), "short": (1, 6), "long": (80, 250), "none": (0, 0), "period": (50, 50), "fit": (40, 95)}[rest]
        interval = (self.own.runtime * (low + high) + period * sum(sleeps)) // 200 + 20_000
        self.end = min(self.end, self.begin + 350 * interval)
        self.words += ([f"st={ms(self.begin)}"] if self.begin else []) + ([f"en={ms(self.end)}"] if self.end != self.world.end else [])
        self.words += [f"w={low}-{high}", "per=1" if rest == "period" else f"s={sleeps[0]}-{sleeps[1]}"]
        if dice.chance(12):
            self.words.append(f"y={dice.whole(1, 4)}")
        if dice.chance(12) and period >= 5_000_000:
            self.words.append(f"b={dice.whole(1, 3)}")
        # SCHED_DEADLINE forks with SCHED_FLAG_RESET_ON_FORK alone.
        if dice.chance(8):
            self.words.append("fl=0x1")
            if dice.chance(60):
                self.words.append(f"fk={dice.whole(1, 4)}")
        elif dice.chance(3):
            self.words.append(f"fk={dice.whole(2, 5)}")

    def hold(self):
        """Mutexes with priority inheritance, in loads that have some."""
        dice, mutexes = self.dice, self.world.mutexes
        if not mutexes or dice.chance(30):
            return
        self.words.append(f"pi={dice.whole(1, 3)}")
        first = dice.whole(0, mutexes - 1)
        self.words += [f"m={first}"] if first else []
        if first + 1 < mutexes and dice.chance(40):
            self.words.append(f"m2={dice.whole(first + 1, mutexes - 1)}")
        if dice.chance(45):
            self.words.append(f"pis={us(dice.some(20_000, 60_000_000) // 1000 * 1000)}")

    def moment(self):
        return self.begin + max(self.end - self.begin, MILLI) * self.dice.whole(0, 1000) // 1000

    def again(self):
        """Its parameters or others, with less of a share, the same or more."""
        dice = self.dice
        if dice.chance(45):
            return self.own.change(flags(dice))
        if dice.chance(40):
            return self.own.of(self.own.runtime * dice.one(30, 50, 80, 100, 130) // 100).change(flags(dice))
        most = min(self.own.period * 8, self.world.longest)
        return Parameters(dice, self.share * dice.one(3, 6, 10, 12) // 10, max(200_000, self.own.period // 8), most).change(flags(dice))

    def change(self):
        """Changes by others and by itself, to other parameters and out of the class and back."""
        dice, world = self.dice, self.world
        if dice.chance(world.changes):
            self.words += [f"xc={ms(self.moment())}:{self.again()}" for _ in range(dice.whole(1, 4))]
        if dice.chance(world.leaves):
            for _ in range(dice.whole(1, 3)):
                at, policy = self.moment(), int(dice.kind(c0=75, c1=10, c3=10, c5=5)[1:])
                away = dice.one(dice.some(20_000, 3 * MILLI), dice.some(500_000, self.own.period * 2 + MILLI), dice.some(MILLI, 400 * MILLI))
                self.words += [f"xc={ms(at)}:0:0:0:{policy}", f"xc={ms(at + away)}:{self.again()}"]
        if dice.chance(world.own):
            is_out = False
            for at in sorted(self.moment() for _ in range(dice.whole(1, 4))):
                is_out = not is_out and dice.chance(35)
                self.words.append(f"ch={ms(at)}:" + (f"0:0:0:{dice.one(0, 0, 0, 0, 0, 1)}" if is_out else self.again()))
        # SCHED_FLAG_KEEP_POLICY, KEEP_PARAMS, a death, and a change after it.
        for percent, word in ((2, lambda: f"xc={ms(self.moment())}:{self.own.change(4)}"), (3, lambda: f"xc={ms(self.moment())}:{self.own.change(9)}"),
                              (world.kills, lambda: f"kill={ms(self.moment())}"), (2, lambda: "dead=1")):
            if dice.chance(percent):
                self.words.append(word())
        if world.cpus > 1 and dice.chance(5):
            self.words.append(f"xa={ms(self.moment())}:{dice.whole(1, 2**world.cpus - 1):#x}")


def beside(world, first):
    """Two tasks that wake each other, and a fair or FIFO one that may hold a mutex and become a deadline task."""
    dice, words = world.dice, []
    if dice.chance(20):
        period = dice.some(2_000, 40_000)
        for i in (first, first + 1):
            runtime = period * dice.one(2, 5, 10) // 100
            words.append([f"gr_{i}", f"q={runtime}", f"p={period}", f"w={dice.one('5-20', '20-80', '60-130')}", "hot=0",
                          f"en={ms(world.end * dice.one(2, 5) // 10)}", "may=1"])
    if dice.chance(64 if world.mutexes else 12):
        period = dice.some(5_000, 100_000)
        task = [f"fair_{first}", f"q={period // 6}", f"p={period}", dice.one("fair=1", "fair=1", "fifo=1")]
        if world.mutexes:
            task += ["pi=1", f"m={dice.whole(0, world.mutexes - 1)}"] + ([f"pis={dice.some(50, 20_000)}"] if dice.chance(50) else [])
        if dice.chance(30):
            task.append(f"xc={world.moment(0, 1000)}:{period // 10}:{period}:{period}:{flags(dice)}")
        words.append([*task, "w=40-90", "s=5-65"])
    return words


def hotplug(world, _):
    for _ in range(world.dice.whole(1, 3)):
        cpu, off = world.dice.whole(1, world.cpus - 1), world.end * world.dice.whole(100, 800) // 1000
        for at, state in ((off, 0), (off + world.dice.some(MILLI, 500 * MILLI), 1)):
            yield f"wr={ms(at)}:/sys/devices/system/cpu/cpu{cpu}/online:{state}"


def partition(world, names):
    dice, top = world.dice, "/sys/fs/cgroup"
    first, made, unmade = dice.whole(1, world.cpus - 1), dice.whole(50, 450), dice.whole(600, 950)
    yield from (f"wr=0:{top}/cgroup.subtree_control:+cpuset", f"md=0:{top}/part")
    yield f"wr=0:{top}/part/cpuset.cpus:{first}-{dice.whole(first, world.cpus - 1)}"
    yield f"wr={world.moment(made, made)}:{top}/part/cpuset.cpus.partition:{dice.one('root', 'root', 'isolated')}"
    for name in names:
        if dice.chance(45):
            yield f"wr={world.moment(made // 2, unmade)}:{top}/part/cgroup.procs:@{name}"
    yield f"wr={world.moment(unmade, unmade)}:{top}/part/cpuset.cpus.partition:member"


def server(world, _):
    dice = world.dice
    for _ in range(dice.whole(1, 4)):
        place = f"/sys/kernel/debug/sched/fair_server/cpu{dice.whole(0, world.cpus - 1)}"
        if dice.chance(75):
            yield f"wr={world.moment()}:{place}/runtime:{dice.one(0, 50_000_000, dice.whole(2_000_000, 200_000_000))}"
        else:
            yield f"wr={world.moment()}:{place}/period:{dice.one(1_000_000_000, dice.whole(300_000_000, 3_000_000_000))}"


def limit(world, _):
    dice, place = world.dice, "/proc/sys/kernel/sched_rt_"
    for _ in range(dice.whole(1, 4)):
        kind = dice.kind(read=35, runtime=45, period=20)
        if kind == "read":
            yield f"rd={world.moment()}:{place}runtime_us"
        elif kind == "runtime":
            yield f"wr={world.moment()}:{place}runtime_us:{dice.one(-1, 950000, 980000, dice.whole(300000, 1000000))}"
        else:
            yield f"wr={world.moment()}:{place}period_us:{dice.one(1000000, 2000000, dice.whole(960000, 1500000))}"


def load(seed, cpus=1, events=()):
    """The line of loads.tsv of a seed."""
    dice = Dice(seed)
    world = World(dice, cpus)
    count = dice.whole(1, 6) if cpus == 1 else dice.whole(2, 3 + 2 * cpus)
    total = cpus * dice.one(200, 500, 750, 880, 930, 1100)
    cuts = [dice.whole(50, 1050) for _ in range(count)]
    tasks = [Task(world, f"gr_{i}", min(total * cut // sum(cuts), 900)).words for i, cut in enumerate(cuts)]
    tasks += beside(world, count)
    loops = int(dice.kind(l0=82, l1=13, l2=5)[1:])
    for event in events:
        tasks.append(["sys", *globals()[event](world, [it[0] for it in tasks if it[0] != "sys"])])
    name = f"r{seed}{'.' + str(cpus) if cpus > 1 or events else ''}{''.join(EVENTS[it] for it in events)}"
    return "\t".join([name, str(cpus), str(loops), decimal(world.end // MILLI, 1000), " ".join([f"seed={seed}", *(",".join(it) for it in tasks)])])


def fail(what):
    sys.exit(print(f"randload: {what}", file=sys.stderr) or 2)


def seeds_of(text):
    """The seeds of numbers and ranges with commas between them, each once."""
    seeds = {}
    for part in text.split(","):
        found = re.fullmatch(r"(\d{1,9})(?:-(\d{1,9}))?", part, re.A)
        if not found:
            fail(f"the seed {part} is no number from 0 to 999999999, and no range of them")
        low, high = int(found[1]), int(found[2] or found[1])
        if low > high:
            fail(f"the range {part} goes down")
        if len(seeds) + high - low >= MOST_SEEDS:
            fail(f"these are more than {MOST_SEEDS} seeds")
        seeds.update(dict.fromkeys(range(low, high + 1)))
    return list(seeds)


def events_of(text, cpus):
    """The events of a word, each once, in the order of the table."""
    asked = text.split(",") if text else []
    for event in asked:
        if event not in EVENTS:
            fail(f"there are no events {event}; there are {', '.join(EVENTS)}")
        if event in ("hotplug", "partition") and cpus == 1:
            fail(f"the events {event} want two processors (--cpus 2)")
    return [it for it in EVENTS if it in asked]


def main(words):
    given = {"--cpus": "1", "--with": ""}
    while len(words) > 1 and words[0] in given:
        given[words[0]] = words[1]
        words = words[2:]
    if len(words) != 1 or words[0].startswith("-"):
        sys.exit(print(__doc__, file=sys.stderr) or 2)
    cpus = int(given["--cpus"]) if re.fullmatch(r"[1-9]\d?", given["--cpus"], re.A) else 0
    if not 1 <= cpus <= MOST_CPUS:
        fail(f"--cpus is no number from 1 to {MOST_CPUS}: {given['--cpus']}")
    events = events_of(given["--with"], cpus)
    for seed in seeds_of(words[0]):
        print(load(seed, cpus, events))


if __name__ == "__main__":
    main(sys.argv[1:])
