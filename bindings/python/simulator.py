"""A simulator: global EDF of five reservations over two processors, each with a runqueue.

A ready task is pushed to, or pulled by, the processor that should run it; what others leave is reclaimed. A processor looks
again when a job comes or ends, a 0-lag time is there, or a budget is used up. Moments are in microseconds. What
happened is recorded and held to the book.
`simulator.py FILE` also draws running_bw over time into FILE, where matplotlib is there.
"""

import sys

from neddwyrol import BLOCK, CHARGE, CONTENDING, JOIN, MOVE, TIMER, UNIT, WAITING, WAKE, Book, Event, Op, name_of

RESERVATIONS = [(250, 1000), (4000, 48000), (6000, 64000), (4000, 40000), (8000, 80000)]
RUNQUEUES = [(996147, 209715), (996147, 209715)]
DEMAND = [200, 3000, 4000, 2500, 4000]  # of a job; one comes each period, and each seventh takes twice as long
END, NEVER = 16000, 1 << 31

book = Book(RESERVATIONS, RUNQUEUES)
history, readings, jobs = [], [[], []], 0
left, due = list(DEMAND), [period for _, period in RESERVATIONS]
timers = [(NEVER, 0)] * len(RESERVATIONS)  # of each task: the 0-lag time that it waits for, and the ticket
processors = [None, None]  # what each runs and which ready task is the next, since when, and until when nothing changes


def ask(task, kind, a, b):
    """Asks an op, and writes the call down. A move alone may be refused."""
    op = Op(kind, a, b)
    reply = book.apply(task, op)
    history.append(Event.call(task, op, reply))
    return reply if kind == MOVE else reply.or_fault()


def on(queue):
    return [(number, task) for number, task in enumerate(book.tasks) if task.queue == queue]


def charge(queue, now):
    """Charges what ran by the sums of now: before another op changes them."""
    ready, since, until = processors[queue]
    processors[queue] = ready, now, until
    if not ready or since == now:
        return
    task = ready[0]
    ran = ask(task, CHARGE, queue, now - since)
    left[task] -= now - since
    print(
        f"at {since:5} on {queue} task {task} ran {now - since:4} charged {ran.charged:4} budget {ran.budget:4}"
        f" deadline {ran.deadline:5} running_bw {book.queues[queue].running_bw}"
    )


def look(queue, now):
    """What a processor runs from now on, and until when."""
    ready = [number for _, number in sorted((task.deadline, number) for number, task in on(queue) if task.state == CONTENDING)]
    until = min([NEVER, *(min(due[number], timers[number][0]) for number, _ in on(queue))])
    if ready:
        until = min(until, now + left[ready[0]], now + book.exhaustion(ready[0]))
    processors[queue] = ready, now, until
    readings[queue].append((now, book.queues[queue].running_bw))


def step(queue, now):
    """A job ends, timers fire and jobs come."""
    global jobs
    charge(queue, now)
    ready = processors[queue][0]
    if ready and left[ready[0]] == 0:
        reply = ask(ready[0], BLOCK, queue, now)
        if reply.kind == WAITING:
            timers[ready[0]] = reply.deadline, reply.number
    for number, task in on(queue):
        if timers[number][0] <= now:
            ask(number, TIMER, timers[number][1], now)
            timers[number] = NEVER, 0
        if due[number] <= now:
            jobs += 1
            left[number] += DEMAND[number] * (1 if jobs % 7 else 2)
            due[number] += task.period
            if task.state != CONTENDING:
                ask(number, WAKE, queue, now)
                timers[number] = NEVER, 0


def pushes(queue, now):
    """The second ready task of a runqueue goes to the other one, where it comes before what runs there: whether it went."""
    ready, there = processors[queue][0], processors[1 - queue][0]
    if len(ready) < 2 or there and book.tasks[ready[1]].deadline >= book.tasks[there[0]].deadline:
        return False
    charge(0, now)
    charge(1, now)
    reply = ask(ready[1], MOVE, 1 - queue, 0)
    print(f"at {now:5} task {ready[1]} goes to runqueue {1 - queue}: {name_of(reply.kind)}")
    return reply.granted


for task in range(len(RESERVATIONS)):
    ask(task, JOIN, task % 2, 0)
look(0, 0)
look(1, 0)
now = 0
while now < END:
    now = min(processors[0][2], processors[1][2])
    for queue in range(2):
        if processors[queue][2] <= now:
            step(queue, now)
            look(queue, now)
    if pushes(0, now) or pushes(1, now):
        look(0, now)
        look(1, now)

again = Book(RESERVATIONS, RUNQUEUES)
given = again.check(history)
print(f"{given} events are the book's by nd_check; nd_audit: {again.audit()}")

if len(sys.argv) > 1:
    try:
        import matplotlib

        matplotlib.use("Agg")
        import matplotlib.pyplot as plot
    except ImportError:
        print("matplotlib is not there: nothing is drawn", file=sys.stderr)
        sys.exit(0 if given == len(history) else 1)
    _, rows = plot.subplots(2, sharex=True, figsize=(9, 4))
    for queue, row in enumerate(rows):
        moments, sums = zip(*readings[queue], (now, book.queues[queue].running_bw))
        row.fill_between([it / 1000 for it in moments], [it / UNIT for it in sums], step="post", alpha=0.4)
        row.set_ylim(0, 1)
        row.set_ylabel(f"running_bw of {queue}")
    plot.xlabel("milliseconds")
    plot.tight_layout()
    plot.savefig(sys.argv[1])
sys.exit(0 if given == len(history) else 1)
