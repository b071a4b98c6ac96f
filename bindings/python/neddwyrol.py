"""The bandwidth accounting of Linux SCHED_DEADLINE (GRUB), over Neddwyrol's proved library for C.

neddwyrol.h says what each call promises. A Book stands over two arrays, one of tasks and one of runqueues, which are read
directly: book.queues[0].running_bw. No call asks anything of the numbers that it is given. Moments, runs, runtimes,
periods, budgets and deadlines have one unit, which the caller chooses; bandwidths are in 1/2^20. Arguments may be given by
name: book.block(task=0, queue=0, moment=2).

The library is the file that NEDDWYROL_SO names, or else libneddwyrol.so.1: beside this module, in the lib of the prefix that
it was installed below, in out/library of the repository, or where the loader finds it.
"""

import ctypes
import os
from ctypes import POINTER, Structure, byref, c_int64, c_size_t, c_uint32, c_uint64

__version__ = "0.3.0"

ABI = 1
VERSION = 3000
UNIT = 1048576
QUEUES_MAX = 65536
TASKS_MAX = 1048576

# states of a task
AWAY, CONTENDING, NON_CONTENDING, INACTIVE, GONE_FOR_GOOD = range(5)

# kinds of ops
JOIN, WAKE, BLOCK, LEAVE, TIMER, EXIT, CHARGE, RETUNE, MOVE = range(1, 10)

# kinds of events
CALL, READING, REBASE = 1, 2, 3

_OTHERS = set(globals())

# faults and refusals
DONE = 0
PERIOD_OUT_OF_RANGE, RUNTIME_OUT_OF_RANGE, TOO_SMALL, UMAX_OUT_OF_RANGE, UEXTRA_OUT_OF_RANGE = range(1, 6)
TOO_MANY_QUEUES, TOO_MANY_TASKS, NO_QUEUE = range(6, 9)
GONE, NOT_ON, ALREADY_ON, ELSEWHERE, ALREADY_CONTENDING, NOT_CONTENDING, STILL_CONTENDING = range(9, 16)
STILL_ACTIVE, WORN, STALE, EARLY, FULL, DEADLINE_OVERFLOW = range(16, 22)
BUDGET_OUT_OF_RANGE, MOMENT_OUT_OF_RANGE, RUNNING_OUT_OF_RANGE, COUNT_OUT_OF_RANGE = range(60, 64)
QUEUE_OUT_OF_RANGE, WRONG_RUNNING_BW, WRONG_THIS_BW, OVERFULL, STATE_OUT_OF_RANGE = range(64, 69)
NO_TASK, NO_OP, DAMAGED, NOBODY, TOO_FAR = range(70, 75)

# what is granted
JOINED, WOKEN, WAITING, ASLEEP, LEFT, RETIRED, ENDED, CHARGED, RETUNED, MOVED, REBASED = range(101, 112)

# the name of each of these, and of those that the shared table adds, which C and Rust have
_NAMES = {number: name for name, number in globals().items() if name not in _OTHERS and name[0].isupper()}
_NAMES_OF_TABLE = {23: "NO_PASS", 24: "TOO_MANY_PASSES", 25: "NO_TABLE_MEMORY", 26: "MISSING", 27: "NO_PART", 42: "NO_MEMORY",
                   50: "BUSY", 51: "EMPTY", 52: "LOST", 53: "TWO_TABLES", 100: "HELD"}


class _Numbers(Structure):
    """A struct that prints its fields, and is equal to one with the same numbers."""

    def __repr__(self):
        return type(self).__name__ + "(" + ", ".join(f"{it[0]}={getattr(self, it[0])}" for it in self._fields_) + ")"

    def __eq__(self, other):
        return type(self) is type(other) and bytes(self) == bytes(other)

    __hash__ = None


class Task(_Numbers):
    """What is kept of a task. Before the opening its runtime and period alone count."""

    _fields_ = [
        ("runtime", c_uint32),
        ("period", c_uint32),
        ("budget", c_uint32),
        ("deadline", c_uint32),
        ("count", c_uint32),
        ("state", c_uint32),
        ("queue", c_uint32),
    ]


class Runqueue(_Numbers):
    """A runqueue. Before the opening its umax and uextra alone count."""

    _fields_ = [("umax", c_uint32), ("uextra", c_uint32), ("running_bw", c_uint32), ("this_bw", c_uint32)]


class Op(_Numbers):
    """What is asked for a task."""

    _fields_ = [("kind", c_uint32), ("a", c_uint32), ("b", c_uint32)]


class Reply(_Numbers):
    """What is answered: granted where its kind is at least 101."""

    _fields_ = [("kind", c_uint32), ("number", c_uint32), ("budget", c_uint32), ("deadline", c_uint32), ("charged", c_uint64)]

    @property
    def granted(self):
        return self.kind >= JOINED

    def or_fault(self):
        """The reply, where the op was granted. Else a Fault is raised, whose number is the reply's kind."""
        if not self.granted:
            raise Fault("refused", self.kind)
        return self


class Ask(_Numbers):
    """An op that is asked for a task."""

    _fields_ = [("task", c_uint32), ("op", Op)]


class Event(_Numbers):
    """An event of a recorded history: a call with its reply, a reading, or a rebase with its reply."""

    _fields_ = [
        ("kind", c_uint32),
        ("pass_", c_uint32),
        ("number", c_uint32),
        ("op", Op),
        ("running_bw", c_uint32),
        ("this_bw", c_uint32),
        ("reply", Reply),
    ]

    @classmethod
    def call(cls, task, op, reply):
        return cls(CALL, 0, task, op, 0, 0, reply)

    @classmethod
    def reading(cls, queue, running_bw, this_bw):
        return cls(READING, 0, queue, Op(), running_bw, this_bw)

    @classmethod
    def rebase(cls, by, reply):
        return cls(REBASE, 0, by, Op(), 0, 0, reply)


class Params(_Numbers):
    """A reservation: a runtime in each period."""

    _fields_ = [("runtime", c_uint32), ("period", c_uint32)]


class Capacity(_Numbers):
    """The constants of a runqueue."""

    _fields_ = [("umax", c_uint32), ("uextra", c_uint32)]


class Server(_Numbers):
    """A task's server: what is left of its budget, and its deadline."""

    _fields_ = [("budget", c_uint32), ("deadline", c_uint32)]


class Reading(_Numbers):
    """The sums of a runqueue."""

    _fields_ = [("running_bw", c_uint32), ("this_bw", c_uint32)]


_TASKS, _QUEUES = [POINTER(Task), c_size_t], [POINTER(Runqueue), c_size_t]

# each call's result and arguments, as neddwyrol.h has them
CALLS = {
    "nd_open": (c_uint32, _TASKS + _QUEUES),
    "nd_apply": (Reply, _TASKS + _QUEUES + [c_uint32, Op]),
    "nd_apply_all": (c_size_t, _TASKS + _QUEUES + [POINTER(Ask), c_size_t, POINTER(Reply), c_size_t]),
    "nd_audit": (c_uint32, _TASKS + _QUEUES),
    "nd_open_fault": (c_uint32, _TASKS + _QUEUES + [POINTER(c_uint32)]),
    "nd_audit_fault": (c_uint32, _TASKS + _QUEUES + [POINTER(c_uint32)]),
    "nd_check": (c_size_t, _TASKS + _QUEUES + [POINTER(Event), c_size_t]),
    "nd_rebase": (Reply, _TASKS + _QUEUES + [c_uint32]),
    "nd_rebase_limit": (c_uint32, _TASKS + _QUEUES + [POINTER(c_uint32)]),
    "nd_params_fault": (c_uint32, [Params]),
    "nd_capacity_fault": (c_uint32, [Capacity]),
    "nd_bw": (c_uint32, [Params]),
    "nd_zero_lag": (c_uint32, [Server, Params, POINTER(c_int64)]),
    "nd_woken": (c_uint32, [Server, Params, c_uint32, POINTER(Server)]),
    "nd_charge": (c_uint32, [c_uint32, c_uint32, Capacity, Reading, POINTER(c_uint64)]),
    "nd_exhaustion": (c_uint32, [c_uint32, c_uint32, Capacity, Reading, POINTER(c_uint64)]),
    "nd_deplete": (c_uint32, [Server, Params, c_uint64, POINTER(Server), POINTER(c_uint32)]),
    "nd_kernel_charge": (c_uint64, [c_uint32, c_uint64, c_uint64, c_uint64, c_uint64, c_uint64, c_uint64, c_uint64]),
    "nd_earliest": (c_uint32, _TASKS + [c_uint32, POINTER(c_uint32), POINTER(c_uint32)]),
    "nd_next_timer": (c_uint32, _TASKS + [c_uint32, POINTER(c_uint32), POINTER(c_uint32)]),
    "nd_abi": (c_uint32, []),
    "nd_version": (c_uint32, []),
}


class Fault(ValueError):
    """A call refused its numbers; `number` says why, and `name_of(number)` by name. `at` is the task or runqueue that has the
    fault, where there is one."""

    def __init__(self, call, number, at=None):
        super().__init__(f"{call}: {number} {name_of(number)}" + ("" if at is None else f" of {at}"))
        self.number, self.at = number, at


def name_of(kind):
    """The name of a fault or of a reply's kind, as neddwyrol.h has it without ND_; "UNKNOWN" where it is none."""
    return _NAMES.get(kind) or _NAMES_OF_TABLE.get(kind, "UNKNOWN")


def _library():
    own, name = os.path.dirname(os.path.abspath(__file__)), f"libneddwyrol.so.{ABI}"
    places = [os.path.join(own, *it, name) for it in ((), ("..", "..", "..", "lib"), ("..", "..", "out", "library"))]
    found = [it for it in places if os.path.isfile(it)] or [name]
    library = ctypes.CDLL(os.environ.get("NEDDWYROL_SO", found[0]))
    for name, (result, arguments) in CALLS.items():
        call = getattr(library, name)
        call.restype, call.argtypes = result, arguments
    if library.nd_abi() != ABI:
        raise ImportError(f"neddwyrol is made for version {ABI} of its library, and found {library.nd_abi()}")
    return library


_lib = _library()


def _unless(call, number):
    if number:
        raise Fault(call, number)


def _u32(value):
    if not 0 <= value < 1 << 32:
        raise OverflowError(f"{value} is no number of 32 bits")
    return value


def _u64(value):
    if not 0 <= value < 1 << 64:
        raise OverflowError(f"{value} is no number of 64 bits")
    return value


def _apart(written, *others):
    """The struct or array that a call writes stands where its numbers may stand, and overlaps none of the others."""
    start = ctypes.addressof(written)
    if start % ctypes.alignment(written):
        raise ValueError(f"the memory begins at an address that is no multiple of {ctypes.alignment(written)}")
    for other in others:
        begin = ctypes.addressof(other)
        if start < begin + ctypes.sizeof(other) and begin < start + ctypes.sizeof(written):
            raise ValueError("what a call writes may overlap nothing else that it is given")


class Book:
    """A book of reservations (runtime, period) and runqueues (umax, uextra): book.tasks and book.queues are its memory."""

    def __init__(self, tasks, queues):
        self.tasks = (Task * len(tasks))(*(Task(_u32(runtime), _u32(period)) for runtime, period in tasks))
        self.queues = (Runqueue * len(queues))(*(Runqueue(_u32(umax), _u32(uextra)) for umax, uextra in queues))
        at = c_uint32()
        fault = _lib.nd_open_fault(*self._memory(), byref(at))
        if fault:
            kind = "runqueue " if fault in (UMAX_OUT_OF_RANGE, UEXTRA_OUT_OF_RANGE) else "task "
            raise Fault("nd_open", fault, None if TOO_MANY_QUEUES <= fault <= NO_QUEUE else f"{kind}{at.value}")
        _lib.nd_open(*self._memory())

    def _memory(self):
        return self.tasks, len(self.tasks), self.queues, len(self.queues)

    def apply(self, task, op):
        """Asks an op for a task."""
        return _lib.nd_apply(*self._memory(), _u32(task), op)

    def _ask(self, task, kind, a=0, b=0):
        return self.apply(task, Op(kind, _u32(a), _u32(b)))

    def join(self, task, queue, moment):
        return self._ask(task, JOIN, queue, moment)

    def wake(self, task, queue, moment):
        return self._ask(task, WAKE, queue, moment)

    def block(self, task, queue, moment):
        return self._ask(task, BLOCK, queue, moment)

    def leave(self, task):
        return self._ask(task, LEAVE)

    def timer(self, task, ticket, moment):
        return self._ask(task, TIMER, ticket, moment)

    def exit(self, task):
        return self._ask(task, EXIT)

    def run(self, task, queue, run):
        """Charges a run of a task that contends."""
        return self._ask(task, CHARGE, queue, run)

    def retune(self, task, runtime, period):
        return self._ask(task, RETUNE, runtime, period)

    def move(self, task, queue):
        """A contending task goes to another runqueue, with budget, deadline and count as they are."""
        return self._ask(task, MOVE, queue)

    def _first(self, call, queue):
        task, moment = c_uint32(), c_uint32()
        fault = call(self.tasks, len(self.tasks), _u32(queue), byref(task), byref(moment))
        return None if fault else (task.value, moment.value)

    def earliest(self, queue):
        """The contending task of a runqueue with the earliest deadline, and that deadline; None where none contends."""
        return self._first(_lib.nd_earliest, queue)

    def next_timer(self, queue):
        """The task of a runqueue that waits for the earliest 0-lag time, and that moment; None where none waits. The ticket of
        its timer is its count."""
        return self._first(_lib.nd_next_timer, queue)

    def exhaustion(self, task):
        """After how long a run the budget of a contending task is used up, by the sums of now."""
        held = self.tasks[task]
        if held.state != CONTENDING:
            raise Fault("exhaustion", NOT_CONTENDING)
        on = self.queues[held.queue]
        return exhaustion(held.budget, bw(held.runtime, held.period), (on.umax, on.uextra), (on.running_bw, on.this_bw))

    def apply_all(self, asks, replies=None):
        """Asks ops one after another, and gives their replies: `asks` is an array of Ask, as `asks_of` makes one. An array
        of Reply may be given to be written; then as many are asked as it has room for."""
        if replies is None:
            replies = (Reply * len(asks))()
        _apart(replies, asks, self.tasks, self.queues)
        _apart(self.tasks, asks, self.queues)
        _apart(self.queues, asks)
        _lib.nd_apply_all(*self._memory(), asks, len(asks), replies, len(replies))
        return replies

    def audit(self):
        """0 where the memory is a book, else the number of the first fault."""
        return _lib.nd_audit(*self._memory())

    def audit_fault(self):
        """What audit() answers, and which task or runqueue has the fault."""
        at = c_uint32()
        return _lib.nd_audit_fault(*self._memory(), byref(at)), at.value

    def rebase(self, by):
        """Moves the origin of time: what was the moment `by` is the moment 0 from then on. neddwyrol.h says what a rebase changes,
        and which timers have to be dropped before."""
        return _lib.nd_rebase(*self._memory(), _u32(by))

    def rebase_limit(self):
        """The last moment that a rebase may make the moment 0."""
        by = c_uint32()
        _unless("nd_rebase_limit", _lib.nd_rebase_limit(*self._memory(), byref(by)))
        return by.value

    def check(self, events):
        """Replays a recorded history, a list of Event: how many events the book gives."""
        events = (Event * len(events))(*events)
        return _lib.nd_check(*self._memory(), events, len(events))

    def copy(self):
        """A book with the same memory: a snapshot."""
        other = object.__new__(Book)
        other.tasks = type(self.tasks).from_buffer_copy(self.tasks)
        other.queues = type(self.queues).from_buffer_copy(self.queues)
        return other


def asks_of(numbers):
    """An array of Ask over numbers of 32 bits, four each: task, kind, a, b. Over a writable buffer, as an array("I") or one
    of numpy, nothing is copied."""
    size = ctypes.sizeof(Ask)
    try:
        view = memoryview(numbers)
    except TypeError:
        view = memoryview(bytearray(b"".join(_u32(it).to_bytes(4, "little") for it in numbers)))
    if view.nbytes % size:
        raise ValueError("an op to ask has four numbers of 32 bits: task, kind, a, b")
    kind = Ask * (view.nbytes // size)
    if view.readonly:
        return kind.from_buffer_copy(view)
    asks = kind.from_buffer(view)
    _apart(asks)
    return asks


def params_fault(runtime, period):
    """0 where the numbers are a reservation, else 1, 2 or 3."""
    return _lib.nd_params_fault(Params(_u32(runtime), _u32(period)))


def capacity_fault(umax, uextra):
    """0 where the numbers are the constants of a runqueue, else 4 or 5."""
    return _lib.nd_capacity_fault(Capacity(_u32(umax), _u32(uextra)))


def bw(runtime, period):
    """The bandwidth of a reservation, rounded down; 0 where the numbers are none."""
    return _lib.nd_bw(Params(_u32(runtime), _u32(period)))


def zero_lag(server, params):
    """The 0-lag time of a server (budget, deadline) of a reservation (runtime, period); it may be below 0."""
    z = c_int64()
    _unless("nd_zero_lag", _lib.nd_zero_lag(Server(*map(_u32, server)), Params(*map(_u32, params)), byref(z)))
    return z.value


def woken(server, params, moment):
    """The server (budget, deadline) of a task that wakes at a moment."""
    left = Server()
    _unless("nd_woken", _lib.nd_woken(Server(*map(_u32, server)), Params(*map(_u32, params)), _u32(moment), byref(left)))
    return left.budget, left.deadline


def charge(run, bw, queue, now):
    """What a run takes from the budget of a task of this bandwidth, on a runqueue (umax, uextra) that reads (running_bw,
    this_bw)."""
    charged = c_uint64()
    fault = _lib.nd_charge(_u32(run), _u32(bw), Capacity(*map(_u32, queue)), Reading(*map(_u32, now)), byref(charged))
    _unless("nd_charge", fault)
    return charged.value


def exhaustion(budget, bw, queue, now):
    """The least run of a task of this bandwidth whose charge is at least the budget, on a runqueue (umax, uextra) that reads
    (running_bw, this_bw)."""
    run = c_uint64()
    fault = _lib.nd_exhaustion(_u32(budget), _u32(bw), Capacity(*map(_u32, queue)), Reading(*map(_u32, now)), byref(run))
    _unless("nd_exhaustion", fault)
    return run.value


def deplete(server, params, charged):
    """How often the budget is recharged where so much is taken from it, and the server (budget, deadline) afterwards."""
    left, recharges = Server(), c_uint32()
    fault = _lib.nd_deplete(Server(*map(_u32, server)), Params(*map(_u32, params)), _u64(charged), byref(left), byref(recharges))
    _unless("nd_deplete", fault)
    return recharges.value, (left.budget, left.deadline)


def kernel_charge(kernel, dt, bw, this_bw, running_bw, extra_bw, max_bw, bw_ratio):
    """What a kernel of this version (0x060100 for 6.1) charges for a run of dt nanoseconds, in nanoseconds. As the kernel's own
    numbers are, all but its version are taken modulo 2^64."""
    return _lib.nd_kernel_charge(_u32(kernel), dt, bw, this_bw, running_bw, extra_bw, max_bw, bw_ratio)
