"""The calls of the module, each once: python3 -m unittest, with NEDDWYROL_SO naming the library."""

import unittest
from array import array

import neddwyrol as nd

HALF = (4, 8)


class Books(unittest.TestCase):
    def test_openings(self):
        for tasks, queues, number in [([HALF], [], nd.NO_QUEUE), ([(9, 8)], [(nd.UNIT, 0)], nd.RUNTIME_OUT_OF_RANGE), ([], [(5, 6)], nd.UEXTRA_OUT_OF_RANGE)]:
            with self.assertRaises(nd.Fault) as fault:
                nd.Book(tasks, queues)
            self.assertEqual(fault.exception.number, number)
        with self.assertRaises(OverflowError):
            nd.Book([(-1, 8)], [(nd.UNIT, 0)])
        self.assertEqual(nd.Book([], [(nd.UNIT, 0)]).audit(), 0)

    def test_many_runqueues(self):
        book = nd.Book([(1, 4)] * 1000, [(nd.UNIT, 0)] * 200)
        granted = [book.join(task, task % 200, 0).granted for task in range(1000)]
        self.assertEqual(granted, [True] * 800 + [False] * 200)
        self.assertEqual(book.queues[199].running_bw, nd.UNIT)
        self.assertEqual(book.audit(), 0)

    def test_ops(self):
        book = nd.Book([HALF, HALF], [(nd.UNIT, 0), (nd.UNIT, 0)])
        replies = [book.join(0, 0, 0), book.block(0, 0, 0), book.wake(0, 0, 1), book.run(0, 0, 2), book.block(0, 0, 2), book.timer(0, 1, 9), book.retune(0, 2, 8)]
        self.assertEqual([reply.kind for reply in replies], [nd.JOINED, nd.ASLEEP, nd.WOKEN, nd.CHARGED, nd.WAITING, nd.RETIRED, nd.RETUNED])
        self.assertEqual([book.leave(0).kind, book.exit(0).kind, book.exit(0).kind], [nd.LEFT, nd.ENDED, nd.GONE])
        self.assertEqual([book.exit(2).kind, book.join(1, 2, 0).kind], [nd.NO_TASK, nd.NO_OP])
        self.assertFalse(book.exit(2).granted)

    def test_arguments_by_name(self):
        book = nd.Book(tasks=[HALF, HALF], queues=[(nd.UNIT, 0), (nd.UNIT, 0)])
        book.join(moment=0, queue=0, task=0).or_fault()
        book.move(queue=1, task=0).or_fault()
        book.run(run=2, queue=1, task=0).or_fault()
        waits = book.block(task=0, queue=1, moment=2).or_fault()
        self.assertEqual((waits.kind, waits.deadline, book.next_timer(queue=1)), (nd.WAITING, 4, (0, 4)))
        book.timer(moment=4, ticket=waits.number, task=0).or_fault()
        book.wake(task=0, queue=1, moment=8).or_fault()
        self.assertEqual((book.earliest(queue=1), book.exhaustion(task=0)), ((0, 16), 4))
        book.join(task=1, queue=0, moment=8).or_fault()
        book.block(task=1, queue=0, moment=8).or_fault()
        replies = [book.retune(task=1, runtime=1, period=8), book.leave(task=1), book.exit(task=1)]
        self.assertEqual([reply.or_fault().kind for reply in replies], [nd.RETUNED, nd.LEFT, nd.ENDED])
        with self.assertRaisesRegex(nd.Fault, "^refused: 9 GONE$") as fault:
            book.join(task=1, queue=0, moment=8).or_fault()
        self.assertEqual(fault.exception.number, nd.GONE)

    def test_batch(self):
        book = nd.Book([HALF, HALF], [(nd.UNIT, 0)])
        asks = nd.asks_of(array("I", [0, nd.JOIN, 0, 0, 1, nd.JOIN, 0, 0, 0, nd.CHARGE, 0, 2]))
        self.assertEqual([reply.kind for reply in book.apply_all(asks)], [nd.JOINED, nd.JOINED, nd.CHARGED])
        replies = (nd.Reply * 1)()
        book.apply_all(nd.asks_of([0, nd.BLOCK, 0, 2, 0, nd.LEAVE, 0, 0]), replies)
        self.assertEqual((replies[0].kind, replies[0].deadline, book.tasks[0].state), (nd.WAITING, 4, nd.NON_CONTENDING))
        with self.assertRaises(ValueError):
            nd.asks_of([1, 2, 3])

    def test_memory_of_others(self):
        book = nd.Book([HALF], [(nd.UNIT, 0)])
        with self.assertRaises(ValueError):
            nd.asks_of(memoryview(bytearray(33))[1:])
        numbers = array("I", [0, nd.JOIN, 0, 0, 0, nd.CHARGE, 0, 2, 0, nd.BLOCK, 0, 2, 0, nd.LEAVE, 0, 0])
        with self.assertRaises(ValueError):
            book.apply_all(nd.asks_of(numbers), (nd.Reply * 2).from_buffer(numbers))
        with self.assertRaises(ValueError):
            book.apply_all(nd.asks_of(numbers), (nd.Reply * 1).from_buffer(bytearray(40), 4))
        self.assertEqual(book.tasks[0].state, nd.AWAY)

    def test_names(self):
        self.assertEqual([nd.name_of(it) for it in (0, 2, 20, 51, 103, 99)], ["DONE", "RUNTIME_OUT_OF_RANGE", "FULL", "EMPTY", "WAITING", "UNKNOWN"])
        with self.assertRaisesRegex(nd.Fault, "^nd_open: 2 RUNTIME_OUT_OF_RANGE of task 1$"):
            nd.Book([HALF, (9, 8)], [(nd.UNIT, 0)])

    def test_snapshots_and_damage(self):
        book = nd.Book([HALF], [(nd.UNIT, 0)])
        book.join(0, 0, 0).or_fault()
        saved = book.copy()
        book.block(0, 0, 0).or_fault()
        self.assertEqual((saved.tasks[0].state, book.tasks[0].state), (nd.CONTENDING, nd.INACTIVE))
        saved.queues[0].running_bw = 0
        self.assertEqual((saved.audit(), saved.audit_fault()), (nd.WRONG_RUNNING_BW, (nd.WRONG_RUNNING_BW, 0)))
        saved.tasks[0].budget = 9
        self.assertEqual(saved.block(0, 0, 0).kind, nd.DAMAGED)

    def test_moves(self):
        book = nd.Book([HALF, HALF, (1, 8)], [(nd.UNIT, 0), (nd.UNIT // 2, 0)])
        self.assertEqual([book.move(0, 0).kind, book.join(0, 0, 0).kind, book.join(2, 0, 0).kind], [nd.NOT_ON, nd.JOINED, nd.JOINED])
        self.assertEqual((book.earliest(0), book.earliest(1), book.next_timer(0)), ((0, 8), None, None))
        book.run(0, 0, 1).or_fault()
        before = (book.tasks[0].budget, book.tasks[0].deadline)
        reply = book.move(0, 1)
        self.assertEqual((reply.kind, reply.number, (book.tasks[0].budget, book.tasks[0].deadline)), (nd.MOVED, 0, before))
        self.assertEqual([it.running_bw for it in book.queues], [nd.UNIT // 8, nd.UNIT // 2])
        again = [book.move(0, 1), book.move(2, 1), book.move(0, 2), book.move(3, 0)]
        self.assertEqual([it.kind for it in again], [nd.ALREADY_ON, nd.FULL, nd.NO_OP, nd.NO_TASK])
        self.assertEqual((book.exhaustion(0), book.audit()), (3, 0))
        waits = book.block(0, 1, 1)
        self.assertEqual((book.next_timer(1), book.move(0, 0).kind), ((0, waits.deadline), nd.NOT_CONTENDING))
        with self.assertRaises(nd.Fault):
            book.exhaustion(0)

    def test_origins(self):
        book, history = nd.Book([HALF, HALF], [(nd.UNIT, 0)]), []
        self.assertEqual((book.rebase_limit(), book.rebase(by=2**32 - 1).kind), (2**32 - 1, nd.REBASED))
        for task, op in [(0, nd.Op(nd.JOIN, 0, 10)), (1, nd.Op(nd.JOIN, 0, 10)), (0, nd.Op(nd.CHARGE, 0, 2)), (0, nd.Op(nd.BLOCK, 0, 12))]:
            history.append(nd.Event.call(task, op, book.apply(task, op).or_fault()))
        self.assertEqual(book.rebase_limit(), 14)
        for by in 15, 12:
            history.append(nd.Event.rebase(by, book.rebase(by)))
        self.assertEqual([(it.reply.kind, it.reply.number) for it in history[4:]], [(nd.TOO_FAR, 0), (nd.REBASED, 0)])
        self.assertEqual([(it.deadline, it.count) for it in book.tasks], [(6, 1), (6, 0)])
        self.assertEqual([book.timer(task=0, ticket=1, moment=it).kind for it in (1, 2)], [nd.EARLY, nd.RETIRED])
        book.rebase(by=6).or_fault()
        self.assertEqual([(it.deadline, it.count) for it in book.tasks], [(0, 0), (0, 0)])
        self.assertEqual(nd.Book([HALF, HALF], [(nd.UNIT, 0)]).check(history), 6)
        history[5].reply.kind = nd.TOO_FAR
        self.assertEqual(nd.Book([HALF, HALF], [(nd.UNIT, 0)]).check(history), 5)
        book.tasks[0].budget = 9
        self.assertEqual(book.rebase(0).kind, nd.DAMAGED)
        with self.assertRaisesRegex(nd.Fault, "^nd_rebase_limit: 72 DAMAGED$"):
            book.rebase_limit()

    def test_history(self):
        book, history = nd.Book([HALF], [(nd.UNIT, 0)]), []
        for op in [nd.Op(nd.JOIN, 0, 0), nd.Op(nd.CHARGE, 0, 2), nd.Op(nd.BLOCK, 0, 2)]:
            history.append(nd.Event.call(0, op, book.apply(0, op)))
        history.append(nd.Event.reading(0, nd.UNIT // 2, nd.UNIT // 2))
        self.assertEqual(nd.Book([HALF], [(nd.UNIT, 0)]).check(history), 4)
        history[3].running_bw = 0
        self.assertEqual(nd.Book([HALF], [(nd.UNIT, 0)]).check(history), 3)
        history[0].reply.budget = 1
        again = nd.Book([HALF], [(nd.UNIT, 0)])
        self.assertEqual((again.check(history), again.tasks[0].state), (0, nd.AWAY))


class Arithmetic(unittest.TestCase):
    def test_numbers(self):
        self.assertEqual((nd.bw(4, 8), nd.bw(9, 8), nd.params_fault(1, 1 << 24), nd.capacity_fault(5, 6)), (524288, 0, nd.TOO_SMALL, nd.UEXTRA_OUT_OF_RANGE))
        self.assertEqual(nd.zero_lag((2, 10), (3, 10)), 4)
        self.assertEqual((nd.woken((2, 8), HALF, 4), nd.woken((2, 8), HALF, 5)), ((2, 8), (4, 13)))
        self.assertEqual(nd.charge(1000, 262144, (996147, 200000), (262144, 262144)), 799)
        self.assertEqual(nd.deplete((2, 8), HALF, 10), (3, (4, 32)))
        self.assertEqual(nd.exhaustion(800, 262144, (996147, 200000), (262144, 262144)), 1001)
        with self.assertRaises(nd.Fault) as fault:
            nd.deplete((1, 4294967290), HALF, 1)
        self.assertEqual(fault.exception.number, nd.DEADLINE_OVERFLOW)
        with self.assertRaises(OverflowError):
            nd.deplete((2, 8), HALF, 2**64 + 3)

    def test_kernels(self):
        sums = {"this_bw": 104857, "running_bw": 104857, "extra_bw": 0, "max_bw": 996147, "bw_ratio": 269}
        self.assertEqual(nd.kernel_charge(0x061200, 1000000, 104857, **sums), 998241)
        self.assertEqual(nd.kernel_charge(0x060100, 1000000, 104857, **sums), 1000000)


if __name__ == "__main__":
    unittest.main()
