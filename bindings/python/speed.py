"""Nanoseconds an op from Python: in a batch, and by a call each."""

import time
from array import array

import neddwyrol as nd

OPS = 200_000


def book_of_8():
    book = nd.Book([(100, 1000)] * 8, [(996147, 0)])
    for task in range(8):
        book.join(task, 0, 0).or_fault()
    return book


def least(work, ops, turns):
    times = []
    for _ in range(turns):
        start = time.perf_counter()
        work()
        times.append(time.perf_counter() - start)
    return 1e9 * min(times) / ops


book, numbers = book_of_8(), array("I")
for i in range(OPS):
    numbers.extend((i & 7, nd.CHARGE, 0, 5))
asks, replies = nd.asks_of(numbers), (nd.Reply * OPS)()
print(f"Python, a batch: {least(lambda: book.apply_all(asks, replies), OPS, 20):.1f} ns an op (at most 60)")


def calls():
    for i in range(2000):
        book.run(i & 7, 0, 5)


print(f"Python, a call each: {least(calls, 2000, 5):.0f} ns an op")
