"""The kernel documentation's example: two tasks of 4 in 8 on one runqueue."""

from neddwyrol import UNIT, Book

book = Book(tasks=[(4, 8), (4, 8)], queues=[(UNIT, 0)])
book.join(task=0, queue=0, moment=0).or_fault()
book.join(task=1, queue=0, moment=0).or_fault()
book.run(task=0, queue=0, run=2).or_fault()
waits = book.block(task=0, queue=0, moment=2).or_fault()
print(f"waiting ticket={waits.number} z={waits.deadline} running_bw={book.queues[0].running_bw}")
ran = book.run(task=1, queue=0, run=2).or_fault()
print(f"charged dq={ran.charged} k={ran.number} q={ran.budget} d={ran.deadline}")
fired = book.timer(task=0, ticket=waits.number, moment=4).or_fault()
print(f"timer {fired.kind} running_bw={book.queues[0].running_bw}")
ran = book.run(task=1, queue=0, run=4).or_fault()
print(f"charged dq={ran.charged} k={ran.number} q={ran.budget} d={ran.deadline}")
woken = book.wake(task=0, queue=0, moment=8).or_fault()
now = book.queues[0]
print(f"woken q={woken.budget} d={woken.deadline} running_bw={now.running_bw} this_bw={now.this_bw}")
