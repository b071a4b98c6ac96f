//! The kernel documentation's example: two tasks of 4 in 8 on one runqueue.
#![deny(unused_must_use)]
use neddwyrol::{codes, Book, Fault, Moment, Runqueue, RunqueueRecord, Task, TaskRecord};

fn main() -> Result<(), Fault> {
    let mut tasks = [TaskRecord::new(4, 8), TaskRecord::new(4, 8)];
    let mut queues = [RunqueueRecord::new(codes::UNIT, 0)];
    let mut book = Book::open(&mut tasks, &mut queues)?;
    book.join(Task(0), Runqueue(0), Moment(0)).granted()?;
    book.join(Task(1), Runqueue(0), Moment(0)).granted()?;
    book.run(Task(0), Runqueue(0), 2).granted()?;
    let waits = book.block(Task(0), Runqueue(0), Moment(2)).granted()?;
    println!("waiting ticket={} z={} running_bw={}", waits.number, waits.deadline, book.queues()[0].running_bw);
    let ran = book.run(Task(1), Runqueue(0), 2).granted()?;
    println!("charged dq={} k={} q={} d={}", ran.charged, ran.number, ran.budget, ran.deadline);
    let fired = book.timer(Task(0), waits.number, Moment(4)).granted()?;
    println!("timer {} running_bw={}", fired.kind, book.queues()[0].running_bw);
    let ran = book.run(Task(1), Runqueue(0), 4).granted()?;
    println!("charged dq={} k={} q={} d={}", ran.charged, ran.number, ran.budget, ran.deadline);
    let woken = book.wake(Task(0), Runqueue(0), Moment(8)).granted()?;
    let now = book.queues()[0];
    println!("woken q={} d={} running_bw={} this_bw={}", woken.budget, woken.deadline, now.running_bw, now.this_bw);
    Ok(())
}
