#!/usr/bin/env python3
"""How long `grubtrace size` takes: traces of 25,000, 50,000 and 100,000 jobs of a task, 850 bytes of trace a job, in bursts on a busy
processor. For each the processor's time from the start to the answer, and the most memory, of the best of three runs. Twice the jobs are to take
about twice the time. The largest, of 85 MB, is to be answered in less than 2 seconds and 256 MiB: else the status is 1.

    bench/sizing.py [PROGRAM]
"""
import os, random, sys, tempfile

ROOT = os.path.dirname(os.path.dirname(os.path.abspath(__file__)))
BYTES = 850

def line(at, cpu, text):
    return f'           x-{cpu}       [{cpu:03d}] d..2. {at // 1000000}.{at % 1000000:06d}: {text}\n'

def write(path, jobs):
    rng, at, size = random.Random(7), 1000000, 0
    with open(path, 'w') as f:
        f.write('# tracer: nop\n#\n# entries-in-buffer/entries-written: 1/1   #P:4\n')
        for job in range(jobs):
            ran = rng.randint(20, 900)
            lines = [line(at, 1, 'sched_wakeup: comm=served pid=77 prio=49 target_cpu=001'),
                     line(at + ran, 1, f'sched_stat_runtime: comm=served pid=77 runtime={ran * 1000} [ns]'),
                     line(at + ran, 1, 'sched_switch: prev_comm=served prev_pid=77 prev_prio=49 prev_state=S ==> next_comm=swapper/1 next_pid=0 next_prio=120')]
            size += sum(map(len, lines))
            while size < (job + 1) * BYTES:
                pid = rng.randint(100, 160)
                other = line(at + ran, 2, f'sched_switch: prev_comm=worker{pid} prev_pid={pid} prev_prio=120 prev_state=S ==> next_comm=worker{pid + 1} next_pid={pid + 1} next_prio=120')
                lines.append(other)
                size += len(other)
            f.write(''.join(lines))
            at += ran + (rng.randint(1, 200) if rng.random() < 0.7 else rng.randint(1000, 20000))
    return os.path.getsize(path)

def run(program, trace, period):
    pid = os.posix_spawn(program, [program, 'size', '--task', f'served={period}', trace], os.environ,
                         file_actions=[(os.POSIX_SPAWN_OPEN, 1, os.devnull, os.O_WRONLY, 0)])
    _, status, used = os.wait4(pid, 0)
    return used.ru_utime + used.ru_stime, used.ru_maxrss // 1024, status

def main():
    program = sys.argv[1] if len(sys.argv) > 1 else f'{ROOT}/crates/grubtrace/out/grubtrace'
    good = True
    with tempfile.TemporaryDirectory() as work:
        for jobs in (25000, 50000, 100000):
            trace = f'{work}/trace'
            size = write(trace, jobs)
            for period in (2000, 20000, 200000):
                runs = [run(program, trace, period) for _ in range(3)]
                seconds, memory = min(it[0] for it in runs), max(it[1] for it in runs)
                good = good and all(it[2] == 0 for it in runs) and (jobs < 100000 or seconds < 2 and memory < 256)
                print(f'{jobs} jobs, {size / 1e6:.0f} MB, period {period}: {seconds:.2f} s, {memory} MiB', flush=True)
    print('less than 2 s and 256 MiB' if good else 'MORE than 2 s or 256 MiB')
    return 0 if good else 1

if __name__ == '__main__': sys.exit(main())
