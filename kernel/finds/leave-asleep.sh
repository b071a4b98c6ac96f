#!/bin/sh
# A task that is put out of SCHED_DEADLINE while it sleeps past its 0-lag time never gives its bandwidth back.
. /kernel/finds/sums.sh
sums 'after boot'
for time in 1 2 3; do
    # A task of 5 %, which sleeps 3 to 4 periods after each job; its parent makes it SCHED_OTHER after 300 ms.
    dlgen 0.8 $time gr_0,q=1000,p=20000,w=20-30,s=300-400,xc=300:0:0:0:0
    sleep 0.3
    sums "task $time of 52428 was put out of the class, and has ended"
done
dlgen 0.8 1 gr_0,q=1000,p=20000,w=20-30,s=300-400
sleep 0.3
sums 'one that ended as a deadline task'
