#!/bin/sh
# A fair task sleeps with a mutex that a deadline task waits for, and gets a reservation. Its class is the same, so this_bw does not take
# it: running_bw goes above this_bw, and this_bw below 0.
. /kernel/finds/sums.sh
sums 'after boot'
dlgen 0.8 1 fair_0,fair=1,q=2000,p=100000,w=20-80,s=1-2,pi=1,pis=50000,xc=300:20000:100000:100000:1 gr_1,q=5000,p=50000,w=20-80,s=5-20,pi=1
sleep 1
sums 'a task got 20 ms in 100 ms while it slept boosted; all tasks have ended'
warned
