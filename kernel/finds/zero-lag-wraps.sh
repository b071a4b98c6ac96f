#!/bin/sh
# budget * period is beyond 2^63 where the runtime is above 2^63 / period: the 0-lag timer is armed seconds too late.
. /kernel/finds/sums.sh
# 2.6 s in 4 s: it works 26 ms and ends, so its bandwidth is to be given back some 40 ms after its last begin.
dlgen 0.1 1 gr_0,q=2600000,p=4000000,r=0,w=1-1,s=1-1
sleep 1
sums 'a second after a task of 2.6 s in 4 s has ended'
sleep 10
sums 'eleven seconds after'
dlgen 0.1 1 gr_0,q=2200000,p=4000000,r=0,w=1-1,s=1-1
sleep 1
sums 'a second after a task of 2.2 s in 4 s has ended'
