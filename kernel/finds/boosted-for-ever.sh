#!/bin/sh
# A task overruns, and blocks with a mutex. A waiter boosts it, and its replenishment timer fires meanwhile. The waiter gives up: the
# task wakes throttled, and never runs again.
. /kernel/finds/sums.sh
# 1 ms in 100 ms, of which it works 4 % too long, and sleeps 300 ms with the mutex; the other one waits from 10 ms on, until 210 ms.
dlgen 1 1 gr_0,q=1000,p=100000,r=0,w=104-104,pi=1,pis=300000 gr_1,q=1000,p=20000,r=0,st=10,pi=1,kill=210
sums 'after all tasks have ended'
