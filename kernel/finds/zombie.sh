#!/bin/sh
# A task that has ended and was not waited for is given a reservation. Nothing takes it back.
. /kernel/finds/sums.sh
sums 'after boot'
dlgen 0.5 1 gr_0,q=5000,p=50000,fair=1,kill=100,xc=150:5000:50000:50000:1,dead=1
sleep 1
sums 'a zombie got 5 ms in 50 ms, and has been waited for'
