#!/bin/sh
# A throttled task leaves the class, and its replenishment timer fires meanwhile. It comes back before its 0-lag time, and never runs again.
. /kernel/finds/sums.sh
# A fair task works all the time. It gets 1 ms in 100 ms at 300 ms, is put out of the class at 350 ms, and gets it again after 400 ms:
# how late that may be depends on how long it overran.
for back in 403 420; do
    dlgen 0.6 1 "gr_0,q=5000,p=20000,fair=1,w=300-300,s=1-1,xc=300:1000:100000:100000:0,xc=350:0:0:0:0,xc=$back:1000:100000:100000:0"
    sleep 1
    sums "back at $back ms; it has ended, or was put out of the class"
done
