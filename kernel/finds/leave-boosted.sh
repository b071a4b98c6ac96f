#!/bin/sh
# A task that is put out of the class and back while it sleeps boosted: its old bandwidth is never given back.
. /kernel/finds/sums.sh
sums 'after boot'
for runtime in 1000 2000; do
    dlgen 0.6 1 gr_0,q=2000,p=100000,w=20-80,s=1-2,pi=1,pis=50000,xc=300:0:0:0:0,xc=301:$runtime:100000:100000:1 \
        gr_1,q=5000,p=50000,w=20-80,s=5-20,pi=1
    sleep 1
    sums "a task of 2 ms in 100 ms left boosted, and got $runtime us again; all tasks have ended"
    warned
done
