#!/bin/sh
# Without a limit the kernel lets the last processor of a partition go, while a task is in it. It divides the task's bandwidth by the
# number of processors that are left there.
part=/sys/fs/cgroup/part
limit=/proc/sys/kernel/sched_rt_runtime_us
echo +cpuset > /sys/fs/cgroup/cgroup.subtree_control
dlgen 3 1 gr_0,q=10000,p=100000,w=20-80,per=1 sys,md=0:$part,wr=0:$part/cpuset.cpus:1,wr=300:$part/cpuset.cpus.partition:isolated \
    sys,wr=500:$part/cgroup.procs:@gr_0,wr=700:$limit:-1 2> /dev/null &
sleep 1
# A write that the kernel does not end would keep the script.
echo 0 > /sys/devices/system/cpu/cpu1/online &
sleep 1
dmesg | sed -n 's/^\[[^]]*\] *//; /Oops\|RIP: 0010\|is now offline/p' | head -n 2
