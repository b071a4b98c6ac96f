#!/bin/sh
# Hotplug and partitions take the fair servers' shares again each time. It wants two processors.
. /kernel/finds/sums.sh
sums 'after boot'
for time in 1 2; do
    echo 0 > /sys/devices/system/cpu/cpu1/online
    echo 1 > /sys/devices/system/cpu/cpu1/online
    sleep 0.2
    sums "cpu 1 off and on, $time"
done
mkdir /cg
mount -t cgroup2 none /cg
echo +cpuset > /cg/cgroup.subtree_control
mkdir /cg/a
echo 1 > /cg/a/cpuset.cpus
for time in 1 2; do
    echo root > /cg/a/cpuset.cpus.partition
    sums "cpu 1 is a partition, $time: seen from outside"
    sh -c 'echo $$ > /cg/a/cgroup.procs; . /kernel/finds/sums.sh; sums "from within"'
    echo member > /cg/a/cpuset.cpus.partition
    sums "no partition any more"
done
