#!/usr/bin/perl
# notes.pl EXITS ENTERS: which SCHED_DEADLINE tasks there are, with their parameters, as notes for the head of a record: first those
# that are there already, then each that sched_setattr or sched_setscheduler makes, changes or takes out of the class. It reads the
# exits of these system calls in the trace_pipe of the tracefs instance EXITS, which it turns on, and asks sched_getattr for the task
# that the call's entry named. It ends at the marker "grub: end" there. The entries are in an instance of their own, which is read
# without waiting: else they would wake this program in the midst of the call, and charge the task there.
use strict;
use warnings;
$| = 1;

my %number = (x86_64 => 315, i686 => 352, aarch64 => 275, riscv64 => 275, ppc64le => 356, s390x => 346);
chomp(my $machine = `uname -m`);
my $sched_getattr = $number{$machine} or die "the number of sched_getattr is not known on $machine\n";
my $deadline = 6;

sub first_line {
    my ($file) = @_;
    open(my $in, '<', $file) or return;
    return scalar <$in>;
}

sub note {
    my ($pid, $where) = @_;
    my $attributes = "\0" x 56;
    return if syscall($sched_getattr, $pid + 0, $attributes, 56, 0) != 0;
    my (undef, $policy, $flags, undef, undef, $runtime, $deadline_ns, $period) = unpack('L2 Q l L Q3', $attributes);
    my $comm = first_line("/proc/$pid/comm") // "?\n";
    my $told = $policy == $deadline
        ? sprintf('runtime=%d deadline=%d period=%d flags=0x%x', $runtime, $deadline_ns, $period, $flags)
        : "policy=$policy";
    print "# grub: task pid=$pid $where $told comm=$comm" or die "a note cannot be written\n";
}

# Field 41 of a task's stat is its policy, 39 its processor; they are counted behind the comm, which may have spaces.
opendir(my $all, '/proc') or die "there is no /proc\n";
for my $process (grep { /^\d+$/ } readdir $all) {
    opendir(my $threads, "/proc/$process/task") or next;
    for my $pid (grep { /^\d+$/ } readdir $threads) {
        my $stat = first_line("/proc/$process/task/$pid/stat") // next;
        my @field = split ' ', $stat =~ s/^.*\) //r;
        note($pid, "at=start cpu=$field[36]") if $field[38] == $deadline;
    }
}

open(my $pipe, '<', "$ARGV[0]/trace_pipe") or die "there is no trace_pipe\n";
open(my $on, '>', "$ARGV[0]/tracing_on") or die "there is no tracing_on\n";
print $on 1;
close $on;
my $lost = qr/\[LOST \d+ EVENTS\]/;
my $where = qr/-(\d+)\s+\[(\d+)\]\s+\S+\s+(\d+\.\d+): sys_sched_set(?:attr|scheduler)/;
my $nonblock = 2048;
sysopen(my $enters, "$ARGV[1]/trace_pipe", $nonblock) or die "there is no trace_pipe\n";
my ($unread, %calls) = ('');

# The task that the last call of this pid up to a moment was about; 0 is the caller itself.
sub asked {
    my ($by, $at) = @_;
    while (sysread($enters, $unread, 65536, length $unread)) { }
    while ($unread =~ s/^(.*)\n//) {
        my $line = $1;
        die "notes were lost\n" if $line =~ $lost;
        push @{$calls{$1}}, [$3, hex $4] if $line =~ /$where\(pid: (?:0x)?([0-9a-f]+)/;
    }
    my ($told) = grep { $_->[0] <= $at } reverse @{$calls{$by} || []};
    return $told && $told->[1] || $by;
}

while (<$pipe>) {
    last if /tracing_mark_write: grub: end/;
    die "notes were lost\n" if $_ =~ $lost;
    note(asked($1, $3), "at=$3 by=$1 cpu=" . ($2 + 0)) if /$where -> 0x0/;
}
