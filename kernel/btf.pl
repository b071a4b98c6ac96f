#!/usr/bin/perl
# btf.pl BTF GROUP < DEFINITIONS: probe definitions as kprobe events of GROUP, with the offsets that the kernel's type information has.
# Input: lines NAME FUNCTION FIELD=EXPRESSION.. (probes.txt). Output: a line for each, NAME and its event for dynamic_events, or NAME
# and "-" where the kernel does not have the function or a member. An EXPRESSION is ARGUMENT(->MEMBER|.MEMBER)*[:TYPE].
# btf.pl BTF < DEFINITIONS: the same lines, with a number for each FIELD=rq~VARIABLE, which tells a variable that each CPU has of its own:
# how far it lies from the runqueue, which is the first argument. A field whose variable the kernel does not have is left out. So with
# FIELD=timer@STRUCT.MEMBER.OTHER: OTHER of the STRUCT whose MEMBER the first argument is.
# The layout of BTF is that of the kernel's Documentation/bpf/btf.rst.
use strict;
use warnings;

my ($INT, $POINTER, $STRUCT, $UNION, $FUNCTION, $SECTION) = (1, 2, 4, 5, 12, 15);
my %passed_over = map { $_ => 1 } 8, 9, 10, 11, 18;    # typedef, volatile, const, restrict, type tag
# The words that follow a type's three: so many, and so many for each of its members.
my %after = (1 => 1, 3 => 3, 14 => 1, 17 => 1);
my %each = (4 => 3, 5 => 3, 6 => 2, 13 => 2, 15 => 3, 19 => 3);

open(my $in, '<:raw', $ARGV[0]) or die "$ARGV[0]: $!\n";
my $btf = do { local $/; <$in> };
my ($magic, undef, undef, $header, $types, $types_length, $strings, $strings_length) = unpack('S C2 L5', $btf);
die "$ARGV[0] is no BTF of this machine\n" if $magic != 0xeb9f;
my @word = unpack('L*', substr($btf, $header + $types, $types_length));
my $text = substr($btf, $header + $strings, $strings_length);

sub name_of { return unpack('Z*', substr($text, $_[0], 256)) }
sub kind { return $word[$_[0] + 1] >> 24 & 31 }
sub members { return $word[$_[0] + 1] & 0xffff }

my @type_at = (undef);
my (%prototype, %struct, @each_cpu);
for (my $place = 0; $place < @word;) {
    push @type_at, $place;
    my $kind = kind($place);
    $prototype{name_of($word[$place])} = $word[$place + 2] if $kind == $FUNCTION;
    $struct{name_of($word[$place])} //= $#type_at if $kind == $STRUCT && $word[$place];
    @each_cpu = map { [@word[$place + 3 + 3 * $_, $place + 4 + 3 * $_]] } 0 .. members($place) - 1
        if $kind == $SECTION && name_of($word[$place]) eq '.data..percpu';
    $place += 3 + ($after{$kind} // 0) + ($each{$kind} // 0) * members($place);
}

sub bare {
    my ($id) = @_;
    $id = $word[$type_at[$id] + 2] while $id && $passed_over{kind($type_at[$id])};
    return $id;
}

# A member, in anonymous structs and unions too: its type, its offset in bits, and its bits where it is a bit field.
sub member {
    my ($id, $name) = @_;
    $id = bare($id) or return;
    my $place = $type_at[$id];
    return if kind($place) != $STRUCT && kind($place) != $UNION;
    my $has_bit_fields = $word[$place + 1] >> 31;
    for my $i (0 .. members($place) - 1) {
        my ($called, $type, $offset) = @word[$place + 3 + 3 * $i .. $place + 5 + 3 * $i];
        my $bits = $has_bit_fields ? $offset >> 24 : 0;
        $offset &= 0xffffff if $has_bit_fields;
        return ($type, $offset, $bits) if $called && name_of($called) eq $name;
        next if $called;
        my ($inner, $further, $inner_bits) = member($type, $name) or next;
        return ($inner, $offset + $further, $inner_bits);
    }
    return;
}

sub type_name {
    my ($id, $offset, $bits) = @_;
    $id = bare($id) or return 'x64';
    my $place = $type_at[$id];
    return 'x64' if kind($place) == $POINTER;
    my $size = $word[$place + 2] * 8;
    return "b$bits\@" . $offset % $size . "/$size" if $bits;
    return (kind($place) == $INT && $word[$place + 3] >> 24 & 1 ? 's' : 'u') . $size;
}

sub fetch {
    my ($arguments, $expression) = @_;
    my $type = $expression =~ s/:([a-z0-9]+)$// ? $1 : undef;
    my ($argument, @steps) = split /(->|\.)/, $expression;
    my ($position) = grep { name_of($word[$arguments + 3 + 2 * $_]) eq $argument } 0 .. members($arguments) - 1;
    return unless defined $position;
    my ($base, $id) = ('$arg' . ($position + 1), $word[$arguments + 4 + 2 * $position]);
    my ($offset, $bits, $inside) = (0, 0, 0);
    while (my ($step, $name) = splice(@steps, 0, 2)) {
        if ($step eq '->') {
            $base = '+' . $offset / 8 . "($base)" if $inside;
            ($offset, $id) = (0, $word[$type_at[bare($id)] + 2]);
        }
        my ($type_of_member, $further, $its_bits) = member($id, $name) or return;
        ($id, $offset, $bits, $inside) = ($type_of_member, $offset + $further, $its_bits, 1);
    }
    $type //= type_name($id, $offset, $bits);
    return "$base:$type" unless $inside;
    my $unit = $bits ? $word[$type_at[bare($id)] + 2] * 8 : 8;
    return '+' . int($offset / $unit) * $unit / 8 . "($base):$type";
}

if (@ARGV == 1) {
    my %at = map { name_of($word[$type_at[$_->[0]]]) => $_ } @each_cpu;
    my $apart = sub {
        my ($field, $variable) = @_;
        return '' unless $at{$variable} && $at{runqueues};
        return sprintf(' %s=%+d($arg1):%s', $field, $at{$variable}[1] - $at{runqueues}[1], type_name($word[$type_at[$at{$variable}[0]] + 2], 0, 0));
    };
    my $beside = sub {
        my ($field, $struct, $own, $other) = @_;
        my (undef, $from) = member($struct{$struct}, $own) or return '';
        my ($type, $to) = member($struct{$struct}, $other) or return '';
        return sprintf(' %s=%+d($arg1):%s', $field, ($to - $from) / 8, type_name($type, 0, 0));
    };
    while (my $line = <STDIN>) {
        $line =~ s/ (\w+)=\w+@(\w+)\.(\w+)\.(\w+)/$beside->($1, $2, $3, $4)/ge;
        $line =~ s/ (\w+)=rq~(\w+)/$apart->($1, $2)/ge;
        print $line;
    }
    exit;
}

LINE: while (my $line = <STDIN>) {
    my ($name, $function, @fields) = split ' ', $line;
    if ($function =~ m{/}) {
        print "$name e:$ARGV[1]/$name $function @fields\n";
        next;
    }
    my $event = "p:$ARGV[1]/$name $function";
    my $prototype = $function =~ /^!/ ? undef : $prototype{$function};
    for my $field (@fields) {
        my ($key, $expression) = split /=/, $field, 2;
        my $value = $expression =~ /^[-+]/ ? $expression : defined $prototype ? fetch($type_at[$prototype], $expression) : undef;
        print("$name -\n"), next LINE unless defined $value;
        $event .= " $key=$value";
    }
    print defined $prototype ? "$name $event\n" : "$name -\n";
}
