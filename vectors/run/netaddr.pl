#!/usr/bin/perl
# netaddr.pl LIBRARY [OPTIONS of compare.py]: asks a Perl module the cases about addresses.
#
# LIBRARY is NetAddr::IP or Net::CIDR::Lite. The cases are those of prefix_cover, of set_operations without AS numbers,
# and of text_ip without commas. The texts are compared as the module prints them. These cases do not apply:
# - to NetAddr::IP: a block that is a range, unless `new` reads the range as an IPv4 prefix, and all ranges of text_ip
# - to NetAddr::IP: a difference of sets
# - to Net::CIDR::Lite: a difference of sets, and an intersection
# The status is 77 if the module is missing.

use strict;
use warnings;
use FindBin qw($RealBin $RealScript);

# `read` makes a set of blocks. If a block can't be read, it returns nothing for NetAddr::IP, and Net::CIDR::Lite dies.
# The set of NetAddr::IP is a list of disjoint prefixes in ascending order. The set of Net::CIDR::Lite is its object.
my %modules = (
    'NetAddr::IP' => {
        package => 'libnetaddr-ip-perl',
        reads_ranges => 0,
        read => sub {
            my @prefixes = map { NetAddr::IP->new($_) // return } @_;
            return compact(map { $_->network } @prefixes);
        },
        prefixes => sub { return map { prefix_text($_) } @{$_[0]} },
        list => \&netaddr_list,
        union => sub { return compact(@{$_[0]}, @{$_[1]}) },
        intersection => \&netaddr_intersection,
        contains => sub {
            my ($left, $right) = @_;
            return !grep { my $prefix = $_; !grep { $_->contains($prefix) } @$left } @$right;
        },
    },
    'Net::CIDR::Lite' => {
        package => 'libnet-cidr-lite-perl',
        reads_ranges => 1,
        read => sub { return Net::CIDR::Lite->new(@_) },
        prefixes => sub { return $_[0]->list },
        list => sub { return map { lite_block($_) } $_[0]->list_range },
        union => sub { return $_[0]->add_cidr($_[1]) },
        contains => sub {
            my ($left, $right) = @_;
            my $before = join ' ', $left->list;
            return join(' ', $left->add_cidr($right)->list) eq $before;
        },
    },
);

sub compact { return [@_ ? NetAddr::IP::Compact(@_) : ()] }

sub prefix_text { return $_[0]->network->canon . '/' . $_[0]->masklen }

sub block_text { return $_[0]->masklen == $_[0]->bits ? $_[0]->canon : prefix_text($_[0]) }

# The canonical list: prefixes that touch become one range.
sub netaddr_list {
    my @runs;
    for my $prefix (@{$_[0]}) {
        my $touches = @runs && $runs[-1][-1]->broadcast->bigint + 1 == $prefix->network->bigint;
        push @{$touches ? $runs[-1] : ($runs[@runs] = [])}, $prefix;
    }
    return map { @$_ > 1 ? $_->[0]->network->canon . '-' . $_->[-1]->broadcast->canon : block_text($_->[0]) } @runs;
}

# If two prefixes have an address in common, one contains the other.
sub netaddr_intersection {
    my ($left, $right) = @_;
    my @common;
    for my $one (@$left) {
        push @common, map { $one->contains($_) ? $_ : $_->contains($one) ? $one : () } @$right;
    }
    return compact(@common);
}

# A block of the canonical list, from a range as the module prints it.
sub lite_block {
    my ($range) = @_;
    my ($first, $last) = split /-/, $range;
    my @prefixes = Net::CIDR::Lite->new($range)->list;
    return $first eq $last ? $first : @prefixes == 1 ? $prefixes[0] : $range;
}

sub set_operation {
    my ($module, $operation, $left, $right) = @_;
    if ($operation eq 'contains' || $operation eq 'equal') {
        my $holds = $operation eq 'contains'
            ? $module->{contains}->($left, $right)
            : join(' ', $module->{prefixes}->($left)) eq join(' ', $module->{prefixes}->($right));
        return 'accept ' . ($holds ? 'true' : 'false');
    }
    return '-' if !$module->{$operation};
    return 'accept ' . join ', ', $module->{list}->($module->{$operation}->($left, $right));
}

# The answer to a line of compare.py.
sub answer {
    my ($module, $file, @fields) = @_;
    if ($file eq 'prefix_cover') {
        my $set = $module->{read}->(split /, /, $fields[1]) or return '-';
        return 'accept ' . join ', ', $module->{prefixes}->($set);
    }
    if ($file eq 'set_operations') {
        my ($operation, $kind, @lists) = @fields;
        return '-' if $kind eq 'as';
        my ($left, $right) = map { $module->{read}->(split /, /) // return '-' } @lists;
        return set_operation($module, $operation, $left, $right);
    }
    return '-' if $file ne 'text_ip';
    my $text = pack 'H*', $fields[1];
    utf8::decode($text);
    return '-' if $text =~ /,/ || $text =~ /-/ && !$module->{reads_ranges};
    my $set = eval { $module->{read}->($text) } or return 'refuse';
    my $list = join ', ', $module->{list}->($set);
    my $family = $list =~ /:/ ? 'v6' : 'v4';
    return $family eq $fields[0] ? "accept $list" : 'refuse';
}

my $is_command = @ARGV && $ARGV[0] eq '--lines' && shift @ARGV;
my $library = shift @ARGV // '';
my $module = $modules{$library};
if (!$module) {
    print STDERR 'usage: netaddr.pl ', join('|', sort keys %modules), " [OPTIONS of compare.py]\n";
    exit 2;
}
if (!eval "require $library; 1") {
    print "skipped: $library is missing: install $module->{package}\n";
    exit 77;
}
if (!$is_command) {
    my @command = ($^X, "$RealBin/$RealScript", '--lines', $library);
    exec 'python3', "$RealBin/compare.py", @ARGV, $library, @command or die "python3: $!\n";
}
# Without this tag `new` asks the DNS for a text that may be a name. NetAddr::IP itself ignores the tag.
NetAddr::IP::Lite->import(':nofqdn') if $library eq 'NetAddr::IP';
while (my $line = <STDIN>) {
    chomp $line;
    print answer($module, split /\t/, $line, -1), "\n";
}
