# Perl's Cache::Memcached::Fast with one address: a server of the chain, or a proxy in front of all.
# usage: perl perl_fast.pl HOST:PORT      does some calls, and again after each line of its input
use strict;
use warnings;
use Cache::Memcached::Fast;

my $client = Cache::Memcached::Fast->new({
    servers => [$ARGV[0]],
    connect_timeout => 1,       # seconds
    io_timeout => 7,            # seconds: longer than a failover, in which updates wait
    nowait => 0,                # wait for the reply of each update
});

sub calls {
    # of an update: 1 if it was done, 0 if not, undef if there was no such reply
    defined $client->delete($_) or die "delete $_\n" for qw(a b n);
    $client->set('a', '1') or die "set\n";
    $client->get('a') eq '1' or die "get\n";
    my $found = $client->gets('a');
    $client->cas('a', $found->[0], '10') or die "cas\n";
    my $again = $client->cas('a', $found->[0], '11');
    defined $again && !$again or die "cas of an old one\n";
    $client->add('n', 5) && $client->incr('n', 2) == 7 or die "incr\n";
    keys %{$client->get_multi('a', 'b', 'n')} == 2 or die "get of three\n";
}

$| = 1;
do {
    print eval { calls(); 1 } ? "works\n" : "failed: $@";
} while (defined <STDIN>);
