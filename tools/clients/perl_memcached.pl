# Perl's Cache::Memcached: what it sends for a `get` is refused.
# usage: perl perl_memcached.pl HOST:PORT
use strict;
use warnings;
use Cache::Memcached;

my $client = Cache::Memcached->new({ servers => [$ARGV[0]] });
print $client->set('a', '1') ? "set: stored\n" : "set: not stored\n";
print 'get: ', $client->get('a') // 'undef', "\n";
