#!/usr/bin/perl
# The clients of perl against a server. Usage: perl_calls.pl CLASS PORT, where CLASS is one of Cache::Memcached,
# Cache::Memcached::Fast, Memcached::libmemcached.
use strict;
use warnings;
no warnings 'once';

my ($class, $port) = @ARGV;
eval "require $class" or die $@;
my (@works, @fails);

sub check {
    my ($name, $call, $wanted) = @_;
    my $got = eval { local $SIG{ALRM} = sub { die "late" }; alarm 5; my $it = $call->(); alarm 0; $it };
    alarm 0;
    $got = defined $got ? "$got" : 'undef';
    if ($got eq $wanted) { push @works, $name } else { push @fails, $name }
}

sub client {
    return $class->new({ servers => ["127.0.0.1:$port"] }) if $class ne 'Memcached::libmemcached';
    my $client = Memcached::libmemcached->new;
    $client->memcached_server_add('127.0.0.1', $port);
    return $client;
}

# The calls of libmemcached have names of their own.
sub try_libmemcached {
    my $client = client();
    check('set', sub { $client->memcached_set('pl-a', '1') }, 1);
    check('get', sub { $client->memcached_get('pl-a') }, 1);
    check('add', sub { ($client->memcached_add('pl-a', '2') ? 1 : 0) . ($client->memcached_add('pl-b', '2') ? 1 : 0) }, '01');
    check('replace', sub { $client->memcached_replace('pl-b', '3') }, 1);
    check('mget', sub { my %got; $client->mget_into_hashref(['pl-a', 'pl-none', 'pl-b'], \%got); join ' ', map { "$_=$got{$_}" } sort keys %got },
        'pl-a=1 pl-b=3');
    check('incr', sub { $client->memcached_set('pl-n', '5'); $client->memcached_increment('pl-n', 37, my $n); $n }, 42);
    check('delete', sub { $client->memcached_delete('pl-a'); $client->memcached_get('pl-a') }, 'undef');
    check('append', sub { client()->memcached_append('pl-b', '4') && $client->memcached_get('pl-b') }, '34');
    check('flush', sub { client()->memcached_flush }, 1);
}

# How many of 500 gets of a key that is there miss, if a touch that waits for no reply stands before each.
sub missed_beside_touches {
    my $client = $class->new({ servers => ["127.0.0.1:$port"], nowait => 1 });
    my $missed = 0;
    for (1 .. 500) {
        $client->touch('pe-b', 60);
        $missed += !defined $client->get('pe-b');
    }
    return $missed;
}

sub try_others {
    my $client = client();
    check('set', sub { $client->set('pe-a', '1') }, 1);
    check('get', sub { client()->get('pe-a') }, 1);
    check('set_expire', sub { $client->set('pe-t', 'x', 60) }, 1);
    check('add', sub { ($client->add('pe-a', '2') ? 1 : 0) . ($client->add('pe-b', '2') ? 1 : 0) }, '01');
    check('replace', sub { $client->replace('pe-b', '3') }, 1);
    check('get_multi', sub { my $got = client()->get_multi('pe-a', 'pe-none', 'pe-b'); join ' ', map { "$_=$got->{$_}" } sort keys %$got },
        'pe-a=1 pe-b=3');
    check('incr', sub { $client->set('pe-n', '5'); $client->incr('pe-n', 37) }, 42);
    check('decr', sub { $client->decr('pe-n', 40) }, 2);
    check('delete', sub { ($client->delete('pe-a') ? 1 : 0) . ($client->delete('pe-a') ? 1 : 0) }, '10');
    check('array_value', sub { $client->set('pe-list', [1, 2]); join ',', @{ client()->get('pe-list') } }, '1,2');
    if ($class eq 'Cache::Memcached::Fast') {
        check('gets_cas', sub { my $got = $client->gets('pe-b'); $client->cas('pe-b', $got->[0], '4') }, 1);
        check('set_multi', sub { scalar keys %{ $client->set_multi(['pe-m1', '1'], ['pe-m2', '2']) } }, 2);
        check('append', sub { client()->append('pe-b', '5') && client()->get('pe-b') }, '45');
        check('touch', sub { client()->touch('pe-b', 60) }, 1);
        check('gat', sub { client()->gat(60, 'pe-b') . (defined client()->gat(60, 'pe-none') ? 'there' : 'gone') }, '45gone');
        check('gat_multi', sub { my $got = client()->gat_multi(60, 'pe-b', 'pe-none', 'pe-m1'); join ' ', map { "$_=$got->{$_}" } sort keys %$got },
            'pe-b=45 pe-m1=1');
        check('gats', sub { my $got = client()->gats(60, 'pe-b'); $client->cas('pe-b', $got->[0], '4') }, 1);
        check('touch_without_waiting', \&missed_beside_touches, 0);
        check('server_versions', sub { scalar keys %{ client()->server_versions } }, 1);
    }
    check('flush_all', sub { client()->flush_all; defined client()->get('pe-n') ? 'there' : 'gone' }, 'gone');
}

$class eq 'Memcached::libmemcached' ? try_libmemcached() : try_others();
print "$class works: @works\n$class fails: @fails\n";
