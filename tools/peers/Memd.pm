package Memd;

# What the tests of Cache::Memcached::Fast ask of their harness: a client of the segcached on the port PORT.
use strict;
use warnings;
use Cache::Memcached::Fast;

our %params = (
    connect_timeout => 5,
    failure_timeout => 2,
    io_timeout      => 5,
    max_failures    => 3,
    close_on_error  => 0,
    compress_threshold => 1000,
    ketama_points   => 150,
    namespace       => "fast/$$/",
    nowait          => 1,
    utf8            => 1,
    servers         => [{ address => "127.0.0.1:$ENV{PORT}" }],
);

# (tests leave out what an older server doesn't have, by its version; nothing is to be left out)
sub import {
    *main::memd         = \Cache::Memcached::Fast->new(\%params);
    *main::memd_version = \version->parse('v9.9.9');
}

1;
