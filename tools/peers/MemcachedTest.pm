package MemcachedTest;

# What memcached's tests ask of their harness, over a served segcached: SEGCACHED has the program with its words.
use strict;
use warnings;
use Exporter 'import';
use IO::Socket::INET;
use Socket ();
use Test::More ();

our @EXPORT = qw(new_memcached sleep mem_get_is mem_gets mem_gets_is mem_stats mem_move_time);
use constant MAX_READ_WRITE_SIZE => 16384;

# (a session that was closed is read as its end)
$SIG{PIPE} = 'IGNORE';

sub sleep { select undef, undef, undef, $_[0] }

# Megabytes are segments of 1 MiB, 64 as memcached has them, 8 at least; of other options there are none.
sub new_memcached {
    my ($options) = @_;
    $options //= '';
    my $megabytes = $options =~ s/-m (\d+)// ? $1 : 64;
    $options =~ s/-o no_modern//;
    die "segcached has no option $options\n" if $options =~ /\S/;
    my $segments = $megabytes < 8 ? 8 : $megabytes;
    my $process = open my $said, '-|', split(' ', $ENV{SEGCACHED}), '--segments', $segments;
    my ($port) = <$said> =~ /:(\d+)$/ or die "segcached doesn't serve\n";
    return bless { process => $process, said => $said, port => $port }, 'Served';
}

sub shown {
    my ($key, $value, $flags, $cas) = @_;
    return "END\r\n" unless defined $value;
    return "VALUE $key $flags " . length($value) . (defined $cas ? " $cas" : '') . "\r\n$value\r\nEND\r\n";
}

# The answer to a get, up to its END, or one line that is no answer to it.
sub answer_of {
    my ($sock, $request) = @_;
    print $sock $request;
    my $answer = <$sock> // '';
    return $answer unless $answer =~ /^VALUE \S+ \d+ (\d+)/;
    read $sock, my $data, $1 + 2;
    return $answer . $data . (<$sock> // '');
}

sub options_of { ref $_[0] eq 'HASH' ? ($_[0]{sock}, $_[0]{flags} // 0) : ($_[0], 0) }

sub mem_get_is {
    my ($given, $key, $value, $name) = @_;
    my ($sock, $flags) = options_of($given);
    Test::More::is(answer_of($sock, "get $key\r\n"), shown($key, $value, $flags), $name // "$key is right");
}

sub mem_gets_is {
    my ($given, $cas, $key, $value, $name) = @_;
    my ($sock, $flags) = options_of($given);
    Test::More::is(answer_of($sock, "gets $key\r\n"), shown($key, $value, $flags, $cas), $name // "$key is right");
}

sub mem_gets {
    my ($given, $key) = @_;
    my ($sock) = options_of($given);
    my $answer = answer_of($sock, "gets $key\r\n");
    return 'NOT_FOUND' unless $answer =~ /^VALUE \S+ \d+ \d+ (\d+)\r\n(.*)\r\nEND\r\n$/s;
    return ($1, $2);
}

# What `stats` tells, by its names: nothing with a word behind it.
sub mem_stats {
    my ($sock, $kind) = @_;
    my %told;
    print $sock $kind ? "stats $kind\r\n" : "stats\r\n";
    while (defined(my $line = <$sock>)) {
        last unless $line =~ /^STAT (\S+) (.*)\r\n$/;
        $told{$1} = $2;
    }
    return \%told;
}

# Waits, since the clock is the system's.
sub mem_move_time { MemcachedTest::sleep($_[1]) }

package Served;
use strict;
use warnings;

sub sock {
    my ($self) = @_;
    $self->{sock} = $self->new_sock unless $self->{sock} && getpeername $self->{sock};
    return $self->{sock};
}

# (where a test waits for more lines than come, each is missed after three seconds)
sub new_sock {
    my $sock = IO::Socket::INET->new(PeerAddr => "127.0.0.1:$_[0]{port}") or return;
    setsockopt $sock, Socket::SOL_SOCKET, Socket::SO_RCVTIMEO, pack 'l!l!', 3, 0;
    return $sock;
}

sub stop     { kill 'TERM', $_[0]{process} if $_[0]{process}; delete $_[0]{process} }

sub DESTROY {
    my ($self) = @_;
    local ($?, $!);
    $self->stop;
    close $self->{said};
}

1;
