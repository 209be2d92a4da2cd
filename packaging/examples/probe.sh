#!/usr/bin/env bash
# Whether a segcached answers: status 0 if it answers `get health` within two seconds. A full one lets the probe in. While that
# many connections come that it refuses one without a look, the probe asks again. Usage: probe.sh [HOST [PORT] | unix:PATH].
# Without words it asks the segcached that process 1 runs, as in a container, or else 127.0.0.1.

# The first address of TCP among the options of process 1, or else the first path.
address_of_process_1() {
  tr '\0' '\n' </proc/1/cmdline | awk '
    before == "--listen" || sub(/^--listen=/, "") { if (/^unix:/) { if (!path) path = $0 } else if (!tcp) tcp = $0 }
    { before = $0 }
    END { print tcp ? tcp : path }'
}

# The first line of the answer. (bash has no sockets at paths; each Debian system has perl)
ask() {
  case $1 in
    unix:*)
      perl -MIO::Socket::UNIX -e '
        my $stream = IO::Socket::UNIX->new(Peer => $ARGV[0]) or exit 1;
        $stream->print("get health\r\nquit\r\n");
        print scalar <$stream>' "${1#unix:}"
      ;;
    *) exec 3<>"/dev/tcp/$1/$2" && printf 'get health\r\nquit\r\n' >&3 && head -n 1 <&3 ;;
  esac
}

answers() {
  local answer
  while
    answer=$(ask "$@") || return
    [[ $answer == "ERROR Too many open connections"* ]]
  do
    sleep 0.1
  done
  [[ $answer == END* || $answer == "VALUE health "* ]]
}

if [ $# -eq 0 ]; then
  address=$(address_of_process_1)
  case $address in
    unix:*) set -- "$address" ;;
    *:*) set -- "${address%:*}" "${address##*:}" ;;
  esac
fi
host=${1:-127.0.0.1}
host=${host#[}
export -f ask answers
exec timeout 2 bash -c 'answers "$@"' bash "${host%]}" "${2:-11211}" 2>/dev/null
