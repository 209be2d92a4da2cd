#!/bin/bash
# Whether somebody takes connections where these options of `serve` listen: status 0 then, and the address is printed.
# The package calls it before it starts the service. Usage: taken.sh OPTION ..
. "$(dirname "$0")/address.sh"
address_of "$@"
case ${at[*]} in
  '') exit 1 ;;
  unix:*) timeout 2 perl -MIO::Socket::UNIX -e 'exit !IO::Socket::UNIX->new(Peer => $ARGV[0])' "${at[0]#unix:}" || exit 1 ;;
  *) timeout 2 bash -c 'exec 3<>"/dev/tcp/$0/$1"' "${at[@]}" 2>/dev/null || exit 1 ;;
esac
(IFS=: && echo "${at[*]}")
