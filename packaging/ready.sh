#!/bin/bash
# Waits until a segcached that was started with these options of `serve` answers: status 0 then, and 1 if the process
# MAINPID has ended, or after a minute. The units call it, so that a service counts as started once it answers. Usage:
# ready.sh OPTION ..
probe=$(dirname "$0")/examples/probe.sh
. "$(dirname "$0")/address.sh"
address_of "$@"
runs() { [ -z "${MAINPID:-}" ] || kill -0 "$MAINPID" 2>/dev/null; }
# (the port that port 0 became isn't known here)
[ ${#at[@]} -eq 0 ] || until "$probe" "${at[@]}"; do
  runs && [ $SECONDS -lt 60 ] || exit 1
  sleep 0.05
done
runs
