#!/usr/bin/env bash
# Runs the tests of tools/tests over the built program: all of them, or those of the files and words of pytest that are
# given. What they stand on is installed if it is missing: Debian's packages, which are for Debian's own python3.
set -eu
cd "$(dirname "$0")/.."
packages=(python3-pytest python3-hypothesis python3-pymemcache python3-pylibmc python3-memcache python3-cachelib
  netcat-openbsd iproute2 libmemcached-tools nutcracker libfaketime spin gcc libc6-dev)
install() { apt-get update && apt-get install -y --no-install-recommends "$@"; }
dpkg -s "${packages[@]}" >/dev/null 2>&1 || install "${packages[@]}" >/dev/null
[[ $* == *tools/tests* ]] || set -- tools/tests "$@"
exec /usr/bin/python3 -B -m pytest "$@"
