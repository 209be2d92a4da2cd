#!/usr/bin/env bash
# Builds segcached and compares it with memcached of Debian. Words go to tools/bench.py: --quick for a look in a minute.
set -eu
cd "$(dirname "$0")/.."
for package in memcached gcc libc6-dev python3-matplotlib; do
  dpkg -s "$package" >/dev/null 2>&1 || apt-get install -y --no-install-recommends "$package" >/dev/null
done
python3 tools/prove.py
exec /usr/bin/python3 tools/bench.py "$@"
