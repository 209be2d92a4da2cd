#!/usr/bin/env bash
# Builds segcached (it is proved first, which takes some minutes the first time) and serves on an address, by default
# 127.0.0.1:11211, until it is interrupted. Usage: serve.sh [ADDR [OPTION ..]].
set -eu
cd "$(dirname "$0")/.."
python3 tools/prove.py
# A worker has up to 1,024 sessions, each with a descriptor.
ulimit -n "$(ulimit -Hn)"
# As the package's unit sets them, which says why.
tunables=$(sed -n 's/^Environment=GLIBC_TUNABLES=//p' packaging/systemd/segcached.service)
export GLIBC_TUNABLES="${GLIBC_TUNABLES:-$tunables}"
exec crates/segcached/out/segcached serve --listen "${1:-127.0.0.1:11211}" "${@:2}"
