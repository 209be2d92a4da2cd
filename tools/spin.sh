#!/usr/bin/env bash
# Has spin search a model: tools/spin.sh FILE [-DNAME..]. First each state: none in which no thread can go on before all have
# ended, and none that breaks an assertion. Then each run: none goes on for ever. It says what spin found, and ends with 0
# if all was searched and nothing is wrong.
set -eu
model=$(realpath "$1")
shift
dpkg -s spin gcc libc6-dev >/dev/null 2>&1 || {
  apt-get update && apt-get install -y --no-install-recommends spin gcc libc6-dev
} >/dev/null
work=$(mktemp -d)
trap 'rm -rf "$work"' EXIT
cd "$work"
spin -a "$@" "$model"

search() {
  local kind=$1
  shift
  gcc -O1 -w -DCOLLAPSE -DMEMLIM=4096 "$kind" -o pan pan.c
  ./pan "$@" -m100000 -w22 >said || true
  grep -E '^pan:1|errors:|states, stored|out of memory|too small|not completed' said
  grep -q 'errors: 0' said && ! grep -qE 'out of memory|too small|not completed' said
}

search -DSAFETY && search -DNP -l
