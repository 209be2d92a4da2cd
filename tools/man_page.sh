#!/usr/bin/env bash
# Writes the man page segcached(1) on standard output: the program's own help, of each of its commands, laid out by
# help2man, and the parts of packaging/segcached.h2m. Usage: man_page.sh PROGRAM.
set -eu
cd "$(dirname "$0")/.."
program=$(realpath "$1")
work=$(mktemp -d)
trap 'rm -rf "$work"' EXIT

usage_of() {
  "$program" "$1" --help | sed -n 's/^Usage: //p'
}

# A part of its own for one command. (what is below a plain `Options:` comes into one list for all commands)
part_of() {
  printf '\n*segcached %s*\n' "$1"
  "$program" "$1" --help | sed -e '/^Usage: /d' -e "s/^Options:/Options of segcached $1:/"
}

{
  printf 'Usage: %s\n   or: %s\n' "$(usage_of serve)" "$(usage_of replay)"
  "$program" --help | sed '/^Usage: /d'
  part_of serve
  part_of replay
} >"$work/help"
# The whole help by one program, as help2man wants it.
printf '#!/bin/sh\ncase $1 in\n--help) cat "%s/help" ;;\n*) "%s" --version ;;\nesac\n' "$work" "$program" \
  >"$work/segcached"
chmod +x "$work/segcached"
help2man --no-info --section 1 --manual "User Commands" --name "cache that speaks memcached's text protocol" \
  --include packaging/segcached.h2m "$work/segcached"
