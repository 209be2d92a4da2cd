#!/usr/bin/env bash
# Puts the program, its man page, completion, units and documents below PREFIX (/usr/local), or takes them away again;
# DESTDIR goes before each place. `make install`, `make uninstall` and the Debian package call it. Usage: install.sh
# put|remove.
set -eu
cd "$(dirname "$0")/.."
prefix=${PREFIX:-/usr/local}
units=${UNITS:-$prefix/lib/systemd/system}
documents=$prefix/share/doc/segcached
defaults="segcached.default segcached.local"
program=crates/segcached/out/segcached
pages="INSTALL OPERATIONS CLIENTS PERFORMANCE"
absent="ARCHITECTURE|DECISIONS|EDITS|GATE|HEADLINE|PROOFS|TESTING"
made=$(mktemp -d)
trap 'rm -rf "$made"' EXIT

# Calls a function with the mode, the file and the place of each file.
each_file() {
  "$1" 755 $program "$prefix/bin/segcached"
  "$1" 644 "$made/segcached.1" "$prefix/share/man/man1/segcached.1"
  "$1" 644 packaging/segcached.bash "$prefix/share/bash-completion/completions/segcached"
  "$1" 644 "$made/segcached.service" "$units/segcached.service"
  "$1" 644 "$made/segcached@.service" "$units/segcached@.service"
  "$1" 755 "$made/ready" "$prefix/lib/segcached/ready"
  "$1" 755 packaging/taken.sh "$prefix/lib/segcached/taken"
  "$1" 644 packaging/address.sh "$prefix/lib/segcached/address.sh"
  "$1" 755 packaging/examples/probe.sh "$prefix/lib/segcached/probe"
  "$1" 644 crates/segcached/out/PROVED "$documents/PROVED"
  "$1" 644 CHANGELOG.md "$documents/CHANGELOG.md"
  for page in $pages; do
    "$1" 644 "$made/$page.md" "$documents/$page.md"
  done
  for picture in performance misses; do
    "$1" 644 docs/$picture.svg "$documents/$picture.svg"
  done
  "$1" 755 tools/script_of.py "$documents/examples/script_of.py"
  "$1" 755 packaging/examples/probe.sh "$documents/examples/probe.sh"
  "$1" 644 "$made/Containerfile" "$documents/examples/Containerfile"
  for example in kubernetes.yaml twemproxy/three_caches.yml; do
    "$1" 644 packaging/examples/$example "$documents/examples/$example"
  done
}

# Where the options of a file of `packaging` stand.
place_of() {
  echo "${DESTDIR:-}/etc/default/$(basename "$1" .default)"
}

# Makes what differs by PREFIX or by place: the man page, the units with the script that they call, the container file,
# which takes what is installed, and the pages, whose examples lie beside them, and in which a link to a page that isn't
# installed is its text alone.
make_files() {
  tools/man_page.sh $program >"$made/segcached.1"
  sed -e "s|/usr/bin/segcached|$prefix/bin/segcached|" -e "s|/usr/lib/|$prefix/lib/|" packaging/systemd/segcached.service >"$made/segcached.service"
  sed "s|^probe=.*|probe=$prefix/lib/segcached/probe|" packaging/ready.sh >"$made/ready"
  sed -e '1,3c # An instance of segcached; its options stand in /etc/default/segcached-NAME.' \
    -e '/^EnvironmentFile=.*local$/d' -e 's| \$LOCAL||' \
    -e 's|^EnvironmentFile=\(.*\)|# (without this file the program says that it has no address)\nEnvironmentFile=-\1-%i|' \
    -e '/^# (without its options/d' -e '/^AssertPathExists=/d' -e 's|^Description=segcached|& (%i)|' \
    "$made/segcached.service" >"$made/segcached@.service"
  sed -e "1s|-f .*|-f $documents/examples/Containerfile -t segcached $prefix|" \
    -e 's|crates/segcached/out/segcached|bin/segcached|' -e 's|packaging/examples/probe.sh|lib/segcached/probe|' \
    packaging/examples/Containerfile >"$made/Containerfile"
  for page in $pages; do
    sed -E -e 's|\]\(\.\./packaging/examples/|](examples/|g' -e 's/\[([^]]*)\]\('"($absent)"'\.md[^)]*\)/\1/g' docs/$page.md >"$made/$page.md"
  done
}

put_file() {
  install -D -m "$1" "$2" "${DESTDIR:-}$3"
}

remove_file() {
  rm -f "${DESTDIR:-}$3"
}

case $1 in
put)
  type help2man >/dev/null 2>&1 || {
    echo "make install: it needs help2man" >&2
    exit 1
  }
  make_files
  each_file put_file
  # Options that somebody has written stay.
  for file in $defaults; do
    [ -e "$(place_of "$file")" ] || install -D -m 644 "packaging/$file" "$(place_of "$file")"
  done
  ;;
remove)
  each_file remove_file
  rm -rf "${DESTDIR:-}$documents" "${DESTDIR:-}$prefix/lib/segcached"
  for file in $defaults; do
    if cmp -s "packaging/$file" "$(place_of "$file")"; then rm "$(place_of "$file")"; fi
  done
  ;;
esac
