#!/usr/bin/env bash
# The package, tried: it is made of the proved program alone and has its version, lintian has no warning of it, it needs
# the C library alone, its units are tight, and its pages' links lead to what is in it. A clean root, made by Debian's
# tools, takes it; its user serves from there; and nothing is left once it has gone. Then `make install` and `make
# uninstall`, the completion, and the program under a container's init. Usage: try_deb.sh [LOG], where LOG is what `rt ci`
# said of the program's crates, of which the record of the proofs is then written. The last line is 'N passed, M failed'.
set -u
cd "$(dirname "$0")/.."
program=crates/segcached/out/segcached
packages=(dpkg-dev debhelper help2man lintian mmdebstrap systemd tini)
missing=()
for package in "${packages[@]}"; do
  dpkg -s "$package" >/dev/null 2>&1 || missing+=("$package")
done
if [ ${#missing[@]} -gt 0 ]; then
  apt-get update >/dev/null && apt-get install -y --no-install-recommends "${missing[@]}" >/dev/null || {
    echo "try_deb: cannot install ${missing[*]}"
    exit 1
  }
fi

. tools/served.sh
work=$(mktemp -d)
root=$work/root
trap 'end_server; rm -rf "$work"' EXIT
passed=0
failed=0

part() {
  if "$@" >"$work/said" 2>&1; then
    passed=$((passed + 1))
  else
    failed=$((failed + 1))
    echo "failed  $*"
    cat "$work/said"
  fi
}

is_refused_with_a_line() {
  ! python3 tools/prove.py check "$1" 2>"$work/lines" && [ "$(wc -l <"$work/lines")" -eq 1 ]
}

# A program that no record stands beside, and one with another byte.
refuses_other_programs() {
  mkdir "$work/other"
  cp $program "$work/other"
  is_refused_with_a_line "$work/other/segcached" || return 1
  cp crates/segcached/out/PROVED "$work/other"
  python3 tools/prove.py check "$work/other/segcached" || return 1
  echo >>"$work/other/segcached"
  is_refused_with_a_line "$work/other/segcached"
}

makes_package() {
  made=$(tools/deb.sh) && cp "$made" "$work/segcached.deb"
}

# The package and the man page have the program's version; the package's is newer than those of one version for all.
has_one_version() {
  local number version
  number=$("$program" --version | sed -n '1s/^segcached //p')
  version=$(dpkg-deb --field "$work/segcached.deb" Version)
  echo "the program $number, the package $version"
  [[ $version =~ ^"$number"\+[0-9]{8}\.[0-9]{6}\.g[0-9a-f]+(\.changed)?$ ]] || return 1
  dpkg --compare-versions "$version" gt 0.1.0 && dpkg --compare-versions "$version" gt "$number" || return 1
  dpkg-deb --fsys-tarfile "$work/segcached.deb" | tar -xO ./usr/share/man/man1/segcached.1.gz | gunzip >"$work/manual"
  grep "^\.TH .*\"segcached $number\"" "$work/manual"
}

needs_the_c_library_alone() {
  dpkg-deb --field "$work/segcached.deb" Depends | tee "$work/depends"
  grep -qxE 'libc6 \(>= [0-9.]+\)' "$work/depends"
}

# Of the service and of an instance; the exposure, which systemd counts from 0 to 10, is at most 2.
has_tight_units() {
  local units=$work/units
  dpkg-deb --extract "$work/segcached.deb" "$work/content"
  mkdir "$units"
  cp "$work/content/lib/systemd/system/segcached.service" "$units"
  cp "$work/content/lib/systemd/system/segcached@.service" "$units/segcached@one.service"
  sed -i -e "s|/usr/bin/segcached|$PWD/$program|" -e "s|/usr/lib/|$work/content/usr/lib/|" "$units"/*
  # (it also complains of units of this machine, which aren't the package's)
  systemd-analyze verify --man=no "$units"/* 2>&1 | grep -v '^/lib/systemd/system/' | tee "$work/complaints"
  [ ! -s "$work/complaints" ] || return 1
  grep -qx 'EnvironmentFile=-/etc/default/segcached-%i' "$units/segcached@one.service" || return 1
  grep -e LOCAL -e Assert "$units/segcached@one.service" && return 1
  for unit in "$units"/*; do
    systemd-analyze security --offline=true --threshold=20 "$unit" || return 1
  done
}

# Each link of the package's pages to a file.
has_what_its_pages_link_to() {
  local pages=$work/content/usr/share/doc/segcached links
  links=$(grep -ohE '\]\([^)#:]+' "$pages"/*.md | sed 's/^](//' | sort -u)
  [ "$(wc -l <<<"$links")" -ge 5 ] || return 1
  for link in $links; do
    [ -e "$pages/$link" ] || { echo "$link" && return 1; }
  done
}

makes_clean_root() {
  mmdebstrap --variant=essential --include=passwd --dpkgopt=force-unsafe-io \
    --dpkgopt='path-exclude=/usr/share/locale/*' "$(. /etc/os-release && echo "$VERSION_CODENAME")" "$root"
}

# All files of the root but what dpkg and useradd keep for themselves: a database, a log, and the former lists of users.
list_files() {
  find "$root" -xdev \( -path "$root/var/lib/dpkg" -o -path "$root/var/log" -o -path "$root/etc/*-" \) -prune \
    -o -printf '%P %M %u %s\n' | sort
}

installs() {
  list_files >"$work/before"
  cp "$work/segcached.deb" "$root/"
  chroot "$root" dpkg --install /segcached.deb
  rm "$root/segcached.deb"
  grep -q "^installed: $(sha256sum <"$root/usr/bin/segcached" | cut -d ' ' -f 1) " \
    "$root/usr/share/doc/segcached/PROVED"
}

# The program as installed, as its user and with the service's options, but on any free port. The signal that systemd
# sends ends it within a second.
serves_as_its_user() {
  local options status=0 began took
  printf '#!/bin/sh\nexec chroot --userspec=segcached:segcached "%s" /usr/bin/segcached "$@"\n' "$root" \
    >"$work/installed"
  chmod +x "$work/installed"
  options=$(sed -n 's/^LOCAL=--listen 127.0.0.1:11211 //p' "$root/etc/default/segcached.local")
  options+=" $(sed -n 's/^OPTIONS=//p' "$root/etc/default/segcached")"
  # shellcheck disable=SC2086  # (they are words)
  [[ $options == --workers*--lenient* ]] && serve_on_free_port "$work/installed" $options --listen unix:/tmp/cache || return 1
  [ "$(stat -c %u "/proc/$server")" = "$(chroot "$root" id --user segcached)" ] || return 1
  exec 3<>"/dev/tcp/127.0.0.1/$port"
  printf 'set a 0 0 1\r\nx\r\nget a\r\nquit\r\n' >&3
  [ "$(cat <&3)" = $'STORED\r\nVALUE a 0 1\r\nx\r\nEND\r' ] || return 1
  exec 3>&-
  MAINPID=$server chroot "$root" /usr/lib/segcached/ready --listen "127.0.0.1:$port" || return 1
  [ "$(chroot "$root" /usr/lib/segcached/taken --listen "0.0.0.0:$port")" = "127.0.0.1:$port" ] || return 1
  MAINPID=$server chroot "$root" /usr/lib/segcached/ready --listen unix:/tmp/cache || return 1
  [ "$(chroot "$root" /usr/lib/segcached/taken --listen unix:/tmp/cache)" = unix:/tmp/cache ] || return 1
  rm "$root/tmp/cache"
  began=$(date +%s%N)
  kill -TERM "$server"
  wait "$server" || status=$?
  took=$((($(date +%s%N) - began) / 1000000))
  echo "ended with status $status after $took ms"
  [ $took -lt 1000 ] && { [ $status -eq 0 ] || [ $status -eq $((128 + 15)) ]; }
}

# Process 1 of a container doesn't end by SIGTERM; under tini the program does within a second.
ends_behind_an_init() {
  local init began took
  unshare --pid --fork --kill-child tini -- "$PWD/$program" serve --listen 127.0.0.1:0 >"$work/first" &
  for _ in $(seq 100); do
    [ -s "$work/first" ] && break
    sleep 0.05
  done
  init=$(pgrep -P $!)
  began=$(date +%s%N)
  kill -TERM "$init"
  wait $!
  took=$((($(date +%s%N) - began) / 1000000))
  echo "ended after $took ms"
  [ -s "$work/first" ] && [ $took -lt 1000 ]
}

# While a process of its user runs a purge is done, and the user stays. (userdel looks for it in /proc)
purges_beside_a_process() {
  local process
  chroot --userspec=segcached:segcached "$root" sleep 60 &
  process=$!
  sleep 0.2
  # shellcheck disable=SC2016  # (the inner shell's words)
  unshare --mount sh -c 'mount --rbind /proc "$1/proc" && exec chroot "$1" dpkg --purge segcached' sh "$root" || return 1
  kill $process
  chroot "$root" getent passwd segcached && chroot "$root" userdel segcached
}

# After a removal its options, those of instances and its user stay, as Debian wants it; after a purge nothing does, nor
# what `systemctl enable` makes for an instance.
leaves_nothing() {
  local options=$root/etc/default/segcached wanted_by=$root/etc/systemd/system/multi-user.target.wants
  for instance in one two-2; do
    echo "OPTIONS=--listen 127.0.0.1:11212" >"$options-$instance"
    ln -s /lib/systemd/system/segcached@.service "$wanted_by/segcached@$instance.service" || return 1
  done
  # (no unit takes options from this line)
  echo "# OPTIONS=--listen 127.0.0.1:11213" >"$options-none"
  chroot "$root" dpkg --remove segcached
  [ ! -e "$root/usr/bin/segcached" ] || return 1
  for kept in "$options" "$options.local" "$options-one" "$options-two-2"; do
    [ -e "$kept" ] || return 1
  done
  chroot "$root" dpkg --purge segcached
  list_files | diff "$work/before" - && ! ls "$root"/var/lib/dpkg/info/segcached*
}

# Each file that the container file takes stands below the prefix, from which it is built.
has_what_a_container_takes() {
  local file=$1/share/doc/segcached/examples/Containerfile taken
  head -n 1 "$file" | grep -qF "docker build -f /opt/cache/share/doc/segcached/examples/Containerfile -t segcached /opt/cache" \
    || return 1
  taken=$(sed -n 's/^COPY \([^ ]*\) .*/\1/p' "$file")
  [ "$(wc -l <<<"$taken")" -ge 2 ] || return 1
  for part in $taken; do
    [ -e "$1/$part" ] || return 1
  done
}

installs_and_uninstalls() {
  local to=$work/to here=$work/to/opt/cache
  make install PREFIX=/opt/cache DESTDIR="$to" || return 1
  "$here/bin/segcached" --version
  grep -q '^ExecStart=/usr/bin/env [^ ]* /opt/cache/bin/segcached ' "$here/lib/systemd/system/segcached.service" || return 1
  grep -q '^ExecStartPost=/opt/cache/lib/segcached/ready ' "$here/lib/systemd/system/segcached.service" || return 1
  has_what_a_container_takes "$here" || return 1
  man --warnings --local-file "$here/share/man/man1/segcached.1" 2>&1 >/dev/null | grep . && return 1
  printf 'stats\r\n' | "$here/share/doc/segcached/examples/script_of.py" refused - | grep '1 refused of 1' || return 1
  make uninstall PREFIX=/opt/cache DESTDIR="$to" || return 1
  [ -z "$(find "$to" -not -type d)" ]
}

# Without help2man `make install` says so in one line.
says_what_it_needs() {
  local without=$work/without
  mkdir "$without"
  for word in bash cat cp dirname install mktemp rm sed; do
    ln -s "$(type -P $word)" "$without/$word"
  done
  PATH=$without DESTDIR="$work/nowhere" packaging/install.sh put 2>"$work/needs" && return 1
  cat "$work/needs"
  [ "$(cat "$work/needs")" = "make install: it needs help2man" ] && [ ! -e "$work/nowhere" ]
}

# Runs the completion as bash does, over words of which the last is to be completed.
complete_words() {
  COMP_WORDS=("$PWD/$program" "$@")
  COMP_CWORD=$#
  COMPREPLY=()
  _segcached "$PWD/$program"
  echo "${COMPREPLY[*]}"
}

completes_words() {
  . packaging/segcached.bash
  [ "$(complete_words s)" = serve ] && [ "$(complete_words serve --seg)" = "--segment-size --segments" ] \
    && [ "$(complete_words replay --fa)" = --fail-give ] \
    && [ "$(complete_words serve --evict '')" = "oldest least-read" ] \
    && [ "$(complete_words serve --evict = le)" = least-read ] && [ "$(complete_words serve --ex)" = --exact-ttls ] \
    && [ -z "$(complete_words serve --workers '')" ]
}

[ $# -eq 0 ] || part python3 tools/prove.py record --log "$1"
part refuses_other_programs
part makes_package
part has_one_version
part lintian --fail-on error,warning --allow-root "$work/segcached.deb"
part needs_the_c_library_alone
part has_tight_units
part has_what_its_pages_link_to
part makes_clean_root
part installs
part serves_as_its_user
part leaves_nothing
part installs
part purges_beside_a_process
part installs_and_uninstalls
part says_what_it_needs
part completes_words
part ends_behind_an_init
echo "$passed passed, $failed failed"
[ "$failed" -eq 0 ]
