#!/usr/bin/env bash
# Runs in the machine that tools/try_systemd.sh boots: the package beside a running memcached, and what its service does
# where it can't start, and where it ends. The last line is 'N passed, M failed'.
set -u
export DEBIAN_FRONTEND=noninteractive SYSTEMD_COLORS=0
passed=0
failed=0

part() {
  local said
  if said=$("$@" 2>&1); then
    passed=$((passed + 1))
    echo "passed  $*"
  else
    failed=$((failed + 1))
    echo "failed  $*"
    echo "$said"
  fi
}

# What a server at the port of memcached says to a line.
ask() {
  timeout 5 bash -c 'exec 3<>/dev/tcp/127.0.0.1/11211 && printf "%s\r\nquit\r\n" "$0" >&3 && cat <&3' "$1" | tr -d '\r'
}

state_of() {
  systemctl show --property="$2" --value "$1"
}

# The unit isn't started again: not once, in three seconds.
stays_down() {
  sleep 3
  [ "$(state_of "$1" NRestarts)" = 0 ] && [ "$(state_of "$1" ActiveState)" != active ]
}

# It doesn't start, and the journal has the reason since then, once.
fails_once() {
  local unit=$1 reason=$2 cursor
  cursor=$(journalctl --quiet --lines 0 --show-cursor | sed -n 's/^-- cursor: //p')
  systemctl reset-failed "$unit" 2>/dev/null
  systemctl start "$unit" && return 1
  stays_down "$unit" || return 1
  journalctl --sync
  journalctl --after-cursor "$cursor" --output cat | tee /dev/stderr | grep -cF "$reason" | grep -qx 1
}

memcached_runs() {
  for _ in $(seq 50); do
    systemctl is-active memcached && ask version | grep -x 'VERSION 1.*' && return
    sleep 0.1
  done
  return 1
}

installs_beside_memcached() {
  dpkg --install /segcached.deb >/installed 2>&1 || return 1
  cat /installed
  [ "$(grep -c '^segcached: ' /installed)" = 1 ] || return 1
  grep -qxF "segcached: not started, since 127.0.0.1:11211 is taken: change --listen in /etc/default/segcached.local, and run 'systemctl start segcached'" /installed || return 1
  [ "$(state_of segcached ActiveState)" = inactive ] && [ "$(state_of segcached UnitFileState)" = enabled ]
}

memcached_keeps_its_port() {
  for _ in 1 2 3; do
    systemctl restart memcached && sleep 1.5 && memcached_runs || return 1
  done
}

starts_where_the_port_is_free() {
  systemctl stop memcached && systemctl reset-failed segcached
  systemctl start segcached && ask 'get health' | grep -x END
}

starts_again_after_a_crash() {
  local before
  before=$(state_of segcached MainPID)
  systemctl kill --signal=KILL --kill-who=main segcached
  sleep 3
  [ "$(state_of segcached ActiveState)" = active ] && [ "$(state_of segcached MainPID)" != "$before" ] || return 1
  ask 'get health' | grep -x END
}

ignores_signals() {
  local before
  before=$(state_of segcached MainPID)
  for signal in HUP USR1 USR2; do
    systemctl kill --signal=$signal --kill-who=main segcached
  done
  sleep 2
  [ "$(state_of segcached MainPID)" = "$before" ] && ask 'get health' | grep -x END
}

# One that ends each time that it is up is given up at last.
gives_up_one_that_crashes() {
  for _ in $(seq 60); do
    [ "$(state_of segcached ActiveState)" = failed ] && [ "$(state_of segcached NRestarts)" -ge 10 ] && return 0
    systemctl kill --signal=KILL --kill-who=main segcached 2>/dev/null
    sleep 0.7
  done
  systemctl status segcached
  return 1
}


takes_another_address() {
  sed -i 's/127.0.0.1:11211/localhost:11211/' /etc/default/segcached.local
}

upgrades_without_a_question() {
  sed -i 's/localhost:11211/127.0.0.1:11211/; s/--segments 64/--segments 65/' /etc/default/segcached.local
  systemctl reset-failed segcached
  systemctl start segcached || return 1
  dpkg --install /later.deb </dev/null || return 1
  grep -e '--idle 3600' /etc/default/segcached && grep -e '--segments 65' /etc/default/segcached.local || return 1
  [ "$(state_of segcached ActiveState)" = active ] || return 1
  tr '\0' ' ' <"/proc/$(state_of segcached MainPID)/cmdline" | grep -e '--segments 65 .*--idle 3600'
}

# It counts as started once it answers there, also after a crash.
serves_a_path_alone() {
  sed -i 's|^LOCAL=--listen [^ ]*|LOCAL=--listen unix:/run/segcached/cache|' /etc/default/segcached.local
  systemctl reset-failed segcached
  systemctl restart segcached && /usr/lib/segcached/probe unix:/run/segcached/cache || return 1
  systemctl kill --signal=KILL --kill-who=main segcached
  sleep 3
  [ "$(state_of segcached ActiveState)" = active ] && /usr/lib/segcached/probe unix:/run/segcached/cache
}

# Of a version in which one file had all options.
takes_over_older_options() {
  dpkg --purge segcached || return 1
  [ ! -e /etc/default/segcached.local ] || return 1
  echo 'OPTIONS=--listen 127.0.0.1:11222 --workers 1 --segments 9' >/etc/default/segcached
  dpkg --install --force-confold /segcached.deb </dev/null || return 1
  grep -x LOCAL= /etc/default/segcached.local && [ "$(state_of segcached ActiveState)" = active ]
}

part memcached_runs
part installs_beside_memcached
part memcached_keeps_its_port
part fails_once segcached 'fault: cannot listen on 127.0.0.1:11211: the port is taken'
part memcached_keeps_its_port
# (an instance without options)
part fails_once segcached@none 'required arguments were not provided'
part starts_where_the_port_is_free
part starts_again_after_a_crash
part ignores_signals
part gives_up_one_that_crashes
part takes_another_address
part fails_once segcached 'fault: cannot listen on localhost:11211: not an IP address and a port'
part upgrades_without_a_question
part serves_a_path_alone
part takes_over_older_options
echo "$passed passed, $failed failed"
