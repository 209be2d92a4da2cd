#!/usr/bin/env bash
# The package beside memcached on a machine that systemd has booted: a clean root, made by Debian's tools, is booted by
# systemd-nspawn without a network of others, and tools/systemd/trial.sh runs in it. Usage: try_systemd.sh [PACKAGE], by
# default the newest of `make deb`. The last line is 'N passed, M failed'.
set -eu
cd "$(dirname "$0")/.."
package=${1:-$(find out -name 'segcached_*.deb' -printf '%T@ %p\n' 2>/dev/null | sort -n | sed -n '$s/^[^ ]* //p')}
[ -n "$package" ] || {
  echo "try_systemd: no package; make deb makes it" >&2
  exit 1
}
missing=()
for needed in mmdebstrap systemd-container dpkg-dev; do
  dpkg -s "$needed" >/dev/null 2>&1 || missing+=("$needed")
done
if [ ${#missing[@]} -gt 0 ]; then
  apt-get update >/dev/null && apt-get install -y --no-install-recommends "${missing[@]}" >/dev/null || {
    echo "try_systemd: cannot install ${missing[*]}" >&2
    exit 1
  }
fi
work=$(mktemp -d)
root=$work/root
trap 'rm -rf "$work"' EXIT
mmdebstrap --quiet --variant=essential --include=passwd,systemd,systemd-sysv,dbus,memcached \
  --dpkgopt=force-unsafe-io --dpkgopt='path-exclude=/usr/share/locale/*' \
  "$(. /etc/os-release && echo "$VERSION_CODENAME")" "$root"

# A later version, in which the package's own options differ.
dpkg-deb --raw-extract "$package" "$work/later"
sed -i 's/^Version: .*/&.later/' "$work/later/DEBIAN/control"
sed -i 's/^OPTIONS=.*/& --idle 3600/' "$work/later/etc/default/segcached"
dpkg-deb --root-owner-group --build "$work/later" "$root/later.deb" >/dev/null
cp "$package" "$root/segcached.deb"

install -m 755 tools/systemd/trial.sh "$root/trial.sh"
cat >"$root/etc/systemd/system/trial.service" <<'UNIT'
[Unit]
Description=the trial
After=multi-user.target

[Service]
Type=oneshot
StandardInput=null
ExecStart=/bin/bash -c '/trial.sh >/trial.log 2>&1'
ExecStopPost=/bin/systemctl --no-block poweroff
UNIT
mkdir -p "$root/etc/systemd/system/graphical.target.wants"
ln -s ../trial.service "$root/etc/systemd/system/graphical.target.wants/trial.service"

# (where systemd doesn't run, there is nobody to register it with)
here=()
[ -d /run/systemd/system ] || here=(--register=no --keep-unit)
timeout 600 systemd-nspawn --quiet "${here[@]}" --private-network --boot --directory "$root" >"$work/console" 2>&1 || {
  tail -n 30 "$work/console"
}
cat "$root/trial.log"
tail -n 1 "$root/trial.log" | grep -q ' passed, 0 failed$'
