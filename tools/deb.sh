#!/usr/bin/env bash
# Makes out/segcached_VERSION_amd64.deb of the proved program by Debian's own tools. `make deb` calls it. VERSION is the
# program's, with the date and the short hash of the commit behind it.
set -eu
cd "$(dirname "$0")/.."
python3 tools/prove.py check
program=crates/segcached/out/segcached
type dpkg-buildpackage dh help2man >/dev/null 2>&1 || {
  echo "make deb: it needs dpkg-dev, debhelper and help2man"
  exit 1
}
version=$(python3 tools/prove.py package)

# In a copy, since Debian's tools write beside what they package, and want the version in a changelog.
work=$(mktemp -d)
trap 'rm -rf "$work"' EXIT
mkdir "$work/segcached"
cp -r --parents CHANGELOG.md docs packaging tools $program crates/segcached/out/PROVED "$work/segcached"
mv "$work/segcached/packaging/debian" "$work/segcached"
maintainer=$(sed -n 's/^Maintainer: //p' packaging/debian/control)
cat >"$work/segcached/debian/changelog" <<CHANGES
segcached ($version) unstable; urgency=medium

  * Built of the commit that PROVED names.

 -- $maintainer  $(git show -s --format=%cD HEAD)
CHANGES
(cd "$work/segcached" && dpkg-buildpackage --build=binary --no-sign) >"$work/log" 2>&1 || {
  tail -n 30 "$work/log"
  exit 1
}
mkdir -p out
mv "$work"/segcached_*.deb out/
ls out/segcached_"$version"_*.deb
