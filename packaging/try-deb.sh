#!/bin/sh
# Installs the package of packaging/deb.sh into an empty root by dpkg, runs what it put there, and removes it again. Status 1
# at the first thing that is not as it should be. Usage: packaging/try-deb.sh [PACKAGE], or make try-deb
set -e
cd "$(dirname "$(readlink -f "$0")")/.."
package=${1:-out/devconf_$(cat VERSION)_$(dpkg --print-architecture).deb}
[ -f "$package" ] || { echo "try-deb: there is no $package: run make deb before" >&2; exit 1; }
work=$(mktemp -d)
trap 'rm -rf "$work"' EXIT
root=$work/root
mkdir -p "$root/var/lib/dpkg/info" "$root/var/lib/dpkg/updates" "$root/var/lib/dpkg/triggers" "$root/etc" "$root/tmp"
: >"$root/var/lib/dpkg/status"
: >"$root/var/lib/dpkg/available"
fail() { echo "try-deb: $1" >&2; [ ! -s "$work/said" ] || head -n 10 "$work/said" >&2; exit 1; }
# The root is empty, so what the package depends on is not there; and a user who is not root may try it, too.
into() { dpkg --root="$root" --force-depends --force-not-root --force-script-chrootless --log=/dev/null "$@" >"$work/said" 2>&1; }
into --install "$package" || fail "dpkg does not install $package"
bin=$root/usr/bin
"$bin/devconf" load 5 >"$work/said" 2>&1 || fail 'devconf load 5'
there=$root/usr/share/doc/devconf/examples
"$bin/devconf" boot "$there/small.conf" "$there/small.machine" >"$work/said" 2>&1 || fail 'devconf boot'
cmp -s "$work/said" examples/outputs/small.boot || fail 'devconf boot prints something else than examples/outputs/small.boot'
(cd examples && "$bin/drvrun" disk.conf disk.machine copy.script eject.script) >"$work/run" 2>"$work/said" || fail drvrun
(cd examples && "$bin/devconf" replay disk.conf disk.machine "$work/run" copy.script eject.script) >"$work/said" 2>&1 || fail 'devconf replay'
(cd examples && "$bin/drvall" disk.conf disk.machine copy.script eject.script) >"$work/said" 2>&1 || fail drvall
"$bin/devconf-explain" 13 >"$work/said" 2>&1 || fail devconf-explain
"$bin/devconf-summary" examples/outputs/small.boot >"$work/said" 2>&1 || fail devconf-summary
"$bin/devconf-draw" examples/outputs/small.boot >"$work/said" 2>&1 || fail devconf-draw
"$bin/devconf-compare" examples/outputs/small.boot examples/outputs/small.boot >"$work/said" 2>&1 || fail devconf-compare
(cd "$there/amd64" && "$bin/devconf-machine" -c GENERIC ../dmesg/box) >"$work/machine" 2>"$work/said" || fail devconf-machine
cmp -s "$work/machine" examples/machines/box || fail 'devconf-machine prints something else than examples/machines/box'
for page in man1/devconf.1 man1/drvrun.1 man1/drvall.1 man1/devwhy.1 man1/devconf-tools.1 man1/devconf-summary.1 man5/devconf.5; do
    gzip -dc "$root/usr/share/man/$page.gz" 2>/dev/null | grep -q "^\.Os devconf $(cat VERSION)\$" || fail "the page $page has no version"
done
[ -f "$root/usr/share/bash-completion/completions/devconf" ] || fail 'no completion for bash'
into --purge devconf || fail 'dpkg does not remove it'
left=$(find "$root/usr" \( -type f -o -type l \) 2>/dev/null || true)
[ -z "$left" ] || fail "it leaves $left"
echo "$package: installed into an empty root, run, and removed"
