#!/bin/sh
# Makes a Debian package of the built programs, with pages, examples, tools and completions, by dpkg-deb: out/devconf_VERSION_ARCH.deb.
# Usage: packaging/deb.sh, or make deb; run make before
set -e
cd "$(dirname "$(readlink -f "$0")")/.."
command -v dpkg-deb >/dev/null || { echo "make deb: the command dpkg-deb is needed" >&2; exit 1; }
missing=
for program in devconf drvrun drvall devwhy; do
    [ -x "crates/$program/out/$program" ] || missing="$missing crates/$program/out/$program"
done
[ -z "$missing" ] || { echo "make deb: not built yet:$missing; run make before" >&2; exit 1; }
version=$(cat VERSION)
architecture=$(dpkg --print-architecture)
umask 022
work=$(mktemp -d)
trap 'rm -rf "$work"' EXIT
root=$work/root
make -s install DESTDIR="$root" PREFIX=/usr
doc=$root/usr/share/doc/devconf
mkdir -p "$doc" "$root/DEBIAN"
cp README.md SECURITY.md "$doc"
ln -s ../../devconf/docs ../../devconf/examples "$doc"
cp LICENSE "$doc/copyright"
gzip -9n <CHANGELOG.md >"$doc/CHANGELOG.md.gz"
maintainer=$(git log -1 --format='%an <%ae>' 2>/dev/null || echo 'devconf maintainers <devconf@localhost>')
printf 'devconf (%s) unstable; urgency=low\n\n  * See CHANGELOG.md.gz.\n\n -- %s  %s\n' "$version" "$maintainer" \
    "$(git log -1 --format=%aD 2>/dev/null || date -R)" | gzip -9n >"$doc/changelog.gz"
for page in "$root"/usr/share/man/man?/*; do
    if [ -L "$page" ]; then ln -s "$(readlink "$page").gz" "$page.gz" && rm "$page"; else gzip -9n "$page"; fi
done

# The programs may need the C library, or be linked with all that they need.
depends=
for program in devconf drvrun drvall devwhy; do
    if ldd "crates/$program/out/$program" 2>/dev/null | grep -q 'libc\.so'; then depends='libc6'; fi
done
{
    echo "Package: devconf"
    echo "Version: $version"
    echo "Section: utils"
    echo "Priority: optional"
    echo "Architecture: $architecture"
    [ -z "$depends" ] || echo "Depends: $depends"
    echo "Suggests: bash-completion, graphviz"
    echo "Installed-Size: $(du -ks "$root/usr" | cut -f 1)"
    echo "Maintainer: $maintainer"
    echo "Description: device configuration of NetBSD, proved"
    echo " devconf compiles kernel configurations in the language of config(5) of"
    echo " NetBSD and boots a described machine by them, as autoconf(9) does. Scripts"
    echo " then detach, rescan, suspend and resume its devices, as drvctl(8) and pmf(9)"
    echo " do. Every step is one line of a history, which devconf can check again."
    echo " drvrun runs the scripts in threads, drvall goes through every order of their"
    echo " turns, and devwhy says why a driver takes a spot. Every function is proved"
    echo " against its contract."
} >"$root/DEBIAN/control"
(cd "$root" && find usr -type f -exec md5sum {} +) | LC_ALL=C sort -k 2 >"$root/DEBIAN/md5sums"
mkdir -p out
package=out/devconf_${version}_$architecture.deb
dpkg-deb --root-owner-group --build "$root" "$package" >/dev/null
echo "$package"
