#!/bin/sh
# Makes a package of the programs: a .deb for Debian 12 and its like, and a .tar.gz for any x86-64 Linux with the same C library.
# For who ships them to a plant.
#
#   tools/package.sh /tmp
#   tools/package.sh FOLDER
#
# writes FOLDER/ads_VERSION_amd64.deb and FOLDER/ads-VERSION-x86_64-linux.tar.gz, and prints their names. In both are the programs `ads`
# and `adsd`, the launcher of adsd, manual pages, units, tools, examples, pages and a MANIFEST: commit, kit, what the gate passed, the C
# library that is wanted, and a sum of each file. The same programs at the same commit make the same bytes.
# PROGRAM=FILE and DAEMON=FILE are other programs than those that .ci/run leaves; GATE=FILE is the output of .ci/run, whose
# counts go into the MANIFEST; FAST=1 compresses less, in a tenth of the time. It needs dpkg-deb, tar, gzip, sha256sum and readelf.
# Status: 0 done; 1 a wrong word, or a file could not be written; 4 a file can't be read; 6 a program that it needs is not here.
set -eu
umask 022

stop() {
    echo "package.sh: $1" >&2
    exit "${2:-1}"
}

case ${1-} in --help | -h) sed -n '2,/^[^#]/s/^# \{0,1\}//p' "$0" && exit 0 ;; esac
[ $# = 1 ] || stop "one word is wanted, the FOLDER that the package is written to; --help says more"
[ -d "$1" ] && [ -w "$1" ] || stop "$1 is no folder that can be written"
for tool in dpkg-deb tar gzip sha256sum md5sum readelf; do
    command -v $tool >/dev/null || stop "$tool is not here: apt install dpkg binutils coreutils tar gzip" 6
done
top=$(cd "$(dirname "$0")/.." && pwd)
folder=$(cd "$1" && pwd)
program=${PROGRAM:-$top/crates/ads/out/ads}
daemon=${DAEMON:-$top/crates/adsd/out/adsd}
for file in "$program" "$daemon"; do
    [ -f "$file" ] && [ -x "$file" ] || stop "there is no program at $file: .ci/run leaves the proved one there" 4
done
[ -z "${GATE-}" ] || [ -r "$GATE" ] || stop "$GATE, the output of the gate, can't be read" 4

commit=$(git -C "$top" rev-parse --short=12 HEAD 2>/dev/null || echo unknown)
SOURCE_DATE_EPOCH=$(git -C "$top" log -1 --format=%ct 2>/dev/null || date +%s)
export SOURCE_DATE_EPOCH # dpkg-deb takes it for the time of files that are younger
changed=
[ -z "$(git -C "$top" status --porcelain --untracked-files=no 2>/dev/null)" ] || changed=", and changes that are in no commit"
version=0~$(date -u -d "@$SOURCE_DATE_EPOCH" +%Y%m%d%H%M).$commit
libc=$(readelf -V "$program" "$daemon" 2>/dev/null | grep -o 'GLIBC_[0-9][0-9.]*' | sort -Vu | tail -1 | cut -d_ -f2)
libc=${libc:-2.34}

work=$(mktemp -d "$folder/.package.XXXXXX")
trap 'rm -rf "$work"' EXIT
trap 'exit 1' HUP INT TERM
root=$work/ads-$version
doc=$root/usr/share/doc/ads
mkdir "$root"
DESTDIR=$root PROGRAM=$program DAEMON=$daemon "$top/tools/install.sh" /usr >/dev/null
mkdir -p "$doc/docs"
install -m 644 "$top/README.md" "$doc/"
install -m 644 "$top"/docs/*.md "$top"/docs/*.svg "$top"/docs/*.png "$doc/docs/"
echo "No licence is given yet; ask the owners before you hand this on." >"$doc/copyright"
gzip -9n "$root"/usr/share/man/man1/*.1
{
    echo "ads ($version) unstable; urgency=medium"
    printf '\n  * The programs and pages of commit %s.\n\n' "$commit$changed"
    echo " -- Wenjukar <maintainers@users.noreply.wenjukar.example>  $(date -u -R -d "@$SOURCE_DATE_EPOCH")"
} | gzip -9n >"$doc/changelog.gz"
{
    echo "commit $commit$changed"
    echo "kit $(rt version 2>/dev/null | head -1 | grep . || echo unknown)"
    if [ -n "${GATE-}" ]; then
        grep -E '^([a-z]+: )?[0-9]+ passed, [0-9]+ failed' "$GATE" | sed 's/^/gate: /' | grep . || echo "gate: no counts in its output"
    else
        echo "gate: its output was not given"
    fi
    echo "C library $libc or later, x86-64"
    (cd "$root" && find . -type f ! -name MANIFEST | LC_ALL=C sort | xargs -d '\n' sha256sum)
} >"$work/MANIFEST"
install -m 644 "$work/MANIFEST" "$doc/MANIFEST"

mkdir "$work/control"
(cd "$root" && find usr -type f | LC_ALL=C sort | xargs -d '\n' md5sum) >"$work/control/md5sums"
cat >"$work/control/control" <<END_OF_CONTROL
Package: ads
Version: $version
Architecture: amd64
Maintainer: Wenjukar <maintainers@users.noreply.wenjukar.example>
Installed-Size: $(du -sk --apparent-size "$root" | cut -f1)
Depends: libc6 (>= $libc), libgcc-s1, passwd, coreutils (>= 8.31)
Recommends: python3 (>= 3.9), systemd
Suggests: python3-psycopg2, python3-paho-mqtt, sqlite3, stunnel4
Section: net
Priority: optional
Description: proved server, client and relay for Beckhoff ADS
 Serves a plant's symbols over Beckhoff's ADS protocol without TwinCAT and
 without a PLC, reads and writes them on any ADS server, and routes between
 controllers and panels. Each function is proved against its contract.
END_OF_CONTROL
cat >"$work/control/postinst" <<'END_OF_POSTINST'
#!/bin/sh
set -e
if [ "$1" = configure ]; then
    if ! getent passwd ads >/dev/null; then
        getent group ads >/dev/null || groupadd --system ads
        useradd --system --gid ads --no-create-home --home-dir /var/lib/ads --shell /usr/sbin/nologin --comment "ADS server" ads
    fi
    [ -d /etc/ads ] || install -d -m 2750 -o root -g ads /etc/ads
    [ -d /var/lib/ads ] || install -d -m 750 -o ads -g ads /var/lib/ads
    if ! ls /etc/ads/*.toml >/dev/null 2>&1; then
        for file in plant.toml adsd.toml; do
            install -m 640 -o root -g ads "/usr/share/ads/$file" "/etc/ads/$file"
        done
    fi
    if [ -d /run/systemd/system ]; then systemctl daemon-reload || true; fi
fi
END_OF_POSTINST
cat >"$work/control/prerm" <<'END_OF_PRERM'
#!/bin/sh
set -e
if [ "$1" = remove ] && [ -d /run/systemd/system ]; then
    systemctl stop ads-page.service ads-history.service ads-mqtt.service ads-dial.service ads-relay.service ads-discover.service \
        ads.service adsd.service 'ads@*.service' 'adsd@*.service' || true
fi
# What Python has put beside the tools.
find /usr/share/ads/tools -depth -name __pycache__ -exec rm -r {} + 2>/dev/null || true
END_OF_PRERM
cat >"$work/control/postrm" <<'END_OF_POSTRM'
#!/bin/sh
# Descriptions in /etc/ads and stores in /var/lib/ads stay, also when the package is purged; so does the user, whose files they are.
set -e
if [ "$1" = purge ]; then
    # The links that `systemctl enable` has made; they lead to units that are gone.
    for unit in ads-discover.service ads-page.service ads-history.service ads-mqtt.service ads-dial.service ads-relay.service \
        ads.service adsd.service 'ads@*.service' 'adsd@*.service'; do
        find /etc/systemd/system/multi-user.target.wants -name "$unit" -xtype l -delete 2>/dev/null || true
    done
fi
if [ -d /run/systemd/system ]; then systemctl daemon-reload || true; fi
END_OF_POSTRM
chmod 755 "$work/control/postinst" "$work/control/prerm" "$work/control/postrm"

level="-Zxz -z6" fast=
[ -z "${FAST-}" ] || level="-Zgzip -z1" fast=1
tar -C "$work" --owner=0 --group=0 --numeric-owner --sort=name --mtime="@$SOURCE_DATE_EPOCH" -cf "$work/ads.tar" "ads-$version"
gzip "-${fast:-9}n" "$work/ads.tar"
mv "$work/control" "$root/DEBIAN"
# shellcheck disable=SC2086 # two words
dpkg-deb --root-owner-group $level --build "$root" "$work/ads.deb" >/dev/null
mv "$work/ads.deb" "$folder/ads_${version}_amd64.deb"
mv "$work/ads.tar.gz" "$folder/ads-$version-x86_64-linux.tar.gz"
echo "$folder/ads_${version}_amd64.deb"
echo "$folder/ads-$version-x86_64-linux.tar.gz"
