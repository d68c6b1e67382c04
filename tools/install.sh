#!/bin/sh
# Puts the programs `ads` and `adsd`, their manual pages, units of systemd, the tools and the examples in their places.
# For who has no package, and for tools/package.sh.
#
#   sudo tools/install.sh /usr/local 192.168.0.9
#   tools/install.sh PREFIX [CLIENT-ADDRESS ..]
#
# PREFIX is /usr/local or /usr. Each further word is an address, or a network as 10.1.2.0/24, that may connect to the services;
# without one these are this machine and those that an earlier run named.
# DESTDIR=FOLDER puts everything below a folder, as a package wants it; PROGRAM=FILE and DAEMON=FILE are other programs than
# crates/ads/out/ads and crates/adsd/out/adsd. If root runs it without DESTDIR, it also makes the user `ads`, /etc/ads with examples
# if there is none, and /var/lib/ads. It enables and starts nothing, and prints each file that it wrote.
# Status: 0 done; 1 a wrong word, or a file could not be written; 4 a program is not there.
set -eu
umask 022

stop() {
    echo "install.sh: $1" >&2
    exit "${2:-1}"
}

is_address() { # an address or a network, of IPv4 or of IPv6
    case $1 in
    *[!0-9A-Fa-f./:]*) return 1 ;;
    *:*) echo "$1" | grep -Eq '^[0-9A-Fa-f]{0,4}(:[0-9A-Fa-f]{0,4}){2,7}(/(12[0-8]|1[01][0-9]|[1-9]?[0-9]))?$' ;;
    *) echo "$1" | grep -Eq '^((25[0-5]|2[0-4][0-9]|1[0-9]{2}|[1-9]?[0-9])(\.|/|$)){4}' &&
        echo "$1" | grep -Eq '^[0-9]+(\.[0-9]+){3}(/(3[0-2]|[12]?[0-9]))?$' ;;
    esac
}

case ${1-} in
--help | -h) sed -n '2,/^[^#]/s/^# \{0,1\}//p' "$0" && exit 0 ;;
/*) ;;
*) stop "the first word is PREFIX, a folder that begins with /, as /usr/local; --help says more" ;;
esac
case $1/ in
*[!A-Za-z0-9/._-]* | */../*) stop "PREFIX has letters, digits and /._- alone, and no folder '..'" ;;
esac
prefix=${1%/}
shift
for address in "$@"; do
    is_address "$address" || stop "'$address' is no address and no network, as 192.168.0.9 or 10.1.2.0/24"
done

top=$(cd "$(dirname "$0")/.." && pwd)
program=${PROGRAM:-$top/crates/ads/out/ads}
daemon=${DAEMON:-$top/crates/adsd/out/adsd}
dest=${DESTDIR-}
for file in "$program" "$daemon"; do
    [ -f "$file" ] && [ -x "$file" ] || stop "there is no program at $file: .ci/run leaves the proved one there" 4
done

put() { # MODE FILE PLACE
    mkdir -p "$(dirname "$dest$3")"
    install -m "$1" "$2" "$dest$3"
    echo "$dest$3"
}

work=$(mktemp -d)
trap 'rm -rf "$work"' EXIT
trap 'exit 1' HUP INT TERM
units="ads.service ads@.service adsd.service adsd@.service ads-discover.service ads-page.service ads-relay.service"
# These connect, and nobody connects to them.
others="ads-history.service ads-mqtt.service ads-dial.service"
for unit in $units $others; do
    sed "s#/usr/local/#$prefix/#g" "$top/examples/$unit" >"$work/$unit"
done
echo 'u ads - "ADS server"' >"$work/ads.conf"
# The signals wait until the program looks for them, in a terminal too.
printf '#!/bin/sh\nexec env --block-signal=TERM,INT,HUP,XFSZ %s "$@"\n' "$prefix/libexec/ads/adsd" >"$work/adsd"
{
    printf '#!/bin/sh\n# Runs a tool by its name: ads-tool values get ..\ntools=%s\n' "$prefix/share/ads/tools"
    cat <<'END_OF_TOOL'
name=${1-}
names=$(cd "$tools" && ls -- *.py | sed 's/\.py$//' | tr '\n' ' ')
case $name in
--help | -h) echo "ads-tool NAME WORD ..; NAME is one of: $names" && exit 0 ;;
"" | */*) false ;;
*) [ -f "$tools/$name.py" ] ;;
esac || { echo "ads-tool: '$name' is no tool; these are: $names" >&2 && exit 1; }
command -v python3 >/dev/null || { echo "ads-tool: there is no python3: apt install python3" >&2 && exit 4; }
python3 -c 'import json' 2>/dev/null || { echo "ads-tool: python3 lacks its standard library, as python3-minimal does: apt install python3" >&2 && exit 4; }
shift
exec python3 "$tools/$name.py" "$@"
END_OF_TOOL
} >"$work/ads-tool"
{
    echo "# The addresses that may connect, beside this machine."
    echo "[Service]"
    printf 'IPAddressAllow=%s\n' "$@"
} >"$work/clients.conf"

put 755 "$program" "$prefix/bin/ads"
put 755 "$work/adsd" "$prefix/bin/adsd"
put 755 "$daemon" "$prefix/libexec/ads/adsd"
put 755 "$work/ads-tool" "$prefix/bin/ads-tool"
put 644 "$top/docs/ads.1" "$prefix/share/man/man1/ads.1"
put 644 "$top/docs/adsd.1" "$prefix/share/man/man1/adsd.1"
for unit in $others; do
    put 644 "$work/$unit" "$prefix/lib/systemd/system/$unit"
done
for unit in $units; do
    put 644 "$work/$unit" "$prefix/lib/systemd/system/$unit"
    if [ $# -gt 0 ]; then
        put 644 "$work/clients.conf" "/etc/systemd/system/$unit.d/clients.conf"
    fi
done
put 644 "$work/ads.conf" "$prefix/lib/sysusers.d/ads.conf"
(cd "$top/tools" && find . -type d \( -name tries -o -name '.*' ! -name . -o -name __pycache__ \) -prune -o -type f \
    ! -name '.*' ! -name '*.pyc' ! -name '*.sh' ! -name try.py ! -name adsd -print | sort) >"$work/tools"
while read -r file; do
    put 644 "$top/tools/$file" "$prefix/share/ads/tools/${file#./}"
done <"$work/tools"
for file in "$top"/examples/*; do
    put 644 "$file" "$prefix/share/doc/ads/examples/$(basename "$file")"
done
# What /etc/ads begins with. A machine may have no /usr/share/doc, as images of Docker.
first="plant.toml adsd.toml"
for file in $first page.toml history.toml mqtt.toml dial.toml relay.toml; do
    put 644 "$top/examples/$file" "$prefix/share/ads/$file"
done

if [ -z "$dest" ] && [ "$(id -u)" = 0 ]; then
    if ! getent passwd ads >/dev/null; then
        getent group ads >/dev/null || groupadd --system ads
        useradd --system --gid ads --no-create-home --home-dir /var/lib/ads --shell /usr/sbin/nologin --comment "ADS server" ads
        echo "user and group ads"
    fi
    # Files that are made in it belong to the group too, so that the server can read a description that was renamed into place.
    [ -d /etc/ads ] || install -d -m 2750 -o root -g ads /etc/ads
    if ! ls /etc/ads/*.toml >/dev/null 2>&1; then
        for file in $first; do
            install -m 640 -o root -g ads "$top/examples/$file" "/etc/ads/$file"
            echo "/etc/ads/$file"
        done
    fi
    [ -d /var/lib/ads ] || install -d -m 750 -o ads -g ads /var/lib/ads
    echo "start it by: systemctl daemon-reload && systemctl enable --now adsd"
fi
