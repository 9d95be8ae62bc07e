#!/usr/bin/env bash
# Makes the Debian packages s3gate and swiftd of the two built programs, which it strips of symbols.
#
#   packaging/deb.sh [S3GATE SWIFTD [OUT]]
#
# The programs are crates/s3gate/out/s3gate and crates/swiftd/out/swiftd unless given, and the packages come to OUT, or else to
# packaging/out. The version is that of crates/s3gate/src/version.rt; DEBEMAIL is the maintainer's address and DEBFULLNAME the name, as Debian's
# own tools have them. It needs dpkg-deb and binutils, and no root. The same programs and texts make the same packages.
set -euo pipefail
fail() { echo "deb.sh: $*" >&2; exit 1; }
[ $# -le 3 ] && [ $# -ne 1 ] || fail "usage: deb.sh [S3GATE SWIFTD [OUT]]"
here="$(cd "$(dirname "$0")/.." && pwd)"
s3gate="$(realpath -m "${1:-$here/crates/s3gate/out/s3gate}")"
swiftd="$(realpath -m "${2:-$here/crates/swiftd/out/swiftd}")"
out="$(realpath -m "${3:-$here/packaging/out}")"
for program in "$s3gate" "$swiftd"; do [ -r "$program" ] || fail "$program isn't there: build it, or name another"; done
cd "$here"
packaging/man.py --check
version="$(sed -n 's/.*VERSION: &\[u8\] = b"\(.*\)";/\1/p' crates/s3gate/src/version.rt)"
day="$(sed -n "s/^## $version, //p" CHANGES.md)"
epoch="$(date -u -d "$day" +%s)"
maintainer="${DEBFULLNAME:-s3gate maintainers} <${DEBEMAIL:-s3gate@example.org}>"
room="$(mktemp -d)"
trap 'rm -rf "$room"' EXIT
umask 022
mkdir -p "$out"

# What dpkg-shlibdeps would find: the newest symbol of glibc that the program names says how old a glibc may be.
libraries() {
    local newest
    newest="$(readelf --version-info "$1" | grep -o 'GLIBC_2\.[0-9]*' | sort -Vu | tail -n 1)"
    [ -z "$newest" ] || printf 'libc6 (>= %s), ' "${newest#GLIBC_}"
    if readelf --dynamic "$1" | grep -q 'NEEDED.*libgcc_s\.so\.1'; then printf 'libgcc-s1, '; fi
}

# CHANGES.md in Debian's form: an entry for each heading, with the lines below it, each of which is one point.
changelog() {
    awk -v name="$1" -v by="$maintainer" '
        function close_entry() { if (day != "") { command = "date -u -R -d " day; command | getline when; close(command); printf "\n -- %s  %s\n\n", by, when } }
        /^## / { close_entry(); split(substr($0, 4), head, ", "); day = head[2]; printf "%s (%s) unstable; urgency=medium\n\n", name, head[1]; next }
        day == "" || /^$/ { next }
        {
            gsub(/[`*]/, ""); sub(/^- /, "")
            count = split($0, words, " ")
            line = "  *"
            for (at = 1; at <= count; at++) {
                if (length(line) + length(words[at]) > 77) { print line; line = "   " }
                line = line " " words[at]
            }
            print line
        }
        END { close_entry() }' CHANGES.md
}

# A unit with the limits of the example that has the service's name, from their comment to the empty line behind them.
unit() {
    local limits
    limits="$(sed -n '/^# Limits/,/^$/p' "examples/$1.service")"
    [ -n "$limits" ] || fail "examples/$1.service has no lines of limits"
    awk -v limits="$limits" '/^@LIMITS@$/ { print limits; print ""; next } { print }' "$2"
}

# Pages for readers, which lie to each other as they do here. A link to what the package doesn't have is left as its words.
pages() {
    python3 - "$@" <<'PYTHON'
import os, re, sys
root, *names = sys.argv[1:]
for name in names:
    def kept(link):
        place, _, anchor = link[2].partition("#")
        near = os.path.normpath(os.path.join(os.path.dirname(name), place)) if place else name
        return link[0] if "://" in link[2] or near in names else link[1]
    with open(name, encoding="utf-8") as file:
        text = re.sub(r"\[([^][]*)\]\(([^()]*)\)", kept, file.read())
    os.makedirs(os.path.dirname(f"{root}/{name}"), exist_ok=True)
    with open(f"{root}/{name}", "w", encoding="utf-8") as file:
        file.write(text)
PYTHON
}

# make NAME PROGRAM ABOUT OWN MADE: a package. OWN are the operator's files, which its postinst makes, and MADE what else its units read
# or write there; a purge removes both.
make() {
    local name="$1" program="$2" about="$3" own="$4" made="$5" root="$room/$1" doc="$room/$1/usr/share/doc/$1" file units=() timers=()
    mkdir -p "$root/DEBIAN" "$root/usr/bin" "$root/usr/share/$name" "$root/etc/$name" "$root/usr/lib/systemd/system" "$root/usr/share/man/man1" "$doc"
    strip --strip-unneeded -o "$root/usr/bin/$name" "$program" || fail "$program is no program"
    for file in "packaging/$name"/*.service "packaging/$name"/*.timer; do
        [ -e "$file" ] || continue
        units+=("$(basename "$file")")
        [[ "$file" != *.timer ]] || timers+=("$(basename "$file")")
        unit "$name" "$file" >"$root/usr/lib/systemd/system/$(basename "$file")"
    done
    cp "packaging/$name/defaults" "packaging/$name/environment" "$root/usr/share/$name/"
    gzip -9n <"packaging/$name/$name.1" >"$root/usr/share/man/man1/$name.1.gz"
    changelog "$name" | gzip -9n >"$doc/changelog.gz"
    cp packaging/copyright "$doc/copyright"
    if [ "$name" = s3gate ]; then
        pages "$doc" README.md CHANGES.md docs/{OPERATING,PROFILE,PROOFS,OPEN}.md
        mkdir -p "$doc/examples" "$root/usr/lib/s3gate"
        cp -r examples/{clients,nginx.conf,store-nginx.conf,tenants-nginx.conf,registry.yml,metrics.awk,alarms.yml,kubernetes.yml} "$doc/examples/"
        cp examples/{keystone-token.sh,health.sh} "$root/usr/lib/s3gate/"
    fi
    for file in preinst postinst prerm postrm; do
        sed -e "s|@NAME@|$name|g; s|@ABOUT@|$about|g; s|@OWN@|$own|g; s|@MADE@|$made|g; s|@UNITS@|${units[*]}|g; s|@TIMERS@|${timers[*]}|g" \
            "packaging/$file" >"$root/DEBIAN/$file"
    done
    find "$root" -type d -exec chmod 755 {} +
    find "$root" -type f -exec chmod 644 {} +
    chmod 755 "$root/usr/bin/$name" "$root"/DEBIAN/p*
    [ "$name" != s3gate ] || chmod 755 "$root"/usr/lib/s3gate/*.sh "$doc"/examples/clients/{*.sh,presigned.py}
    (cd "$root" && find . -path ./DEBIAN -prune -o -type f -printf '%P\0' | sort -z | xargs -0 md5sum) >"$root/DEBIAN/md5sums"
    {
        echo "Package: $name"
        echo "Version: $version"
        echo "Architecture: $(dpkg --print-architecture)"
        echo "Maintainer: $maintainer"
        echo "Installed-Size: $(du -sk --exclude=DEBIAN "$root" | cut -f 1)"
        echo "Depends: $(libraries "$program")adduser"
        echo "Section: net"
        echo "Priority: optional"
        cat "packaging/$name/description"
    } >"$root/DEBIAN/control"
    find "$root" -exec touch --no-dereference -d "@$epoch" {} +
    SOURCE_DATE_EPOCH="$epoch" dpkg-deb --root-owner-group -Zxz --build "$root" "$out/${name}_${version}_$(dpkg --print-architecture).deb"
}

make s3gate "$s3gate" "S3 gateway to OpenStack Swift" "/etc/s3gate/environment /etc/s3gate/keys" "/etc/s3gate/token.conf /etc/s3gate/keystone"
make swiftd "$swiftd" "small Swift store" "/etc/swiftd/environment" ""
