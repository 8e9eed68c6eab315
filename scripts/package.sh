#!/usr/bin/env bash
# Makes the packages of a program: btest_VERSION_ARCH.deb and a tar.gz of the same files, with their checksums, in the folder out/.
# Usage: package.sh PROGRAM
set -eu
export LC_ALL=C
program=$(realpath "$1")
cd "$(dirname "$0")/.."

need() {
    local tool
    for tool in "$@"; do
        command -v "$tool" >/dev/null && continue
        echo "make package needs $tool: on Debian, apt-get install dpkg binutils gzip xz-utils" >&2
        exit 1
    done
}

# The processor that the program is for, as Debian names it.
architecture() {
    case $(readelf -h "$program") in
        *X86-64*) echo amd64 ;;
        *AArch64*) echo arm64 ;;
        *)
            echo "$program: no program for a processor that this script knows" >&2
            return 1
            ;;
    esac
}

# What the program needs of a Debian system: the C library, from the version on whose functions it calls, and whatever else it is linked
# with; nothing where it is static.
dependencies() {
    local library least
    least=$(readelf -V "$program" | grep -o 'GLIBC_[0-9.]*' | sed 's/GLIBC_//' | sort -uV | tail -n 1)
    for library in $(readelf -d "$program" | sed -n 's/.*(NEEDED).*\[\(.*\)\]/\1/p'); do
        case $library in
            libc.so.6 | libm.so.6 | libpthread.so.0 | libdl.so.2 | ld-linux*) echo "libc6 (>= ${least:?})" ;;
            libgcc_s.so.1) echo libgcc-s1 ;;
            *)
                echo "$program needs $library, of which this script doesn't know the package" >&2
                return 1
                ;;
        esac
    done
}

# Who answers for the package, as Debian writes it: DEBEMAIL and DEBFULLNAME say who, else it is the author of the last commit.
maintainer() {
    local name
    if [ -n "${DEBEMAIL:-}" ]; then
        name="${DEBFULLNAME:-the authors of btest} <$DEBEMAIL>"
    else
        name=$(git log -1 --format='%an <%ae>' 2>/dev/null || true)
    fi
    if [ -z "$name" ]; then
        echo 'make package needs a maintainer: set DEBEMAIL, and DEBFULLNAME for the name' >&2
        return 1
    fi
    echo "$name"
}

# What Debian wants to read of a package: its license, and what changed, which the version alone says.
papers() {
    local folder=$1
    install -D -m 644 scripts/package/copyright "$folder/copyright"
    {
        printf 'btest (%s) unstable; urgency=medium\n\n  * Version %s. The commits of its sources say what changed.\n\n' "$version" "$version"
        printf ' -- %s  %s\n' "$maintainer" "$(date -u -R -d "@$SOURCE_DATE_EPOCH")"
    } | gzip -9n >"$folder/changelog.gz"
    chmod 644 "$folder/changelog.gz"
}

# The files of the package's description, in the folder DEBIAN of the tree.
describe() {
    local tree=$1
    mkdir "$tree/DEBIAN"
    cat >"$tree/DEBIAN/control" <<TEXT
Package: btest
Version: $version
Architecture: $arch
Maintainer: $maintainer
Section: electronics
Priority: optional
Installed-Size: $(du -ks --apparent-size "$tree/usr" | cut -f1)
${depends:+Depends: $depends
}Suggests: python3 (>= 3.9), openocd (>= 0.12), bash-completion
Description: interconnect tests for boards with boundary scan
 btest compiles an interconnect test for a board whose devices have IEEE 1149.1
 boundary scan: from the BSDL files of the devices, the order of the scan chain
 and the netlist it writes a test in the Serial Vector Format (SVF). From what
 a failing board answered it tells which faults explain the failure.
 .
 The programs in /usr/share/btest/tools need Python 3.9 or OpenOCD 0.12; btest
 itself needs neither.
TEXT
    (cd "$tree" && find usr -type f -print0 | sort -z | xargs -0 md5sum) >"$tree/DEBIAN/md5sums"
}

need readelf strip dpkg-deb gzip xz
version=$(<VERSION)
maintainer=$(maintainer)
arch=$(architecture)
depends=$(dependencies)
depends=$(sort -u <<<"$depends" | paste -sd, | sed 's/,/, /g')
work=$(mktemp -d)
trap 'rm -rf "$work"' EXIT
# The time of the sources, so that the same sources and program make the same packages.
SOURCE_DATE_EPOCH=${SOURCE_DATE_EPOCH:-$(git log -1 --format=%ct 2>/dev/null || stat -c %Y VERSION)}
export SOURCE_DATE_EPOCH

umask 022
mkdir -p out
# Without the names of its functions, which only a debugger needs. Not a byte of its code changes.
strip -o "$work/program" "$program"
bash scripts/install.sh "$work/program" "$work/btest/usr"
papers "$work/btest/usr/share/doc/btest"
echo "btest $version for $arch needs ${depends:-nothing}; the programs in tools need Python 3.9 or OpenOCD 0.12." >"$work/btest/usr/share/btest/NEEDS"
describe "$work/btest"
find "$work/btest" -exec touch -h -d "@$SOURCE_DATE_EPOCH" {} +
name=btest_${version}_$arch
dpkg-deb --root-owner-group -Zxz --build "$work/btest" "out/$name.deb" >/dev/null
tar -C "$work/btest" --sort=name --owner=0 --group=0 --numeric-owner --transform="s,^usr,btest-$version," -cf - usr | gzip -9n >"out/$name.tar.gz"
(cd out && sha256sum "$name.deb" "$name.tar.gz" >"$name.sha256")
cat "$work/btest/usr/share/btest/NEEDS"
stat -c 'made: %n, %s bytes' "out/$name.deb" "out/$name.tar.gz" "out/$name.sha256"
