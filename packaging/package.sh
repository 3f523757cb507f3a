#!/bin/sh
# Makes the packages of the built program in a folder, with their checksums:
#     packaging/package.sh PROGRAM FOLDER
# vplace_VERSION_amd64.deb has what packaging/install.sh installs, in /usr, and vplace-VERSION-x86_64.tar.xz has the same tree; VERSION is what
# `vplace --version` prints. Two calls for one commit give the same bytes: each file has the time of the commit, or SOURCE_DATE_EPOCH if that
# is set.
set -u
umask 022
LC_ALL=C
export LC_ALL
cd "$(dirname -- "$0")/.." || exit 2

fail() {
    echo "package.sh: $*" >&2
    exit 1
}

program=${1-} folder=${2-}
[ -n "$folder" ] || fail 'what it takes: PROGRAM FOLDER'
[ -x "$program" ] || fail "$program is not built: make program builds it"
for tool in dpkg-deb xz tar sha256sum; do
    command -v "$tool" > /dev/null || fail "$tool is missing here"
done
version=$("$program" --version) && version=${version#vplace } || fail 'the program does not print its version'
SOURCE_DATE_EPOCH=${SOURCE_DATE_EPOCH:-$(git log -1 --format=%ct)} || fail 'the time of the commit is not known: set SOURCE_DATE_EPOCH'
export SOURCE_DATE_EPOCH

made=$(mktemp -d) || exit 1
trap 'rm -rf "$made"' EXIT
trap 'exit 1' HUP INT TERM
name=vplace-$version
tree=$made/$name
packaging/install.sh "$program" "$tree" > /dev/null || exit
install -D -m 644 packaging/copyright "$tree/share/doc/vplace/copyright" || exit
for page in README.md CHANGELOG.md; do install -m 644 "$page" "$tree/share/doc/vplace/$page" || exit; done

# The newest version of the C library that the program names.
library=$(grep -ao 'GLIBC_2\.[0-9]*' "$program" | sort -Vu | tail -n 1)
root=$made/root
mkdir -p "$root/DEBIAN" && cp -R "$tree" "$root/usr" || exit
cat > "$root/DEBIAN/control" <<CONTROL || exit
Package: vplace
Version: $version
Architecture: amd64
Maintainer: the vplace project
Depends: libc6${library:+ (>= ${library#GLIBC_})}
Suggests: python3, gawk, yosys
Section: electronics
Priority: optional
Installed-Size: $(du -k --apparent-size -s "$tree" | cut -f 1)
Description: annealing placer for FPGAs, with a proof
 vplace reads an architecture and a netlist in the file forms of VPR 4.30, and
 anneals the blocks by bounding-box wire cost. It is proved that threads change
 the time of a run and never its result.
CONTROL
(cd "$root" && find usr -type f | sort | xargs md5sum) > "$root/DEBIAN/md5sums" || exit
mkdir -p "$folder" || exit
deb=vplace_${version}_amd64.deb archive=$name-x86_64.tar.xz
dpkg-deb --root-owner-group -Zxz --build "$root" "$folder/$deb" > /dev/null || exit
tar --sort=name --format=gnu --owner=0 --group=0 --numeric-owner --mtime="@$SOURCE_DATE_EPOCH" -C "$made" -cf "$made/$name.tar" "$name" &&
    xz -9 -T 1 -c "$made/$name.tar" > "$folder/$archive" || exit
cd "$folder" && sha256sum "$deb" "$archive" > SHA256SUMS && cat SHA256SUMS
