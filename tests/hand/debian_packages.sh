#!/usr/bin/env bash
# debian_packages.sh FOLDER [PACKAGES]: tests the Debian packages in a clean Debian system. It makes the system in
# FOLDER with debootstrap, with a C compiler, pkg-config and Python, if it isn't there. PACKAGES is a folder with the
# five packages. If none is named, ./release --deb makes them of this tree.
#
# In that system it installs the Python package without the development files, and then all packages. It runs the
# examples of both manual pages and the examples in C and Python, upgrades to packages of a later version, and removes
# all. Then the system has the files that it had before, and no others. Run by hand, as root: it takes a few minutes.
# The status is 0 if nothing failed.
set -u
folder=${1:?usage: debian_packages.sh FOLDER [PACKAGES]}
top=$(cd "$(dirname "$0")/../.." && pwd) || exit 1
version=$(cat "$top/VERSION")
later=$version+later
work=$(mktemp -d) || exit 1

. "$top/tests/lib/expect.sh"
stop() { echo "debian_packages.sh: $1" >&2; exit 1; }

[ -e "$folder/usr" ] ||
    debootstrap --variant=minbase --include=gcc,libc6-dev,pkg-config,python3 bookworm "$folder" >"$folder.log" 2>&1 ||
    stop "debootstrap failed: see $folder.log"
folder=$(readlink -f "$folder")
mounted=
unmount() {
    rm -rf "$work"
    [ -z "$mounted" ] || umount -l "$folder/proc" "$folder/dev" 2>/dev/null
}
trap unmount EXIT
mounted=1
mount -t proc proc "$folder/proc" && mount --bind /dev "$folder/dev" || stop "nothing can be mounted in $folder"

# in_root COMMAND: runs a command of the shell in the system, in /tmp/work
in_root() {
    chroot "$folder" /usr/bin/env -i HOME=/root PATH=/usr/sbin:/usr/bin:/sbin:/bin DEBIAN_FRONTEND=noninteractive \
        sh -c "cd /tmp/work && $1" </dev/null
}
# quietly WHAT COMMAND: runs it, and shows what it prints only if it fails
quietly() { in_root "$2" >"$work/log" 2>&1 || { cat "$work/log"; fail "$1"; return 1; }; }

# Prints the names of all files of the system, except those of the kernel, logs, caches and temporary files. dpkg keeps
# a copy of its own lists.
files() {
    (cd "$folder" && find . \( -path ./proc -o -path ./dev -o -path ./sys -o -path ./tmp -o -path ./var/log -o \
        -path ./var/cache -o -path ./var/lib/apt \) -prune -o -print | grep -vE '^\./var/lib/dpkg/[^/]*-old$' | sort)
}

# later_package FILE: makes the same package of a later version, whose library is another file
later_package() {
    local tree=$work/tree file
    rm -rf "$tree" && dpkg-deb -R "$1" "$tree" &&
        sed -i "s/^Version: .*/Version: $later/; s/(= $version)/(= $later)/" "$tree/DEBIAN/control" || return
    for file in "$tree"/usr/lib/*/libpigyelund.so.1."$version"; do
        [ -e "$file" ] || continue
        mv "$file" "${file%"$version"}$later" && ln -sf "libpigyelund.so.1.$later" "${file%".$version"}" || return
    done
    (cd "$tree" && find usr -type f | sort | xargs -d '\n' md5sum >DEBIAN/md5sums) &&
        dpkg-deb --root-owner-group --build "$tree" "$folder/tmp/work/later" >/dev/null
}

# programs: each example of the installed manual pages prints what the page shows
programs() {
    local program
    for program in respath origins; do
        gzip -d <"$folder/usr/share/man/man1/$program.1.gz" >"$work/page" || { fail "the page of $program"; continue; }
        grep -q "^\\\$ .*$program" "$work/page" || fail "the page of $program has no example"
        examples "the examples of $program" "$work/page" in_root
    done
}

# example FILE: the compiled example prints what it should
example() {
    in_root "./$1" >"$work/said" 2>&1
    diff "$top/foreign/c/example.txt" "$work/said" || fail "the example in C: $1"
}

# python: the package answers, and the installed version is VERSION
python() {
    local wanted="AS1 $version"
    said=$(in_root "python3 -c 'import pigyelund, importlib.metadata as m
print(pigyelund.answer(\"norm as 1\"), m.version(\"pigyelund\"))'" 2>&1)
    [ "$said" = "$wanted" ] || fail "$1: $said"
}

packages=${2-}
if [ -z "$packages" ]; then
    packages=$work/packages
    "$top/release" --deb "$version" "$packages" >"$work/log" 2>&1 || { cat "$work/log"; stop "no packages"; }
fi
set -- "$packages"/*pigyelund*_"$version"_*.deb
[ $# -eq 5 ] || stop "$packages doesn't have five packages of version $version"
names=$(for file; do dpkg-deb -f "$file" Package; done | tr '\n' ' ')
rm -rf "$folder/tmp/work"
mkdir -p "$folder/tmp/work/later"
in_root "dpkg --purge $names" >/dev/null 2>&1
files >"$work/before"
cp "$@" "$top/foreign/c/example.c" "$folder/tmp/work" || exit 1
for file; do later_package "$file" || stop "no later version of $file"; done

apt="apt-get -q -y -o Dpkg::Use-Pty=0 --no-install-recommends install"
quietly "the Python package is installed" "$apt /tmp/work/libpigyelund1_*.deb /tmp/work/python3-pigyelund_*.deb" &&
    python "the Python package without the development files"
quietly "all packages are installed" "$apt /tmp/work/*.deb"
[ "$(in_root "dpkg-query -W -f '\${db:Status-Abbrev}\${Version}\n' $names" | sort -u)" = "ii $version" ] ||
    fail "all packages have version $version"
quietly "files have their sums" "dpkg --verify $names && test -z \"\$(dpkg --verify $names)\""
programs
[ "$(in_root "pkg-config --modversion pigyelund")" = "$version" ] || fail "the version of pkg-config"
quietly "the example is compiled" \
    'cc -Wall -Wextra -Werror example.c $(pkg-config --cflags --libs pigyelund) -o shared' && example shared
quietly "the example is compiled with the static library" \
    'cc example.c $(pkg-config --cflags pigyelund) -l:libpigyelund.a -o static' && example static
quietly "an example runs by its script" \
    'doc=/usr/share/doc/libpigyelund-dev/examples && sh $doc/run.sh set /usr | diff $doc/set.txt -'
quietly "the RTR client is compiled" "$apt librtr-dev &&
    cc /usr/share/doc/libpigyelund-dev/examples/client.c \$(pkg-config --cflags --libs pigyelund rtrlib) -lpthread -o client"
in_root "ldconfig -p" | grep -q 'libpigyelund\.so\.1 ' || fail "the cache of the loader has the library"
in_root "objdump -p shared" | grep -q 'NEEDED *libpigyelund\.so\.1$' || fail "the example needs the soname"
in_root "objdump -p static" | grep -q 'NEEDED *libpigyelund' && fail "the static example needs the shared library"
python "the Python package"
quietly "the vectors are read" "test -s /usr/share/pigyelund/vectors/der_as.json"

quietly "all packages are upgraded" "$apt /tmp/work/later/*.deb"
[ "$(in_root "dpkg-query -W -f '\${db:Status-Abbrev}\${Version}\n' $names" | sort -u)" = "ii $later" ] ||
    fail "all packages have version $later"
find "$folder/usr" -name "libpigyelund.so.1.$version" | grep . && fail "the upgrade leaves the earlier library"
example shared
python "the upgraded Python package"
programs

quietly "libpigyelund1 is removed, and what requires it" "apt-get -q -y purge libpigyelund1"
in_root ./shared >/dev/null 2>&1 && fail "the example runs without its library"
in_root ./static >/dev/null 2>&1 || fail "the static example doesn't run without the shared library"
quietly "the other packages are removed" "apt-get -q -y purge pigyelund pigyelund-vectors"
in_root "dpkg-query -W '*pigyelund*'" 2>/dev/null | grep . && fail "a package is left"
files >"$work/after"
diff "$work/before" "$work/after" || fail "something is left"
in_root "ldconfig -p" | grep pigyelund && fail "the cache of the loader has a library that isn't there"
rm -rf "$folder/tmp/work"
[ "$failed" -ne 0 ] || echo "ok      $names in $folder"
exit "$failed"
