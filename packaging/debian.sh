# shellcheck shell=sh
# The script release reads this file for --deb. It makes the Debian packages without debhelper, from the files that
# release has proved:
#
#   pigyelund           the programs, their man pages, and the prover's verdicts on them and on the library
#   libpigyelund1       the shared library, by the number of its ABI
#   libpigyelund-dev    the header, the static library, the link for the linker, pigyelund.pc, a manual page of each call,
#                       the examples, the guide and what its links lead to
#   python3-pigyelund   the Python package, its guide, and what the links of the guide lead to
#   pigyelund-vectors   the conformance vectors
#
# It also makes a wheel of the Python package with the library inside. If release has proved the library for ARM64, the
# folder arm64 has libpigyelund1, libpigyelund-dev and a wheel for it.
#
# MAINTAINER in the environment is the maintainer of the packages, as `Name <address>`. If it is not set, the author of
# the commit is. The same commit and the same MAINTAINER make the same packages.
# shellcheck disable=SC2154 # release sets version, folder, work, date, library, arm64 and top
packaging=$top/packaging
symbols=$packaging/libpigyelund1.symbols
soname=$(sed -n '1s/ .*//p' "$symbols")
# The first version of the library that has all calls.
newest=$(sed -n 's/^ .* //p' "$symbols" | sort -V | tail -n 1)

# is_elf FILE: whether the file is a program or a library that objdump reads.
is_elf() { objdump -p "$1" >/dev/null 2>&1; }

# Prints the packages that ELF files require, with versions, from the tables of dpkg.
by_dpkg() {
    mkdir -p "$work/depends/debian"
    printf 'Source: pigyelund\n\nPackage: pigyelund\nArchitecture: any\n' >"$work/depends/debian/control"
    (cd "$work/depends" && dpkg-shlibdeps -O -xlibpigyelund1 "$@") >"$work/shlibs" 2>"$work/log" ||
        { cat "$work/log" >&2; stop "dpkg-shlibdeps fails"; }
    sed -n 's/^shlibs:Depends=//p' "$work/shlibs"
}

# greatest NODE: prints the greatest version of the symbols of that name among the lines of the standard input.
greatest() { sed -n "s/.*(\{0,1\}$1_\([0-9.]*\)).*/\1/p" | sort -uV | tail -n 1; }

# Prints the same from the versions of the symbols that the files use: the C library, and the library of gcc.
by_objdump() {
    for file; do objdump -T "$file" | grep -F '*UND*'; done >"$work/used" || :
    for file; do objdump -p "$file" | sed -n 's/^  NEEDED *//p'; done | sort -u >"$work/needed"
    known='^(libc|libm|libdl|libpthread|librt|ld-linux[-a-z0-9]*|libgcc_s)\.so\.[0-9]+$'
    unknown=$(grep -vE "$known" "$work/needed") || :
    [ -z "$unknown" ] || stop "the package of a library isn't known: $unknown"
    needs=
    if grep -q '^libc\.' "$work/needed"; then needs="libc6 (>= $(greatest GLIBC <"$work/used"))"; fi
    if grep -q '^libgcc_s\.' "$work/needed"; then needs="$needs, libgcc-s1 (>= $(greatest GCC <"$work/used"))"; fi
    printf '%s\n' "$needs"
}

# depends_of FILE ..: prints the packages that the ELF files among these require.
depends_of() {
    for file; do
        shift
        ! is_elf "$file" || set -- "$@" "$file"
    done
    if [ $# -eq 0 ]; then return; fi
    if [ -z "$cross" ] && command -v dpkg-shlibdeps >/dev/null; then by_dpkg "$@"; else by_objdump "$@"; fi
}

# Prints the symbols that a library exports, in the form of a symbols file and without the versions of packages.
symbols_of() {
    objdump -T "$1" | awk '$2 == "g" && !/\*UND\*/ { version = $(NF - 1); gsub(/[()]/, "", version)
        print " " $NF "@" version }' | sort
}

# Stops unless the library has exactly the symbols of the symbols file. A symbol that is missing breaks programs that
# use it; a new one needs its line, with the version in which it is new.
require_symbols() {
    [ "$(objdump -p "$1" | sed -n 's/^  SONAME *//p')" = "$soname" ] || stop "the shared library isn't $soname"
    sed -n 's/^\( .*\) .*/\1/p' "$symbols" | sort >"$work/listed"
    symbols_of "$1" >"$work/exported"
    diff "$work/listed" "$work/exported" >&2 || stop "$soname has other symbols than ${symbols#"$top/"}"
}

# tree_of NAME: prints the folder of a package's files, and makes it.
tree_of() {
    mkdir -p "$work/deb/$1/DEBIAN" "$work/deb/$1/usr/share/doc/$1"
    echo "$work/deb/$1"
}

# build_package NAME ARCHITECTURE SECTION FIELD ..: makes a package of the files in its tree. The standard input has its
# description, and each FIELD that isn't empty is a line of the control file.
build_package() {
    name=$1 built_for=$2 section=$3
    shift 3
    tree=$(tree_of "$name")
    doc=$tree/usr/share/doc/$name
    "$packaging/texts.py" copyright >"$doc/copyright"
    "$packaging/texts.py" changelog "$maintainer" "${date#@}" | gzip -9n >"$doc/changelog.gz"
    if [ -e "$packaging/overrides/$name" ]; then
        install -d "$tree/usr/share/lintian/overrides"
        install -m 644 "$packaging/overrides/$name" "$tree/usr/share/lintian/overrides"
    fi
    chmod 644 "$doc/copyright" "$doc/changelog.gz"
    find "$tree" -type d -exec chmod 00755 {} +
    # The installed size counts each file in KiB, rounded up, and each folder or link as one.
    size=$(find "$tree/usr" -type f -printf '%s\n' -o -printf '1\n' |
        awk '{ all += int(($1 + 1023) / 1024) } END { print all }')
    {
        printf '%s\n' "Package: $name" "Source: pigyelund" "Version: $version" "Architecture: $built_for" \
            "Maintainer: $maintainer" "Section: $section" "Priority: optional" "Installed-Size: $size"
        for field; do case $field in *": ") ;; *) printf '%s\n' "$field" ;; esac; done
        cat
    } | sed "/^Source: $name\$/d" >"$tree/DEBIAN/control"
    (cd "$tree" && find usr -type f | sort | xargs -d '\n' md5sum >DEBIAN/md5sums)
    chmod 644 "$tree/DEBIAN/control" "$tree/DEBIAN/md5sums"
    made=$work/${name}_${version}_$built_for.deb
    SOURCE_DATE_EPOCH=${date#@} dpkg-deb --root-owner-group -Zxz --build "$tree" "$made" >/dev/null
    dpkg-deb -x "$made" "$work/again/$name" && diff -r --no-dereference "$tree/usr" "$work/again/$name/usr" >&2 ||
        stop "the package doesn't have the files whose sums were noted"
    mv "$made" "$target_folder"
    echo "$target_folder/${made##*/}"
}

# stage_library LIBRARY [VARIABLE=VALUE ..]: installs the libraries for C in the folders of the architecture. Stops if
# their symbols are others.
stage_library() {
    of_target=$1
    shift
    make -s -C foreign/c install OUT="$stage/made" DESTDIR="$stage" PREFIX=/usr LIBDIR="/usr/lib/$triplet" \
        INCLUDEDIR=/usr/include DOCDIR=/usr/share/doc/pigyelund LIB="$of_target" KIT="$KIT" "$@" >&2
    same_sum "$of_target"
    require_symbols "$stage/usr/lib/$triplet/$soname"
    grep -qx "Version: $version" "$stage/usr/lib/$triplet/pkgconfig/pigyelund.pc" || stop "pigyelund.pc has no version"
}

# The library without the names of its private functions, which no program needs.
library_package() {
    tree=$(tree_of libpigyelund1)
    lib=$tree/usr/lib/$triplet
    install -d "$lib"
    cp -P "$stage/usr/lib/$triplet/$soname"* "$lib"
    file=$(readlink -f "$lib/$soname")
    "${cross}strip" --strip-unneeded --remove-section=.comment --remove-section=.note "$file"
    require_symbols "$file"
    install -m 644 "$symbols" "$tree/DEBIAN/symbols"
    stem=${soname%%.so.*}
    printf '%s %s libpigyelund1 (>= %s)\n' "$stem" "${soname##*.so.}" "$newest" >"$tree/DEBIAN/shlibs"
    echo 'activate-noawait ldconfig' >"$tree/DEBIAN/triggers"
    chmod 644 "$tree/DEBIAN/shlibs" "$tree/DEBIAN/triggers"
    depends=$(depends_of "$file")
    build_package libpigyelund1 "$architecture" libs "Multi-Arch: same" "Depends: $depends" <<END_OF_TEXT
Description: RPKI resource sets and route origin validation (C library)
 Calls on the resources of RPKI certificates (RFC 3779) and on routes: canonical
 sets and their DER, comparison of resources along certification paths (RFC
 6487, RFC 8360), shortest lists of prefixes, tables of VRPs, and route origin
 validation (RFC 6811). No call checks signatures. The code that computes the
 answers is formally verified.
 .
 This package has the shared library$limit.
END_OF_TEXT
}

# put_guide FOLDER: installs the guide for C, and what its links lead to. The folder has the examples already.
put_guide() {
    put_pages "$1" README.md docs/C.md docs/ERRORS.md docs/PROVED.md docs/RECIPES.md docs/SPEED.md foreign/rtr/README.md \
        packaging/README.md
    install -d "$1/foreign/c"
    ln -s ../../../../include/pigyelund.h "$1/foreign/pigyelund.h"
    ln -s ../../examples "$1/foreign/c/examples"
    ln -s ../../examples/example.c "$1/foreign/c/example.c"
    ln -s ../../examples/client.c "$1/foreign/rtr/client.c"
}

development_package() {
    tree=$(tree_of libpigyelund-dev)
    doc=$tree/usr/share/doc/libpigyelund-dev
    install -d "$tree/usr/include" "$tree/usr/lib/$triplet/pkgconfig" "$doc/examples"
    install -m 644 "$stage/usr/include/pigyelund.h" "$tree/usr/include"
    install -m 644 "$stage/usr/lib/$triplet/libpigyelund.a" "$tree/usr/lib/$triplet"
    # By this prefix pkg-config knows that the compiler searches the folders anyway, and finds them below a sysroot.
    sed 's|^prefix=.*|prefix=/usr|' "$stage/usr/lib/$triplet/pkgconfig/pigyelund.pc" >"$work/pigyelund.pc"
    install -m 644 "$work/pigyelund.pc" "$tree/usr/lib/$triplet/pkgconfig"
    ln -s "$soname" "$tree/usr/lib/$triplet/libpigyelund.so"
    install -m 644 foreign/c/example.c foreign/c/examples/* foreign/rtr/client.c "$doc/examples"
    install -d "$tree/usr/share/man/man3"
    "$packaging/man.py" "$tree/usr/share/man/man3" "$(git log -1 --format=%cs)"
    gzip -9n "$tree/usr/share/man/man3/"*
    put_guide "$doc"
    build_package libpigyelund-dev "$architecture" libdevel "Multi-Arch: same" \
        "Depends: libpigyelund1 (= $version)" <<END_OF_TEXT
Description: RPKI resource sets and route origin validation (development files)
 Calls on the resources of RPKI certificates (RFC 3779) and on routes: canonical
 sets and their DER, comparison of resources along certification paths (RFC
 6487, RFC 8360), shortest lists of prefixes, tables of VRPs, and route origin
 validation (RFC 6811). No call checks signatures. The code that computes the
 answers is formally verified.
 .
 This package has the header, the static library, the file that pkg-config
 reads, manual pages of the calls, a guide, and examples in C.
END_OF_TEXT
}

# Makes a wheel with the library, for a Python that has no package of Debian.
wheel() {
    for python in python3 /usr/bin/python3 none; do
        ! "$python" -c 'import setuptools, wheel' 2>/dev/null || break
    done
    if [ "$python" = none ]; then
        echo "release: left out: a wheel needs python3-setuptools and python3-wheel" >&2
        return
    fi
    rm -rf "$work/wheel"
    mkdir "$work/wheel"
    git archive HEAD foreign/python | tar -xf - -C "$work/wheel" --strip-components=2
    cp "$stage/usr/lib/$triplet/$soname" "$work/wheel/src/pigyelund/libpigyelund.so"
    (cd "$work/wheel" && SOURCE_DATE_EPOCH=${date#@} "$python" -W ignore -c \
        'import sys; from setuptools import build_meta; print(build_meta.build_wheel(sys.argv[1]))' "$target_folder") \
        >"$work/log" 2>&1 || { cat "$work/log" >&2; stop "setuptools makes no wheel"; }
    echo "$target_folder/$(tail -n 1 "$work/log")"
}

# The package has no library of its own: it loads the one of libpigyelund1 by its soname. The scripts compile the modules,
# and remove what was compiled, as those of other Python packages do.
python_package() {
    tree=$(tree_of python3-pigyelund)
    modules=$tree/usr/lib/python3/dist-packages
    least=$(sed -n 's/^requires-python = ">=\(.*\)"$/\1/p' foreign/python/pyproject.toml)
    summary=$(sed -n 's/^description = "\(.*\)"$/\1/p' foreign/python/pyproject.toml)
    mkdir "$work/python"
    git archive HEAD foreign/python/src | tar -xf - -C "$work/python" --strip-components=3
    # What pip and importlib.metadata read. The setuptools of Debian 12 would need the package python3-wheel.
    info=$modules/pigyelund-$version.dist-info
    install -d "$info" "$modules/pigyelund"
    install -m 644 "$work"/python/pigyelund/* "$modules/pigyelund"
    printf 'Metadata-Version: 2.1\nName: pigyelund\nVersion: %s\nSummary: %s\nRequires-Python: >=%s\n' \
        "$version" "$summary" "$least" >"$info/METADATA"
    echo dpkg >"$info/INSTALLER"
    grep -q "\"$soname\"" "$modules/pigyelund/_library.py" || stop "the Python package doesn't load $soname"
    find "$modules" -type f -exec chmod 00644 {} +
    cat >"$tree/DEBIAN/postinst" <<'END_OF_TEXT'
#!/bin/sh
set -e
if [ "$1" = configure ] && command -v py3compile >/dev/null 2>&1; then
    py3compile -p python3-pigyelund
fi
END_OF_TEXT
    cat >"$tree/DEBIAN/prerm" <<'END_OF_TEXT'
#!/bin/sh
set -e
if command -v py3clean >/dev/null 2>&1; then
    py3clean -p python3-pigyelund
else
    rm -rf /usr/lib/python3/dist-packages/pigyelund/__pycache__
fi
END_OF_TEXT
    chmod 755 "$tree/DEBIAN/postinst" "$tree/DEBIAN/prerm"
    put_pages "$tree/usr/share/doc/python3-pigyelund" docs/PYTHON.md docs/C.md docs/ERRORS.md docs/SPEED.md \
        packaging/README.md foreign/python/examples/*.py
    build_package python3-pigyelund all python \
        "Depends: python3 (>= $least), libpigyelund1 (>= $newest)" <<END_OF_TEXT
Description: RPKI resource sets and route origin validation (Python 3)
 Calls on the resources of RPKI certificates (RFC 3779) and on routes: canonical
 sets and their DER, comparison of resources along certification paths (RFC
 6487, RFC 8360), shortest lists of prefixes, tables of VRPs, and route origin
 validation (RFC 6811). No call checks signatures. The code that computes the
 answers is formally verified.
 .
 This package has the Python module pigyelund, which calls the C library.
END_OF_TEXT
}

programs_package() {
    tree=$(tree_of pigyelund)
    put_programs "$tree/usr"
    gzip -9n "$tree/usr/share/man/man1/"*.1
    install -m 644 "$work/VERDICTS" "$tree/usr/share/doc/pigyelund"
    put_pages "$tree/usr/share/doc/pigyelund" README.md docs/RECIPES.md docs/ERRORS.md
    depends=$(depends_of "$tree/usr/bin/"*)
    build_package pigyelund "$architecture" net "Multi-Arch: foreign" "Depends: $depends" \
        "Suggests: pigyelund-vectors" <<END_OF_TEXT
Description: RPKI resource sets and route origin validation (programs)
 The program respath computes with sets of AS numbers and IP addresses of RPKI
 certificates (RFC 3779): canonical sets, their DER, shortest lists of prefixes,
 and what remains along certification paths (RFC 6487, RFC 8360). The program
 origins prints the validity of routes by the VRPs of a validator's file (RFC
 6811), and what changes between two files. Neither program checks signatures.
 The code that computes the answers is formally verified.
 .
 The programs need a processor of level x86-64-v2.
END_OF_TEXT
}

vectors_package() {
    tree=$(tree_of pigyelund-vectors)
    put_vectors "$tree/usr" pigyelund-vectors
    # Python stores compiled runners there if root runs them.
    cat >"$tree/DEBIAN/prerm" <<'END_OF_TEXT'
#!/bin/sh
set -e
rm -rf "${DPKG_ROOT:-}/usr/share/pigyelund/vectors/run/__pycache__"
END_OF_TEXT
    chmod 755 "$tree/DEBIAN/prerm"
    modules="python3-jsonschema, python3-netaddr, python3-pyasn1-modules, libnetaddr-ip-perl, libnet-cidr-lite-perl"
    build_package pigyelund-vectors all net "Multi-Arch: foreign" "Recommends: python3" \
        "Suggests: $modules, gcc | c-compiler, libssl-dev, librtr-dev, rpki-client, fort-validator" <<END_OF_TEXT
Description: RPKI resource sets and route origin validation (test vectors)
 Test cases as JSON for any implementation: the resource extensions of
 certificates (RFC 3779, RFC 6487), set operations, certification paths (RFC
 6487, RFC 8360), route origin validation (RFC 6811), files of VRPs and changes
 of a table of VRPs (RFC 8210). Schemas and runners for several implementations
 come with them.
END_OF_TEXT
}

# What follows is for ARM64, which the machine cannot run.
for_arm64() {
    architecture=arm64 triplet=aarch64-linux-gnu cross=aarch64-linux-gnu-
    stage=$work/stage_arm64 target_folder=$folder/arm64
    limit=". Its tests ran on an emulator alone"
}

# What follows is for the machine.
for_machine() {
    architecture=$(dpkg --print-architecture) triplet=$(${CC:-cc} -print-multiarch) cross=
    [ -n "$triplet" ] || stop "the C compiler names no folder of the architecture"
    stage=$work/stage target_folder=$folder
    limit=", which needs a processor of level
 x86-64-v2"
}

# Makes the packages and the wheel for ARM64.
debian_arm64() {
    for_arm64
    rm -rf "$target_folder"
    mkdir "$target_folder"
    library_package
    development_package
    wheel
    rm -rf "$work/deb" "$work/again"
    mkdir "$work/again"
    for_machine
}

# Makes all packages. The last one has the programs.
debian() {
    for tool in dpkg dpkg-deb objdump strip; do
        command -v "$tool" >/dev/null || stop "$tool isn't there"
    done
    maintainer=${MAINTAINER:-$(git log -1 --format='%an <%ae>')}
    mkdir "$work/again"
    if [ -f "$arm64" ]; then
        for_arm64
        stage_library "$arm64" TARGET=aarch64-unknown-linux-gnu CC="${cross}gcc" AR="${cross}ar" \
            OBJCOPY="${cross}objcopy" CPU=
    fi
    for_machine
    stage_library "$library"
    [ ! -f "$arm64" ] || debian_arm64
    wheel
    vectors_package
    library_package
    development_package
    python_package
    programs_package
}
