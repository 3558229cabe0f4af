#!/usr/bin/env bash
# foreign.sh [LIBRARY [ARM64_LIBRARY]]: tests the static library from C, Rust, Python and JavaScript, and from C on ARM64
# and musl. It builds the libraries by rt lib, or takes the files. The script names the tools that are missing, and
# leaves out the tests that need them. The status is 0 if nothing failed.
cd "$(dirname "$0")/../.." || exit 1
export KIT=${KIT:-$(dirname "$(dirname "$(readlink -f "$(command -v rt)")")")}
export LIB=${1:-$PWD/crates/pigyelund_c/out/libpigyelund_c.a}
out=$(mktemp -d) || exit 1
trap 'rm -rf "$out"' EXIT
spaced="$out/a folder"
prefix="$spaced/usr local"
mkdir "$spaced"
. tests/lib/expect.sh

# same WHAT COMMAND ..: the example's program prints what it should
same() {
    what=$1
    shift
    "$@" >"$out/example.txt" && diff foreign/c/example.txt "$out/example.txt" || fail "$what"
}
python3 -c 'import sys; sys.exit(sys.version_info < (3, 10))' 2>/dev/null ||
    { echo "foreign.sh: python3 is missing, or older than 3.10"; exit 1; }

arm64=${2-$out/libpigyelund_c.a} arguments=$#
if [ $# -eq 0 ]; then
    # rt lib has one file for all targets. The second proof takes what the first one kept.
    (cd crates/pigyelund_c && rt lib --target aarch64-unknown-linux-gnu && mv out/libpigyelund_c.a "$arm64" && rt lib) \
        >"$out/log" 2>&1 || { tail -n 20 "$out/log"; echo "FAILED: rt lib"; exit 1; }
fi

# made [VARIABLE=VALUE ..] TARGET ..: runs make with the C compiler and the folder of this test
made() { make -s -C foreign/c CC=gcc CFLAGS="-O2 -Wall -Wextra -Werror" OUT="$spaced" "$@"; }

# Each call of the header is in exports.map. The static library defines no other global symbols, and the shared library
# exports no others. The static library has the proved function of each call in arrays.c under its local name.
of_symbols() {
    sed -n 's/^ *\(pigy_[a-z_]*\);.*/\1/p' foreign/c/exports.map | sort >"$out/exports"
    grep -v '^static\|^typedef' foreign/pigyelund.h | sed -n 's/^[a-z].* \**\(pigy_[a-z_]*\)(.*/\1/p' |
        sort >"$out/declared"
    diff "$out/declared" "$out/exports" || fail "exports.map has the calls of pigyelund.h"
    nm -g --defined-only "$spaced/libpigyelund.a" | awk 'NF == 3 { print $3 }' | sort | diff "$out/exports" - ||
        fail "the global symbols of the static library are its calls"
    nm -D --defined-only "$spaced/libpigyelund.so" | awk '$2 != "A" { print $3 }' | sed 's/@@PIGYELUND_1$//' | sort |
        diff "$out/exports" - || fail "the shared library exports its calls, with the version PIGYELUND_1"
    sed -n 's/^  return .*\b\(proved_[a-z_]*\)(.*/\1/p' foreign/c/arrays.c | sort >"$out/proved"
    nm --defined-only "$spaced/libpigyelund.a" | awk '$2 == "t" && $3 ~ /^proved_/ { print $3 }' | sort |
        diff "$out/proved" - || fail "the static library has the proved functions under local names"
}

# The header compiles as each language, without warnings, and also without the attributes. Its names begin with pigy_ or
# PIGY. A call with a NULL handle makes no warning.
of_header() {
    echo '#include "pigyelund.h"
        pigy_status f(pigy_set a, pigy_set b, uint8_t *answer, size_t *len);
        pigy_status f(pigy_set a, pigy_set b, uint8_t *answer, size_t *len) {
          pigy_status status = pigy_equal(a, b, PIGY_STRICT, answer);
          pigy_table_free(0);
          pigy_resources_free(0);
          pigy_table_len(0, len);
          return PIGY_KIND(status) == PIGY_BAD_AS ? PIGY_FAULT(status) : pigy_version() - PIGY_VERSION_NUMBER;
        }' >"$out/header.c"
    for language in c99 c11 c17 c++11 c++17; do
        case $language in c++*) compilers="g++ clang++" ;; *) compilers="gcc clang" ;; esac
        for compiler in $compilers; do
            has "the header as $language" "$compiler" || continue
            for words in "-Wshadow -Wconversion" -U__GNUC__; do
                # shellcheck disable=SC2086 # several words
                "$compiler" -x "${language%%[0-9]*}" -std="$language" $words -O2 -pedantic -Wall -Wextra -Werror \
                    -Iforeign -c "$out/header.c" -o "$out/header.o" || fail "the header: $compiler, $language, $words"
            done
        done
    done
    printf '#include <stddef.h>\n#include <stdint.h>\n' | gcc -dM -E - | sort >"$out/macros_before"
    gcc -dM -E foreign/pigyelund.h | sort | comm -13 "$out/macros_before" - | grep -v '^#define PIGY' &&
        fail "the header defines a macro without PIGY"
    gcc -E -P foreign/pigyelund.h | sed -n '/pigy_/,$p' | grep -E '^(typedef .*[;(]|\} .*;)' | grep -v '[ *]pigy_' &&
        fail "the header defines a type without pigy_"
}

# doxygen finds no fault in the comments of the header, and one if a parameter has no comment.
of_comments() {
    has "the comments of the header" doxygen || return
    cp foreign/Doxyfile foreign/pigyelund.h "$out" && echo "OUTPUT_DIRECTORY=doxygen" >>"$out/Doxyfile"
    (cd "$out" && doxygen >log 2>&1) || { cat "$out/log"; fail "the comments of the header"; }
    sed -i '/@param answer /d' "$out/pigyelund.h"
    (cd "$out" && doxygen >log 2>&1) && fail "doxygen refuses a parameter without a comment"
}

# arrays.c compiles without warnings, by each compiler. It passes each argument on.
of_arrays() {
    for language in c99 c11 c17; do
        for compiler in gcc clang; do
            has "arrays.c as $language" "$compiler" || continue
            "$compiler" -std="$language" -O2 -pedantic -Wall -Wextra -Wshadow -Wconversion -Werror \
                -c foreign/c/arrays.c -o "$out/arrays.o" || fail "arrays.c: $compiler, $language"
        done
    done
    tests/run/foreign_arrays.py || fail "arrays.c passes each argument on"
    has "empty vectors in C++" g++ && of_vectors
}

# A program in C++ passes data() of empty vectors, with UndefinedBehaviorSanitizer if it is installed.
of_vectors() {
    sanitize="-fsanitize=undefined -fno-sanitize-recover=all"
    # shellcheck disable=SC2086 # two words
    echo 'int main() {}' | g++ -x c++ $sanitize - -o "$out/vectors" 2>"$out/log" ||
        { sanitize=; echo "left out: null pointers of vectors need the library of -fsanitize=undefined"; }
    # shellcheck disable=SC2086 # two words
    g++ -std=c++11 -Wall -Wextra -Werror $sanitize -Iforeign foreign/c/vectors.cpp "$spaced/libpigyelund.a" \
        -o "$out/vectors" && "$out/vectors" || fail "empty vectors in C++"
}

# A program may define the symbols that the kit has, and functions with the local names of the proved ones. The static
# library does not use them.
of_collisions() {
    {
        echo '#include <pigyelund.h>'
        nm -g --defined-only "$LIB" "$KIT/c/liblibc_c.a" 2>/dev/null |
            awk 'NF == 3 && $3 ~ /^[A-Za-z_][A-Za-z_0-9]*$/ && $3 !~ /^pigy_/ { print $3 }' | sort -u >"$out/of_kit"
        [ -s "$out/of_kit" ] && cat "$out/proved" >>"$out/of_kit"
        sed 's/.*/int &_of_program(void) __asm__("&"); int &_of_program(void) { __builtin_trap(); }/' "$out/of_kit"
        echo 'int main(void) { char text[64]; size_t len;'
        echo 'return (int)pigy_answer("norm as 1", 9, text, sizeof text, &len); }'
    } >"$out/collisions.c"
    [ -s "$out/of_kit" ] || fail "the kit has global symbols"
    gcc -Wno-builtin-declaration-mismatch -Iforeign "$out/collisions.c" "$spaced/libpigyelund.a" -o "$out/collisions" &&
        "$out/collisions" || fail "a program with the names of the kit's symbols"
}

of_c() {
    made all || fail "C is compiled"
    made check || fail "make check: the example and the test in C"
    of_header
    of_comments
    of_symbols
    of_arrays
    of_collisions
    if has "the example as C++" g++; then
        g++ -x c++ -std=c++11 -Wall -Wextra -Werror -Iforeign foreign/c/example.c -x none "$spaced/libpigyelund.a" \
            -o "$out/as_cpp" || fail "the example is C++"
        same "the example in C++" "$out/as_cpp"
    fi
    tests/misuse/run.py "$spaced" c || fail "wrong callers in C are refused"
    tests/run/foreign_rtr.py "$spaced/libpigyelund.a" || fail "an RTR client against a cache"
    if has "C under valgrind" valgrind; then
        valgrind -q --error-exitcode=9 --leak-check=full "$spaced/test" out/foreign >/dev/null || fail "valgrind"
    fi
}

# on_page PAGE SECTION: the program of a section of docs/ prints what its page says
on_page() { tests/run/foreign_page.py "docs/$1" "$2" "$prefix" || fail "docs/$1: $2"; }

# example NAME: the example of foreign/c/examples prints what it should
example() {
    foreign/c/examples/run.sh "$1" "$prefix" >"$out/example.txt" &&
        diff "foreign/c/examples/$1.txt" "$out/example.txt" || fail "the example $1"
}

# target TARGET LIBRARY RUN COMPILER [OPTION]: the tests in C, and the examples by this compiler. RUN runs a program. The
# option is for programs.
target() {
    echo "$1: the library $2$([ "$arguments" -eq 0 ] || echo ", whose proof is not known")"
    folder="$spaced/$1"
    for words in install "check LDFLAGS=${5-}"; do
        # shellcheck disable=SC2086 # one word or two
        make -s -C foreign/c $words TARGET="$1" LIB="$2" RUN="$3" KIT=/nonexistent OUT="$folder" PREFIX="$folder/usr" \
            CFLAGS="-O2 -Wall -Wextra -Werror" || fail "make $words TARGET=$1"
    done
    for name in update table slurm set; do RUN=$3 CC="$4 ${5-}" prefix=$folder/usr example "$name"; done
}

of_targets() {
    [ -f "$arm64" ] || echo "left out: ARM64 needs its library"
    [ -f "$arm64" ] && has "ARM64" aarch64-linux-gnu-gcc qemu-aarch64 &&
        target aarch64-unknown-linux-gnu "$arm64" "qemu-aarch64 -L /usr/aarch64-linux-gnu" aarch64-linux-gnu-gcc
    has "musl" musl-gcc && target x86_64-unknown-linux-musl "$LIB" "" musl-gcc -static
}

# The example for certificates of OpenSSL, if there are the command and the headers.
of_openssl() {
    has "certificates of OpenSSL" openssl || return
    if echo '#include <openssl/x509v3.h>' | gcc -E - >/dev/null 2>&1; then
        example openssl
    else
        echo "left out: certificates of OpenSSL need its headers (libssl-dev)"
    fi
}

# by_pkg_config FOLDER: the example is built by the pigyelund.pc of that folder, and runs with the shared library
by_pkg_config() {
    flags=$(PKG_CONFIG_PATH="$1" pkg-config --cflags --libs pigyelund) || fail "pkg-config $1"
    # pkg-config prints a backslash before each space.
    eval "gcc foreign/c/example.c -o '$out/by_pkg_config' $flags" || fail "the example by pkg-config $1"
    LD_LIBRARY_PATH="${1%/pkgconfig}" same "the example by pkg-config $1" "$out/by_pkg_config"
}

# of_folders NAME [VARIABLE=FOLDER ..]: installs into a prefix of that name that has files of others, also with DESTDIR,
# and uninstalls. The files of others are left, and no other file.
of_folders() {
    own="$spaced/$1" staged="$spaced/staged $1"
    shift
    for there in include lib/pkgconfig share/doc/other; do
        mkdir -p "$own/$there" && echo other >"$own/$there/other.h"
    done
    find "$spaced" -path "$staged" -prune -o ! -type d -print | sort >"$out/others"
    made install DESTDIR="$staged" PREFIX="$own" "$@" || fail "make install with DESTDIR $*"
    made install PREFIX="$own" "$@" || fail "make install $*"
    [ "$(cd "$staged" && find . ! -type d -exec cmp {} "/{}" \; -print | wc -l)" -eq 7 ] || fail "DESTDIR: $*"
    if has "pigyelund.pc" pkg-config; then
        by_pkg_config "$(dirname "$(find "$staged" -name pigyelund.pc | sed "s|^$staged||")")"
    fi
    made uninstall DESTDIR="$staged" PREFIX="$own" "$@" || fail "make uninstall with DESTDIR $*"
    left=$(find "$staged" ! -type d -o -name pigyelund)
    [ -z "$left" ] || fail "make uninstall with DESTDIR leaves $left"
    made uninstall PREFIX="$own" "$@" || fail "make uninstall $*"
    find "$spaced" -path "$staged" -prune -o ! -type d -print | sort | diff "$out/others" - || fail "make uninstall $*"
}

# of_level FILE: the file notes that it needs x86-64-v2. If it notes a level that no processor has, the loader does not
# start the example.
of_level() {
    LC_ALL=C readelf -nW "$1" | grep -q "x86 ISA needed: .*x86-64-v2" || fail "$1 notes that it needs x86-64-v2"
    cp "$1" "$out/of_level" && python3 - "$1" <<'END' || fail "the level that $1 notes"
import struct
import sys
from pathlib import Path

file = Path(sys.argv[1])
octets = bytearray(file.read_bytes())
# GNU_PROPERTY_X86_ISA_1_NEEDED, the length of its value, and the value
octets[octets.index(struct.pack("<II", 0xC0008002, 4)) + 11] |= 0x80
file.write_bytes(octets)
END
    LC_ALL=C LD_LIBRARY_PATH="$prefix/lib" "$out/by_pkg_config" 2>&1 | grep -q "CPU ISA level is lower" ||
        fail "the loader refuses the level that $1 notes"
    cp "$out/of_level" "$1"
}

# The tools and all options are those of the command.
of_variables() {
    made -n all install CC="a-cc -x" AR=an-ar OBJCOPY=an-objcopy INSTALL=an-install CPPFLAGS=-Dcpp CFLAGS=-Dc \
        LDFLAGS=-Wl,ld >"$out/commands" || fail "make -n"
    for text in "^a-cc -x -Dc -shared" "-Wl,-z,relro -Wl,-z,now -Wl,ld" "^a-cc -x -Dcpp -Dc .*example.c .*-Wl,ld$" \
        "^a-cc -x -nostdlib -r" "^an-ar rcs" "^an-objcopy --keep" "^an-install -m 644"; do
        grep -qe "$text" "$out/commands" || fail "make obeys its variables: $text"
    done
    grep -Ee "^(cc|gcc|ar|objcopy|install) " "$out/commands" && fail "make names a tool of its own"
}

# Installs it below a folder, and under the prefix, which both have spaces; the sources stay as they were.
of_install() {
    git status --porcelain >"$out/before" 2>/dev/null
    made install DESTDIR="$spaced/stage" PREFIX="/usr local" &&
        (umask 077 && made install PREFIX="$prefix") || fail "make install"
    diff -r "$spaced/stage/usr local" "$prefix" || fail "DESTDIR has what PREFIX has"
    git status --porcelain 2>/dev/null | diff "$out/before" - || fail "make install leaves the sources"
    cmp LICENSE "$prefix/share/doc/pigyelund/LICENSE" || fail "the licence is installed"
    modes=$(cd "$prefix" && find . -type f ! -perm 644 -o -type d ! -perm 755)
    [ -z "$modes" ] || fail "files are installed with mode 644, folders with 755: $modes"
    [ "$(readlink "$prefix/lib/libpigyelund.so")" = libpigyelund.so.1 ] &&
        [ "$(readlink "$prefix/lib/libpigyelund.so.1")" = "libpigyelund.so.1.$(cat VERSION)" ] ||
        fail "the links of the shared library"
    readelf -dW "$prefix/lib/libpigyelund.so" >"$out/dynamic" || fail "readelf"
    for text in '(SONAME) .*\[libpigyelund.so.1\]' '(FLAGS).*BIND_NOW' '(FLAGS_1).*NOW'; do
        grep -q "$text" "$out/dynamic" || fail "the shared library has $text"
    done
    grep -q TEXTREL "$out/dynamic" && fail "the shared library has text relocations"
    readelf -lW "$prefix/lib/libpigyelund.so" | awk '/GNU_RELRO/ { relro = 1 } /GNU_STACK/ { stack = $7 }
        END { exit !(relro && stack == "RW") }' || fail "the shared library has relro, and no executable stack"
    if has "pigyelund.pc" pkg-config && by_pkg_config "$prefix/lib/pkgconfig"; then
        of_level "$prefix/lib/libpigyelund.so"
        gcc -Iforeign foreign/c/example.c "$prefix/lib/libpigyelund.a" -o "$out/by_pkg_config" || fail "a static example"
        of_level "$out/by_pkg_config"
    fi
    of_variables
    of_folders "own prefix"
    of_folders "multiarch" LIBDIR="$spaced/multiarch/lib/x86_64-linux-gnu"
    of_folders "below" LIBDIR="$spaced/below/elsewhere/lib 64" INCLUDEDIR="$spaced/below/elsewhere/include of it"
    of_folders "apart" LIBDIR="$spaced/elsewhere/lib 64" INCLUDEDIR="$spaced/elsewhere/include" \
        DOCDIR="$spaced/elsewhere/doc"
}

# of_package PYTHON: runs the test of the package
of_package() {
    PYTHONPATH=foreign/python/src "$1" foreign/python/tests/test.py "$prefix/lib/libpigyelund.so" out/foreign ||
        fail "the test in $1"
}

# Each Python that the package names runs its test, and the one before the first can't import it.
of_each_python() {
    least=$(sed -n 's/^requires-python = ">=3\.\(.*\)"$/\1/p' foreign/python/pyproject.toml)
    named=$(sed -n 's/^ *"Programming Language :: Python :: \(3\.[0-9]*\)",$/\1/p' foreign/python/pyproject.toml)
    [ "$(echo "$named" | head -n 1)" = "3.$least" ] || fail "the first Python of the package is 3.$least: $named"
    for version in $named; do
        if "python$version" -c '' 2>/dev/null; then
            of_package "python$version"
        else
            echo "left out: the test of the package in Python $version needs python$version"
        fi
    done
    before=python3.$((least - 1))
    if ! "$before" -c '' 2>/dev/null; then
        echo "left out: the Python before the package's first needs $before"
    elif PYTHONPATH=foreign/python/src "$before" -c 'import pigyelund' 2>/dev/null; then
        fail "$before imports the package, which wants python3.$least"
    fi
}

# The wheels, the source archive and installations, by the first Python that has what makes a wheel.
of_wheels() {
    for python in python3 /usr/bin/python3; do
        if "$python" -c 'import ensurepip, setuptools, venv, wheel' 2>/dev/null; then
            find "$prefix" "$spaced"/aarch64* -path '*/usr*/libpigyelund.so' -print0 2>/dev/null |
                xargs -0 "$python" foreign/python/tests/test_wheel.py || fail "the wheels"
            "$python" foreign/python/tests/test_install.py "$prefix/lib" || fail "installations of the package"
            return
        fi
    done
    echo "left out: wheels need python3-setuptools, python3-wheel and python3-venv"
}

of_python() {
    export PYTHONDONTWRITEBYTECODE=1
    foreign/bindings.py --check || fail "the bindings of Python"
    foreign/words.py || fail "one word for one thing"
    of_package python3
    of_each_python
    if has "the type hints of Python" mypy; then
        foreign/python/tests/test_types.py || fail "the type hints"
    fi
    tests/misuse/run.py "$spaced" python || fail "wrong callers in Python are refused"
    of_wheels
    on_page PYTHON.md "First program"
    PIGYELUND_LIB="$prefix/lib" PYTHONPATH=foreign/python/src python3 foreign/python/examples/table.py \
        <foreign/c/examples/vrps.csv >"$out/example.txt" &&
        diff foreign/python/examples/table.txt "$out/example.txt" || fail "the example table.py"
    if /usr/bin/python3 -c 'import pandas' 2>/dev/null; then
        of_package /usr/bin/python3 # with numpy
        on_page PYTHON.md "Many routes"
    else
        echo "left out: many routes and arrays in Python need python3-pandas"
    fi
    tests/run/foreign_dask.py "$prefix/lib" || fail "routes in partitions by Dask"
}

# rust COMMAND ..: cargo runs a command on the package of Rust, without a network
rust() {
    command=$1
    shift
    cargo "$command" -q --offline --manifest-path foreign/rust/Cargo.toml "$@"
}

# says TEXT VALUE: the package of Rust isn't built with that value of PIGYELUND_LIB, and says why
says() {
    ! PIGYELUND_LIB=$2 rust check >"$out/log" 2>&1 && grep -qF "PIGYELUND_LIB=$2 $1: expected " "$out/log" ||
        fail "cargo says: PIGYELUND_LIB=$2 $1"
}

# Once it was built, cargo asks build.rs again where a variable that build.rs reads has changed.
of_rust_variables() {
    variables=$(grep -oE '"[A-Z]+(_[A-Z]+)+"' foreign/rust/pigyelund-sys/build.rs | tr -d '"' | grep -v 'CARGO_[FP]')
    [ -n "$variables" ] || fail "build.rs reads no variable by its name"
    for variable in $variables; do
        grep -qx "cargo:rerun-if-env-changed=$variable" "$CARGO_TARGET_DIR"/debug/build/pigyelund-sys-*/output ||
            fail "build.rs names $variable to cargo"
    done
    says "does not exist" "$spaced/another"
}

# The documentation is built without the library, as on docs.rs, and without a warning with it.
of_rust_docs() {
    RUSTDOCFLAGS=-Dwarnings rust doc --workspace --no-deps || fail "cargo doc"
    for variable in DOCS_RS=1 RUSTFLAGS="--cfg docsrs"; do
        env "$variable" PIGYELUND_LIB="$spaced/none" RUSTDOCFLAGS="-Dwarnings --cfg docsrs" CARGO_TARGET_DIR="$out/docs" \
            cargo doc -q --offline --no-deps --manifest-path foreign/rust/Cargo.toml ||
            fail "cargo doc with $variable and without the library"
    done
}

# depends COMMAND ..: a crate that depends on the packages gets the header, the version and the folder of the library
depends() {
    said=$("$@" -q --offline --manifest-path foreign/rust/tests/dependent/Cargo.toml)
    [ "$said" = "$(readlink -f "$prefix/lib") $(cat VERSION)" ] || fail "a dependent of the crates: $* $said"
}

# The library is found by its folder or by pkg-config, and is the static or the shared one.
of_rust_dependent() {
    depends cargo run
    depends env LD_LIBRARY_PATH="$prefix/lib" cargo run --features shared
    if has "Rust by pkg-config" pkg-config; then
        depends env -u PIGYELUND_LIB PKG_CONFIG_PATH="$prefix/lib/pkgconfig" cargo run
    fi
}

# The packages for crates.io are made without a warning, have the files of the repository, and pass their tests alone.
of_rust_package() {
    export CARGO_TARGET_DIR="$out/packed"
    mkdir -p foreign/rust/tests/shared && cp out/foreign/*.txt foreign/rust/tests/shared ||
        { fail "the shared test files are copied"; return; }
    first=1.90.0
    printf '%s\n' "$first" "$(cargo --version | cut -d ' ' -f 2)" | sort -VC ||
        { echo "left out: the packages of Rust need cargo $first, which packs a workspace"; return; }
    cargo package --workspace --offline --allow-dirty --manifest-path foreign/rust/Cargo.toml >"$out/log" 2>&1 ||
        { cat "$out/log"; fail "cargo package"; return; }
    # The repository has no address.
    ! grep '^warning' "$out/log" | grep -v 'no documentation, homepage or repository$' || fail "cargo package warns"
    mkdir "$out/unpacked"
    for crate in "$out"/packed/package/*.crate; do tar -xzf "$crate" -C "$out/unpacked" || fail "unpack $crate"; done
    crate="$out/unpacked/pigyelund-$(cat VERSION)" sys="$out/unpacked/pigyelund-sys-$(cat VERSION)"
    for name in rows texts numbers; do
        cmp "out/foreign/$name.txt" "$crate/tests/shared/$name.txt" || fail "the package has $name.txt"
    done
    for folder in "$crate" "$sys"; do
        cmp LICENSE "$folder/LICENSE" || fail "$folder has the licence"
        cargo test -q --offline --manifest-path "$folder/Cargo.toml" \
            --config "patch.crates-io.pigyelund-sys.path=\"$sys\"" >"$out/log" 2>&1 ||
            { cat "$out/log"; fail "the test in Rust"; }
    done
}

of_rust_style() {
    if cargo fmt --version >/dev/null 2>&1; then
        cargo fmt --check --all --manifest-path foreign/rust/Cargo.toml || fail "cargo fmt"
    else
        echo "left out: the format of the package of Rust needs cargo fmt"
    fi
    if cargo clippy --version >/dev/null 2>&1; then
        rust clippy --workspace --all-targets -- -D warnings || fail "cargo clippy"
    else
        echo "left out: the lints of the package of Rust need cargo clippy"
    fi
    if has "the declarations in Rust" bindgen rustfmt; then
        foreign/rust/bindings.sh >"$out/log" || fail "bindings.rs is not what bindgen makes of the header"
    fi
}

of_rust() {
    export PIGYELUND_LIB="$prefix/lib" CARGO_TARGET_DIR="$out/rust"
    says "is a relative path" lib
    says "does not exist" "$spaced/none"
    says "has no file libpigyelund.a" "$prefix/include"
    says "is a file" "$prefix/lib/libpigyelund.a"
    same "the example in Rust" rust run --example verify
    of_rust_variables
    of_rust_docs
    of_rust_style
    of_rust_dependent
    for name in path daemon; do
        rust run --example "$name" | diff "foreign/rust/examples/$name.txt" - || fail "the example $name in Rust"
    done
    on_page RUST.md "First program"
    tests/misuse/run.py "$prefix/lib" rust || fail "wrong callers in Rust are refused"
    of_rust_package
}

# The package of JavaScript in Node, with the module of the library that was proved. If LIBRARY is named, the module is
# built without proof.
of_js() {
    gcc -O2 -Wall -Wextra -Werror foreign/js/test/memory.c -o "$out/memory" && "$out/memory" || fail "memory.c"
    has "JavaScript" node wasm-opt || return
    # shellcheck disable=SC2086 # one option or none
    web/make ${1:+--try} --to "$out/module.js" >"$out/log" || { cat "$out/log"; fail "web/make"; return; }
    cat "$out/log"
    PIGYELUND_MODULE="$out/module.js" node --expose-gc --test foreign/js/test >"$out/log" ||
        { grep -A 12 '^ *not ok' "$out/log"; fail "the tests in Node"; }
    sed -n 's/^.* # SKIP //p' "$out/log"
}

tests/run/foreign_page.py || fail "numbers and names"
tests/run/foreign_rows.py || fail "the rows are made"
if has "C, and all that is installed," gcc make ar objcopy nm readelf; then
    of_c
    of_install
    of_targets
    on_page C.md "First program"; on_page C.md "Verify a path"; of_python
    for name in update table slurm set; do example "$name"; done
    has "the example in C++" g++ && example table_cpp
    of_openssl
    has "Rust" cargo cc tar && of_rust
    of_js "$@"
fi
has "the module" python3 git && { web/test/make.py || fail "web/make"; }
has "the page" /usr/bin/python3 openssl && { /usr/bin/python3 web/test/test.py || fail "the page in browsers"; }
if [ $# -eq 0 ]; then
    tests/run/release.sh || fail "a release"
fi
exit "$failed"
