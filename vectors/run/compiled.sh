#!/bin/sh
# compiled.sh openssl|rtrlib|rust [OPTION ..]: compiles a runner and compares it with the vectors. The options are those
# of compare.py. openssl needs libssl-dev, rtrlib needs librtr-dev, rust needs cargo and the crate rpki. To use a build
# of OpenSSL or rtrlib in another folder, set CPATH, LIBRARY_PATH and LD_LIBRARY_PATH. The status is 77 if something
# that the runner needs is missing.
set -u
here=$(CDPATH='' cd -- "$(dirname -- "$(readlink -f -- "$0")")" && pwd) || exit 1
name=${1-}
[ $# -eq 0 ] || shift

skip() { echo "skipped: $1"; exit 77; }

built=$(mktemp -d) || exit 1
trap 'rm -rf "$built"' EXIT
cc=${CC:-cc}

# compile HEADER PACKAGE LIBRARY: compiles the runner of this name, or skips it.
compile() {
    command -v "$cc" >/dev/null || skip "there is no C compiler"
    printf '#include <%s>\n' "$1" | "$cc" -E -x c - >/dev/null 2>&1 || skip "$1 is missing: install $2"
    "$cc" -O1 -Wall -Wextra -o "$built/$name" "$here/$name.c" "-l$3" || exit 1
}

case $name in
openssl) compile openssl/x509v3.h libssl-dev crypto; shown=OpenSSL ;;
rtrlib) compile rtrlib/rtrlib.h librtr-dev rtr; shown=rtrlib ;;
rust)
    command -v cargo >/dev/null || skip "cargo is missing"
    cp -r "$here/rust" "$built/source" || exit 1
    CARGO_TARGET_DIR=$built cargo build -q --release --manifest-path "$built/source/Cargo.toml" ||
        skip "the crate rpki can't be built"
    mv "$built/release/vectors" "$built/rust"; shown=rpki ;;
*) echo "usage: compiled.sh openssl|rtrlib|rust [OPTION ..]" >&2; exit 2 ;;
esac
python3 "$here/compare.py" "$@" "$shown" "$built/$name"
