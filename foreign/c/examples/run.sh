#!/bin/sh
# run.sh NAME PREFIX: builds an example of this folder with the static library below PREFIX, and runs it in an empty
# folder. NAME is update, table, table_cpp, slurm, set or openssl. NAME.txt has what the example prints. PREFIX of the
# Debian package is /usr. CC in the environment is the C compiler with its options, and RUN the command that runs a
# program, for example on ARM64.
set -eu
: "${CC:=gcc}" "${RUN:=}"
here=$(cd "$(dirname "$0")" && pwd)
name=$1
prefix=$2
library=$prefix/lib/libpigyelund.a
# Debian has a folder for each architecture.
# shellcheck disable=SC2086 # a compiler with its options
[ -e "$library" ] || library=$prefix/lib/$($CC -print-multiarch)/libpigyelund.a
folder=$(mktemp -d)
trap 'rm -rf "$folder"' EXIT
cd "$folder"

# build COMPILER FILE [OPTION ..]
build() {
    compiler=$1
    file=$2
    shift 2
    # shellcheck disable=SC2086 # the compiler is one word or more
    $compiler -Wall -Wextra -Werror -I"$prefix/include" "$here/$file" "$library" "$@" -o program
}

# certificate NAME EXTENSION: makes a self-signed certificate with this resource extension
certificate() {
    openssl req -x509 -newkey rsa:2048 -nodes -keyout key.pem -subj "/CN=$1" -addext "$2" -out "$1.pem" \
        2>openssl.log
}

case $name in
update) build "$CC" update.c -pthread && $RUN ./program ;;
table) build "$CC" table.c && $RUN ./program <"$here/vrps.csv" ;;
table_cpp) build g++ table.cpp -std=c++11 && ./program <"$here/vrps.csv" ;;
slurm)
    build "$CC" slurm.c
    $RUN ./program <"$here/slurm.json"
    # The second assertion gets a maximum length that its prefix does not allow.
    sed 's/: 26/: 33/' "$here/slurm.json" | $RUN ./program || true
    ;;
set) build "$CC" set.c && $RUN ./program ;;
openssl)
    certificate anchor "sbgp-ipAddrBlock = critical, IPv4:10.0.0.0/8"
    certificate holder "sbgp-ipAddrBlock = critical, IPv4:10.1.0.0/16"
    certificate other "sbgp-ipAddrBlock = critical, IPv4:10.0.0.0/7"
    certificate v6 "sbgp-ipAddrBlock = critical, IPv6:2001:db8::/32"
    certificate as "sbgp-autonomousSysNum = critical, AS:64496-64511"
    build "$CC" openssl.c -lcrypto
    ./program anchor.pem holder.pem
    for it in other v6 as; do ./program anchor.pem "$it.pem" || true; done
    ;;
*) echo "no example $name" >&2 && exit 2 ;;
esac
