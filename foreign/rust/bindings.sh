#!/bin/sh
# bindings.sh [--write]: compares pigyelund-sys/src/bindings.rs with what bindgen 0.60 and rustfmt make of pigyelund.h.
# With --write it writes the file. The constants of the header are constants in Rust too, never an enum.
set -eu
cd "$(dirname "$0")"
made=$(mktemp)
trap 'rm -f "$made"' EXIT
bindgen --use-core --ctypes-prefix ::core::ffi --size_t-is-usize --default-enum-style consts --no-doc-comments \
    --with-derive-default --allowlist-function 'pigy_.*' --allowlist-type 'pigy_.*' --allowlist-var 'PIGY_.*' \
    --blocklist-type 'pigy_layout_.*' --raw-line '// Made by bindings.sh from pigyelund.h.' \
    -o "$made" ../pigyelund.h
rustfmt --edition 2021 "$made"
if [ "${1-}" = --write ]; then
    cp "$made" pigyelund-sys/src/bindings.rs
else
    diff pigyelund-sys/src/bindings.rs "$made"
fi
