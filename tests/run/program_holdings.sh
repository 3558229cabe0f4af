#!/bin/sh
# Tests what no contract says about the program example_holdings: its status and its line on standard error if the input
# is not two lines of three lists each. The status is 0 if each case is as it must be.
top=$(CDPATH='' cd -- "$(dirname -- "$0")/../.." && pwd) || exit 1
program=$top/crates/example_holdings/out/example_holdings
if ! [ -x "$program" ]; then
    echo "left out: example_holdings is not built (rt ci builds it, and rt run in crates/example_holdings)"
    exit
fi
# shellcheck source=tests/lib/expect.sh
. "$top/tests/lib/expect.sh"

# INPUT and the line that is wanted
refused() {
    said=$(printf '%b' "$1" | "$program" 2>&1)
    expect "$2" 1 "Error: $2" $? "$said"
}

refused '' 'two lines are wanted, there are 0'
refused 'AS1 ; 10.0.0.0/8 ; \n' 'two lines are wanted, there are 1'
refused ';;\n;;\n;;\n' 'two lines are wanted, there are 3'
refused 'AS1 ; 10.0.0.0/8\n;;\n' 'what was had: three lists are wanted, there are 2'
refused ';;\n;;;\n' 'what is got: three lists are wanted, there are 4'
refused ';10.0.0.0/999;\n;;\n' \
    'cannot parse IPv4 resources: bad prefix length: number too large to fit in target type'
exit $failed
