#!/bin/sh
# Tests options, statuses and errors of the program origins, and that ./origins starts it. random_origins.py compares
# answers and tables with the reference. The status is 0 if each case is as it must be.
# shellcheck disable=SC2016 # commands of cases
top=$(CDPATH='' cd -- "$(dirname -- "$0")/../.." && pwd) || exit 1
origins() { "$top/crates/origins/out/origins" "$@"; }

# shellcheck source=tests/lib/expect.sh
. "$top/tests/lib/expect.sh"
files=$(mktemp -d) || exit 1
trap 'rm -rf "$files"' EXIT
cd "$files" || exit 1
# This builds the program if it is not current.
printf 'AS1,10.0.0.0/8,8\n' >one
"$top/origins" --table one >/dev/null || exit 1

printf 'ASN,IP Prefix,Max Length,Trust Anchor\nAS64497,2001:db8::/32,48,x\nAS64496,192.0.2.0/23,24,x\n' >vrps
printf 'AS64496,192.0.2.0/23,24\nAS64496,192.0.2.0/23,24\nAS64498,198.51.100.0/24,24\n' >next
printf 'AS64496,192.0.2.0/23,24\nAS64496,192.0.2.1/24,24\n' >wrong
printf '192.0.2.0/24 AS64496\n192.0.2.0/25 AS64496\n192.0.3.0/24 AS7\n10.0.0.0/8 AS1\n192.0.2.1/24 AS3' >routes
printf '192.0.2.0/24 AS64496\n10.0.0.0/8 AS1\n' >fine
usage=$(origins --help | sed -n '1,/^$/p' | sed '$d')

# Routes
answers="valid
invalid-length
invalid-as
not-found
error: invalid prefix: non-zero host portion"
prints "a word for each route" 'origins vrps <routes 2>&1' 0 "$answers
origins: 2 VRPs"
prints "why" 'origins --why vrps <routes 2>/dev/null' 0 "valid match:192.0.2.0/23-24:AS64496
invalid-length length:192.0.2.0/23-24:AS64496
invalid-as as:192.0.2.0/23-24:AS64496
not-found
error: invalid prefix: non-zero host portion"
prints "no route" 'origins vrps </dev/null 2>&1' 0 "origins: 2 VRPs"
prints "a check of routes that are valid or not found" 'origins vrps --check <fine 2>/dev/null' 0 "valid
not-found"

# live OPTION ..: gives each route only after the answer to the one before has come. It ends after a minute without one.
mkfifo lines
live() {
    timeout 60 sh -c '{ "$0" --line-buffered "$@" vrps <lines 2>/dev/null; echo "status $?"; } | {
        exec 3>lines
        while read -r route <&4 || [ "$route" ]; do echo "$route" >&3; read -r answer || exit; echo "$answer"; done
        exec 3>&-
        cat; } 4<routes' "$top/crates/origins/out/origins" "$@"
}
prints "each answer before the next line" live 0 "$answers
status 0"
prints "each answer before the next line: --check" 'live --check' 0 "$answers
status 3"
prints "each answer before the next line: --json" 'live --json | cut -d \" -f 4 | xargs' \
    0 "valid invalid invalid not-found error status 0"

# VRPs, and what changes
prints "the table" 'origins --table vrps 2>&1' 0 "192.0.2.0/23-24 AS64496
2001:db8::/32-48 AS64497
origins: 2 VRPs"
prints "the table of an AS" 'origins --of AS64497 --table vrps 2>/dev/null' 0 "2001:db8::/32-48 AS64497"
prints "the table of an AS that has none" 'origins --table --of 7 vrps 2>/dev/null' 0 ""
prints "a VRP that stands twice" 'origins --table next 2>&1' 0 "192.0.2.0/23-24 AS64496
198.51.100.0/24-24 AS64498
origins: 3 VRPs"
prints "what changes" 'origins --diff vrps next 2>&1' 0 "withdraw 2001:db8::/32-48 AS64497
announce 198.51.100.0/24-24 AS64498
origins: 2 VRPs in vrps, 3 in next"
prints "nothing changes" 'origins --diff next next 2>/dev/null' 0 ""

# VRPs from the standard input
cp next ./-
prints "the table of the standard input" 'origins --table - 2>&1 <vrps' 0 "192.0.2.0/23-24 AS64496
2001:db8::/32-48 AS64497
origins: 2 VRPs"
prints "the table of a pipe" 'cat vrps | origins --table --of AS64497 -- - 2>/dev/null' 0 "2001:db8::/32-48 AS64497"
prints "what changes from the standard input" 'origins --diff - next 2>&1 <vrps' 0 "withdraw 2001:db8::/32-48 AS64497
announce 198.51.100.0/24-24 AS64498
origins: 2 VRPs in standard input, 3 in next"
prints "what changes to a pipe" 'cat next | origins --diff vrps - 2>&1' 0 "withdraw 2001:db8::/32-48 AS64497
announce 198.51.100.0/24-24 AS64498
origins: 2 VRPs in vrps, 3 in standard input"
prints "the table of a file named -" 'origins --table ./- 2>/dev/null <vrps' 0 "192.0.2.0/23-24 AS64496
198.51.100.0/24-24 AS64498"
rm ./-
prints "a wrong line of the standard input" 'origins --table - 2>&1 <wrong' \
    1 "origins: standard input: line 2: invalid prefix: non-zero host portion"
for words in "--table -" "--diff vrps -" "--table --slurm - vrps" "--table --now 0 -"; do
    prints "no standard input: $words" 'origins $words 2>&1 <&-' 1 "origins: standard input: read failed"
done

# Several files of VRPs, as of several caches
printf ' {"roas":[{"asn":64499,"prefix":"203.0.113.0/24","maxLength":24},{"asn":"AS7","prefix":"10.0.0.0/8","maxLength":8}]}' \
    >more.json
for words in "vrps --vrps next" "--vrps vrps next" "--vrps vrps --vrps next" "--vrps vrps -- next"; do
    prints "routes by two files: $words" 'origins $words 2>&1' 0 "valid
valid
not-found
origins: 5 VRPs: 2 in vrps, 3 in next" <<'END'
198.51.100.0/24 AS64498
2001:db8::/48 AS64497
10.0.0.0/8 AS7
END
done
prints "the table of an AS and two files" 'origins --table --of AS64496 --vrps next vrps 2>/dev/null' \
    0 "192.0.2.0/23-24 AS64496"
prints "the table of a file and of the standard input" 'origins --table --vrps - vrps 2>&1 <next' \
    0 "192.0.2.0/23-24 AS64496
198.51.100.0/24-24 AS64498
2001:db8::/32-48 AS64497
origins: 5 VRPs: 3 in standard input, 2 in vrps"
prints "a check of routes by two files" 'origins vrps --vrps more.json --check <routes 2>/dev/null' 3 "valid
invalid-length
invalid-as
invalid-as
error: invalid prefix: non-zero host portion"
for words in "vrps --vrps wrong" "wrong --vrps vrps" "--vrps wrong --vrps none vrps" "--table vrps --vrps wrong"; do
    prints "a wrong line of one of the files: $words" 'origins $words <routes 2>&1' \
        1 "origins: wrong: line 2: invalid prefix: non-zero host portion"
done
prints "another file that is missing" 'origins --table vrps --vrps more.json.cut 2>&1' \
    1 "origins: more.json.cut: can't be opened"
prints "a read fails after two files" 'origins vrps --vrps next <&- 2>&1 >/dev/null' 1 "origins: read failed"

# Local exceptions (RFC 8416). A filter removes VRPs of the validator, and no assertion.
printf '{"slurmVersion":1,"validationOutputFilters":{"prefixFilters":[%s],"bgpsecFilters":[]},
"locallyAddedAssertions":{"prefixAssertions":[%s],"bgpsecAssertions":[]}}' \
    '{"prefix":"192.0.2.0/23"},{"asn":64497,"prefix":"2001:db8::/16"}' \
    '{"asn":64500,"prefix":"192.0.2.0/24"},{"asn":64501,"prefix":"10.0.0.0/8","maxPrefixLength":16}' >slurm
sed 's/2001:db8::\/16/2001::\/16/' slurm >slurm.json
prints "the table after exceptions" 'origins --table --slurm slurm.json vrps 2>&1' 0 "10.0.0.0/8-16 AS64501
192.0.2.0/24-24 AS64500
origins: 2 VRPs; 2 after slurm.json"
prints "exceptions from the standard input" 'origins --table --slurm - vrps 2>&1 <slurm.json' 0 "10.0.0.0/8-16 AS64501
192.0.2.0/24-24 AS64500
origins: 2 VRPs; 2 after standard input"
prints "a wrong item of a SLURM file" 'origins --slurm slurm vrps <routes 2>&1' \
    1 "origins: slurm: prefixFilters: item 2: invalid prefix: non-zero host portion"
sed 's/"slurmVersion":1/"slurmVersion":2/' slurm.json >slurm.2
prints "another version of SLURM" 'origins --table --slurm slurm.2 vrps 2>&1' 1 "origins: slurm.2: slurmVersion: not 1"
prints "a SLURM file that is no JSON" 'origins --slurm vrps vrps <routes 2>&1' 1 "origins: vrps: not a JSON object"
prints "a read fails after exceptions" 'origins --slurm slurm.json vrps <&- 2>&1 >/dev/null' 1 "origins: read failed"
printf '{"slurmVersion":1,"validationOutputFilters":{"prefixFilters":[%s],"bgpsecFilters":[]},
"locallyAddedAssertions":{"prefixAssertions":[],"bgpsecAssertions":[]}}' '{"asn":64496},{"asn":64497}' >none.json
prints "exceptions that leave no VRP" 'origins --slurm none.json vrps 2>&1 <fine' \
    1 "origins: no VRP left after none.json"
prints "the table after exceptions that leave no VRP" 'origins --table --slurm - vrps 2>&1 <none.json' \
    1 "origins: no VRP left after standard input"

# VRPs that have expired. A VRP is valid through the second of its expiry.
printf 'ASN,IP Prefix,Max Length,Trust Anchor,Expires\n%s\n' 'AS64496,192.0.2.0/23,24,x,1732600000
AS64497,2001:db8::/32,48,x,1732600001
AS64498,198.51.100.0/24,24,x,' >dated
printf '{"roas":[{"asn":64499,"prefix":"10.0.0.0/8","maxLength":8,"expires":1732599999},
{"asn":64500,"prefix":"203.0.113.0/24","maxLength":24}]}' >dated.json
prints "the table at the last second of a VRP" 'origins --table --now 1732600000 dated 2>&1' 0 "192.0.2.0/23-24 AS64496
198.51.100.0/24-24 AS64498
2001:db8::/32-48 AS64497
origins: 3 VRPs; 0 expired"
prints "the table a second later" 'origins --now 1732600001 --table dated 2>&1' 0 "198.51.100.0/24-24 AS64498
2001:db8::/32-48 AS64497
origins: 3 VRPs; 1 expired"
prints "the table without a time" 'origins --table dated 2>&1' 0 "192.0.2.0/23-24 AS64496
198.51.100.0/24-24 AS64498
2001:db8::/32-48 AS64497
origins: 3 VRPs"
prints "routes by two files at a time" 'origins --why --now 1732600001 --vrps dated.json dated 2>&1' 0 "not-found
not-found
valid match:203.0.113.0/24-24:AS64500
valid match:2001:db8::/32-48:AS64497
origins: 5 VRPs: 2 in dated.json, 3 in dated; 2 expired" <<'END'
192.0.2.0/24 AS64496
10.0.0.0/8 AS64499
203.0.113.0/24 AS64500
2001:db8::/32 AS64497
END
prints "the standard input at the last time" 'origins --table --now 18446744073709551615 - 2>&1 <dated.json' \
    0 "203.0.113.0/24-24 AS64500
origins: 2 VRPs; 1 expired"
prints "exceptions apply after expired VRPs are left out" \
    'origins --table --now 1732600001 --slurm slurm.json --vrps dated.json dated 2>&1' 0 "10.0.0.0/8-16 AS64501
192.0.2.0/24-24 AS64500
198.51.100.0/24-24 AS64498
203.0.113.0/24-24 AS64500
origins: 5 VRPs: 2 in dated.json, 3 in dated; 2 expired; 4 after slurm.json"
printf 'ASN,IP Prefix,Max Length,Trust Anchor,Expires\n%s\n' 'AS64496,192.0.2.0/23,24,x,1732600000
AS64497,2001:db8::/32,48,x,1732600001' >old
for words in "--check" "--table" "--json --why"; do
    prints "all VRPs have expired: $words" 'origins $words --now 1732600002 old 2>&1 <fine' \
        1 "origins: no VRP left: 2 of 2 expired"
done
prints "all VRPs of several files have expired" 'origins --now 1732600002 old --vrps old 2>&1 <fine' \
    1 "origins: no VRP left: 4 of 4 expired"
prints "all VRPs of one file have expired" 'origins --now 1732600002 old --vrps vrps 2>&1 <fine' 0 "valid
not-found
origins: 4 VRPs: 2 in old, 2 in vrps; 2 expired"
prints "some VRPs have expired, and exceptions leave none" \
    'origins --now 1732600001 --slurm none.json old 2>&1 <fine' \
    1 "origins: no VRP left after none.json: 1 of 2 expired"
prints "all VRPs have expired, and exceptions add some" 'origins --now 1732600002 --slurm slurm.json old 2>&1 <fine' \
    0 "invalid-as
invalid-as
origins: 2 VRPs; 2 expired; 2 after slurm.json"
sed 's/1732600001/never/' dated >dated.wrong
prints "a wrong expiry of a line" 'origins --now 0 dated.wrong 2>&1 <fine' \
    1 "origins: dated.wrong: line 3: expires: not a whole number below 2^64"
prints "a wrong expiry without a time" 'origins --table dated.wrong 2>/dev/null | wc -l' 0 "3"
sed 's/1732599999/"1732599999"/' dated.json >wrong.json
prints "a wrong expiry of an item" 'origins --now 0 --vrps wrong.json dated 2>&1 <fine' \
    1 "origins: wrong.json: item 1: expires: wrong kind of value"

# Answers as objects of JSON. A line is a string: quotes, backslashes and control characters are escaped, and a line
# that is not UTF-8 is null.
printf '192.0.2.0/24 "AS\\\t\001\177\r\n\303\244\n\377 AS1\n\n' >escaped
prints "JSON" 'origins --json vrps <routes 2>&1' 0 '{"state":"valid","prefix":"192.0.2.0/24","origin_asn":"AS64496"}
{"state":"invalid","reason":"length","prefix":"192.0.2.0/25","origin_asn":"AS64496"}
{"state":"invalid","reason":"as","prefix":"192.0.3.0/24","origin_asn":"AS7"}
{"state":"not-found","prefix":"10.0.0.0/8","origin_asn":"AS1"}
{"state":"error","error":"invalid prefix: non-zero host portion","line":"192.0.2.1/24 AS3"}
origins: 2 VRPs'
prints "lines in JSON" 'origins --json vrps <escaped 2>/dev/null' \
    0 '{"state":"error","error":"invalid AS number","line":"192.0.2.0/24 \"AS\\\t\u0001'"$(printf '\177')"'\r"}
{"state":"error","error":"invalid prefix: missing length portion","line":"ä"}
{"state":"error","error":"not UTF-8","line":null}
{"state":"error","error":"invalid prefix: empty string","line":""}'
prints "no route in JSON" 'origins --json vrps </dev/null 2>&1' 0 "origins: 2 VRPs"
prints "a check in JSON of routes that are valid or not found" 'origins --json --check vrps <fine 2>/dev/null' \
    0 '{"state":"valid","prefix":"192.0.2.0/24","origin_asn":"AS64496"}
{"state":"not-found","prefix":"10.0.0.0/8","origin_asn":"AS1"}'
prints "a check in JSON of a skipped line" \
    "echo 'BGP4MP|1732579200|STATE|203.0.113.1|64500|6|1' | origins --check --json --why vrps 2>/dev/null" \
    0 '{"state":"skipped"}'

# One VRP is no plural.
printf 'AS64496,192.0.2.0/23,24\n' >single
prints "one VRP, beside routes" 'origins single <fine 2>&1 >/dev/null' 0 "origins: 1 VRP"
prints "one VRP, beside a table" 'origins --table single 2>&1 >/dev/null' 0 "origins: 1 VRP"
prints "one VRP, and then 3" 'origins --diff single next 2>&1 >/dev/null' 0 "origins: 1 VRP in single, 3 in next"
prints "3 VRPs, and then one" 'origins --diff next single 2>&1 >/dev/null' 0 "origins: 3 VRPs in next, 1 in single"

# Files that fail or are wrong: nothing is answered.
for words in "none" "--table none" "--diff none next" "--diff next none" "--slurm none vrps" "--now 0 none" \
    "vrps --vrps none" "--vrps none vrps" "--table --vrps vrps --vrps none --vrps wrong"; do
    prints "no such file: $words" 'origins $words <routes 2>&1' 1 "origins: none: can't be opened"
done
for words in "." "--table ." "--diff . next" "--diff next ." "--slurm . vrps" "--now 0 ."; do
    prints "a folder: $words" 'origins $words <routes 2>&1' 1 "origins: .: read failed"
done
for words in "wrong" "--table wrong" "--diff wrong next" "--diff next wrong" "--now 0 wrong"; do
    prints "a wrong line: $words" 'origins $words <routes 2>&1' \
        1 "origins: wrong: line 2: invalid prefix: non-zero host portion"
done
for header in "asn,ip prefix,max length" "roa-set {" "# VRPs" "ASN,IP Prefix,Length" "AS1 10.0.0.0/8 8" \
    "10.0.0.0/8,8,AS1"; do
    printf '%s\nAS1,10.0.0.0/8,8\n' "$header" >unknown
    prints "an unknown header: $header" 'origins --table unknown 2>&1' \
        1 "origins: unknown: line 1: neither a known header nor a VRP (AS number, prefix, maximum length)"
done
printf 'AS1x,10.0.0.0/8,8\n' >first
prints "a first row with a wrong AS number" 'origins --table first 2>&1' 1 "origins: first: line 1: invalid AS number"
: >empty
prints "a file without VRPs" 'origins empty <routes 2>&1' 1 "origins: empty: no VRP"

# Streams that fail. A file that is opened where the standard input is closed isn't read in its place.
prints "a read fails" 'origins vrps <&- 2>&1 >/dev/null' 1 "origins: read failed"
prints "nothing is to be read" 'origins --table vrps <&- 2>/dev/null' 0 "192.0.2.0/23-24 AS64496
2001:db8::/32-48 AS64497"
for words in "vrps" "--line-buffered vrps" "--json vrps" "--table vrps" "--diff vrps next" "--help" "--version"; do
    prints "a write fails: $words" 'origins $words <routes 2>&1 >/dev/full' 1 "origins: write failed"
done
said=$(origins vrps <routes 2>/dev/full)
expect "nothing can be told on standard error" 0 "valid" $? "$(echo "$said" | head -n 1)"
prints "a pipe whose reader has ended, and lines without end" \
    '{ yes "10.0.0.0/8 AS1" | { origins vrps 2>&3; echo "status $?" >&3; } | true; } 3>&1' 0 "origins: write failed
status 1"
needs_more "memory is refused" || prints "memory is refused" \
    'head -c 67108864 /dev/zero | tr "\0" 1 | (ulimit -v 49152 && origins vrps) 2>&1 >/dev/null' \
    1 "origins: out of memory"
# The memory that the few VRPs need is enough for any number of routes.
needs_more "routes take no memory" || prints "routes take no memory" \
    'yes "10.0.0.0/8 AS1" | head -n 4000000 | (ulimit -v 16384 && origins vrps) 2>/dev/null | counted' \
    0 "4000000 not-found"

# Sizes. VRP n, from 0, is the address 10.0.0.0 + n with AS n + 1: as a line, as an item, and as a line of the table.
many=131072
numbered() {
    awk -v many=$many -v form="$1" 'BEGIN { for (n = 0; n < many; n++) {
        address = sprintf("10.%d.%d.%d", int(n / 65536), int(n / 256) % 256, n % 256)
        printf form, n + 1, address, n < many - 1 ? "," : "" } }'
}
numbered 'AS%d,%s/32,32\n' >many.csv
{ echo '{"roas": ['; numbered '{"asn": %d, "prefix": "%s/32", "maxLength": 32}%s\n'; echo ']}'; } >many.json
awk '{ print $2, $1 }' FS=, many.csv | sed 's/ /-32 /' >many.table
printf '10.0.0.0/32 AS1\n10.0.255.255/32 AS65536\n10.1.0.0/32 AS65537\n10.1.255.255/32 AS131072\n' >asked
printf '10.1.255.255/32 AS131071\n10.2.0.0/32 AS131073\n10.1.0.0/16 AS65537\n' >>asked
takes_long "files of 131,072 VRPs" || {
for file in many.csv many.json; do
    prints "routes by $file" 'origins "$file" <asked 2>&1' 0 "valid
valid
valid
valid
invalid-as
not-found
not-found
origins: $many VRPs"
    prints "the table of $file" 'origins --table "$file" 2>count | cmp - many.table 2>&1 && cat count' \
        0 "origins: $many VRPs"
done
}
# VRPs 1 to n cover one route, each with its own AS. Their texts stand beside each other, the route's own first.
for many in 1000 4000; do
    awk -v many=$many 'BEGIN { for (n = 1; n <= many; n++) printf "AS%d,192.0.2.0/24,24\n", n }' >covering
    awk -v many=$many 'BEGIN { printf "valid match:192.0.2.0/24-24:AS1"
        for (n = 2; n <= many; n++) printf " as:192.0.2.0/24-24:AS%d", n
        print "" }' >explained
    prints "a route that $many VRPs cover" \
        'echo "192.0.2.0/24 AS1" | origins --why covering 2>count | cmp - explained 2>&1 && cat count' \
        0 "origins: $many VRPs"
done
size=$(wc -c <explained)
expect "the last answer is longer than 64 KiB" 0 yes 0 "$([ "$size" -gt 65536 ] && echo yes || echo "$size")"
# An item of JSON is in two levels, and has so many more. The README promises that a stack of 128 KiB is enough. A
# program with run-time checks needs more.
stack=128
[ -z "${UNPROVED-}" ] || stack=2048
for depth in 128 129; do
    awk -v depth=$depth 'BEGIN { printf "{\"roas\": [{\"asn\": 64496, \"prefix\": \"192.0.2.0/23\", \"maxLength\": 24, \"x\": "
        for (n = 3; n < depth; n++) printf "["
        for (n = 3; n < depth; n++) printf "]"
        print "}]}" }' >deep.$depth
done
prints "JSON of 128 levels" "(ulimit -s $stack && origins --table deep.128) 2>/dev/null" 0 "192.0.2.0/23-24 AS64496"
prints "JSON of 129 levels" "(ulimit -s $stack && origins --table deep.129) 2>&1" \
    1 "origins: deep.129: not a JSON object"

# Wrong usage: the words, a colon, and what is wrong with them
while IFS=: read -r words reason; do
    prints "wrong usage: $words" 'origins $words <routes 2>&1' 2 "origins:$reason
$usage"
done <<'END'
: too few file names
--table: too few file names
--why: too few file names
--diff vrps: too few file names
vrps next: too many file names: next
vrps next wrong: too many file names: wrong
--table vrps next: too many file names: next
--diff vrps next wrong: too many file names: wrong
--diff vrps next wrong routes: too many file names: wrong
--table --diff vrps next: --table does not go with --diff
--why --table vrps: --why does not go with --table
--diff vrps next --why: --why does not go with --diff
--table --check vrps: --check does not go with --table
--check --diff vrps next: --check does not go with --diff
--of 1 vrps: --of needs --table
--diff --of 1 vrps next: --of needs --table
--table vrps --of: --of needs an AS number
--table --json vrps: --json does not go with --table
--json --diff vrps next: --json does not go with --diff
--table --line-buffered vrps: --line-buffered does not go with --table
--line-buffered --diff vrps next: --line-buffered does not go with --diff
--line-buffered: too few file names
vrps --vrps: --vrps needs a file name
--slurm: --slurm needs a file name
--table vrps --slurm: --slurm needs a file name
--slurm slurm.json: too few file names
vrps --slurm slurm.json --slurm none.json: too many SLURM files: none.json
--now: --now needs a time
vrps --now: --now needs a time
--now 0: too few file names
vrps --now x: invalid time: x, where seconds since 1970 are expected
vrps --now -1: invalid time: -1, where seconds since 1970 are expected
vrps --now 1.0: invalid time: 1.0, where seconds since 1970 are expected
vrps --now 18446744073709551616: invalid time: 18446744073709551616, where seconds since 1970 are expected
--table --of 1 vrps --of 2: too many AS numbers: 2
--table --of 1 --of x vrps: too many AS numbers: x
vrps --now 1 --now 2: too many times: 2
vrps --now 1 --now x: too many times: x
--diff vrps next --now 1: --now does not go with --diff
vrps --vrps next wrong: too many file names: wrong
--diff vrps --vrps next: --vrps does not go with --diff
--diff vrps next --slurm slurm.json: --slurm does not go with --diff
vrps --vrps -: - needs --table or --diff: the standard input has the routes
vrps --slurm -: - needs --table or --diff: the standard input has the routes
--table - --vrps -: - can be only one of the files
--table - --slurm -: - can be only one of the files
-: - needs --table or --diff: the standard input has the routes
--line-buffered --why -- -: - needs --table or --diff: the standard input has the routes
--diff - -: - can be only one of the two files
--strange vrps: unknown option: --strange
--table --of 4294967296 vrps: invalid AS number: 4294967296
--table --of ASX vrps: invalid AS number: ASX
END
for start in origins '"$top/origins"'; do
    prints "an AS number and an end of line: $start" "$start"' --table --of "1
" vrps 2>&1' 2 "origins: invalid AS number: 1

$usage"
done
cp vrps ./--table
prints "a file named as an option" 'origins -- --table <fine 2>/dev/null' 0 "valid
not-found"
prints "the short name of the help" 'origins -h' 0 "$(origins --help)"

# The version is that of the changes, and the script says what proved the program.
version=$(sed -n 's/^## \([^,]*\).*/\1/p' "$top/CHANGELOG.md" | head -n 1)
prints "the version" 'origins --version' 0 "origins, version $version"
revision=$(git -C "$top" rev-parse --short=12 HEAD 2>/dev/null) || revision=unknown
prints "the version by the script" '"$top/origins" --version | head -n 1' 0 "origins, revision $revision"
prints "routes by the script" '"$top/origins" vrps <fine 2>/dev/null' 0 "valid
not-found"

exit "$failed"
