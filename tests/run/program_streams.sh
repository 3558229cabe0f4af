#!/bin/sh
# Tests what no contract says of the programs respath and respath_program: their status and their line on standard error
# if a standard stream fails, and streams above 64 MiB, also through origins. It tests the options and files of
# ./respath and of respath_program, which a release installs as respath, and the examples of the help.
# tests/run/program_front.sh tests what the script does without the program. The status is 0 if every case is as
# expected.
# shellcheck disable=SC2016,SC2034 # commands of cases
top=$(CDPATH='' cd -- "$(dirname -- "$0")/../.." && pwd) || exit 1
printf '' | "$top/respath" || exit 1
plain=$top/crates/respath/out/respath
program=$top/crates/respath_program/out/respath_program
origins=$top/crates/origins/out/origins

# shellcheck source=tests/lib/expect.sh
. "$top/tests/lib/expect.sh"
files=$(mktemp -d) || exit 1
trap 'rm -rf "$files"' EXIT
cd "$files" || exit 1
printf 'norm as 2,1' >one
printf 'norm v4 10.0.0.1\n' >"the other"
printf 'norm as 9' >--check
echo 'norm as x' >wrong

# Runs ./respath, or the program that `tested` names.
respath() { "$tested" "$@"; }

# of_streams COMMAND PREFIX: tests what a program does if a stream or an allocation fails.
of_streams() {
    tested=$1
    prints "$2all is answered" 'echo "norm as 1" | respath 2>&1 >/dev/null' 0 ""
    prints "$2a read fails" 'respath <&- 2>&1 >/dev/null' 1 "respath: read failed"
    prints "$2a write fails" 'echo "norm as 1" | respath 2>&1 >/dev/full' 1 "respath: write failed"
    prints "$2a pipe whose reader has ended" \
        '{ yes "norm as 1" | head -n 100000 | { respath 2>&3; echo "status $?" >&3; } | true; } 3>&1' \
        0 "respath: write failed
status 1"

    # The README promises that a stack of 128 KiB is enough.
    awk 'BEGIN { printf "norm as 1"; for (n = 3; n < 120000; n += 2) printf ",%d", n; print "" }' >blocks
    needs_more "$2a stack of 128 KiB" || prints "$2a stack of 128 KiB, a line of 60,000 blocks" \
        '(ulimit -s 128 && respath) <blocks | tr , "\n" | wc -l' 0 60000

    # Half of a line of 64 MiB fits into the memory that is granted.
    needs_more "$2memory is refused" || prints "$2memory is refused" \
        'head -c 67108864 /dev/zero | tr "\0" 1 | (ulimit -v 49152 && respath) 2>&1 >/dev/null' \
        1 "respath: out of memory"
}
of_streams "$program" ""
if [ -x "$plain" ]; then
    of_streams "$plain" "without options: "
else
    echo "left out  the program of crates/respath: it is not built"
fi

tested=$top/respath
prints "an unknown option" 'respath --strange 2>&1 >/dev/null </dev/null' 2 "respath: unknown option: --strange
usage: respath [--check] [--where] [--] [FILE ..] | --help | --version"
revision=$(git -C "$top" rev-parse --short=12 HEAD 2>/dev/null) || revision=unknown
prints "the version" 'respath --version | head -n 1' 0 "respath, revision $revision"
prints "sources that are not proved" 'printf "norm as 2,1\nnorm v4 x\n" | respath --try --check 2>&1' \
    3 "respath: these answers come from sources that were not proved here
AS1-AS2
error: invalid IPv4 address syntax"
prints "places of sources that are not proved" 'echo "norm as 2, x" | respath --try --check --where 2>&1' \
    3 "respath: these answers come from sources that were not proved here
error: Bad AS number. Expected format: AS#	element 2: x"
prints "many lines of sources that are not proved" \
    'yes "norm as 2,1" | head -n 20000 | respath --try 2>&1 | sort -u' 0 "AS1-AS2
respath: one of the two runners answered alone, the other one needs too many steps
respath: these answers come from sources that were not proved here"

examples=$(respath --help | sed -n '/^For example:/,/^$/s/^  //p')
tested=$program
prints "the examples of the help" 'echo "$examples" | sed "s/  .*//" | respath' 0 "$(echo "$examples" | sed 's/.*  //')"

# Names of files, and --check: of_files COMMAND PREFIX
of_files() {
    tested=$1
    prints "$2files in turn" 'respath one "the other"' 0 "AS1-AS2
10.0.0.1"
    prints "$2files that can't be read" 'respath . none one 2>&1' 1 "respath: .: read failed
respath: none: can't be opened
AS1-AS2"
    prints "$2answers of a file that can't be written" 'respath one 2>&1 >/dev/full' 1 "respath: write failed"
    prints "$2answers of two files that can't be written" 'respath one "the other" 2>&1 >/dev/full' \
        1 "respath: write failed"
    prints "$2the standard input among files" 'echo "norm as 7" | respath one -' 0 "AS1-AS2
AS7"
    prints "$2a file named as an option" 'respath -- --check' 0 "AS9"
    prints "$2the short name of the help" 'respath -h' 0 "$(respath --help)"
    prints "$2a check of right lines" 'respath --check one' 0 "AS1-AS2"
    prints "$2a check of a wrong line" 'printf "norm as x\nnorm as 1\n" | respath --check' \
        3 "error: Bad AS number. Expected format: AS#
AS1"
    prints "$2a check of a refused claim" 'echo "path as 1 | refuse 2" | respath - --check' \
        3 "refused at step 0: overclaimed AS resources: AS2"
    prints "$2a check of a claim that is refused later" \
        'echo "path as 1 | inherit | trim 2 | refuse 3" | respath --check' \
        3 "refused at step 2: overclaimed AS resources: AS3"
    prints "$2a check of no file" 'respath --check none 2>&1' 1 "respath: none: can't be opened"
    prints "$2a check of no file, and of a wrong line" 'respath --check none wrong 2>&1' \
        1 "respath: none: can't be opened
error: Bad AS number. Expected format: AS#"
    prints "$2a check of a wrong line, and of no file" 'respath --check wrong none 2>&1' \
        1 "error: Bad AS number. Expected format: AS#
respath: none: can't be opened"
    prints "$2a check that can't be written" 'respath --check one 2>&1 >/dev/full' 1 "respath: write failed"
    prints "$2places of errors" \
        'printf "norm as 1\npath as 1 | trim 2 | refuse , 2" | respath --where --check one - 2>&1' 3 "AS1-AS2
AS1
refused at step 1: overclaimed AS resources: AS2	step 1, element 2: 2"
    prints "$2places that can't be written" 'respath --where one 2>&1 >/dev/full' 1 "respath: write failed"
    prints "$2an octet 0 in an element that is named" 'printf "norm as 1\0, 2\nnorm as \0\n" | respath --where' \
        0 "error: Bad AS number. Expected format: AS#	element 1: 1?
error: Bad AS number. Expected format: AS#	element 1: ?"
}
of_files "$top/respath" ""
of_files "$program" "installed: "

# The program that a release installs
prints "installed: the standard input" 'printf "norm as 2, 1" | respath' 0 "AS1-AS2"
prints "installed: an unknown option" 'respath --check --strange one 2>&1' 2 "respath: unknown option: --strange
usage: respath [--check] [--where] [--] [FILE ..] | --help | --version"
prints "installed: the version" 'respath --version' 0 "respath, version $(cat "$top/VERSION")"
prints "installed: a version that can't be written" 'respath --version 2>&1 >/dev/full' 1 "respath: write failed"
# The answer begins with e, as error: does, and is none. The last line has no end.
prints "installed: an address that begins as an error" \
    'printf "norm v6 e000::/8\nnorm v6 e::\nread as 0" | respath --check -- - one' 3 "e000::/8
e::
error: bad hex
AS1-AS2"
prints "installed: no error" 'printf "norm v6 e000::/8, e::\nder as 1" | respath --check' 0 "e::, e000::/8
3007a0053003020101"

# Streams above 64 MiB, in and out: one answer for each line.
listed=$(awk 'BEGIN { for (at = 1; at < 20; at += 2) printf "%sAS42000000%02d", (at > 1 ? ", " : ""), at }')
takes_long "a stream of 73 MB" || prints "a stream of 73 MB, and answers of 69 MB" \
    'yes "norm as $listed" | head -n 500000 | { respath; echo "status $?"; } | counted' 0 "500000 $listed
1 status 0"
route='TABLE_DUMP2|1732579200|B|203.0.113.1|64500|192.0.2.0/24|64500 64496|IGP|203.0.113.1|0|0||NAG||'
why='valid match:192.0.2.0/23-24:AS64496 match:192.0.0.0/16-24:AS64496 match:192.0.0.0/8-24:AS64496'
if takes_long "routes of 76 MB"; then
    :
elif [ -x "$origins" ]; then
    printf 'AS64496,192.0.%s,24\n' 0.0/8 0.0/16 2.0/23 >vrps
    prints "routes of 76 MB" \
        'yes "$route" | head -n 800000 | { "$origins" vrps 2>/dev/null; echo "status $?"; } | counted' 0 "800000 valid
1 status 0"
    prints "routes of 76 MB, and answers of 76 MB" \
        'yes "$route" | head -n 800000 | { "$origins" --why vrps 2>/dev/null; echo "status $?"; } | counted' \
        0 "800000 $why
1 status 0"
else
    echo "left out  routes of 76 MB: origins is not built"
fi

if ! script -qec true /dev/null </dev/null >/dev/null 2>&1; then
    echo "left out  a terminal is told when: script can't make a terminal"
else
    prints "a terminal is told when" \
        'script -qec "\"$top/respath\"" /dev/null </dev/null | tr -d "\r" | grep "^respath: "' \
        0 "respath: the lines are answered at the end of the input"
fi

exit "$failed"
