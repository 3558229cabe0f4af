# shellcheck shell=sh
# Read by the tests that are scripts: a line for each case, and `failed` is 1 where one isn't as it must be.
failed=0

# fail NAME: a case failed
fail() { echo "FAILED: $1"; failed=1; }

# has WHAT TOOL ..: whether all tools are there; else WHAT is left out, and the first that isn't there is named
has() {
    what=$1
    shift
    for tool; do
        command -v "$tool" >/dev/null || { echo "left out: $what needs $tool"; return 1; }
    done
}

# NAME, the status and the text that are wanted, and those that were seen
expect() {
    if [ "$2" = "$4" ] && [ "$3" = "$5" ]; then
        echo "ok      $1"
    else
        echo "FAILED  $1: wanted status $2 and '$3', saw status $4 and '$5'"
        failed=1
    fi
}

# prints NAME COMMAND STATUS TEXT: runs a command of the shell, which has to end with this status and print this text
prints() {
    said=$(eval "$2")
    expect "$1" "$3" "$4" $? "$said"
}

# The crate of the program that a script starts, by the name of the script
crate_of() { echo "$1" | sed 's/^respath$/respath_program/'; }

# Counts equal lines that follow each other, as uniq -c does, without blanks in front.
counted() { uniq -c | sed 's/^ *//'; }

# Whether a case is left out, and says so: it grants less memory than a program with run-time checks needs. check
# --quick sets UNPROVED where the programs are compiled so.
needs_more() { [ -n "${UNPROVED-}" ] && echo "left out  $1: a program with run-time checks needs more memory"; }

# Whether a case is left out, and says so: a program with run-time checks takes minutes for its input.
takes_long() { [ -n "${UNPROVED-}" ] && echo "left out  $1: a program with run-time checks takes minutes"; }

# examples WHAT PAGE COMMAND ..: each example of a page of the manual prints what the page shows. The command runs a
# line.
examples() {
    what=$1
    shown=$(sed -n '/^\.SH EXAMPLES/,/^\.fi/{s/\\-/-/g; s/\\(aq/'"'"'/g; s/\\e/\\/g; /^\./d; p}' "$2")
    shift 2
    said=$(printf '%s\n' "$shown" | sed -n 's/^\$ //p' | while IFS= read -r line; do
        printf '$ %s\n' "$line"
        "$@" "$line" </dev/null 2>/dev/null
    done)
    expect "$what" 0 "${shown:-an example}" 0 "$said"
}
