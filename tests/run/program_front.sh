#!/bin/sh
# Tests ./respath and ./origins beside two programs and a prover that print what they are asked. Nothing is proved. The
# status is 0 if every case is as expected.
# shellcheck disable=SC2016 # commands of cases, and the words of the README, of the programs and of the prover
top=$(CDPATH='' cd -- "$(dirname -- "$0")/../.." && pwd) || exit 1
files=$(mktemp -d) || exit 1
trap 'rm -rf "$files"' EXIT
# shellcheck source=tests/lib/expect.sh
. "$top/tests/lib/expect.sh"

copy="$files/a copy"
mkdir -p "$copy/bin" "$copy/tools" "$copy/tmp" "$copy/crates/other"
sed '/^#/d; s/[ :].*//' "$top/crates.txt" | while read -r crate; do mkdir -p "$copy/crates/$crate/out"; done
cp "$top/respath" "$top/origins" "$top/program.sh" "$top/crates.txt" "$top/HANDLES" "$copy/"
for crate in respath_program origins; do
    mkdir "$copy/crates/$crate/src"
    cp "$top/crates/$crate/src/help.rt" "$copy/crates/$crate/src/"
    touch -d '1 hour ago' "$copy/crates/$crate/src/help.rt" # a new checkout is newer than the program of is_built
done
echo 'The kit that last proved all crates is `a-kit logic 12`.' >"$copy/README.md"

for script in respath origins; do
    program=$copy/crates/$(crate_of "$script")/out/$(crate_of "$script")
    printf '#!/bin/sh\necho ran\nfor word; do [ "$word" = -- ] || echo "[$word]"; done\n' >"$program"
    chmod +x "$program"
    ln -s "$copy/$script" "$files/$script.link"
done
chmod -R go+rX "$files"

# The tools of the scripts, and no rt
for tool in sh awk cat chmod cp cut date dirname find grep head id ls mkdir mktemp mv readlink rm sed seq setsid \
    sha256sum sleep tail tar touch tr wc; do
    ln -s "$(command -v "$tool")" "$copy/tools/$tool"
done

# The commands of a prover that answers `rt version` with a kit of this name
prover() {
    printf '#!/bin/sh\n[ "$1" != version ] || { echo "%s"; exit; }\n%s\n' "$1" "$2" >"$copy/bin/rt"
    chmod +x "$copy/bin/rt"
}

# Runs a script with that prover alone, with its own standard input or without one, or without a prover.
piped() { PATH=$copy/bin:$copy/tools TMPDIR=$copy/tmp "$@" 2>&1; }
run() { piped "$@" </dev/null; }
without_rt() { PATH=$copy/tools "$@" </dev/null 2>&1; }

respath() { run "$copy/respath" "$@"; }
origins() { run "$copy/origins" "$@"; }

# Sets `out`, the folder of a script's program, and `built`, the program, and makes it newer than all that it needs.
is_built() {
    out=$copy/crates/$(crate_of "$1")/out
    built=$out/$(crate_of "$1")
    rm -f "$copy/crates/rpki_text/new"
    touch -d '1 minute ago' "$built"
}

# The first line of a build, with N in the place of numbers
built_first="respath: proving and building the program first: N crates, N to N minutes on four processors; --try answers\
 unproved, after about a minute"

# The second line of a script's --version: what proved the program that is in place
version() { run "$copy/$1" --version | sed -n '2p'; }

echo line >"$files/a file"
echo line >"$files/*"

# Starts a script on a file, and prints what the program prints in front of its words.
start() { "$@" "$files/a file" | sed '/^\[/d'; }

# Starts a script whose program is built. The prover would fail.
of_start() {
    prover "a-kit logic 12" 'echo proving; exit 1'
    is_built "$1"
    touch "$copy/crates.txt" "$copy/crates/other/new" "$copy/crates/test_values/new"
    prints "$1: a crate that the program doesn't need is newer" "start run '$copy/$1'" 0 ran
    prints "$1: a link to the script" "start run '$files/$1.link'" 0 ran
    ln -s "$1.link" "$files/a second $1"
    prints "$1: a link to a link, from its folder" "cd '$files' && start run './a second $1'" 0 ran
    prints "$1: no rt, and the program is built" "start without_rt '$copy/$1'" 0 ran
}

unproved="not proved here; last proved whole with a-kit logic 12"

# Asks a script for its version. The version names the kit that proved this very program, or says that none did.
of_version() {
    expect "$1: a program that was not proved here" 0 "$unproved" $? "$(version "$1")"
    prover "other-kit logic 12" 'exit 1'
    run "$copy/$1" --note-kit
    expect "$1: a program that another kit proved here" 0 "proved here with other-kit logic 12" $? "$(version "$1")"
    echo >>"$built"
    touch -d '1 minute ago' "$built"
    expect "$1: another program in its place" 0 "$unproved" $? "$(version "$1")"
    run "$copy/$1" --note-kit
    touch "$copy/crates/rpki_text/new"
    expect "$1: a program that is older than its sources" 0 "$unproved" $? "$(version "$1")"
    rm -rf "$files/.git"
    prints "$1: no repository, and no git on the path" "run '$copy/$1' --version | head -n 1" 0 "$1, revision unknown"
    git init -q "$files" && git -C "$files" -c user.name=nobody -c user.email=nobody commit -q --allow-empty -m empty
    prints "$1: a folder in another repository" "'$copy/$1' --version | head -n 1" 0 "$1, revision unknown"
}

for script in origins respath; do
    of_start "$script"
    of_version "$script"
done
# The programs are older than their sources.
no_rt="the program is not built, and rt is not on the PATH to build or try it: add the Rattle kit's bin folder"
for script in origins respath; do
    prints "$script: no rt, and the program isn't built" "without_rt '$copy/$script' '$files/a file'" \
        1 "$script: $no_rt"
done
said=$(run "$copy/origins" --table vrps)
expect "origins: a proof that fails" 1 "origins: the program was not built" $? "$(echo "$said" | tail -n 1)"

# Names of files: each word stays one word.
is_built respath
is_built origins
prints "respath: names with a space and a star" 'respath "$files/a file" "$files/*"' 0 "ran
[$files/a file]
[$files/*]"
prints "respath: options, and then a file name that begins like one" \
    'cd "$files" && run "$files/respath.link" --where -- "a file" --check --try' 0 "ran
[--where]
[a file]
[--check]
[--try]"
prints "origins: a name with a space" 'cd "$files" && run "$files/origins.link" --why "a file"' 0 "ran
[--why]
[a file]"
prints "origins: names with a space and a star" 'cd "$files" && run "$files/origins.link" --diff "a file" "*"' 0 "ran
[--diff]
[a file]
[*]"
printf '#!/bin/sh\necho of the program; exit 3\n' >"$out/origins"
prints "origins: the status of the program" 'origins --check vrps' 3 "of the program"

# Lines in place of files
prints "a line in place of a file" 'respath norm as 1' 2 "respath: norm: no such file; lines come from the standard\
 input: echo 'norm as 1' | $copy/respath"
prints "a line in place of a file, in quotes" 'respath --check "path as 1 | refuse 2"' \
    2 "respath: path as 1 | refuse 2: no such file; lines come from the standard input: echo '--check path as 1 |\
 refuse 2' | $copy/respath"
prints "a file that is named as a command" 'cd "$files" && echo >norm && respath norm' 0 "ran
[norm]"

# A tool or a right that is missing is named before anything is proved.
touch "$copy/crates/rpki_text/new"
prints "no rt to try the sources" 'without_rt "$copy/respath" --try' 1 "respath: $no_rt"
# A word that begins with - and is not in the help is refused before anything is proved. The program, where it is built,
# finds all other wrong usage.
for script in respath origins; do
    for word in --unknown --tr --check=1 --w -x '--[^z]*' '--why --json'; do
        prints "$script: unknown option: $word" "run '$copy/$script' '$word' none | head -n 1" 0 \
            "$script: unknown option: $word"
        prints "$script: unknown option under --try: $word" "run '$copy/$script' none '$word' --try | head -n 1" 0 \
            "$script: unknown option: $word"
    done
    said=$(run "$copy/$script" --unknown)
    expect "$script: the status of an unknown option, and the usage" 2 "$script: unknown option: --unknown
$(run "$copy/$script" --help | sed '/^$/,$d')" $? "$said"
done
no_room="respath: the program is not built, and $copy/crates/respath_program/out is not writable: copy the sources, or use\
 --try"
chmod a-w "$copy/crates/respath_program/out"
if [ -w "$copy/crates/respath_program/out" ]; then
    nobody='setpriv --reuid=65534 --regid=65534 --clear-groups'
    if $nobody true 2>/dev/null; then
        prints "a folder that can't be written" \
            '$nobody env PATH="$copy/bin:$copy/tools" "$copy/respath" </dev/null 2>&1' 1 "$no_room"
    else
        echo "left out  a folder that can't be written: whoever runs this can write everywhere, and there is no setpriv"
    fi
else
    prints "a folder that can't be written" 'respath' 1 "$no_room"
fi
chmod u+w "$copy/crates/respath_program/out"

# A proof fails: the lines about the failure are shown, and no later line.
prover "a-kit logic 12" 'for at in 1 2 3 4 5 6 7 8 9 10 11 12 13 14 15 16 17 18 19 20; do echo "proving $at"; done
echo "rt: rpki_text NOT PROVED"; echo "0 passed, 1 failed"; exit 1'
said=$(run "$copy/respath")
expect "a proof that fails" 1 "$built_first
proving 2
rt: rpki_text NOT PROVED
respath: the program was not built" $? "$(echo "$said" | sed '/^respath: proving/s/[0-9][0-9]*/N/g' | sed '3,20d')"

# A prover that makes the program where it is asked. The first crate is kept from an earlier run. Each of the next four
# takes until the script has reported it, and the others take no time. Three files get what is asked and what is there.
prover "the-kit logic 12" 'asked=${0%/*}/../asked
echo "$@" >"$asked"
sed "/^#/d; s/[ :].*//" crates.txt >"${0%/*}/../listed"
ls crates >"${0%/*}/../copied"
find . -name must-fail -o -name edits -o -name out >>"$asked"
cat HANDLES >>"$asked"
{ read -r first; echo "rt: $first is kept: an earlier run on this machine proved the same files over the same libraries"
count=1
while read -r crate; do
    for _ in 1 2 3 4 5 6 7 8 9 10 11 12 13 14 15 16 17 18 19 20 21 22 23 24 25 26 27 28 29 30; do
        [ "$count" -lt 5 ] && ! grep -q "crate $count of" "${0%/*}/../said" || break
        sleep 1
    done
    count=$((count + 1))
    echo "rt: $crate proved"
    echo "rt: $crate: its tests proved"
done; } <"${0%/*}/../listed"
mkdir crates/respath_program/out
printf "#!/bin/sh\necho made\n" >crates/respath_program/out/respath_program
chmod +x crates/respath_program/out/respath_program
echo "1 passed, 0 failed"'
mkdir -p "$copy/crates/rpki_text/must-fail" "$copy/crates/rpki_text/edits"
said=$(run "$copy/respath" 2>&1 | tee "$copy/said")
expect "all that the program needs is proved" 0 "respath: proved and built in N min
made" $? "$(echo "$said" | tail -n 2 | sed 's/in [0-9]* min/in N min/')"
expect "rt ci is asked, over no mutations and nothing that was built" 0 "ci
$(cat "$copy/HANDLES")" $? "$(cat "$copy/asked")"
needed=$( (top=$copy started=respath program_crate=respath_program && . "$top/program.sh" && needed_crates) | sort)
expect "the copy has the crates that the program needs" 0 "$needed" $? "$(cat "$copy/copied")"
expect "crates.txt of the copy names them" 0 "$needed" $? "$(sort "$copy/listed")"
all=$(echo "$needed" | wc -l)
expect "each crate that takes its time is reported when it is proved" 0 "$(seq 1 4)" $? \
    "$(echo "$said" | sed -n "s/^respath: crate \([0-9]*\) of $all, [0-9]* min gone\$/\1/p" | head -n 4)"
expect "a program that was proved by the script" 0 "proved here with the-kit logic 12" $? "$(version respath)"

# Without a build
touch "$copy/crates/rpki_text/new"
unbuilt="respath: the program is not built, or is older than its sources: run $copy/respath once without --no-build"
prints "a program that is older than its sources, and no build" 'respath --no-build' 1 "$unbuilt"
touch "$copy/crates/respath_program/out/respath_program"
prints "a program that is current, and no build" 'respath --no-build' 0 "made"

# Signals while it is proved, by a prover that waits for a child of its own; one of them doesn't heed the signal.
touch "$copy/crates/rpki_text/new"
# NAME, signal, status, what the prover runs first, and an option
interrupt() {
    prover "a-kit logic 12" "$4"' sleep 60 & echo $! >"${0%/*}/child"; wait'
    rm -f "$copy/bin/child"
    # A shell's job ignores an interrupt; what timeout starts doesn't, and it hands its signals on to all of the group.
    PATH=$copy/bin:$copy/tools TMPDIR=$copy/tmp timeout --preserve-status -k 20 60 "$copy/respath" "$5" \
        </dev/null >/dev/null 2>&1 &
    for _ in 1 2 3 4 5 6 7 8 9 10 11 12 13 14 15 16 17 18 19 20; do
        [ -s "$copy/bin/child" ] || ! kill -0 $! 2>/dev/null || sleep 0.5
    done
    kill -s "$2" $!
    wait $!
    status=$?
    left=$(ls "$copy/tmp")
    [ -e "$copy/bin/child" ] || left="$left, and no child was begun"
    # An ended process that nobody has waited for yet is there as a zombie.
    ! grep -qs '^State:.[^ZX]' "/proc/$(cat "$copy/bin/child")/status" || left="$left, and the child of the prover"
    expect "$1" "$3" "left: " "$status" "left: $left"
}
ln -s "$(command -v timeout)" "$copy/tools/timeout"
interrupt "an interrupt" INT 130 '' --check
interrupt "an interrupt that the prover doesn't heed" INT 130 "trap '' INT TERM;" --check
interrupt "a killed build" TERM 143 '' --check
interrupt "an interrupt of --try" INT 130 '' --try

# The lines about sources that are not proved, by two runners.
tried="respath: these answers come from sources that were not proved here"
prover "a-kit logic 12" 'cat; printf "races: not looked for\nrun=ended status=0 runners=2 proved=no\n" >&2'
prints "lines that come with a pause" '{ echo one; sleep 3; echo two; } | piped "$copy/respath" --try' 0 "$tried
one
two"
prover "a-kit logic 12" 'echo AS1; echo "run=ended status=0 runners=1 proved=no" >&2'
prints "one runner that answers alone" 'respath --try' 0 "$tried
AS1
respath: one of the two runners answered alone, the other one needs too many steps"
prover "a-kit logic 12" 'printf "checked: no-answer: too long\nrun=no-answer proved=no\n" >&2; exit 6'
prints "no runner that answers" 'respath --try' 1 "$tried
respath: no answers: too long"

# The words and the files under --try: the prover prints its words and the files, and names them in a message.
prover "a-kit logic 12" 'echo "${PWD##*/}"; shift
for word; do case $word in
*=*) echo "[${word%%=*}] $(cat "${word#*=}")" ;;
*) echo "[$word]" ;;
esac; done
cat
echo "run=ended status=3 runners=1 proved=no" >&2
for word; do case $word in --* | *=*) ;; *) echo "a-program: $word: wrong, $word" >&2 ;; esac; done
exit 3'
mkdir "$files/below"
echo below >"$files/below/a file"
echo equal >"$files/a=b"
prints "files under --try" "cd '$files/below' &&
    echo lines | piped '$copy/origins' 'a file' --try '../a file' --of 5 '$files/a=b' none -" 3 "origins: these answers come from sources that were not proved here
origins
[--data]
[a file] below
[--data]
[try-file-2] line
[--data]
[try-file-3] equal
[--]
[a file]
[try-file-2]
[--of]
[5]
[try-file-3]
[none]
[-]
lines
a-program: a file: wrong, a file
a-program: ../a file: wrong, ../a file
a-program: 5: wrong, 5
a-program: $files/a=b: wrong, $files/a=b
a-program: none: wrong, none
a-program: -: wrong, -"
echo dashed >"$files/below/--check"
prints "names after -- under --try" "cd '$files/below' && respath --try --check -- --check -" 3 "$tried
respath_program
[--data]
[try-file-1] dashed
[--]
[--check]
[--]
[try-file-1]
[-]
a-program: --check: wrong, --check
a-program: -: wrong, -"
prints "no word under --try" "echo lines | piped '$copy/respath' --try | sed '/^respath: one of/d'" 0 "$tried
respath
[--]
lines"

# The limit of --try: a prover gets 64 MiB, and no octet more.
prover "a-kit logic 12" 'wc -c; echo "run=ended status=0 runners=2 proved=no" >&2'
prints "64 MiB of lines under --try" 'head -c 67108864 /dev/zero | piped "$copy/respath" --try' 0 "$tried
67108864"
prints "one octet more than 64 MiB under --try" 'head -c 67108865 /dev/zero | piped "$copy/respath" --try' 1 "$tried
respath: no answers: --try reads at most 64 MiB"

# Another kit may have proved what the README names: its name says nothing, but the logic has to be the README's.
logic='run "$top/tests/run/page_logic.sh" "$copy/README.md" >/dev/null'
prover "other-kit logic 12" 'exit 1'
prints "another kit of the same logic" "$logic" 0 ""
prover "a-kit logic 13" 'exit 1'
prints "a kit of another logic" "$logic" 1 ""

exit "$failed"
