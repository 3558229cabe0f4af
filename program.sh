# shellcheck shell=sh
# What the scripts respath and origins have in common: `start` runs their program with the words of the script. If the
# program is missing or older than a source that it needs, `start` proves and builds it first. A script sets three
# variables before it reads this file: `top`, the folder of the sources, `started`, the name of the script, and
# `program_crate`, the crate of its program. It may set `without_words`, the crate that --try runs if there are no words.
program=$top/crates/$program_crate/out/$program_crate
noted=${program%/*}/proved-with # the kit that proved the program, and the sum of that program
texts=$top/crates/$program_crate/src/help.rt

# Prints the text of a constant of the source that `texts` names, by the constant's name. The text has one line or more.
text_of() {
    sed -n "s/^pub const $1: &str = \"\(.*\)\";\$/\1/p
        /^pub const $1: &str = \"[^\"]*\$/,/\";\$/ { s/^pub const $1: &str = \"//; s/\";\$//; p; }" "$texts"
}

tell() { printf '%s: %s\n' "$started" "$1" >&2; }

is_current() {
    [ -x "$program" ] &&
        [ -z "$(for crate in $(needed_crates); do
            find "$top/crates/$crate" -name out -prune -o -type f ! -name '*.md' -newer "$program" -print
        done | head -n 1)" ]
}

# Prints the program's crate and its dependencies, lowest first.
needed_crates() {
    awk -v started="$program_crate" '
        !/^#/ { sub(":", "", $1); names[++count] = $1; below[$1] = $0 }
        END {
            needed[started]
            for (at = count; at > 0; at--) {
                words = split(below[names[at]], word)
                for (one = 1; names[at] in needed && one <= words; one++) needed[word[one]]
            }
            for (at = 1; at <= count; at++) if (names[at] in needed) print names[at]
        }' "$top/crates.txt"
}

# Ends the process that leads a group, with all of its group, and a second later by force what is left of it.
end_group() {
    kill -s TERM -- "-$1" 2>/dev/null || kill -s TERM "$1" 2>/dev/null || return
    sleep 1
    kill -s KILL -- "-$1" 2>/dev/null
}

# Runs rt with these words in a folder. rt leads a process group. If this job gets a signal, the whole group ends, so
# the processes that rt started end too.
run_rt() {
    folder=$1
    shift
    ending=
    trap 'ending=1' INT TERM HUP
    { (cd "$folder" && exec "$(command -v setsid || command -v env)" rt "$@") <&8 8<&- & } 8<&0
    prover=$!
    trap 'end_group "$prover"; exit 1' INT TERM HUP
    [ -z "$ending" ] || { end_group "$prover"; exit 1; }
    wait "$prover"
}

# Copies the sources that the program needs, without mutations: rt ci proves all crates that it finds, and tries their
# mutations.
copy_needed() {
    mkdir "$work/copy" || return
    needed_crates |
        awk 'NR == FNR { needed[$1]; next } { name = $1; sub(":", "", name) } name in needed' - "$top/crates.txt" \
            >"$work/copy/crates.txt" || return
    # shellcheck disable=SC2046 # names of crates
    (cd "$top" && tar -cf - --exclude=out --exclude=must-fail --exclude=edits HANDLES \
        $(needed_crates | sed 's,^,crates/,')) | tar -xf - -C "$work/copy"
}

# Proves and builds the program in the copy, and moves it to its place. If the kit stores proofs, the
# next build and ./check use these.
prove_copy() {
    made=$work/copy/crates/$program_crate/out/$program_crate
    run_rt "$work/copy" ci && [ -x "$made" ] && mkdir -p "${program%/*}" && mv "$made" "$program"
}

# The minutes since the build began, rounded up.
minutes_gone() { echo "$((($(date +%s) - began + 59) / 60)) min"; }

# Prints how many crates are proved, each time that there are more, until this job is ended.
report_progress() {
    reported=0
    while sleep 1; do
        proved=$(grep -c '^rt: [a-z0-9_]* \(proved$\|is kept: \)' "$work/log")
        if [ "$proved" -gt "$reported" ] && [ "$proved" -lt "$all" ]; then
            reported=$proved
            tell "crate $proved of $all, $(minutes_gone) gone"
        fi
    done
}

# Ends all that is being proved, and the script with this status.
end_build() {
    trap '' INT TERM HUP
    kill "$proving" "$reporting" 2>/dev/null
    wait
    rm -rf "$work"
    exit "$1"
}

# Proves and builds the crates, independent ones side by side, and reports the progress. If the kit stores proofs,
# an interrupted build continues where it stopped.
build() {
    began=$(date +%s)
    all=$(($(needed_crates | wc -l)))
    work=$(mktemp -d) || exit 1
    : >"$work/log"
    tell "proving and building the program first: $all crates, 10 to 30 minutes on four processors; --try answers\
 unproved, after about a minute"
    ending=
    trap 'ending=130' INT
    trap 'ending=143' TERM
    trap 'ending=129' HUP
    { copy_needed && prove_copy; } </dev/null >"$work/log" 2>&1 &
    proving=$!
    report_progress &
    reporting=$!
    trap 'end_build 130' INT
    trap 'end_build 143' TERM
    trap 'end_build 129' HUP
    [ -z "$ending" ] || end_build "$ending"
    wait "$proving"
    built=$?
    kill "$reporting" 2>/dev/null
    wait
    trap - INT TERM HUP
    [ "$built" -eq 0 ] || sed '/ NOT PROVED/q' "$work/log" | tail -n 20 >&2
    rm -rf "$work"
    if [ "$built" -ne 0 ]; then
        tell "the program was not built"
        exit 1
    fi
    tell "proved and built in $(minutes_gone)"
    touch "$program" && note_kit
}

# Ends the script with a message if the program can't be built or tried here.
need_prover() {
    command -v rt >/dev/null || {
        tell "the program is not built, and rt is not on the PATH to build or try it: add the Rattle kit's bin folder"
        exit 1
    }
}

# Ends the script with a message if the program can't be written to its place.
need_folder() {
    folder=${program%/*}
    [ -d "$folder" ] || folder=${folder%/*}
    [ -w "$folder" ] || {
        tell "the program is not built, and $folder is not writable: copy the sources, or use --try"
        exit 1
    }
}

# Ends the script if the program is not current and must not be built (--no-build).
need_current() {
    is_current || {
        tell "the program is not built, or is older than its sources: run $0 once without --no-build"
        exit 1
    }
}

# Ends the script with status 2 at the first word that begins with - and is not in the help. The program finds all other
# wrong usage.
need_options() {
    for word; do
        case $word in
        --) return ;;
        -?*)
            { text_of USAGE; text_of HELP; } | tr -s '[]|, ' '\n' | grep -qxFe "$word" && continue
            tell "unknown option: $word"
            text_of USAGE >&2
            exit 2
            ;;
        esac
    done
}

# Ends the script with status 2 if the first word that is no option is a command of the help in place of a file.
need_file() {
    for word; do
        case $word in
        -*) continue ;;
        esac
        command=$(printf '%s\n' "$word" | sed -n '1s/^\([a-z]*\)\( .*\)\{0,1\}$/\1/p')
        if [ -n "$command" ] && ! [ -e "$word" ] && text_of HELP | grep -q "^  $command [Kv]"; then
            tell "$word: no such file; lines come from the standard input: echo '$*' | $0"
            exit 2
        fi
        return
    done
}

# The help of the program, and the options of the script.
help() {
    text_of USAGE
    text_of HELP
    cat <<END

Options of the script ./$started, beside those of the program:

  --try       compile the same sources without a proof and with run-time checks, and answer with
              them. Compiling takes about a minute each time, longer on a busy machine. Limits: 60
              seconds for the run, 64 MiB of standard input, 1 MiB of output. The standard input is
              read to its end. It is not read if it is a terminal and there is a FILE
  --no-build  exit with status 1 if the program is not built or is older than its sources. Without
              this option and --try the program is proved and built first: 10 to 30 minutes on four
              processors

The script's --version prints the revision, and which Rattle kit proved the program. The script also
exits with status 1 if the program is not built, or if --try has no answers.

docs/RECIPES.md has worked commands. docs/ERRORS.md has the cause and the fix of each message.
END
}

sum_of_program() { sha256sum <"$program"; }

# Notes which kit proved the program that has been built now.
note_kit() { { rt version && sum_of_program; } >"$noted"; }

# The kit that proved the very program that lies here.
kit_of_program() {
    { read -r kit && read -r sum; } 2>/dev/null <"$noted" && [ "$sum" = "$(sum_of_program)" ] && echo "$kit"
}

version() {
    revision=unknown
    [ ! -e "$top/.git" ] || revision=$(git -C "$top" rev-parse --short=12 HEAD 2>/dev/null) || revision=unknown
    echo "$started, revision $revision"
    if is_current && kit=$(kit_of_program); then
        echo "proved here with $kit"
    else
        sed -n 's/^The kit that last proved all crates is `\(.*\)`\.$/not proved here; last proved whole with \1/p' "$top/README.md"
    fi
}

# Copies the standard input for --try: rt reads a pipe only up to a pause. At a terminal nothing is read if there are
# files.
copy_input() {
    : >"$kept/input"
    if [ -t 0 ] && [ "$count" -gt 0 ]; then
        tell "--try reads no standard input from a terminal if there is a file"
        return
    fi
    cat >"$kept/input" 2>/dev/null || { tell "read failed"; exit 1; }
    [ "$(wc -c <"$kept/input")" -le 67108864 ] || { tell "no answers: --try reads at most 64 MiB"; exit 1; }
}

# Prints what the program printed on standard error, with the names of files in place of those of copies.
tell_said() {
    awk '
        FILENAME != "said" { names[FILENAME] = $0; next }
        /^(checked|interpreter|races): |^run=/ { next }
        {
            said = ""
            while (match($0, /try-file-[0-9]+/)) {
                said = said substr($0, 1, RSTART - 1) names["name-" substr($0, RSTART + 9, RLENGTH - 9)]
                $0 = substr($0, RSTART + RLENGTH)
            }
            print said $0
        }
    ' "$@" said >&2
}

# Calls a function for each word, which is in `word`, and then another one with the words. `ended` is set after a word --.
# The first function may change `word`. A word for which it fails is dropped.
each_word() {
    visit=$1 next=$2 left=$(($# - 2)) ended=
    shift 2
    while [ "$left" -gt 0 ]; do
        word=$1
        shift
        left=$((left - 1))
        "$visit" && set -- "$@" "$word"
        [ "$word" != -- ] || ended=1
    done
    "$next" "$@"
}

# Copies a file that a word names, and sets `word` to the name that the program gets for it. A name that is not below
# the current folder is replaced by another one.
copy_file() {
    case $ended$word in -* | 1-) return 0 ;; esac
    [ -r "$word" ] && ! [ -d "$word" ] && cat <"$word" >"$kept/file-$((count + 1))" 2>/dev/null || return 0
    count=$((count + 1))
    echo "$word" >"$kept/name-$count"
    case $word in
    /* | ../* | */../* | *=* | -* | program | stdin | stdout | stderr) word=try-file-$count ;;
    esac
    echo "$word" >"$kept/copy-$count"
}

# Answers with the sources, compiled without proof. rt runs the program in a folder of its own, with a copy of each file
# that a word names.
try_sources() (
    kept=$(mktemp -d) && kept=$(readlink -f -- "$kept") || exit 1
    trap 'rm -rf "$kept"' EXIT
    trap 'exit 130' INT
    trap 'exit 143' TERM
    trap 'exit 129' HUP
    tried_crate=$program_crate count=0
    [ $# -gt 0 ] || tried_crate=${without_words:-$program_crate}
    each_word copy_file try_words "$@"
)

# Tries the program with these words, whose files are copied, and ends.
try_words() {
    copy_input
    set -- -- "$@"
    for at in $(seq "$count" -1 1); do
        set -- --data "$(cat "$kept/copy-$at")=$kept/file-$at" "$@"
    done
    run_rt "$top/crates/$tried_crate" try "$@" <"$kept/input" 2>"$kept/said"
    status=$?
    cd "$kept" || exit 1
    if grep -q '^run=ended ' said; then
        # shellcheck disable=SC2046 # no name has a space
        tell_said $(find . -name 'name-*' | cut -c 3-)
        [ "$tried_crate" = "$program_crate" ] || ! grep -q '^run=.* runners=1 ' said ||
            tell "one of the two runners answered alone, the other one needs too many steps"
        exit "$status"
    fi
    why=$(sed -n 's/^checked: no-answer: //p' said)
    tell "no answers: ${why:-$(tail -n 1 said)}"
    exit 1
}

# Takes an option of the script.
take_option() {
    case $ended$word in
    -h | --help) help; exit ;;
    --version) version; exit ;;
    --note-kit) note_kit; exit ;; # of ./check, once rt ci has proved and built the program
    --try) tried=1; return 1 ;;
    --no-build) unbuilt=1; return 1 ;;
    esac
}

# Runs the program with the words, without the options of the script.
start() { tried='' unbuilt=''; each_word take_option run_program "$@"; }

# Runs the program with its own words: the sources under --try, or the built program, which is built first if needed.
run_program() {
    need_file "$@"
    if [ -n "$tried" ]; then
        need_prover
        need_options "$@"
        tell "these answers come from sources that were not proved here"
        try_sources "$@"
        exit
    elif [ -n "$unbuilt" ]; then
        need_current
    elif ! is_current; then
        need_options "$@"
        need_prover
        need_folder
        build
    fi
    exec "$program" "$@"
}
