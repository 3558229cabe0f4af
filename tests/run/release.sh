#!/usr/bin/env bash
# Tests release in two parts. The first part runs it in a copy of the tree, beside a kit that proves nothing. The second
# part makes a release of this tree, if its programs are built and it has no changes. In both parts each package
# installs below a clean root, and lintian finds nothing. The script names the tools that are missing. The status is 0 if
# nothing failed. tests/hand/debian_packages.sh installs the packages in a system.
cd "$(dirname "$0")/../.." || exit 1
unset LIB KIT MAINTAINER deb
top=$PWD
out=$(mktemp -d) || exit 1
trap 'rm -rf "$out"' EXIT
version=$(cat VERSION)
. tests/lib/expect.sh

# ---- in a copy, beside a kit that proves nothing
copy="$out/a copy"
kit=$out/kit
archive=pigyelund-$version.tar.gz
vectors=pigyelund-vectors-$version

# Makes the kit: rt says what the files of its folder say, and takes programs and the library from there.
make_kit() {
    mkdir -p "$kit/bin" "$kit/c" "$kit/proved" "$kit/arm64" "$kit/said" "$kit/tools"
    cat >"$kit/bin/rt" <<'END'
#!/bin/sh
kit=$(dirname "$(dirname "$(readlink -f "$0")")")
crate=${PWD##*/}
case $1 in
version) cat "$kit/identity"; exit ;;
ci)
    for crate in respath_program origins; do
        mkdir -p "crates/$crate/out" && cp -p "$kit/proved/$crate" "crates/$crate/out"
    done
    exit
    ;;
lib) file=out/lib$crate.a ;;
run) file=out/$crate ;;
check) file= ;;
esac
[ ! -e "$kit/meanwhile" ] || . "$kit/meanwhile"
case $* in *aarch64*) proved=$kit/arm64/${file#out/} ;; *) proved=$kit/proved/${file#out/} ;; esac
[ -z "$file" ] || [ ! -e "$proved" ] || { mkdir -p out && cp -p "$proved" "$file"; }
cat "$kit/said/$crate"
END
    chmod +x "$kit/bin/rt"
    sed -n 's/^The kit that last proved all crates is `\(.*\)`\.$/\1/p' README.md >"$kit/identity"
    local name
    sum=$(sed 's/.* //' "$kit/identity")
    for name in respath_program origins pigyelund_c; do
        printf 'axioms %s\nlogic=proved axioms=6 sum=%s native=nat\n' "$name" "$sum" >"$kit/said/$name"
    done
    for name in respath_program origins; do
        printf '#!/bin/sh\necho %s\n' "$name" >"$kit/proved/$name"
        chmod +x "$kit/proved/$name"
    done
    # The calls of the library, except those of texts.c, which the Makefile adds.
    {
        echo 'unsigned pigy_version(void) { return 2000; }'
        sed -n 's/^ \(pigy_[a-z_]*\)@.*/\1/p' packaging/libpigyelund1.symbols | while IFS= read -r name; do
            [ "$name" = pigy_version ] || grep -q "^[a-z][a-z0-9_ *]*\b$name(" foreign/c/texts.c ||
                echo "void $name(void) {}"
        done
    } >"$out/one.c"
    if has "ARM64 in a release" aarch64-linux-gnu-gcc; then
        aarch64-linux-gnu-gcc -fPIC -c "$out/one.c" -o "$out/one.o" && ar rcs "$kit/arm64/libpigyelund_c.a" "$out/one.o"
    fi
    gcc -fPIC -c "$out/one.c" -o "$out/one.o" &&
        printf '#include <stdlib.h>\nvoid *of_kit(size_t n) { return malloc(n); }\n' |
        gcc -fPIC -c -x c - -o "$out/two.o" &&
        ar rcs "$kit/proved/libpigyelund_c.a" "$out/one.o" && ar rcs "$kit/c/liblibc_c.a" "$out/two.o"
}

# Makes the copy anew, of the files that a release reads, with the programs that are proved there.
make_copy() {
    rm -rf "$copy" "$out/made" "$kit/meanwhile" "$kit/tools"
    mkdir -p "$copy" "$kit/tools"
    tar -cf - --exclude=out --exclude=__pycache__ .gitignore HANDLES release program.sh respath origins \
        README.md CHANGELOG.md LICENSE VERSION foreign packaging tests/run tests/lib docs vectors web crates/origins/src \
        crates/respath_program crates/pigyelund_c/{src,specs} crates/pigyelund_routes/{src,specs} | tar -xf - -C "$copy"
    (
        cd "$copy" || exit
        # The script web/test/make.py tests web/make.
        printf '#!/bin/sh\necho "the options of web/make: $*"\n' >web/make
        printf '#: programs\nrespath_program:\norigins:\n' >crates.txt
        git init -q && git add -A &&
            GIT_COMMITTER_DATE=@1700000000 git -c user.name=Nobody -c user.email=nobody@rpki.net commit -q -m copy ||
            exit
        for program in respath origins; do
            crate=$(crate_of "$program")
            mkdir -p "crates/$crate/out" && cp "$kit/proved/$crate" "crates/$crate/out/$crate" &&
                PATH=$kit/bin:$PATH "./$program" --note-kit
        done
    )
}

# In the copy: runs a release with these variables, to out/made. If `deb` is set, it makes the packages.
released() {
    (cd "$copy" && PATH=$kit/tools:$kit/bin:$PATH env "$@" ./release ${deb:+--deb} "$version" "$out/made" 2>&1)
}

# refuses WHAT TEXT COMMAND: after the command in the copy the release says this and makes nothing
refuses() {
    local said status
    make_copy || { fail "a copy for $1"; return; }
    (cd "$copy" && eval "$3") || fail "what should make a refusal: $1"
    said=$(released)
    status=$?
    [ "$status" -eq 1 ] && [ "$(printf '%s\n' "$said" | tail -n 1)" = "release: $2" ] ||
        fail "$1: status $status, $said"
    [ -z "$(ls "$out/made" 2>/dev/null)" ] || fail "$1: $(ls "$out/made") is made"
}

# Refuses what is not proved: another file in a program's place, no note or verdict of it, and another logic.
refuses_what_is_not_proved() {
    refuses "another origins" "origins isn't the one that was proved here" "echo >>crates/origins/out/origins"
    refuses "no note of origins" "origins isn't the one that was proved here" "rm crates/origins/out/proved-with"
    refuses "respath by another logic" "respath isn't the one that was proved here" \
        "sed -i 's/logic .*/logic 0123456789abcdef/' crates/respath_program/out/proved-with"
    refuses "no respath_program of the prover" "rt run made no respath_program" "rm '$kit/proved/respath_program'"
    make_kit
    refuses "a library that the prover didn't make" "rt lib made no libpigyelund_c.a" \
        "mkdir -p crates/pigyelund_c/out && mv '$kit/proved/libpigyelund_c.a' crates/pigyelund_c/out"
    make_kit
    for verdict in "logic=not-proved sum=$sum" "logic=built proved sum=$sum" "proved" ""; do
        refuses "origins with the verdict '$verdict'" "rt check gives no verdict of origins" \
            "printf 'axioms\n%s\n' '$verdict' >'$kit/said/origins'"
        make_kit
    done
    refuses "a library with two verdicts" "rt lib gives another verdict of pigyelund_c" \
        "echo logic=not-proved >>'$kit/said/pigyelund_c'"
    for verdict in "sum=0123456789abcdef" "sum=${sum}0" "other-sum=$sum" ""; do
        refuses "a library by another logic: '$verdict'" "rt lib proves pigyelund_c by another logic" \
            "echo 'logic=proved axioms=6 $verdict' >'$kit/said/pigyelund_c'"
    done
    make_kit
    refuses "another module of the page" "web/module.js or docs/VERDICTS isn't what web/make makes here" \
        "echo false >>web/make && git -c user.name=n -c user.email=e commit -qam more"
    refuses "another logic of the prover" "the README names $(sed 's/^[^ ]* //' "$kit/identity"), and rt has logic 0" \
        "echo 'a-kit logic 0' >'$kit/identity'"
    make_kit
}

# Refuses changed, new, staged and hidden files, a change meanwhile, and a folder without a repository.
refuses_what_is_not_committed() {
    changed="files were changed since the last commit"
    refuses "a changed file" "$changed" 'echo >>README.md'
    refuses "a new file" "$changed" 'echo >crates/pigyelund_routes/src/new.rt'
    refuses "a new file that the configuration hides" "$changed" \
        'git config status.showUntrackedFiles no && echo >crates/pigyelund_routes/src/new.rt'
    refuses "a change while it is proved" "$changed" "echo 'echo >>\"$copy/README.md\"' >'$kit/meanwhile'"
    refuses "another commit while it is proved" "there is another commit" \
        "echo 'git -C \"$copy\" -c user.name=n -c user.email=e commit -q --allow-empty -m more' >'$kit/meanwhile'"
    refuses "another version of the program origins" "versions differ" \
        "sed -i 's/VERSION: &str = \"/&9/' crates/origins/src/help.rt"
    refuses "another number of a status" "numbers or names differ" "sed -i 's/(OK, 0)/(OK, 9)/' foreign/numbers.txt"
    refuses "no repository" "$copy is no git repository" 'rm -rf .git'
    refuses "a folder in another repository" "$copy is no git repository" \
        'rm -rf .git && git init -q .. && rm -rf "$copy/out"'
    rm -rf "$out/.git"
}

# tool NAME PATTERN FILE: makes a tool that the release finds in place of another one. If its words match the pattern it
# does the same, and then adds a line to a file, in which LAST is its last word.
tool() {
    cat >"$kit/tools/$1" <<END
#!/bin/sh
"$(command -v "$1")" "\$@" || exit
case \$* in
$2) for LAST; do :; done; echo other >>"$3" ;;
esac
END
    chmod +x "$kit/tools/$1"
}

# Refuses a file that changes after its sum was noted: a program as it is installed, the library, and the archive.
refuses_other_sums() {
    noted="the archive doesn't have the files whose sums were noted"
    refuses "origins that is changed as it is installed" "origins isn't the one that was proved here" \
        "tool install '*out/origins*/bin/origins*' '\$LAST'"
    refuses "a library that is changed meanwhile" "libpigyelund_c.a isn't the one that was proved here" \
        "tool make '*install*' '$copy/crates/pigyelund_c/out/libpigyelund_c.a'"
    refuses "an archive with one file more" "$noted" "tool tar '*-xzf*' '\$LAST/${archive%.tar.gz}/more'"
    refuses "an archive without its sums" "$noted" "tool sha256sum '*/LICENSE*' /dev/stdout"
}

# The same commit makes the same archives, whatever the time, the zone, the mask, the owner, the variables and what is
# built. A missing program is built first.
makes_the_same() {
    make_copy
    released >"$out/said" || { cat "$out/said"; fail "a release in a copy"; return; }
    [ "$(tail -n 1 "$out/said")" = "$out/made/$archive" ] || fail "the last line: $(tail -n 1 "$out/said")"
    head -n 1 "$out/said" | grep -qx 'release: ./check --all has to pass at this commit, [0-9a-f]*' ||
        fail "the first line: $(head -n 1 "$out/said")"
    grep -qx 'the options of web/make: --check' "$out/made/pigyelund-$version/share/doc/pigyelund/VERDICTS" ||
        fail "a release has the module built again"
    mv "$out/made" "$out/first"
    sleep 1.1
    printf '#!/bin/sh\necho planted\n' >"$copy/crates/respath_program/out/respath_program"
    (cd "$copy" && PATH=$kit/bin:$PATH ./respath --note-kit)
    rm -r "$copy/crates/origins/out"
    cp "$out/first/pigyelund-$version/lib/libpigyelund.a" "$out/other.a" && ar r "$out/other.a" LICENSE 2>/dev/null
    find "$copy" -name .git -prune -o -type f -exec touch -d '2001-01-01' {} +
    chmod g+s "$copy" && [ "$(id -u)" -ne 0 ] || chown -R 12345:12345 "$copy"
    (umask 077 && released TZ=Asia/Tokyo LANG=C.UTF-8 LIB="$out/other.a" KIT="$out" GZIP=-1 \
        TAR_OPTIONS=--owner=me GIT_CONFIG_COUNT=1 GIT_CONFIG_KEY_0=safe.directory GIT_CONFIG_VALUE_0='*') \
        >"$out/said" || { cat "$out/said"; fail "a second release"; return; }
    diff -r "$out/first" "$out/made" || fail "the same commit makes the same files"
    (cd "$out/made" && sha256sum --quiet -c -- *.sha256) || fail "the sums of the archives"
    tar -xzf "$out/made/$vectors.tar.gz" -C "$out" && "$out/$vectors/vectors/run/validate.py" >"$out/log" &&
        diff -r vectors "$out/$vectors/vectors" -x __pycache__ || fail "the archive of the vectors"
    for packed in "$out/made"/*.tar.gz "$out/made"/*.tgz; do
        tar --numeric-owner --full-time -tvzf "$packed" >"$out/list"
        [ -s "$out/list" ] && ! grep -v ' 0/0 .* 2023-11-14 22:13:20 ' "$out/list" ||
            fail "owners are 0, and times that of the commit: $packed"
        tar -tzf "$packed" | LC_ALL=C sort -c || fail "files are in order: $packed"
    done
    tar -xzf "$out/made/pigyelund-rust-$version.tar.gz" -C "$out" &&
        diff -r foreign/rust "$out/pigyelund-rust-$version" -x target -x Cargo.lock -x shared || fail "the Rust crates"
    if has "the package for npm" npm; then
        (cd "$out" && npm install --offline "$out/made/pigyelund-$version.tgz" && node -e '
            const it = require("pigyelund"); it.load().then(() => process.exit(+(it.answer("norm as 1") !== "AS1")))') \
            >"$out/log" 2>&1 || { cat "$out/log"; fail "the package for npm"; }
    fi
    modes "$out/made/pigyelund-$version" bin || fail "modes of the release"
    # The page has a module in base64, in which a short name may occur.
    ! grep -rlF -e "$copy" -e "$top" "$out/made/pigyelund-$version" &&
        ! grep -rlF --exclude=pigyelund.html -e "$(uname -n)" "$out/made/pigyelund-$version" ||
        fail "a release names its builder"
}

# modes FOLDER BIN: programs and folders have mode 755, other files 644; runners of the vectors have one of the two
modes() {
    [ "$2" = none ] || [ -n "$(find "$1/$2" -type f)" ] && [ -z "$(find "$1" -type d ! -perm 0755 -print -o \
        -type f -path "*/vectors/run/*" ! -perm 0755 ! -perm 0644 -print -o -path "*/vectors/run/*" -o \
        -type f -path "*/$2/*" ! -perm 0755 -print -o -type f ! -path "*/$2/*" ! -perm 0644 -print)" ]
}

# try_package PACKAGE NAME BIN: its fields, owners and modes; and it installs below a clean root, whose libc6 and
# python3 are this system's. dpkg --verify finds nothing wrong there, and finds each file that is changed.
try_package() {
    local package=$1 name=$2 bin=$3 said file
    [ "$(dpkg-deb -f "$package" Package Version)" = "Package: $name
Version: $version" ] || fail "the fields of the package $name"
    dpkg-deb -c "$package" >"$out/list"
    [ -s "$out/list" ] && ! grep -Ev '^(drwxr-xr-x|-rw-r--r--|-rwxr-xr-x|lrwxrwxrwx) root/root ' "$out/list" ||
        fail "owners and modes in the package"
    rm -rf "$out/root"
    mkdir -p "$out/root/var/lib/dpkg/info" "$out/root/var/lib/dpkg/updates" "$out/no" &&
        : >"$out/root/var/lib/dpkg/status"
    # There is no Python in the root, so its modules are not compiled there.
    ln -sf "$(type -P true)" "$out/no/py3compile"
    to_root() {
        PATH=$out/no:$PATH dpkg --root="$out/root" --log="$out/dpkg" --force-not-root --force-depends \
            --force-script-chrootless "$@"
    }
    to_root -i "$package" >"$out/log" 2>&1 || { cat "$out/log"; fail "dpkg --install"; }
    said=$(to_root --verify "$name" 2>&1) && [ -z "$said" ] || fail "dpkg --verify: $said"
    modes "$out/root/usr" "$bin" || fail "modes of the installed files of $name"
    find "$out/root/usr" -type f | while IFS= read -r file; do
        cp -p "$file" "$out/kept" && echo >>"$file"
        to_root --verify "$name" 2>&1 | grep -qF "${file#"$out/root"}" || echo "dpkg --verify doesn't see ${file##*/}"
        cp -p "$out/kept" "$file"
    done >"$out/unseen"
    [ ! -s "$out/unseen" ] || { cat "$out/unseen"; fail "dpkg --verify sees each changed file"; }
}

# try_vectors PACKAGE: it installs, its files are those of the tree, and its runner validates them.
try_vectors() {
    try_package "$1" pigyelund-vectors share/pigyelund/vectors/run
    [ "$(dpkg-deb -f "$1" Architecture)" = all ] || fail "the vectors are a package of one architecture"
    diff -r vectors "$out/root/usr/share/pigyelund/vectors" -x __pycache__ || fail "the vectors in the package"
    "$out/root/usr/share/pigyelund/vectors/run/validate.py" >"$out/log" ||
        { cat "$out/log"; fail "the installed vectors"; }
}

# Makes a tool that installs files of another owner, as whoever isn't root does.
install_as_other() {
    [ "$(id -u)" -eq 0 ] || return 0
    cat >"$kit/tools/install" <<END
#!/bin/sh
"$(command -v install)" "\$@" && for LAST; do :; done && chown -R 12345:12345 "\$LAST"
END
    chmod +x "$kit/tools/install"
}

# same_packages FOLDER OTHER: both have the same files, with five packages
same_packages() { diff -r "$1" "$2" && [ "$(cd "$1" && echo *.deb | sed 's/_[^ ]*//g')" = "$packages" ]; }
packages="libpigyelund-dev libpigyelund1 pigyelund-vectors pigyelund python3-pigyelund"

# field PACKAGE FIELD: prints a field of a package
field() { dpkg-deb -f "$made/$1"_*.deb "$2"; }
# member PACKAGE FILE: prints a control file of a package
member() { dpkg-deb --ctrl-tarfile "$made/$1"_*.deb | tar -xOf - "./$2"; }

# guide_leads PAGE: each relative link of an installed page leads to a file
guide_leads() {
    local link
    grep -o '](\(\.\./\)*[A-Za-z][^):# ]*[)#]' "$1" | tr -d '](#)' | sort -u >"$out/links"
    [ -s "$out/links" ] || fail "$1 has no links"
    while IFS= read -r link; do
        [ -e "$(dirname "$1")/$link" ] || fail "${1##*/} links to $link, which the package lacks"
    done <"$out/links"
}

# try_packages FOLDER: each package installs; the fields, control files, copyright and changelogs are as they should be.
try_packages() {
    made=$1
    local name folder lib so=libpigyelund.so.1
    for name in $packages; do
        folder=none
        [ "$name" != pigyelund ] || folder=bin
        [ "$name" = pigyelund-vectors ] || try_package "$made/${name}"_*.deb "$name" "$folder"
        [ "$(field "$name" Source)" = pigyelund ] || [ "$name" = pigyelund ] || fail "the source of $name"
        dpkg-deb --fsys-tarfile "$made/$name"_*.deb | tar -xOf - "./usr/share/doc/$name/changelog.gz" |
            gzip -d >"$out/changelog" && dpkg-parsechangelog -l "$out/changelog" >"$out/parsed" 2>&1 &&
            grep -qx "Version: $version" "$out/parsed" && ! grep -q warning "$out/parsed" ||
            { cat "$out/parsed"; fail "the changelog of $name"; }
        dpkg-deb --fsys-tarfile "$made/$name"_*.deb | tar -xOf - "./usr/share/doc/$name/copyright" >"$out/copyright" &&
            grep -q '^Copyright: 2026, the Pigyelund authors$' "$out/copyright" &&
            grep -q '^           2018, NLnet Labs' "$out/copyright" &&
            [ "$(grep -c '^License: ' "$out/copyright")" -eq 3 ] || fail "the copyright of $name"
    done
    try_vectors "$made"/pigyelund-vectors_*.deb
    # The library, and what is computed of it.
    rm -rf "${out:?}/lib" && dpkg-deb -x "$made"/libpigyelund1_*.deb "$out/lib" &&
        dpkg-deb -x "$made"/libpigyelund-dev_*.deb "$out/lib" || fail "the files of the library"
    lib=$out/lib/usr/lib/$(gcc -print-multiarch)
    guide_leads "$out/lib/usr/share/doc/libpigyelund-dev/docs/C.md"
    [ -f "$out/lib/usr/share/man/man3/pigy_verify.3.gz" ] || fail "manual pages of the calls"
    [ "$(objdump -p "$lib/$so" | sed -n 's/^  SONAME *//p')" = "$so" ] || fail "the soname"
    [ "$(readlink "$lib/libpigyelund.so")" = "$so" ] || fail "the link for the linker"
    grep -qx "Version: $version" "$lib/pkgconfig/pigyelund.pc" || fail "the version of pigyelund.pc"
    grep -qx "prefix=/usr" "$lib/pkgconfig/pigyelund.pc" || fail "the prefix of pigyelund.pc"
    [ "$(member libpigyelund1 shlibs)" = "libpigyelund 1 libpigyelund1 (>= 0.2.0)" ] || fail "shlibs"
    [ "$(member libpigyelund1 triggers)" = "activate-noawait ldconfig" ] || fail "triggers"
    case $(field libpigyelund1 Depends) in "libc6 (>= 2."*) ;; *) fail "Depends of the library" ;; esac
    [ "$(field libpigyelund-dev Depends)" = "libpigyelund1 (= $version)" ] || fail "Depends of libpigyelund-dev"
    [ "$(field python3-pigyelund Depends)" = "python3 (>= 3.10), libpigyelund1 (>= 0.2.0)" ] ||
        fail "Depends of python3-pigyelund"
    [ "$(field libpigyelund1 Multi-Arch) $(field libpigyelund-dev Multi-Arch) $(field pigyelund Multi-Arch)" = \
        "same same foreign" ] || fail "Multi-Arch"
    if has "the symbols of the library" dpkg-gensymbols; then
        mkdir -p "$out/symbols/debian"
        printf 'Source: x\n\nPackage: libpigyelund1\nArchitecture: any\n' >"$out/symbols/debian/control"
        member libpigyelund1 symbols >"$out/symbols/there"
        (cd "$out/symbols" && dpkg-gensymbols -plibpigyelund1 -v"$version" -e"$lib/$so" -Ithere -O -c4 -q >made) &&
            diff "$out/symbols/there" "$out/symbols/made" || fail "symbols"
    fi
    # Both ways to compute what a library requires.
    if has "what a library requires" dpkg-shlibdeps; then
        (
            # shellcheck disable=SC2034,SC2030 # debian.sh reads these
            top=$PWD work=$out/computed
            mkdir -p "$work"
            stop() { echo "$1"; exit 1; }
            # shellcheck source=packaging/debian.sh
            . packaging/debian.sh
            [ "$(by_dpkg "$lib/$so")" = "$(by_objdump "$lib/$so")" ] &&
                [ "$(by_dpkg "$lib/$so")" = "$(field libpigyelund1 Depends)" ]
        ) || fail "dpkg-shlibdeps and objdump differ"
    fi
    [ ! -d "$1/arm64" ] || try_arm64 "$1"
    if has "the rules of Debian" lintian; then
        find "$1" -name '*.deb' -exec lintian --allow-root --fail-on error,warning {} + >"$out/log" 2>&1 ||
            { cat "$out/log"; fail "lintian"; }
    fi
}

# try_arm64 FOLDER: the fields of the packages for ARM64, the machine of their libraries, and the name of the wheel
try_arm64() {
    local made=$1/arm64
    for name in libpigyelund1 libpigyelund-dev; do dpkg-deb -x "$made/$name"_*.deb "$out/arm64"; done
    said="$(field libpigyelund1 Architecture) $(field libpigyelund-dev Architecture) $(field libpigyelund1 Depends)"
    case $said in "arm64 arm64 libc6 (>= 2."*) ;; *) fail "the fields of the packages for ARM64: $said" ;; esac
    [ "$(readelf -h "$out/arm64/usr/lib/aarch64-linux-gnu/"lib*.{so,a} | grep -c 'Machine: *AArch64')" -eq 2 ] ||
        fail "the libraries for ARM64"
    [ -f "$made/pigyelund-$version-py3-none-manylinux_2_34_aarch64.whl" ] || fail "the wheel for ARM64"
}

# The same commit makes the same packages.
makes_the_same_packages() {
    local deb=1
    make_copy
    released >"$out/said" && mv "$out/made" "$out/first_packages" && sleep 1.1 && install_as_other &&
        find "$copy" -name .git -prune -o -type f -exec touch -d '2001-01-01' {} + &&
        (umask 077 && released TZ=Asia/Tokyo LANG=C.UTF-8 GZIP=-1 XZ_OPT=-0 taskset -c 0) >"$out/said" ||
        { cat "$out/said"; fail "packages in a copy"; return; }
    same_packages "$out/first_packages" "$out/made" || fail "the same commit makes the same packages"
    try_packages "$out/made"
}

# Other symbols or another soname than those of the symbols file.
refuses_other_symbols() {
    local file=packaging/libpigyelund1.symbols commit="git -c user.name=n -c user.email=e commit -q -a -m more" deb=1
    refuses "a library without a call" "libpigyelund.so.1 has other symbols than $file" \
        "sed -i 's/^ *pigy_union;/    pigy_more;\n&/' foreign/c/exports.map &&
        echo ' pigy_more@PIGYELUND_1 0.2.0' >>$file && $commit"
    refuses "a call without its line" "numbers or names differ" "sed -i '/ pigy_union@/d' $file && $commit"
    refuses "a line without its call" "numbers or names differ" \
        "sed -i '/ pigy_union;/d' foreign/c/exports.map && $commit"
    refuses "a call of a later version" "numbers or names differ" \
        "sed -i '/ pigy_union@/s/0[.]/1000./' $file && $commit"
    refuses "another soname" "the shared library isn't libpigyelund.so.2" "sed -i '1s/so.1/so.2/' $file && $commit"
}

if has "what a release refuses" git gcc make ar tar gzip python3; then
    make_kit || fail "a kit"
    said=$(./release "$version.1" "$out/made" 2>&1) && fail "another version is made"
    [ "$said" = "VERSION: version $version, expected $version.1
versions: 1 differ
release: versions differ" ] || fail "another version is refused: $said"
    makes_the_same
    refuses_what_is_not_proved
    refuses_what_is_not_committed
    refuses_other_sums
    if has "the packages of Debian" dpkg-deb dpkg dpkg-parsechangelog taskset; then
        makes_the_same_packages
        refuses_other_symbols
    fi
fi
rm -rf "$copy" "$out/made"

# ---- of this tree
# run_line FOLDER LINE: runs a line of the shell with the programs of a folder
run_line() {
    mkdir -p "$out/examples"
    (cd "$out/examples" && PATH="$1:$PATH" sh -c "$2")
}

of_archive() {
    mkdir "$out/un packed" && tar -xzf "$out/one/$archive" -C "$out/un packed" || fail "tar"
    tree="$out/un packed/pigyelund-$version"
    (cd "$tree" && sha256sum --quiet -c SHA256SUMS) || fail "the sums of the files"
    for program in respath origins; do
        examples "the manual's examples of $program" "$tree/share/man/man1/$program.1" run_line "$tree/bin"
        crate=$(crate_of "$program")
        cmp "crates/$crate/out/$crate" "$tree/bin/$program" || fail "the program $program"
        "./$program" --version | grep -q '^proved here' || fail "$program is noted"
    done
    grep -q '^logic=proved .*axioms=' "$tree/share/doc/pigyelund/VERDICTS" || fail "the verdicts"
    cmp LICENSE "$tree/share/doc/pigyelund/LICENSE" || fail "the licence"
    modes "$tree" bin || fail "modes of the archive"
    ! grep -rlF "$top" "$tree" || fail "the archive names the folder in which it was made"
    if has "a program in C" gcc; then
        tests/run/foreign_page.py docs/C.md "First program" "$tree" || fail "a program in C"
    fi
    if has "the manual's pages" groff; then
        [ -z "$(groff -man -ww -z "$tree"/share/man/man1/*.1 2>&1)" ] || fail "the manual's pages"
    fi
}

# Compares the packages with the archive and with a second run.
of_packages() {
    try_packages "$out/one"
    diff -r "$tree/share/pigyelund" "$out/root/usr/share/pigyelund" || fail "the same tree makes the same vectors"
    diff -r "$tree/include" "$out/lib/usr/include" || fail "the same tree makes the same header"
    cmp "$tree/lib/libpigyelund.a" "$out/lib/usr/lib/$(gcc -print-multiarch)/libpigyelund.a" ||
        fail "the same tree makes the same static library"
    try_package "$out"/one/pigyelund_*.deb pigyelund bin
    diff -r "$tree/bin" "$out/root/usr/bin" || fail "the same tree makes the same programs"
    for program in respath origins; do
        gzip -d <"$out/root/usr/share/man/man1/$program.1.gz" >"$out/page"
        examples "the installed $program" "$out/page" run_line "$out/root/usr/bin"
    done
    ./release --deb "$version" "$out/again" >"$out/log" 2>&1 && same_packages "$out/one" "$out/again" ||
        fail "the same tree makes the same files"
}

if [ ! -x crates/respath_program/out/respath_program ]; then
    echo "left out: a release needs respath, which ./respath proves and builds"
elif [ -n "$(git status --porcelain 2>&1)" ]; then
    echo "left out: a release needs a tree without changes"
elif ! web/make --sources; then
    echo "left out: a release needs the module of these sources, which web/make builds"
else
    deb=
    has "the packages of Debian" dpkg-deb dpkg dpkg-parsechangelog && deb=1
    ./release ${deb:+--deb} "$version" "$out/one" >"$out/log" 2>&1 || { cat "$out/log"; fail "release"; exit 1; }
    of_archive
    [ -z "$deb" ] || of_packages
fi
exit "$failed"
