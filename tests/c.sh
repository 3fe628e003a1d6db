#!/usr/bin/env bash
# Holds include/handset.h, door/handset.c and crates/handset_c together, and tries the archive from C: c-build's words, the listing and the
# places of every field, what each call does, the examples, and streams cut by chance. A line for each test; the last line has the counts.
#
# Header and door on one side and the crate on the other could part in what they say, and in where a field lies. So there are three tests.
#   1. Both sides are turned into one listing, of every field of every struct that crosses and of every proved call, and the two must be
#      the same. A field that is added, removed, renamed, exchanged with its neighbour or given another type or length in one of them
#      alone makes them differ; so does a call's parameter or result. Header and door are compared call by call in the same way.
#   2. Where a field lies is asked of both compilers. For C it is offsetof and sizeof. For Rattle a crate is made from the very
#      structs, with a function for each field that hands back what it finds there; it is proved and built like any other, and C hands it
#      an image in which each byte tells its place (tests/c/where.c). So neither side's rule of layout is taken on trust.
#   3. The archive itself is tried (tests/c/calls.c): every frame or call that sets a field must change the places that the header gives
#      it, and no other, and no place may be left that nothing has set; a refused call must change nothing. So a door that hands on or
#      stores the wrong thing is found, and an archive of another edition as well.
# usage: tests/c.sh [STREAMS]      (so many streams by chance; 60 if nothing is said)
# ARCHIVE=FILE.a has that archive tried, and none built.
set -u
cd "$(dirname "$0")/.." || exit 2
streams=${1:-60}
work=$(mktemp -d) || exit 2
trap 'rm -rf "$work"' EXIT
export LC_ALL=C
# the record's first, which has the names of sizes and arrays
sources="crates/record/src/lib.rt $(grep -lE '^#\[(repr\(C\)|unsafe\(no_mangle\))\]' crates/*/src/lib.rt | grep -v '^crates/record/')"

# A test may end in a part of a pipe, so its verdict goes to a file.
verdict() { # ok|FAILED TEST
    printf '%-6s %s\n' "$1" "$2" | tee -a "$work/verdicts"
}
same() { # TEST EXPECTED: standard input is byte for byte what the file EXPECTED has
    local got
    got=$(mktemp -p "$work") && cat >"$got"
    if cmp -s "$2" "$got"; then verdict ok "$1"; else verdict FAILED "$1"; diff "$2" "$got" | head -n 20; fi
}
succeeds() { # TEST COMMAND...
    local test=$1
    shift
    if "$@" >"$work/said" 2>&1; then verdict ok "$test"; else verdict FAILED "$test"; head -n 20 "$work/said"; return 1; fi
}
ends() { # TEST STATUS TEXT COMMAND...: a command's status, and the last line that it says on standard error
    local test=$1 status=$2 text=$3 got
    shift 3
    "$@" >"$work/out" 2>"$work/err"
    got=$?
    printf '%s [%s]\n' "$text" "$status" >"$work/text"
    printf '%s [%s]\n' "$(tail -n 1 "$work/err")" "$got" | same "$test" "$work/text"
}
finish() {
    local passed failed
    passed=$(grep -c '^ok' "$work/verdicts")
    failed=$(grep -c '^FAILED' "$work/verdicts")
    echo "$passed passed, $failed failed"
    [ "$failed" -eq 0 ]
    exit
}

rt=$(command -v rt) || { verdict FAILED 'the Rattle kit is missing: its command rt is not on the PATH'; finish; }
rt=$(readlink -f "$rt")
tools=$(dirname "$(dirname "$rt")")/toolchain
program() { # FILE [WORDS...]: under the kit's own loader and C library, as ./run does it
    "$tools/lib/ld-linux-x86-64.so.2" --library-path "$tools/lib" "$@"
}

# ./c-build: its own words
ends "./c-build --help has status 0 and complains of nothing" 0 '' ./c-build --help
head -n 1 "$work/out" >"$work/first"
echo 'usage: ./c-build [--target NAME] [--cc COMPILER] [--archive FILE.a] FILE.c... [FILE.ld] -o PROGRAM' | same "./c-build --help has the usage" "$work/first"
ends "./c-build with an unknown option" 2 'c-build: this word is not taken: --no_such_option' ./c-build --no_such_option
ends "./c-build with a word that is no C file" 2 'c-build: this word is not taken: a.o' ./c-build a.o -o "$work/x"
ends "./c-build without -o" 2 'c-build: a C file and -o PROGRAM are wanted' ./c-build a.c
ends "./c-build -o without a word" 2 'c-build: a word is wanted behind -o' ./c-build a.c -o
ends "./c-build with an archive that is missing" 2 "c-build: there is no archive $work/no.a" \
    ./c-build --archive "$work/no.a" tests/c/calls.c -o "$work/x"
ends "./c-build with a compiler that is missing" 2 'c-build: the compiler no_such_compiler is missing' \
    ./c-build --cc no_such_compiler --archive tests/c.sh tests/c/calls.c -o "$work/x"
ends "./c-build with a file that is missing" 2 'c-build: there is no file no_such_file.c' \
    ./c-build --archive tests/c.sh no_such_file.c -o "$work/x"
mkdir "$work/no_kit"
for tool in sh dirname readlink; do ln -s "$(command -v $tool)" "$work/no_kit/$tool"; done
ends "./c-build without the kit" 2 'c-build: the Rattle kit is missing: its command rt is not on the PATH' \
    env PATH="$work/no_kit" ./c-build tests/c/calls.c -o "$work/x"

# 1. what header, door and crate say
awk -f tests/c/header.awk include/handset.h door/handset.c | sort >"$work/c_says"
# shellcheck disable=SC2086
awk -f tests/c/rattle.awk $sources | sort >"$work/crate_says"
grep -E '^[^(]* handset_[a-z_]+\(.*;$' "$work/c_says" >"$work/declared"
names() { # PREFIX [PARAMETERS]: the declared calls with that prefix whose parameters begin so
    sed -n "s/^[^(]* $1\([a-z_]*\)(${2:-}.*;\$/\1/p" "$work/c_says" | sort
}
grep -Ev '\{$| handset_[a-z_]+\(' "$work/c_says" | same "header and door have the structs and proved calls of the crate" "$work/crate_says"
sed -n 's/ {$/;/p' "$work/c_says" | same "the door defines every call as the header declares it" "$work/declared"
names proved_ >"$work/text"
names handset_ | grep -vx interface | same "each call of the header has a proved one, and each proved one has its own" "$work/text"
# shellcheck disable=SC2086
cat $sources | grep -c '^pub extern "C" fn ' >"$work/text"
grep -c ');$' "$work/crate_says" | same "every call of the crate was listed" "$work/text"
echo many >"$work/text"
awk '!/\(/ { fields++ } END { print (fields > 80 ? "many" : "few") }' "$work/crate_says" | same "the fields were listed" "$work/text"
for call in $(names handset_); do grep -qw "handset_$call" tests/c/calls.c || echo "$call"; done |
    same "tests/c/calls.c tries every call" /dev/null
for call in $(names handset_ '\(const \)*struct handset \*h' | grep -v 'power_on'); do
    grep -q "REFUSES(!*handset_$call(" tests/c/calls.c || echo "$call"
done | same "and every one that takes a record, with one that is out of range" /dev/null

# the header by itself: it has no warnings, and a program that ignores what a call hands back has one for each call
awk 'BEGIN { print "#include \"handset.h\"\nvoid ignore(void);\nvoid ignore(void)\n{" }
    { places = /\(void\)/ ? "" : "0"; for (k = gsub(/,/, ""); k > 0; k--) places = places ", 0"; sub(/\(.*/, ""); print $NF "(" places ");" }
    END { print "}" }' "$work/declared" >"$work/ignoring"
grep -vc '^void' "$work/declared" >"$work/results"
alone() { # WHOSE LANGUAGE STANDARD COMPILER-WORDS...
    local whose=$1 language=$2 standard=$3
    shift 3
    succeeds "the header as $standard, $whose" "$@" -x "$language" -std="$standard" -Wall -Wextra -Werror -pedantic -fsyntax-only \
        include/handset.h
    "$@" -x "$language" -std="$standard" -I include -c "$work/ignoring" -o /dev/null 2>&1 | grep -c '\[-Wunused-result\]' |
        same "a warning for each result that is ignored in $standard, $whose" "$work/results"
}
kit_clang=("$tools/bin/clang" --target=x86_64-unknown-linux-gnu --no-default-config -nostdinc -isystem include/kit)
for standard in c99 c11 c++98 c++17 c++20; do
    case $standard in c++*) language=c++ system=c++ ;; *) language=c system=cc ;; esac
    alone "by the kit's clang" $language $standard "${kit_clang[@]}"
    if command -v $system >/dev/null; then alone "by the system's $system" $language $standard $system; fi
done
succeeds "the door as c99, by the kit's clang" "${kit_clang[@]}" -std=c99 -Wall -Wextra -Werror -pedantic -I include -fsyntax-only \
    door/handset.c

# 2. where each field lies
mkdir -p "$work/layout/crates/layout/src"
echo 'layout staticlib:' >"$work/layout/crates.txt"
# shellcheck disable=SC2086
awk -v crate=1 -f tests/c/rattle.awk $sources >"$work/layout/crates/layout/src/lib.rt"
# shellcheck disable=SC2086
awk -v asking=1 -f tests/c/rattle.awk $sources >"$work/asked_of_rattle.h"
awk -v asking=1 -f tests/c/header.awk include/handset.h door/handset.c >"$work/asked_of_c.h"
places() { # the two programs that tell where fields lie
    (cd "$work/layout/crates/layout" && rt lib) &&
        CFLAGS="-DASKED=\"$work/asked_of_rattle.h\"" ./c-build --archive "$work/layout/crates/layout/out/liblayout.a" tests/c/where.c \
            -o "$work/where_in_rattle" &&
        CFLAGS="-DHEADER -DASKED=\"$work/asked_of_c.h\"" ./c-build --archive "$work/layout/crates/layout/out/liblayout.a" tests/c/where.c \
            -o "$work/where_in_c"
}
if succeeds "both compilers can be asked where a field lies" places; then
    program "$work/where_in_rattle" | sort >"$work/rattle_places"
    program "$work/where_in_c" | sort | same "each field lies at the same place for both, each struct has the same size" "$work/rattle_places"
fi

# the archive
archive=${ARCHIVE:-target/staticlib/libhandset.a}
[ -n "${ARCHIVE:-}" ] || succeeds "./c-build builds the archive" ./c-build || finish
built() { # NAME CFLAGS FILE.c...
    local name=$1 flags=$2
    shift 2
    CFLAGS=$flags succeeds "$* is compiled and linked" ./c-build --archive "$archive" "$@" -o "$work/$name"
}

# It asks nothing of C but these three, and has nothing that is written to: else the linker, which is given only them, refuses.
cat >"$work/bare.c" <<'C'
void *memcpy(void *to, const void *from, unsigned long count) { return count ? to : (void *)from; }
void *memmove(void *to, const void *from, unsigned long count) { return count ? to : (void *)from; }
void *memset(void *to, int code, unsigned long count) { return count + (unsigned long)code ? to : 0; }
C
cat >"$work/bare.ld" <<'LD'
SECTIONS {
  .text : { *(.text .text.*) }
  .rodata : { *(.rodata .rodata.*) }
  .written : { *(.data .data.* .bss .bss.* COMMON .tdata .tdata.* .tbss .tbss.* .init_array .init_array.*) }
}
ASSERT(SIZEOF(.written) == 0, "the archive has data that is written to")
LD
bare() {
    "${kit_clang[@]}" -O1 -ffreestanding -fno-builtin -c "$work/bare.c" -o "$work/bare.o" &&
        "$tools/bin/ld.lld" --no-undefined -T "$work/bare.ld" -e handset_feed --whole-archive "$archive" --no-whole-archive "$work/bare.o" \
            -o "$work/bare"
}
succeeds "the archive needs memcpy, memmove and memset alone, and has no data of its own" bare

# 3. what the archive does
awk -v flags=1 -f tests/c/header.awk include/handset.h >"$work/flags.h"
if built calls "-Werror -DFLAGS=\"$work/flags.h\"" tests/c/calls.c; then
    succeeds "the calls are tried to the end" program "$work/calls"
    tee -a "$work/verdicts" <"$work/said"
fi

# the examples, with the kit's tools and with the system's
example() { # NAME FILE.c...
    local name=$1
    shift
    built "$name" -Werror "$@" && program "$work/$name" | same "examples/$name writes what is stored" "examples/$name/stdout"
    [ "$(uname -m)" = x86_64 ] && command -v cc >/dev/null || return
    CFLAGS=-Werror succeeds "examples/$name with the system's cc" ./c-build --cc cc --archive "$archive" "$@" -o "$work/$name.cc" &&
        "$work/$name.cc" | same "examples/$name with the system's cc writes the same" "examples/$name/stdout"
}
example firmware examples/firmware/loop.c examples/firmware/linux.c
example collector examples/collector/main.c

# how deep the calls go: docs/C.md tells the figure
told=$(sed -n 's/.*[Oo]n x86-64 no call goes deeper than \([0-9,]*\) bytes.*/\1/p' docs/C.md | tr -d ,)
if built stack '' tests/c/stack.c; then
    program "$work/stack" >"$work/depths"
    names handset_ >"$work/text"
    sed 's/^handset_//; s/ .*//' "$work/depths" | sort | same "the depth of each call was measured" "$work/text"
    awk -v told="${told:-0}" '$2 > told { print }' "$work/depths" | same "no call goes deeper into the stack than docs/C.md says" /dev/null
fi

# A stream by chance: frames that are good, bad, out of range, unfinished or too long, text and stray bytes, as escapes of printf. The
# frames are those of an edition, as programs are told it: nothing, or --sister.
edition=''
make_stream() { # SEED
    awk -v seed="$1" -v sister="${edition:+1}" '
        function chance(limit) { return int(rand() * limit) }
        function octal(code) { return sprintf("\\%04o", code) }
        function number() { return chance(3) ? chance(20) : chance(1200) }
        function some(count, from, to,    text) {
            while (count-- > 0) text = text octal(from + chance(to - from + 1))
            return text
        }
        function frame(    kind) {
            kind = letters[1 + chance(letter_count)]
            if (kind == "ID") return "ID" modes[1 + chance(mode_count)]
            if (kind == "[") return "[" chance(6) ";" chance(18) "H"
            if (kind == "&H") return "&H" chance(6) ";" chance(18)
            if (kind == "IDM") return "IDM" chance(14)
            if (kind == "IT") return "IT" chance(60) ";" chance(60)
            if (kind == "IK1" || kind == "IK2") return kind some(chance(9), 32, 255)
            if (kind == "Gr") return "Gr" chance(8) ",y" 10 + chance(90) "0F" (chance(8) ? "z" : "")
            return kind (kind ~ /^I[A-Z]$/ && chance(9) ? number() : "")
        }
        BEGIN {
            srand(seed + 1) # 0 and 1 are the same seed to some
            both = "IT IK1 IK2 IK1 IK2 IK0 Gr IS IU IF IR IP IW IL IJ IM IB IE IA IZ IEE IEA IES IER IEe &D Q "
            first = "ID ID ID [ [ II IH IEr IDD IDE &C &# &V [K"
            hers = "IDM IDM IDM &H &H IN IV IEP IEQ IEc IEs IDMD IDME &C0 &C1 &K &00 &V? &H? KH? KP? IA? IA+ IA- IDM? IE? IN? IN+ IN- " \
                "IT? IV? IV+ IV- ID5"
            letter_count = split(both (sister ? hers : first), letters, " ")
            mode_count = split("0 1 5 6 10 11 12 13 14 15 16 17 18 2 19 00 D E", modes, " ")
            for (k = 0; k < 60; k++) {
                what = chance(20)
                if (what < 11) printf "%s", "\\0033" frame() "\\0015" (chance(2) ? "\\0012" : "")
                else if (what < 16) printf "%s", some(chance(12), 32, 126)
                else if (what == 16) printf "%s", some(chance(6), 0, 255)
                else if (what == 17) printf "%s", "\\0033" frame()
                else if (what == 18) printf "%s", "\\0033" (chance(5) ? "" : some(240 + chance(20), 33, 126))
                else printf "%s", "\\0015"
            }
        }'
}
list() { # STREAM SEED: the stream call by chance is to end as the program list_screen does
    program target/bin/list_screen ${edition:+"$edition"} "$1" >"$work/listed" 2>&1
    program "$work/feed" ${edition:+"$edition"} "$2" <"$1" >"$work/fed" 2>&1
    cmp -s "$work/listed" "$work/fed" || { echo "$1, cut by seed $2"; diff "$work/listed" "$work/fed"; return 1; }
}
examples() {
    local stream seed
    for stream in examples/*.stream; do
        for seed in 1 2 3 4 5; do list "$stream" $seed || return 1; done
    done
}
chosen() {
    local seed
    for ((seed = 0; seed < streams; seed++)); do
        printf '%b' "$(make_stream $seed)" >"$work/stream"
        list "$work/stream" $seed || return 1
    done
}
answered() { # some of the streams are answered, or they would show little
    local seed
    for ((seed = 0; seed < 5; seed++)); do
        printf '%b' "$(make_stream $seed)" >"$work/stream"
        program "$work/feed" ${edition:+"$edition"} $seed <"$work/stream" | head -n 1
    done | grep -qv 'REPLIES 0'
}
if built feed -Werror tests/c/feed.c; then
    [ -f target/bin/list_screen ] || succeeds "list_screen is built" ./run list_screen /dev/null
    succeeds "the examples' streams, cut by chance, are listed as list_screen lists them" examples
    succeeds "$streams streams by chance, cut by chance, are listed as list_screen lists them" chosen
    succeeds "streams by chance are answered" answered
    edition=--sister
    succeeds "$streams of the sister's, cut by chance, are listed as list_screen lists them" chosen
    succeeds "the sister's are answered" answered
fi
finish
