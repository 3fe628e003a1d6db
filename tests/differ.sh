#!/usr/bin/env bash
# Holds the driver, a program over the calls in C (tests/c/drive.c), against the model: a second program of document 01, in another
# language, written from the paper alone (tests/model). Both answer the same random scripts, and every line of the answers must agree.
# Before that the model's own tests are run, the driver's stored script, and the stored listing of ranges (tests/c/list_ranges.c). The
# last line has the counts: each test of the model and each script is one.
# Last the program explain: what it sums up of random streams of either edition is what the model counts by its own parting and grammar.
# usage: tests/differ.sh [SCRIPTS [CALLS]]     (also by SCRIPTS= and CALLS=; 125 scripts of 2,000 calls if nothing is said)
set -u
cd "$(dirname "$0")/.." || exit 2
scripts=${1:-${SCRIPTS:-125}}
calls=${2:-${CALLS:-2000}}
passed=0 failed=0
count() { # PASSED FAILED
    passed=$((passed + $1)) failed=$((failed + $2))
}
finish() {
    echo "$passed passed, $failed failed"
    [ "$failed" -eq 0 ]
    exit
}
give_up() { # WHY
    echo "$1"
    count 0 1
    finish
}

command -v cargo >/dev/null || give_up "differ: cargo is missing, so the model can't be built"
rt=$(command -v rt) || give_up "differ: the Rattle kit is missing: its command rt is not on the PATH"
work=$(mktemp -d) || exit 2
trap 'rm -rf "$work"' EXIT

export CARGO_TARGET_DIR=$PWD/target/model
model=target/model/release/tests
cargo build --release --offline --manifest-path tests/model/Cargo.toml || give_up "differ: the model was not built"
cargo test --release --offline --manifest-path tests/model/Cargo.toml 2>&1 | tee "$work/log"
if [[ $(grep '^test result:' "$work/log") =~ ([0-9]+)\ passed\;\ ([0-9]+)\ failed ]]; then
    count "${BASH_REMATCH[1]}" "${BASH_REMATCH[2]}"
else
    give_up "differ: the model's own tests did not run"
fi

# Programs run under the kit's own loader and C library, as ./run does it.
tools=$(dirname "$(dirname "$(readlink -f "$rt")")")/toolchain
program=("$tools/lib/ld-linux-x86-64.so.2" --library-path "$tools/lib")

same() { # TEST EXPECTED COMMAND...: what the command writes is byte for byte what the file EXPECTED has, and its status is 0
    local test=$1 expected=$2
    shift 2
    if "$@" >"$work/got" 2>"$work/err" && cmp -s "$expected" "$work/got"; then
        count 1 0
    else
        count 0 1
        echo "differ: $test"
        diff "$expected" "$work/got" | cut -c 1-200 | head -n 20
        head -n 20 "$work/err"
    fi
}
stored() { # FOLDER WORDS...: the programs in that folder, started by these words, write what is stored
    local folder=$1
    shift
    same "the stored script, by its name" tests/c/drive.stdout "$@" "$folder/drive" tests/c/drive.script
    same "the stored script, without its last line feed" tests/c/drive.stdout "$@" "$folder/drive" < <(printf '%s' "$(<tests/c/drive.script)")
    same "the stored listing of ranges" tests/c/list_ranges.stdout "$@" "$folder/list_ranges"
}
compare() { # FROM TO WORDS...: scripts of these seeds
    local from=$1 to=$2
    shift 2
    "$model" compare "$@" --seeds "$from..$to" --calls "$calls" 2>&1 | tee "$work/log"
    if [[ $(tail -n 1 "$work/log") =~ ^([0-9]+)\ passed,\ ([0-9]+)\ failed$ ]]; then
        count "${BASH_REMATCH[1]}" "${BASH_REMATCH[2]}"
    else
        give_up "differ: the comparison did not end"
    fi
}

for name in drive list_ranges; do
    CFLAGS='-pedantic -Werror' ./c-build tests/c/$name.c -o target/$name || give_up "differ: tests/c/$name.c was not built"
done
stored target "${program[@]}"
compare 0 "$scripts" "${program[@]}" target/drive

# Where the system's compiler has sanitizers, both programs and the door behind them are compiled once more, with these: a place beside what
# is lent, or what C leaves undefined, then ends them. Other scripts are tried, a fifth as many.
checked=('-fsanitize=address,undefined' -fno-sanitize-recover=all -g)
has_sanitizers() {
    echo 'int main(void) { return 0; }' >"$work/empty.c"
    [ "$(uname -m)" = x86_64 ] && cc "${checked[@]}" "$work/empty.c" -o "$work/empty" && "$work/empty"
} >"$work/log" 2>&1
if has_sanitizers; then
    for name in drive list_ranges; do
        CFLAGS="${checked[*]}" ./c-build --cc cc tests/c/$name.c door/handset.c -o "$work/$name" ||
            give_up "differ: tests/c/$name.c was not built with sanitizers"
    done
    stored "$work"
    compare "$scripts" $((scripts + (scripts + 4) / 5)) "$work/drive"
fi

# Streams of all kinds, for each edition: the bytes of the stream calls of a random script, one after the other.
[ -f target/bin/explain ] || ./run explain /dev/null >/dev/null || give_up "differ: explain was not built"
counted() { # STREAM [--sister]: the last line of explain, put together from the model's lists; refused frames are the sister's alone
    "$model" parts <"$1" >"$work/parts"
    "$model" verdicts ${2:+"$2"} <"$1" >"$work/verdicts"
    local kind text skipped closed abandoned obeyed over refused bad tail
    for kind in text skipped closed abandoned; do declare "$kind=$(grep -c " $kind " "$work/parts")"; done
    obeyed=$(grep -c ' obeyed$' "$work/verdicts") over=$(grep -c ' passed over ' "$work/verdicts") bad=$(grep -c ' bad$' "$work/verdicts")
    refused=$(grep -c ' refused$' "$work/verdicts")
    tail=$(sed -n 's/^\([0-9]*\) tail .*/tail at \1/p' "$work/parts")
    echo "text bytes $text, skipped bytes $skipped, closed frames $closed (obeyed $obeyed, passed over $over,${2:+ refused $refused,} bad $bad)," \
        "abandoned frames $abandoned, answers $("$model" list ${2:+"$2"} <"$1" | sed -n 's/^REPLIES //p'), ${tail:-no tail}"
}
explained() { # SEED KINDS [--sister]
    "$model" make "$1" 60 "$2" | sed -n 's/^F ....//p' | tr -d '\n' | while IFS= read -r -n 2 byte; do printf "\\x$byte"; done >"$work/stream"
    told=$("${program[@]}" target/bin/explain ${3:+"$3"} <"$work/stream" | tail -n 1 | sed 's/^ *[0-9]*  end      //')
    if [ "$told" = "$(counted "$work/stream" ${3:+"$3"})" ]; then
        count 1 0
    else
        count 0 1
        echo "explain ${3:-} differs on the stream of seed $1: $told"
        counted "$work/stream" ${3:+"$3"}
    fi
}
for ((seed = 0; seed < 40; seed++)); do
    explained $seed F
    explained $seed ZF --sister
done
finish
