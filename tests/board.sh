#!/usr/bin/env bash
# Runs examples/firmware as a board does: built for a Cortex-M3 by ./c-build, without a C library, in an emulator of the board. The cord
# is its first line; on the second, the service line, it tells its screen, the rows on its glass and what it complains of
# (examples/firmware/mps2.c). Streams come in pieces by chance, with pauses, and in bursts; the screen is held against the program
# list_screen, and answers and rows against the archive of this machine (tests/board/expected.c). Then keys by the board's own clock,
# the hook, a record that is spoilt, and the stack. Last other programs run on the board (tests/board/instead.c): one that lends things
# at all places, and those with which tests/c.sh tries and measures the calls here. A line for each test; the last line has the counts.
# Without the emulator, qemu-system-arm, nothing is tried and nothing counted.
# usage: tests/board.sh [STREAMS]      (so many streams by chance; 12 if nothing is said)
# ARCHIVES=FOLDER has the archives of that folder tried, laid out as target/staticlib is, and none built.
set -u
cd "$(dirname "$0")/.." || exit 2
streams=${1:-12}
patience=60 # seconds: as long as anything may take that takes none
command -v qemu-system-arm >/dev/null || {
    echo 'board: there is no qemu-system-arm here, so the firmware was not tried on a board'
    echo '0 passed, 0 failed'
    exit 0
}
export LC_ALL=C
work=$(mktemp -d) || exit 2
board=''
stop() {
    [ -n "$board" ] || return 0
    kill "$board"
    wait "$board" 2>/dev/null
    board=''
}
clean() { # not in a child that is ended before it became the emulator
    [ "$BASHPID" = $$ ] || return
    stop
    rm -rf "$work"
}
trap clean EXIT
trap 'exit 130' INT
trap 'exit 143' TERM HUP

# A test may end in a part of a pipe, so its verdict goes to a file.
verdict() { # ok|FAILED TEST
    printf '%-6s %s\n' "$1" "$2" | tee -a "$work/verdicts"
}
succeeds() { # TEST COMMAND...: a board that is silent is asked no more
    local test=$1
    shift
    if "$@" >"$work/said" 2>&1; then verdict ok "$test"; return; fi
    verdict FAILED "$test"
    head -n 20 "$work/said"
    [ ! -f "$work/silent" ] || finish
    return 1
}
finish() {
    local passed failed
    passed=$(grep -c '^ok' "$work/verdicts")
    failed=$(grep -vc '^ok' "$work/verdicts")
    echo "$passed passed, $failed failed"
    [ "$failed" -eq 0 ]
    exit
}

rt=$(command -v rt) || { verdict FAILED 'the Rattle kit is missing: its command rt is not on the PATH'; finish; }
rt=$(readlink -f "$rt")
tools=$(dirname "$(dirname "$rt")")/toolchain
program() { # FILE [WORDS...]: under the kit's own loader and C library, as ./run does it
    "$tools/lib/ld-linux-x86-64.so.2" --library-path "$tools/lib" "$@"
}

# ---- The board ----

mkfifo "$work/cord" "$work/service.in" "$work/service.out" || exit 2
exec 3<>"$work/cord" 4<>"$work/service.in" 5<>"$work/service.out"
start() { # FIRMWARE
    : >"$work/cord.out" # what the one before has said is over
    timeout 900 qemu-system-arm -M mps2-an385 -display none -monitor none -kernel "$1" -serial stdio -serial "pipe:$work/service" \
        <"$work/cord" >"$work/cord.out" 2>"$work/emulator" 3>&- 4>&- 5>&- &
    board=$!
    sent=0
}
within() { # COMMAND...: tries it again and again until it succeeds
    local end=$((SECONDS + patience))
    until "$@"; do
        [ $SECONDS -lt $end ] && [ ! -f "$work/silent" ] && kill -0 "$board" 2>/dev/null || { : >"$work/silent"; return 1; }
        sleep 0.02
    done
}
ask() { # BYTES LINES: what the service line says to these bytes, as escapes of printf
    local line k
    printf '%b' "$1" >&4
    for ((k = 0; k < $2; k++)); do
        IFS= read -r -t "$patience" -u 5 line || { echo 'the board says nothing'; : >"$work/silent"; return 1; }
        printf '%s\n' "$line"
    done
}
has_used() { # COUNT
    [ "$(ask u 1)" = "USED $1" ]
}
power_on() { # and what the cord says from now on is that handset's
    ask pu 1 >/dev/null
    said_before=$(wc -c <"$work/cord.out")
}
said() { # what came down the cord since the power-on
    tail -c "+$((said_before + 1))" "$work/cord.out"
}
says() { # BYTES, as escapes of printf: whether just these came down the cord
    said | cmp -s - <(printf '%b' "$1")
}
send() { # FILE: its bytes at once, or what the cord's buffer takes of them; the rest waits
    timeout "$patience" cat "$1" >&3
    sent=$((sent + $(wc -c <"$1")))
}
send_in_pieces() { # FILE: in pieces by chance, with pauses
    local left
    left=$(wc -c <"$1")
    sent=$((sent + left))
    while [ "$left" -gt 0 ]; do
        size=$((1 + RANDOM % 90))
        dd bs="$size" count=1 status=none <&6
        left=$((left - size))
        [ $((RANDOM % 4)) -gt 0 ] || sleep "0.0$((RANDOM % 4))"
    done 6<"$1" >&3
}

# ---- What it is to show ----

lists() { # STREAM: whether its screen is the one that list_screen lists
    program target/bin/list_screen "$1" >"$work/listed"
    ask s 12 >"$work/told"
    cmp -s "$work/listed" "$work/told" || { echo "the screen of $1:"; diff "$work/listed" "$work/told"; return 1; }
}
answers() { # STREAM
    program "$work/expected" answers <"$1" >"$work/answers"
    said | cmp - "$work/answers" || { echo "the answers to $1"; return 1; }
}
draws() { # the rows on its glass are those of either phase; they are drawn at a tick
    ask g 7 >"$work/glass"
    cmp -s "$work/glass" "$work/lit" || cmp -s "$work/glass" "$work/pause"
}
shows() { # STREAM
    program "$work/expected" lit <"$1" >"$work/lit"
    program "$work/expected" pause <"$1" >"$work/pause"
    within draws || { echo "the rows of $1:"; diff "$work/lit" "$work/glass"; return 1; }
}
takes() { # SEND STREAM
    power_on
    "$1" "$2"
    within has_used "$sent" || { echo "$2 was not used to its end: $(ask u 1) of $sent"; return 1; }
    lists "$2" && answers "$2" && shows "$2"
}

# Streams by chance: slices of the examples and of some frames that they have not, some bytes of them by chance.
pool() {
    cat examples/*.stream
    printf '\033&V\r\033IA\r\033IH\r\033IP0001\r\033IP20\r\033IK1ABCDEFGH\r\033IU255\r\033IS1\r\033IL7\r\n\033IZ3\r'
    printf '\033ID10\rLarge 123456\033ID14\r\033%0260d\r' 0
}
make_stream() { # SEED
    pool | od -An -v -tu1 | awk -v seed="$1" '
        function chance(limit) { return int(rand() * limit) }
        { for (k = 1; k <= NF; k++) codes[count++] = $k }
        END {
            srand(seed + 1) # 0 and 1 are the same seed to some
            for (slice = 0; slice < 40; slice++) {
                from = chance(count)
                to = from + chance(chance(5) ? 40 : 300)
                for (k = from; k < to; k++) printf "\\0%03o", chance(80) ? codes[k % count] : chance(256)
            }
        }'
}

# ---- The firmware ----

build_here() { # WORDS...
    ./c-build ${ARCHIVES:+--archive "$ARCHIVES/libhandset.a"} "$@"
}
build_for_board() { # WORDS...
    ./c-build --target cortex-m3 ${ARCHIVES:+--archive "$ARCHIVES/cortex-m3/libhandset.a"} "$@"
}
export CFLAGS='-pedantic -Werror'
succeeds "the firmware is built for the board" \
    build_for_board examples/firmware/loop.c examples/firmware/mps2.c examples/firmware/mps2.ld -o "$work/firmware.elf" || finish
succeeds "tests/board/expected.c is built for this machine" build_here tests/board/expected.c -o "$work/expected" || finish
[ -f target/bin/list_screen ] || succeeds "list_screen is built" ./run list_screen /dev/null || finish

start "$work/firmware.elf"
succeeds "the board starts" within has_used 0 || { cat "$work/emulator"; finish; }
RANDOM=1
for stream in examples/*.stream; do succeeds "$stream in pieces" takes send_in_pieces "$stream"; done
by_chance() {
    local seed
    for ((seed = 0; seed < streams; seed++)); do
        printf '%b' "$(make_stream "$seed")" >"$work/stream"
        takes send_in_pieces "$work/stream" || { echo "the stream of seed $seed"; return 1; }
    done
}
succeeds "$streams streams by chance in pieces" by_chance

# More than the ring has room for, at once: the line is held, and no byte lost.
for ((seed = 0; seed < 8; seed++)); do printf '%b' "$(make_stream "$seed")"; done >"$work/burst"
succeeds "a burst of $(wc -c <"$work/burst") bytes" takes send "$work/burst"

# the worst day: a label comes in two halves, with a pause between
halves() {
    printf '\033ID0\r\033IK1Ke' >"$work/first"
    printf 'ep\r\033IK2Skip\r' >"$work/second"
    cat "$work/first" "$work/second" >"$work/stream"
    takes send "$work/first" || return 1
    sleep 0.5
    send "$work/second"
    within has_used "$sent" && lists "$work/stream" && answers "$work/stream" && shows "$work/stream"
}
succeeds "a label in two halves" halves

# The keys by the board's own clock: the left soft key pressed and released, the right one held until its long code comes. With the first
# code two ticks have passed, so the hook was looked at.
keys() {
    power_on
    ask 'h\0000\0200' 0 && within says 'L' && printf '\033IH\r' >"$work/stream" && send "$work/stream" && within says 'L\0033IHh\r' &&
        ask '\0001' 0 && within says 'L\0033IHh\r\0322' && ask '\0201H' 0 && sleep 0.2 && says 'L\0033IHh\r\0322'
}
succeeds "short and long keys, and the hook" keys || said | od -c

# a mistake of the port's own is told, and a spoilt record powered on anew; both are no end
refuses() { # BYTE TEXT
    ask "$1" 1 >"$work/told"
    [ "$(cat "$work/told")" = "$2" ] || { cat "$work/told"; return 1; }
}
goes_on() { # STREAM: from a power-on of the loop's own
    : >"$work/nothing"
    lists "$work/nothing" || return 1
    send "$1"
    within has_used "$sent" && lists "$1" && answers "$1" && shows "$1"
}
power_on
succeeds "an edge that is not listed is told" refuses '\0023' 'refused 4, nothing was done'
send examples/menu.stream
within has_used "$sent"
power_on
succeeds "a spoilt record is told" refuses x 'refused 1, powered on anew'
succeeds "and the board goes on" goes_on examples/menu.stream

# how deep the whole firmware went in all this, of what mps2.ld gives it
depth=$(ask d 1)
given=$(sed -n 's/.*stack_end = .*+= \([0-9]*\)K.*/\1/p' examples/firmware/mps2.ld)
succeeds "the stack was enough: $depth of $((given * 1024))" [ "${depth#STACK }" -lt $((given * 1024)) ]
succeeds "the board complained of nothing else" [ "$(ask u 1)" = "USED $sent" ]
stop

# ---- Other programs on the board ----

# They get all of the board's memory.
sed -e 's/LENGTH = [0-9]*K/LENGTH = 4M/' -e 's/+= [0-9]*K/+= 64K/' examples/firmware/mps2.ld >"$work/large.ld"
has_ended() {
    grep -aq '^ended with ' "$work/cord.out"
}
on_board() { # FILE.c: leaves in board.out what the program writes on the board
    build_for_board examples/firmware/mps2.c tests/board/instead.c "$1" "$work/large.ld" -o "$work/program.elf" || return 1
    start "$work/program.elf"
    within has_ended
    stop
    grep -av '^ended with ' "$work/cord.out" >"$work/board.out"
    has_ended
}
as_here() { # FILE.c: a program of tests finds on the board what it finds here, and no fault
    on_board "$1" && build_here "$1" -o "$work/program" || return 1
    ! grep -av '^ok' "$work/board.out" && program "$work/program" | cmp - "$work/board.out"
}
succeeds "what is lent to the board may lie at any place" as_here tests/board/places.c
awk -v flags=1 -f tests/c/header.awk include/handset.h >"$work/flags.h"
CFLAGS=-DFLAGS=\"$work/flags.h\"
succeeds "tests/c/calls.c finds on the board what it finds here" as_here tests/c/calls.c

told=$(sed -n 's/.*on a Cortex-M3 no call goes deeper than \([0-9,]*\) bytes.*/\1/p' docs/C.md | tr -d ,)
depths() {
    on_board tests/c/stack.c && grep -q '^handset_feed ' "$work/board.out" || return 1
    ! awk -v told="${told:-0}" '$2 > told' "$work/board.out" | grep .
}
succeeds "on the board no call goes deeper into the stack than docs/C.md says" depths
finish
