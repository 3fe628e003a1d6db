#!/usr/bin/env bash
# Tries of the programs what a stored input can't: their words, input that comes in pieces or fails, answers by the thousand,
# standard error, the status of ./run and the places that it runs in, and pipes from one program to the next. A line for each
# test; the last line has the counts.
set -u
cd "$(dirname "$0")/.." || exit 2
work=$(mktemp -d) || exit 2
trap 'chmod -R u+w "$work"; rm -rf "$work"' EXIT

# A test may end in a part of a pipe, so its verdict goes to a file.
verdict() { # ok|FAILED TEST
    printf '%-6s %s\n' "$1" "$2" | tee -a "$work/verdicts"
}
same() { # TEST EXPECTED: standard input is byte for byte what the file EXPECTED has
    local got
    got=$(mktemp -p "$work") && cat >"$got"
    if cmp -s "$2" "$got"; then verdict ok "$1"; else verdict FAILED "$1"; diff <(cat -v "$2") <(cat -v "$got") | head -n 20; fi
}
says() { # TEST TEXT: standard input is this text, apart from line feeds at its end
    printf '%s' "$2" >"$work/text"
    printf '%s' "$(cat)" | same "$1" "$work/text"
}

# The built programs, called as ./run calls them but without the look whether they are up to date.
rt=$(readlink -f "$(command -v rt)")
tools=$(dirname "$(dirname "$rt")")/toolchain
program() { # NAME [WORDS...]
    local name=$1
    shift
    "$tools/lib/ld-linux-x86-64.so.2" --library-path "$tools/lib" "target/bin/$name" "$@"
}

stream=examples/meter.stream
length=$(wc -c <$stream)

# ./run: its own words
names=$(cd crates && printf '%s\n' */src/main.rt | cut -d / -f 1)
for name in $names; do [ -f "target/bin/$name" ] || ./run "$name" </dev/null >/dev/null 2>&1; done
readers='check_choice count_room explain list_screen show_screen write_frame'
without_progress() { # what was said on standard error, but for how far the proofs are, which a slow machine is told
    grep -Ev '^run: (proving|waiting)' "$work/err"
}
ends() { # TEST STATUS ERROR COMMAND...: a command's status and what it says on standard error; its output is left in out
    local test=$1 status=$2 error=$3 got
    shift 3
    "$@" >"$work/out" 2>"$work/err"
    got=$?
    echo "$(without_progress) [$got]" | says "$test" "$error [$status]"
}
silent() { # TEST: and nothing was written
    says "$1" '' <"$work/out"
}
./run >"$work/out" 2>"$work/err"
echo $? | says "./run with no name has status 2" 2
head -n 1 "$work/err" | says "./run with no name says how to use it" "usage: ./run NAME [WORDS...]"
silent "./run with no name writes nothing"
ends "./run --help has status 0 and complains of nothing" 0 '' ./run --help
head -n 1 "$work/out" | says "./run --help begins with the usage" "usage: ./run NAME [WORDS...]"
sed -n 's/^  \.\/run \([a-z_]*\).*/\1/p' "$work/out" | says "./run --help lists the programs" "$names"
ends "./run with an unknown name" 2 "run: there is no program 'no_such_program'; the programs are: $(echo $names)" ./run no_such_program
ends "./run with a path for a name" 2 "run: there is no program 'jetty/'; the programs are: $(echo $names)" ./run jetty/
ends "./run --help on a full device" 1 '' sh -c './run --help 2>/dev/null >/dev/full'
mkdir "$work/no_kit"
for tool in sh dirname readlink sed grep; do ln -s "$(command -v $tool)" "$work/no_kit/$tool"; done
ends "./run without the kit" 2 "run: the Rattle kit is missing: its command rt is not on the PATH" env PATH="$work/no_kit" ./run jetty
ends "./run --help without the kit" 0 '' env PATH="$work/no_kit" ./run jetty --help

# words of the programs
for name in $names; do
    file=''
    case " $readers " in *" $name "*) file=' [FILE]' ;; esac
    case $name in list_screen | write_frame) file=" [--sister]$file" ;; esac
    [ $name != show_screen ] || file=" [--pause] [--sister]$file"
    [ $name != explain ] || file=" [--all] [--sister]$file"
    [ $name != walk_frame ] || file=' [--table] [FRAME]'
    ends "./run $name --help has status 0 and complains of nothing" 0 '' ./run $name --help
    head -n 1 "$work/out" | says "./run $name --help begins with its usage" "usage: ./run $name$file"
    program $name --help </dev/null | same "./run $name --help is what the program itself says" "$work/out"
    for words in 'one two' '--no_such_option' '-' '-h' '--'; do
        refused=$words
        [ "$words" != 'one two' ] || { refused=two; [ -n "$file" ] || refused=one; }
        ends "./run $name $words: status 2, the usage and the word" 2 "usage: ./run $name$file
this word is not taken: $refused" ./run $name $words
        silent "./run $name $words writes nothing"
    done
    ends "./run $name with an empty word" 2 "usage: ./run $name$file
this word is not taken: " ./run $name ''
done

# an input by its name
ends "./run list_screen FILE" 0 '' ./run list_screen $stream
same "./run list_screen FILE prints the fields" crates/list_screen/stdout <"$work/out"
ends "./run show_screen FILE" 0 '' ./run show_screen crates/show_screen/stdin
same "./run show_screen FILE draws the screen" crates/show_screen/stdout <"$work/out"
ends "./run explain FILE" 0 '' ./run explain crates/explain/stdin
same "./run explain FILE tells the parts" crates/explain/stdout <"$work/out"
ends "./run count_room FILE" 0 '' ./run count_room crates/count_room/stdin
same "./run count_room FILE prints the room" crates/count_room/stdout <"$work/out"
ends "./run check_choice FILE" 0 '' ./run check_choice crates/check_choice/stdin
same "./run check_choice FILE prints the rule" crates/check_choice/stdout <"$work/out"
ends "./run write_frame FILE" 0 '' ./run write_frame examples/menu.words
same "./run write_frame FILE writes the frames" examples/menu.stream <"$work/out"
cp $stream "$work/a name with  blanks"
ends "./run list_screen, a name with blanks" 0 '' ./run list_screen "$work/a name with  blanks"
same "./run list_screen, a name with blanks: the fields" crates/list_screen/stdout <"$work/out"

# an input that can't be read, and an output that can't be written
for name in $readers; do
    ends "./run $name, a file that is missing" 1 "$name: no/such/file: No such file or directory" ./run $name no/such/file
    silent "./run $name, a file that is missing: nothing is written"
    ends "./run $name, a folder" 1 "$name: examples: Is a directory" ./run $name examples
    silent "./run $name, a folder: nothing is written"
    ends "./run $name, a folder on standard input" 1 "$name: standard input: Is a directory" ./run $name <examples
    silent "./run $name, a folder on standard input: nothing is written"
    ends "./run $name, standard input closed" 1 "$name: standard input: Bad file descriptor" ./run $name <&-
    silent "./run $name, standard input closed: nothing is written"
    ends "./run $name FILE, standard input closed" 0 '' ./run $name /dev/null <&-
done
for name in $names; do
    input=/dev/null
    [ ! -f crates/$name/stdin ] || input=crates/$name/stdin
    full() { ./run $name 2>&1 >/dev/full <$input | grep -E "^$name: standard"; }
    full | says "./run $name on a full device complains, once" "$name: standard output: No space left on device"
    ./run $name 2>/dev/null >/dev/full <$input
    echo $? | says "./run $name on a full device has status 1" 1
    ./run $name 2>"$work/err" >&- <$input
    echo $? | says "./run $name, standard output closed, has status 1" 1
    grep -E "^$name: standard" "$work/err" | says "./run $name, standard output closed, complains" "$name: standard output: Bad file descriptor"
done

# the status, and standard error as it comes
ends "./run write_frame, a line that can't be taken: status 1" 1 "write_frame: line 1: no such command; the line help lists them" \
    ./run write_frame < <(echo dance)
ends "./run list_screen, a bad frame is no complaint" 0 '' ./run list_screen < <(printf '\eQ\r')
./run list_screen $stream 2>&- >"$work/out"
echo $? | says "./run list_screen, standard error closed: status 0" 0
./run list_screen no/such/file 2>&- >"$work/out"
echo $? | says "./run list_screen, standard error closed and a file missing: status 1" 1
# Where this test was started with the signal ignored, the program learns of it from its write.
gone=141 complaint=''
[ -z "$(sh -c 'kill -PIPE $$; echo ignored')" ] || gone=1 complaint='show_screen: standard output: Broken pipe'
{
    sleep 0.5
    ./run show_screen examples/menu.stream 2>"$work/err"
    echo $? >"$work/status"
} | true
says "./run show_screen, nobody reads: no complaint" "$complaint" < <(without_progress)
says "./run show_screen, nobody reads: the signal's status" $gone <"$work/status"
./run show_screen examples/menu.stream 2>"$work/err" | head -n 1 >"$work/out"
says "./run show_screen | head -n 1: the line" "$(head -n 1 crates/show_screen/stdout)" <"$work/out"
mkfifo "$work/lines"
./run write_frame <"$work/lines" >"$work/out" 2>"$work/err" &
exec 8>"$work/lines"
echo dance >&8
for ((wait = 0; wait < 200; wait++)); do
    grep -q '^write_frame: line 1' "$work/err" && break
    sleep 0.1
done
grep -c '^write_frame: line 1' "$work/err" | says "./run write_frame complains while its input is still open" 1
exec 8>&-
wait

# ./run in other places: a fresh copy, in a path with a blank, of which a small program is proved from nothing. What rt keeps on this machine
# of the same sources serves every checkout, so the copy's record is another.
copy="$work/a fresh copy"
mkdir -p "$copy/crates/tiny/src"
tar -cf - --exclude=./target --exclude=./.git --exclude='./crates/*/out' . | tar -xf - -C "$copy"
echo 'tiny: record' >>"$copy/crates.txt"
echo '// The copy has its own.' >>"$copy/crates/record/src/lib.rt"
tiny() { # EXPRESSION: the program that is proved
    printf '#![tactic(auto)]\nuse std::io;\n\nfn main(rt: HostRuntime) -> io::Result<()> {\n    %s;\n    Ok(())\n}\n' "$1" \
        >"$copy/crates/tiny/src/main.rt"
}
tiny 'println!(rt; "tiny")?'
echo 'something else' >"$copy/crates/tiny/stdout"
"$copy/run" tiny >"$work/out" 2>"$work/err"
echo $? | says "a fresh copy, its path with blanks: status 0" 0
says "a fresh copy: the program runs, though its stored output differs" tiny <"$work/out"
grep -o 'proving record (crate 2 of 3)' "$work/err" | says "a fresh copy: what is being proved is said" 'proving record (crate 2 of 3)'
grep -c "what the program wrote is not what its file 'stdout' has" "$work/err" | says "a stored output that differs is told" 1
grep '^run: tiny' "$work/err" | says "a program whose stored output differs is not called unbuilt" \
    'run: tiny is proved and built, but its stored example failed; it runs all the same'
echo tiny >"$copy/crates/tiny/stdout"
ends "a stored output that is right again" 0 '' "$copy/run" tiny
"$copy/run" tiny >"$work/out" 2>"$work/err"
says "what is built starts without a word" '' <"$work/err"
ln -s "$copy/run" "$work/link"
ln -s link "$work/link to a link"
ends "./run through a symbolic link" 0 '' "$work/link to a link" tiny
says "./run through a symbolic link: the program runs" tiny <"$work/out"
tiny 'println!(rt; "tiny")?[3]'
"$copy/run" tiny >"$work/out" 2>"$work/err"
echo $? | says "a program that can't be built: status 1" 1
tail -n 1 "$work/err" | says "a program that can't be built is said not to be" 'run: tiny was not built'

# A checkout that is built and can't be written. To root all can be written, so there it is tried as nobody.
rm -rf "$copy/target/bin"
cp -R target/bin "$copy/target/bin"
chmod -R a-w "$copy"
chmod -R a+rX "$copy"
chmod a+x "$work"
as_other=''
[ "$(id -u)" != 0 ] || as_other='setpriv --reuid=65534 --regid=65534 --clear-groups --no-new-privs'
ends "a read-only checkout that is built" 0 '' $as_other "$copy/run" list_screen <$stream
same "a read-only checkout that is built: the program runs" crates/list_screen/stdout <"$work/out"
ends "a read-only checkout that is not built" 1 "run: tiny was not built, and $copy can't be written" $as_other "$copy/run" tiny

# the gate
mkdir "$work/no_cargo"
for tool in bash dirname rt; do ln -s "$(command -v $tool)" "$work/no_cargo/$tool"; done
(cd "$copy" && timeout 60 env PATH="$work/no_cargo" bash .ci/run) 2>&1 |
    says ".ci/run looks for cargo before it proves" "cargo is missing, with which tests/differ.sh builds its model
0 passed, 1 failed"

# what is stored
for name in list_screen write_frame show_screen count_room check_choice explain; do
    ./run $name <crates/$name/stdin 2>/dev/null | same "./run $name writes what is stored" crates/$name/stdout
done
./run jetty >"$work/jetty"
same "./run jetty writes what is stored" crates/jetty/stdout <"$work/jetty"
grep '^verdict' "$work/jetty" | says "the jetty has one verdict, and it is the good one" \
    "verdict: no cut shows a label other than the old or the new one, and every cut ends in the new one"

# list_screen: input in pieces
whole=crates/list_screen/stdout
good=0
for ((cut = 0; cut <= length; cut++)); do
    { head -c $cut $stream; sleep 0.1; tail -c +$((cut + 1)) $stream; } | program list_screen >"$work/cut"
    if cmp -s "$work/cut" $whole; then good=$((good + 1)); else echo "cut after $cut bytes:" && diff $whole "$work/cut"; fi
done
echo $good | says "list_screen: a pause at each of the $((length + 1)) places changes nothing" $((length + 1))
for ((at = 1; at <= length; at++)); do
    tail -c +$at $stream | head -c 1
    sleep 0.02
done | program list_screen | same "list_screen: one byte at a time changes nothing" $whole

# list_screen: more answers than its buffer holds
for count in 1 63 64 65 4095 100000; do
    yes $'\eQ\r' | head -n $count | tr -d '\n' | program list_screen | head -n 1 |
        says "list_screen: $count bad frames" "REPLIES $count"
done
printf '\eIA\r\e&V\r\eQ\r\eIH\r' | program list_screen | head -n 1 |
    says "list_screen: three questions and a bad frame are four answers, of any length" "REPLIES 4"
for count in 1 2 3 1000; do
    yes $'\e&V\r' | head -n $count | tr -d '\n' | program list_screen | head -n 1 |
        says "list_screen: the version asked $count times" "REPLIES $count"
done
head -c 50001 /dev/zero | tr '\0' '\033' | program list_screen | head -n 1 |
    says "list_screen: 50000 frames abandoned one after the other, the last still open" "REPLIES 50000"
{ yes $'\eQ\r' | head -n 5000 | tr -d '\n'; cat $stream; } | program list_screen | tail -n +2 |
    same "list_screen: a stream behind 5000 bad frames is heard to its end" <(tail -n +2 $whole)

# list_screen: nothing, and tails left open
cat >"$work/power_on" <<'FIELDS'
REPLIES 0
MODE 0 OVER 0 DISPLAY 1
CURSOR 0 0 0
TEXT 0 [                ]
TEXT 1 [                ]
TEXT 2 [                ]
TEXT 3 [                ]
TEXT 4 [                ]
LEFT []
RIGHT []
ICONS 0 0 0 0 0 0
VOLUME 0 0 0 0
FIELDS
program list_screen </dev/null | same "list_screen: empty input is the power-on record" "$work/power_on"
printf '\eIK1Keep' | program list_screen | same "list_screen: a frame left open changes nothing" "$work/power_on"
{ printf '\eIK1'; head -c 300 /dev/zero | tr '\0' 'x'; } | program list_screen |
    same "list_screen: an overlong frame left open has no answer yet" "$work/power_on"
{ cat $stream; printf '\eIK1Older'; } | program list_screen | same "list_screen: an open tail leaves what was heard before it" $whole

# list_screen --sister: her stream, her record, and the words in any order
cat >"$work/harbour" <<'FIELDS'
REPLIES 2
MODE 5 OVER 0 DISPLAY 1
CURSOR 1 4 12
TEXT 0 [Harbour office  ]
TEXT 1 [  Berth 7       ]
TEXT 2 [  Water 004711  ]
TEXT 3 [                ]
TEXT 4 [Read it now?    ]
LEFT [Read]
RIGHT [Later]
ICONS 1 255 0 0 0 0
VOLUME 0 0 0 0
FIELDS
hers=examples/harbour.stream
for words in "--sister $hers" "$hers --sister" "--sister --sister $hers" "--sister $hers --sister"; do
    ends "./run list_screen $words" 0 '' ./run list_screen $words </dev/null
    same "./run list_screen $words: the harbour's fields" "$work/harbour" <"$work/out"
done
for words in --sister '--sister --sister'; do
    ends "./run list_screen $words, from standard input" 0 '' ./run list_screen $words <$hers
    same "./run list_screen $words, from standard input: the harbour's fields" "$work/harbour" <"$work/out"
done
size=$(wc -c <$hers)
for ((at = 1; at <= size; at++)); do
    tail -c +$at $hers | head -c 1
    sleep 0.02
done | program list_screen --sister | same "list_screen --sister: one byte at a time changes nothing" "$work/harbour"
program list_screen --sister </dev/null | same "list_screen --sister: empty input is her power-on record" "$work/power_on"
for name in list_screen show_screen; do
    usage=$(program $name --help | head -n 1)
    for refused in --sisters --siste --sister=1 -sister --Sister; do
        ends "./run $name --sister $refused: the option does not hide the word" 2 "$usage
this word is not taken: $refused" ./run $name --sister $refused $hers
        silent "./run $name --sister $refused writes nothing"
    done
    ends "./run $name --sister, two files" 2 "$usage
this word is not taken: two" ./run $name one --sister two
    ends "./run $name --sister, a file that is missing" 1 "$name: no/such/file: No such file or directory" ./run $name --sister no/such/file
    silent "./run $name --sister, a file that is missing: nothing is written"
done
ends "./run list_screen --pause is another program's option" 2 "usage: ./run list_screen [--sister] [FILE]
this word is not taken: --pause" ./run list_screen --sister --pause

# list_screen --sister: each edition has its spellings, and those of the other are bad
sister() { # FRAME...: the fields after these frames of hers
    printf '\e%s\r' "$@" | program list_screen --sister
}
replies() { # TEST COUNT FRAME...
    local test=$1 count=$2
    shift 2
    sister "$@" | head -n 1 | says "$test" "REPLIES $count"
}
program list_screen --sister $stream | sed -n -e 1p -e '/^TEXT [01]/p' -e '/^LEFT/p' |
    says "list_screen --sister: of the first edition's stream mode and position are bad, text and label are hers too" $'REPLIES 3\nTEXT 0 [Meter           ]\nTEXT 1 [                ]\nLEFT [Keep]'
program list_screen $hers | sed -n -e 1,3p -e '/^LEFT/p' -e '/^ICONS/p' |
    says "list_screen: of her stream the first edition has her own spellings bad" $'REPLIES 12\nMODE 0 OVER 0 DISPLAY 1\nCURSOR 0 0 16\nLEFT [Read]\nICONS 1 0 0 0 0 0'
for frame in ID0 IDE IDD '[1;2H' '[K' '&#' '&C' '&V' IA IH II7 IEr; do
    replies "list_screen --sister: the first edition's $frame is bad" 1 "$frame"
done
for frame in IU255 IU3 IDM13 '&C2' '&H5;0' IV8 IN101 IA21 'IT0;5'; do
    sister "$frame" | same "list_screen --sister: $frame is out of range and passed over" "$work/power_on"
done
for frame in '&H?' '&V?' 'KH?' 'KP?' 'IA?' 'IDM?' 'IE?' 'IN?' 'IT?' 'IV?'; do
    replies "list_screen --sister: $frame is a question" 1 "$frame"
done
yes $'\e&V?\r' | head -n 1000 | tr -d '\n' | program list_screen --sister | head -n 1 |
    says "list_screen --sister: her version asked 1000 times" "REPLIES 1000"
replies "list_screen --sister: a step up to the end is obeyed, one past it bad" 1 IV6 IV+ IV+
replies "list_screen --sister: the keypad's letters are bad with PWM, good without" 3 IEe IEc IEs IEA IEe IEc IEs

# list_screen --sister: what is kept, not what her frame has
modes=(0 1 5 6 10)
for n in {0..12}; do
    kept="MODE ${modes[n]:-0} OVER $((n < 5 ? 0 : n + 6)) DISPLAY 1"
    sister IDM$n | sed -n 2p | says "list_screen --sister: IDM$n" "$kept"
done
printf '\e&C1\rText\e&D\r' | program list_screen --sister | sed -n '3p;4p' |
    says "list_screen --sister: &D clears the text, where the first edition's hides the cursor" $'CURSOR 1 0 0\nTEXT 0 [                ]'
printf '\e&C\rText\e&D\r' | program list_screen | sed -n '3p;4p' |
    says "list_screen: the first edition's &D hides the cursor" $'CURSOR 0 0 4\nTEXT 0 [Text            ]'
sister IU2 | grep '^ICONS' | says "list_screen --sister: IU2 is kept as 255" 'ICONS 0 255 0 0 0 0'
{ cat $hers; printf '\e&00\r'; } | program list_screen --sister | tail -n +2 |
    same "list_screen --sister: after a restart the screen is that of power-on" <(tail -n +2 "$work/power_on")

# explain: the first stream of document 01 with two frames more and half of one
cat >"$work/told" <<'PARTS'
        0  frame    ID0        mode 0, no overlay, position 0,0: nothing changed
        6  frame    [1;2H      position 0,0 to 1,2
       14  text     Meter      row 1, columns 2 to 6
       21  frame    IK1Keep    left label [] to [Keep]
       31  frame    Q          bad: answered ?
       34  frame    IP20       passed over: icon P takes 0 to 19
       40  tail     IK1Ke      still open: nothing done yet
       46  end      text bytes 5, skipped bytes 5, closed frames 5 (obeyed 3, passed over 1, bad 1), abandoned frames 0, answers 1, tail at 40
PARTS
{ head -c 34 $stream; printf '\eIP20\r\eIK1Ke'; } >"$work/halved"
program explain "$work/halved" | same "explain: document 01's stream, a frame out of range and half a frame" "$work/told"
for ((at = 1; at <= 46; at++)); do
    tail -c +$at "$work/halved" | head -c 1
    sleep 0.02
done | program explain | same "explain: one byte at a time changes nothing" "$work/told"
program explain --all "$work/halved" | grep '^ *[0-9]*  skipped' |
    says "explain --all: line ends have a line" "        5  skipped  <0A>       nothing done
       13  skipped  <0A>       nothing done
       19  skipped  <0D><0A>   nothing done
       30  skipped  <0A>       nothing done"
program explain </dev/null | says "explain: an empty stream" \
    "        0  end      text bytes 0, skipped bytes 0, closed frames 0 (obeyed 0, passed over 0, bad 0), abandoned frames 0, answers 0, no tail"

# explain of the sister's stream: her own fields and ranges, a frame that the record's state refuses, a restart, and her mark
cat >"$work/told" <<'PARTS'
        0  frame    IN100      brightness 50 to 100
        7  frame    IN+        refused by the state it is in: answered ? CR LF
       12  frame    IV8        passed over: speaker volume takes 0 to 7
       17  frame    IT0;5      passed over: Time1 takes 4 to 50, or 0 where Time2 is 0
       24  frame    IEA        PWM on to off, seconds left 0 to 30
       29  frame    IA?        asked: answered ESC IA: 10 CR LF
       34  frame    &H1;2      position 0,0 to 1,2
       41  frame    ID5        bad: answered ? CR LF
       46  frame    &C0        obeyed: nothing changed
       51  frame    &00        restart to power-on, stored numbers kept, position 1,2 to 0,0, PWM off to on, seconds left 30 to 0
       56  frame    IK1        abandoned by the ESC at 60: answered ? CR LF
       60  tail     IK         still open: nothing done yet
       63  end      text bytes 0, skipped bytes 0, closed frames 10 (obeyed 6, passed over 2, refused 1, bad 1), abandoned frames 1, answers 4, tail at 60
PARTS
printf '\e%s\r' IN100 IN+ IV8 'IT0;5' IEA 'IA?' '&H1;2' ID5 '&C0' '&00' >"$work/hers"
printf '\eIK1\eIK' >>"$work/hers"
program explain --sister "$work/hers" | same "explain --sister: what the sister handset does" "$work/told"
program explain --sister </dev/null | says "explain --sister: an empty stream" \
    "        0  end      text bytes 0, skipped bytes 0, closed frames 0 (obeyed 0, passed over 0, refused 0, bad 0), abandoned frames 0, answers 0, no tail"

# explain: parts that are longer than what it holds
forty=$(head -c 40 /dev/zero | tr '\0' x)
for count in 250 251 4093 4094 4095 4096 100000; do
    { printf '\e'; head -c $count /dev/zero | tr '\0' x; printf '\r\eIK1Keep\r'; } | program explain | sed -n 2p |
        says "explain: the part behind a frame of $count bytes" "$(printf '%9d' $((count + 2)))  frame    IK1Keep    left label [] to [Keep]"
done
{ printf '\e'; head -c 100000 /dev/zero | tr '\0' x; printf '\r'; } | program explain | head -n 1 |
    says "explain: a frame of 100000 bytes" "        0  frame    $forty..  bad: 100000 bytes, more than 250: answered ?"
{ printf '\e'; head -c 100000 /dev/zero | tr '\0' x; printf '\e'; } | program explain | head -n 1 |
    says "explain: one that is abandoned" "        0  frame    $forty..  abandoned by the ESC at 100001: 100000 bytes, more than 250: answered ?"
{ printf '\e'; head -c 100000 /dev/zero | tr '\0' x; } | program explain | head -n 1 |
    says "explain: one that is left open" "        0  tail     $forty..  still open: 100000 bytes, more than 250: nothing done yet"
{ head -c 5000000 /dev/zero | tr '\0' x; printf '\a\eID5\r'; } | program explain |
    says "explain: five million codes of text are one run" "        0  text     $forty..  row 0, columns 0 to 15, 4999984 codes dropped
  5000000  skipped  <07>       nothing done
  5000001  frame    ID5        mode 0 to 5, position 0,16 to 0,0
  5000006  end      text bytes 5000000, skipped bytes 1, closed frames 1 (obeyed 1, passed over 0, bad 0), abandoned frames 0, answers 0, no tail"
yes $'\r' | head -c 100000 | program explain | wc -l | says "explain: line ends without end have no line" 1
{ yes $'\r' | head -c 100000; printf '\a'; } | program explain | head -n 1 |
    says "explain: unless another skipped byte stands behind them" "        0  skipped  $(for i in {1..20}; do printf '<0D><0A>'; done)..  nothing done"

# count_room: its bound is the number of ESC bytes, and answers reach it
program count_room </dev/null | says "count_room: empty input needs no room" "ROOM 0"
printf 'no frame\r\n' | program count_room | says "count_room: text needs no room" "ROOM 0"
printf '\e\e\r' | program count_room | says "count_room: ESC, ESC, CR" "ROOM 2"
printf '\eIK1Keep\r\eIK1Ke' | program count_room | says "count_room: good frames and one left open are counted too" "ROOM 2"
for ((at = 1; at <= length; at++)); do
    tail -c +$at $stream | head -c 1
    sleep 0.02
done | program count_room | says "count_room: one byte at a time changes nothing" "ROOM $(tr -dc '\033' <$stream | wc -c)"
for count in 0 1 2 4095 4096 4097 50000; do
    { head -c $count /dev/zero | tr '\0' '\033'; printf '\r'; } >"$work/escapes"
    program count_room "$work/escapes" | says "count_room: ESC $count times and CR" "ROOM $count"
    program list_screen "$work/escapes" | head -n 1 | says "count_room: ESC $count times and CR reach the bound" "REPLIES $count"
done
head -c 5000000 /dev/zero | tr '\0' '\033' | program count_room | says "count_room: a long input" "ROOM 5000000"
for counted in examples/*.stream; do
    room=$(program count_room "$counted")
    marks=$(program list_screen "$counted" | head -n 1)
    [ "${marks#REPLIES }" -le "${room#ROOM }" ] && echo within || echo "$marks $room"
done | sort -u | says "count_room: no example is answered more often" within

# walk_frame: the table of the rules, and the walk against the verdict
program walk_frame --table >"$work/table"
sed -n '/^States; a frame may end/,/^```/p' docs/RULES.md | grep -v '^```' | same "walk_frame --table: the table as docs/RULES.md has it" "$work/table"
program walk_frame '[3;15H' | tail -n 2 | says "walk_frame: a good frame" 'H  J  W  the end
good: a frame may end here'
program walk_frame IT1 | tail -n 4 | says "walk_frame: a frame that ends too soon" "bad, it ends too soon: behind 'IT1' could have stood:
  0
  1 to 9
  ;"
program walk_frame | tail -n 3 | says "walk_frame: the empty frame" '  I
  &
  ['
program walk_frame "$(printf 'I\310')" | sed -n 3p | says "walk_frame: a code that is no ASCII is a dot" '.  @  @  refused'
for other in IK1Keep IK2 'Gr0,00z'; do
    program walk_frame "$other" | says "walk_frame: $other is no frame of the table" 'no frame of the table: IK1 and IK2 open a label, Gr opens a picture'
done
for frame in IDD IDE ID ID0 ID999 ID1000 ID01 '&C' '&C0' '&' '[0;0H' '[0;0' '[1;2;3H' '[K' '[KK' IK IK0 IK3 'IT4;0' 'IT4;' IT IA IA0 IA00 IH IH0 IEe IEr IEx IE IE25 '&V' '&#' '&##' Q I II7 IZ5 'IS 1'; do
    walked=$(program walk_frame "$frame" | sed -n 's/^\(good\|bad\).*/\1/p')
    told=$(printf '\e%s\r' "$frame" | program explain | head -n 1 | grep -q ' bad: ' && echo bad || echo good)
    echo "$walked" | says "walk_frame: $frame, as explain has it" "$told"
done

# check_choice: the examples, and each rule in words
cat >"$work/judged" <<'LINES'
choice NO 0 1
choice_rule1 NO 0 1
choice_rule2 NO 85 2
choice_rule3 NO 72 3
choice_rule4 NO 158 4
choice_screen YES
depot_digits NO 0 1
depot_part NO 0 1
depot_rocker NO 0 1
harbour NO 0 1
menu NO 0 1
meter NO 31 3
picture NO 0 1
LINES
for judged in examples/*.stream; do
    echo "$(basename "$judged" .stream) $(program check_choice "$judged" | head -n 1)"
done | same "check_choice: what it says of each example" "$work/judged"
program check_choice examples/choice_screen.stream | says "check_choice: of a good stream it says YES and no more" YES
in_words() { # RULE TEXT: the second line, of which there is no third
    program check_choice examples/choice_rule$1.stream | tail -n +2 | says "check_choice: rule $1 in words" "$2"
}
in_words 1 "The first part must be an obeyed ID0 or ID5: look at what the stream begins with."
in_words 2 "After each later ID0, ID1, ID5, ID6 or ID10 both labels must be set, and neither empty, before the next text byte, the next IDn \
or the end: look before this offset for an IK1 or IK2 that is missing, empty or undone by IK0."
in_words 3 "No '?' may be given: look at this offset for a frame that is misspelt, too long or cut off by another ESC."
in_words 4 "No frame may be left open: look behind the ESC at this offset for the CR that is missing."

# check_choice: no bytes, a few, input in pieces
judged() { # the first line of what it says of standard input
    program check_choice | head -n 1
}
judged </dev/null | says "check_choice: an empty stream breaks rule 1 at its first place" "NO 0 1"
printf '\eID0\r' | judged | says "check_choice: the first screen needs no labels" YES
printf '\eID0' | judged | says "check_choice: a first frame that is left open breaks rule 1 before rule 4" "NO 0 1"
printf '\eID0\r\eID5\r' | judged | says "check_choice: labels that are missing at the end" "NO 10 2"
printf '\eID0\r\eID5\r\eIK1Keep\r\eIK2\rGo' | judged | says "check_choice: a label that is empty" "NO 24 2"
printf '\eID0\r\eID5\r\eIK1Keep\r\eIK2Drop\rGo' | judged | says "check_choice: both labels" YES
stored=crates/check_choice/stdin
size=$(wc -c <$stored)
for ((at = 1; at <= size; at++)); do
    tail -c +$at $stored | head -c 1
    sleep 0.02
done | program check_choice | same "check_choice: one byte at a time changes nothing" crates/check_choice/stdout

# check_choice: the longest stream that it holds, and a longer one
most=1048576
filled() { # LENGTH: a first screen and text
    printf '\eID0\r'
    head -c $(($1 - 5)) /dev/zero | tr '\0' x
}
program check_choice --help | grep -o "longer than $most bytes" | says "check_choice: its usage says how long a stream can be" "longer than $most bytes"
filled $most | program check_choice | says "check_choice: $most bytes" YES
{ filled $((most - 1)); printf '\e'; } | judged | says "check_choice: the last of $most bytes" "NO $((most - 1)) 4"
filled $((most + 1)) >"$work/long"
ends "./run check_choice, a file too long" 1 "check_choice: $work/long: longer than $most bytes" ./run check_choice "$work/long"
silent "./run check_choice, a file too long: nothing is written"
ends "./run check_choice, standard input too long" 1 "check_choice: standard input: longer than $most bytes" ./run check_choice <"$work/long"
silent "./run check_choice, standard input too long: nothing is written"
ends "./run check_choice, an input without end" 1 "check_choice: standard input: longer than $most bytes" ./run check_choice < <(yes 2>/dev/null)

# write_frame, and its frames read back
cat >"$work/script" <<'WORDS'
mode 5
cursor show
at 4 3
text Jetty
left Mine
right Older
icon S 1
icon U 255
icon F 6
icon R 1
icon P 19
icon W 2
handsfree note 10
mute 1
mode 11
display off
WORDS
cat >"$work/fields" <<'FIELDS'
REPLIES 0
MODE 5 OVER 11 DISPLAY 0
CURSOR 1 4 8
TEXT 0 [                ]
TEXT 1 [                ]
TEXT 2 [                ]
TEXT 3 [                ]
TEXT 4 [   Jetty        ]
LEFT [Mine]
RIGHT [Older]
ICONS 1 255 6 1 19 2
VOLUME 2 10 1 0
FIELDS
./run write_frame <"$work/script" | ./run list_screen | same "./run write_frame | ./run list_screen: the fields are what the words say" "$work/fields"
{ head -c 30 "$work/script"; sleep 0.1; tail -c +31 "$work/script"; } | program write_frame | program list_screen |
    same "write_frame: a script with a pause in a line" "$work/fields"
sed 's/$/\r/' "$work/script" | program write_frame | program list_screen | same "write_frame: lines that end with CR LF" "$work/fields"
printf '%s' "$(cat "$work/script")" | program write_frame | program list_screen | same "write_frame: a last line without LF" "$work/fields"

refused() { # LINE REASON [OPTION]: the second of three lines is named with its number, and nothing of it is written
    local test="write_frame${3:+ $3}"
    printf '%b' "left Mine\n$1\nright Older\n" | program write_frame ${3-} >"$work/out" 2>"$work/err"
    says "$test refuses '${1:0:24}' by its number" "write_frame: line 2: $2" <"$work/err"
    printf '\eIK1Mine\r\n\eIK2Older\r\n' >"$work/others"
    same "$test writes nothing of '${1:0:24}'" "$work/others" <"$work/out"
}
refused 'lefty Keep' 'no such command; the line help lists them'
refused 'ask' 'no such command; the line help lists them'
for line in 'mode' 'mode five' 'mode 5 6' 'icon P 0001' 'icon P 05' 'private 1 2' 'light 1 2 3' 'contrast' 'inverse 1 2'; do
    refused "$line" 'one number of one to three digits is wanted, and no leading zero'
done
for line in 'at 1' 'at 1 2 3' 'at a 2' 'times'; do
    refused "$line" 'two numbers of one to three digits are wanted, and no leading zero'
done
for line in 'clear 5' 'clear line 5' 'display on off' 'light auto keep it' 'ask hook now'; do
    refused "$line" 'nothing is wanted behind these words'
done
for line in 'icon p 3' 'icon Q 1' 'icon 3' 'icon'; do
    refused "$line" 'icons are S U F R P W, in capital letters'
done
refused 'mode 4' 'out of range: mode is 0 1 5 6 10 or 11 to 18'
refused 'mode 19' 'out of range: mode is 0 1 5 6 10 or 11 to 18'
refused 'at 5 0' 'out of range: at is a row 0-4 and a column 0-15'
refused 'at 0 16' 'out of range: at is a row 0-4 and a column 0-15'
refused 'left Keep mine' 'out of range: a label has at most 7 codes, none below 0x20'
refused 'right Keep\tit' 'out of range: a label has at most 7 codes, none below 0x20'
refused 'icon S 2' 'out of range: icon S is 0-1'
refused 'icon U 2' 'out of range: icon U is 0 1 or 255'
refused 'icon F 7' 'out of range: icon F is 0-6'
refused 'icon R 2' 'out of range: icon R is 0-1'
refused 'icon P 20' 'out of range: icon P is 0-19'
refused 'icon W 4' 'out of range: icon W is 0-3'
refused 'private 11' 'out of range: private is 0-10'
refused 'handsfree 11' 'out of range: handsfree is 0-10'
refused 'handsfree note 11' 'out of range: handsfree is 0-10'
refused 'mute 2' 'out of range: mute is 0-1'
refused 'times 3 4' 'out of range: times are 4-50 and 0 or 4-50'
refused 'times 4 51' 'out of range: times are 4-50 and 0 or 4-50'
refused 'buzzer 256' 'out of range: buzzer is 0-255'
refused 'light 256' 'out of range: light is 0-255'
refused 'contrast 0' 'out of range: contrast is 1-20'
refused 'contrast 21' 'out of range: contrast is 1-20'
refused 'inverse 6' 'out of range: inverse is 0-5'
refused 'picture 7 00' 'out of range: picture rows are 0-6, and columns of row 6 are 00-1F'
refused 'picture 6 20' 'out of range: picture rows are 0-6, and columns of row 6 are 00-1F'
for line in 'picture' 'picture 0' 'picture 0 000' "picture 0 $(printf '00%.0s' {1..97})"; do
    refused "$line" 'wanted are a row and 1 to 96 columns, two digits 0-9 A-F each'
done
refused 'text a\tb' 'a text has no code below 0x20'
refused "text $(printf 'x%.0s' {1..1020})" 'longer than 1024 bytes'

# write_frame --sister: each phrase of hers, and its frame
cat >"$work/phrases" <<'PHRASES'
display off: IDMD
display on: IDME
clear: &D
clear line: &K
at 4 15: &H4;15
labels empty: IK0
left Keep: IK1Keep
right: IK2
icon S 1: IS1
icon U 2: IU2
icon F 6: IF6
icon R 1: IR1
icon P 19: IP19
icon W 3: IW3
private 10: IL10
handsfree 10: IJ10
mute 1: IM1
buzzer 255: IB255
contrast 20: IA20
inverse 5: IZ5
picture 6 1F00: Gr6,1F00z
cursor 1: &C1
restart: &00
mode 12: IDM12
light 250: IE250
light off: IE0
light on: IEE
light auto: IEA
light auto keep: IES
light pwm on: IEP
light pwm auto: IEQ
light restart: IER
keypad on: IEe
keypad off start: IEc
keypad off: IEs
brightness 100: IN100
times 0 0: IT0;0
times 12 0: IT12;0
speaker 7: IV7
ask position: &H?
ask version: &V?
ask hook: KH?
ask ptt: KP?
ask contrast: IA?
ask mode: IDM?
ask light: IE?
ask brightness: IN?
ask times: IT?
ask speaker: IV?
contrast up: IA+
contrast down: IA-
brightness up: IN+
brightness down: IN-
speaker up: IV+
speaker down: IV-
frame IDM13: IDM13
PHRASES
sed 's/.*: \(.*\)/\x1B\1\r/' "$work/phrases" >"$work/others"
sed 's/: .*//' "$work/phrases" >"$work/script"
program write_frame --sister <"$work/script" | same "write_frame --sister: each phrase is her frame" "$work/others"
ends "./run write_frame --sister FILE" 0 '' ./run write_frame --sister "$work/script"
same "./run write_frame --sister FILE writes her frames" "$work/others" <"$work/out"
printf 'mode 4\nat 0 3\ntext Jetty\nicon U 2\ndance\n' >"$work/script"
ends "./run write_frame, then --sister, a line that can't be taken: status 1" 1 "write_frame: line 5: no such command; the line help lists them" ./run write_frame "$work/script" --sister
program list_screen --sister <"$work/out" | sed -n -e 1,2p -e '/^ICONS/p' |
    says "write_frame --sister | list_screen --sister: the fields are what the words say" $'REPLIES 0\nMODE 10 OVER 0 DISPLAY 1\nICONS 0 255 0 0 0 0'
for line in 'handsfree note' 'light default' 'cursor show' 'cursor hide'; do
    refused "$line" 'one number of one to three digits is wanted, and no leading zero' --sister
done
refused 'restart now' 'nothing is wanted behind these words' --sister
refused 'ask' 'no such command; the line help lists them' --sister
refused 'mode 13' 'out of range: mode is 0-12' --sister
refused 'cursor 2' 'out of range: cursor is 0-1' --sister
refused 'light 251' 'out of range: light is 0-250' --sister
refused 'icon U 255' 'out of range: icon U is 0-2' --sister
refused 'brightness 101' 'out of range: brightness is 0-100' --sister
refused 'speaker 8' 'out of range: speaker is 0-7' --sister
refused 'times 0 5' 'out of range: times are 4-50 and 0 or 4-50, or 0 and 0' --sister
refused 'at 5 0' 'out of range: at is a row 0-4 and a column 0-15' --sister
for line in 'restart' 'speaker 5' 'ask mode' 'brightness up'; do
    refused "$line" 'no such command; the line help lists them'
done
refused 'contrast up' 'one number of one to three digits is wanted, and no leading zero'

printf 'frame IK1Keep\nframe IP20\nframe Q\nframe  two  blanks \nframe\n' >"$work/script"
program write_frame <"$work/script" >"$work/out" 2>"$work/err"
printf '\eIK1Keep\r\n\eIP20\r\n\eQ\r\n\e two  blanks \r\n\e\r\n' >"$work/others"
same "write_frame: frames go out as they are typed" "$work/others" <"$work/out"
says "write_frame: a frame as it is typed is never refused" '' <"$work/err"
program list_screen <"$work/out" | sed -n -e 1p -e '/^LEFT/p' -e '/^ICONS/p' |
    says "write_frame: of frames as they are typed the good is obeyed, the bad answered" $'REPLIES 3\nLEFT [Keep]\nICONS 0 0 0 0 0 0'
program write_frame --help | tail -n +2 >"$work/help"
echo help | program write_frame 2>&1 >/dev/null | same "write_frame: a line help lists what --help lists" "$work/help"

# the examples, and what show_screen draws
for words in examples/*.words; do
    program write_frame <"$words" | same "$words writes its stream" "${words%.words}.stream"
done
cat >"$work/menu" <<'SCREEN'
╭────────────────────────────────────────────────╮
│ Y▁▂▄▆  missed  3 roam  SMS unread handsfree  7 │
│                                                │
│ H  a  r  b  o  u  r     r  o  u  n  d     1  2 │
│                                                │
│ >  N  e  x  t     m  e  t  e  r                │
│                                                │
│    L  a  s  t     r  e  a  d  i  n  g          │
│                                                │
│    S  e  n  d     t  h  e     d  a  y          │
│                                                │
│ S  e  l  e  c  t      ▲▼   B  a  c  k          │
│                                                │
│                                                │
│                                                │
╰────────────────────────────────────────────────╯
SCREEN
program show_screen <examples/menu.stream | same "show_screen: the menu" "$work/menu"
columns() { # the widths of the lines, each once; a sign of several bytes is one column
    LC_ALL=C tr -d '\200-\277' | awk '{ print length($0) }' | sort -u
}
for drawn in examples/*.stream; do
    program show_screen <"$drawn" | columns | says "show_screen: $drawn is 50 columns wide" 50
done
screen() { # the lines inside the frame after these words, two for each display row, a sign without dots as a blank
    program write_frame | program show_screen | sed -e '1d' -e '$d' -e 's/^│//' -e 's/│$//' -e 's/⠀/ /g'
}
{ cat examples/menu.words; echo display off; } | screen | sort -u | says "show_screen: with the display off the frame is empty" "$(printf '%48s' '')"
printf 'mode 5\ntext First\nat 4 0\ntext Fifth\nicon F 6\n' | screen | sed -n -e 's/ *$//' -e '1p;9p' |
    says "show_screen: five text rows and no icon bar in mode 5" $' F  i  r  s  t\n F  i  f  t  h'
printf 'mode 0\ntext Hello\ninverse 1\n' | screen | sed -n -e '3p;5p' |
    says "show_screen: an inverse row has its codes in square brackets" "[H][e][l][l][o]$(printf '[ ]%.0s' {1..11})"$'\n'"$(printf '%48s' '')"
printf 'mode 0\ntext no\nicon F 6\npicture 1 FF\nmode 11\nleft yes\n' | screen | sed -n -e 's/ *$//' -e '1p;3p;4p;11p' |
    says "show_screen: icon bar, picture and labels under overlay 11" $' Y▁▂▄▆█\n⡇\n⡇\n y  e  s'
printf 'mode 13\nleft no\npicture 5 00 81\npicture 6 1F\n' | screen | sed -n -e 's/ *$//' -e '11,14p' |
    says "show_screen: all rows are dots under overlay 13, the last five dots high" $'⠈\n⢀\n⡇\n⠁'
printf 'mode 10\ntext 0012345678\n' | screen | sed -n -e 's/ *$//' -e '3,8p' |
    says "show_screen: in mode 10 the last eight digits are big, the first two small" $' 0  0\n\n       ___   ___         ___   ___   ___   ___\n    |  ___|  ___| |___| |___  |___      | |___|\n    | |         |     |     | |   |     | |   |\n    | |___   ___|     |  ___| |___|     | |___|'
printf 'mode 10\ntext A 1\n' | screen | sed -n -e 's/ *$//' -e '5,8p' |
    says "show_screen: a big sign that is no digit is drawn two by two" $'\n  AA            |\n  AA            |\n                |'
printf 'mode 0\ntext yes\npicture 1 FF\npicture 3 FF\nat 2 0\ntext no\nat 3 0\ntext low\nmode 17\n' | screen | sed -n -e 's/ *$//' -e '3p;7p;8p' |
    says "show_screen: under overlay 17 two rows of text and a picture" $' y  e  s\n⡇\n⡇'
printf 'mode 0\npicture 5 ' >"$work/words"
printf 'FF%.0s' {1..96} >>"$work/words"
printf '\nleft no\nicon W 3\nmode 14\n' >>"$work/words"
full=$(printf '⣿%.0s' {1..21})
screen <"$work/words" | sed -n -e '11,12p' |
    says "show_screen: under overlay 14 the rocker stands between two halves of the picture" "$full  ▲▼  $full"$'\n'"$full      $full"
letter() { # the SMS panel's words in the icon bar after these words, lit and in the pause
    program write_frame >"$work/letter"
    for phase in '' --pause; do
        program show_screen $phase "$work/letter" | sed -n -e '2s/.*\(SMS [a-z]*\).*/\1/p' -e '2s/^│ *│$/nothing/p'
    done
}
printf 'icon U 255\nicon S 1\n' | letter | says "show_screen --pause: the read letter stands in the pauses of the flashing one" $'SMS unread\nSMS read'
printf 'icon U 255\n' | letter | says "show_screen --pause: with no read message the pause shows nothing" $'SMS unread\nnothing'
printf 'icon U 1\nicon S 1\n' | letter | says "show_screen --pause: a letter that does not flash has no pause" $'SMS unread\nSMS unread'
cat >"$work/berth" <<'SCREEN'
╭────────────────────────────────────────────────╮
│ H  a  r  b  o  u  r     o  f  f  i  c  e       │
│                                                │
│       B  e  r  t  h     7                      │
│                                                │
│       W  a  t  e  r     0  0  4  7  1  1       │
│                                                │
│                                                │
│                                                │
│ R  e  a  d     i  t     n  o  w  ?             │
│                                                │
│ R  e  a  d                 L  a  t  e  r       │
│                                                │
│                                                │
│                                                │
╰────────────────────────────────────────────────╯
SCREEN
for words in "--sister $hers" "$hers --sister" "--sister $hers --sister" "--sister --pause $hers"; do
    ends "./run show_screen $words" 0 '' ./run show_screen $words </dev/null
    same "./run show_screen $words: the harbour's screen" "$work/berth" <"$work/out"
done
program show_screen --sister --sister <$hers | same "show_screen --sister: the same from standard input" "$work/berth"
program show_screen --sister </dev/null | same "show_screen --sister: empty input is her power-on record" <(program show_screen </dev/null)
printf '\eIDM4\r0012345678' | program show_screen --sister |
    same "show_screen --sister: her mode 4 is drawn as mode 10" <(printf '\eID10\r0012345678' | program show_screen)
printf '\eIU2\r\eIS1\r' >"$work/letter"
for words in --sister '--sister --pause' '--pause --sister'; do
    program show_screen $words "$work/letter" | sed -n '2s/.*\(SMS [a-z]*\).*/\1/p'
done | says "show_screen --sister --pause: her flashing letter, lit and in the pause" $'SMS unread\nSMS read\nSMS read'
printf 'private 4\nmute 1\nprivate 0\n' | screen | head -n 1 | says "show_screen: IL4, IM1, IL0 shows no volume" "$(printf '%48s' '')"
printf 'private 4\nmute 1\nprivate 0\nprivate 4\n' | screen | head -n 1 | says "show_screen: then IL4 shows mute" "$(printf '%48s' 'mute ')"
printf '\eIK1\x80a\xFF\r' | program show_screen | sed -n -e 's/^│ *//' -e '12s/ *│$//p' | says "show_screen: a code that is no ASCII is a dot" ".  a  ."

passed=$(grep -c '^ok' "$work/verdicts")
failed=$(grep -vc '^ok' "$work/verdicts")
echo "$passed passed, $failed failed"
[ "$failed" -eq 0 ]
