# What ./run and ./c-build know of the Rattle kit: where it lies, in which order crates are proved, what is older than its sources, and
# how to say how far the proofs are. To be read in by a shell that has `here`, the repository's folder, and the functions `say` and `fail`.

# a path, when all links on its last part are followed
followed() { # PATH
    path=$1
    while [ -L "$path" ]; do
        link=$(readlink "$path")
        case $link in /*) path=$link ;; *) path=$(dirname "$path")/$link ;; esac
    done
    printf '%s\n' "$path"
}

# the kit is found from where its command lies
find_kit() {
    rt=$(command -v rt) || fail "the Rattle kit is missing: its command rt is not on the PATH"
    kit=$(cd "$(dirname "$(followed "$rt")")/.." && pwd -P)
    tools=$kit/toolchain
    [ "$(uname -m)" = x86_64 ] && [ -f "$tools/lib/ld-linux-x86-64.so.2" ] ||
        fail "the Rattle kit at $kit has nothing for this machine, $(uname -m)"
}

# The crates that one stands on, itself last, in the order in which they are proved: those first that use no others.
plan() { # CRATE
    NAME=$1 awk '
        function visit(crate,    part, n, k) {
            if (crate in level || !(crate in uses)) return
            level[crate] = 0
            n = split(uses[crate], part, " ")
            for (k = 1; k <= n; k++) {
                visit(part[k])
                if (part[k] in level && level[part[k]] >= level[crate]) level[crate] = level[part[k]] + 1
            }
            listed[++count] = crate
        }
        { sub(/#.*/, "") }
        /:/ { crate = $1; sub(/:.*/, "", crate); sub(/^[^:]*:/, ""); uses[crate] = $0 }
        END {
            visit(ENVIRON["NAME"])
            for (l = 0; l <= level[ENVIRON["NAME"]]; l++) for (k = 1; k <= count; k++) if (level[listed[k]] == l) print listed[k]
        }' "$here/crates.txt"
}

# Whether something that a file is made from is newer than it, or the file is not there: rt itself looks at what the sources say, but it
# takes longer, and runs a program each time.
newer_than() { # FILE
    [ ! -f "$1" ] || [ -n "$(find "$here/crates" -mindepth 2 \( -name must-fail -o -name out \) -prune -o -newer "$1" -print 2>&1 |
        head -n 1)" ] || [ -n "$(find "$here/crates.txt" "$kit/KIT-ID" -newer "$1" 2>&1)" ]
}

# Says each second or so which crate is being proved, if that is another than before. All that takes less than two is not told.
watch() { # CRATE LOG
    crates=$(plan "$1")
    count=$(printf '%s\n' "$crates" | wc -l)
    before=''
    pause=2
    while sleep "$pause" </dev/null >/dev/null 2>&1 9>&- && kill -0 $$ 2>/dev/null; do
        pause=1
        next=$(sed -n 's/^rt: chose --jobs [0-9]* for \([a-z0-9_]*\)$/\1/p' "$2" 2>/dev/null | tail -n 1)
        k=$(printf '%s\n' "$crates" | grep -nx -- "$next" | cut -d : -f 1)
        [ -z "$k" ] || [ "$next" = "$before" ] || say "proving $next (crate $k of $count)"
        before=$next
    done
}

# Nothing else may be proved or built in this folder at the same time: two programs of one pipe, or two tests, would.
lock() {
    command -v flock >/dev/null || return 0
    mkdir -p "$here/target" || exit 2
    exec 9>"$here/target/.building"
    flock -w 2 9 2>/dev/null || {
        say "waiting for another, which is proving"
        flock 9
    }
}
unlock() { exec 9>&-; }

# What is left behind at the end, however it comes: a watcher, and files.
watcher='' proved='' room=''
leave() {
    [ -z "$watcher" ] || kill "$watcher" 2>/dev/null
    [ -z "$proved$room" ] || rm -rf "$proved" "$room"
}
trap 'leave' EXIT
trap 'exit 130' INT
trap 'exit 143' TERM HUP

# Runs a command that proves a crate, in the crate's folder, says how far it is, and leaves what it says in the file `proved`. Its status
# is the command's. Wants the lock.
prove() { # CRATE COMMAND...
    proved=$here/target/.proved.$$
    : >"$proved"
    watch "$1" "$proved" &
    watcher=$!
    cd_to=$here/crates/$1
    shift
    (cd "$cd_to" && "$@" </dev/null) >"$proved" 2>&1 9>&-
    ended=$?
    kill "$watcher" 2>/dev/null
    wait "$watcher" 2>/dev/null
    watcher=''
    return $ended
}
