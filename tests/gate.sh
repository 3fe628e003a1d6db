#!/usr/bin/env bash
# The gate can't be fooled: each check of .ci/run that reads files is tried with a copy that is broken in one place, and with one that is
# not. So is Tie's statement that a public function asks nothing. A line for each test; the last line has the counts.
set -u
cd "$(dirname "$0")/.." || exit 2
work=$(mktemp -d) || exit 2
trap 'rm -rf "$work"' EXIT
export LC_ALL=C

verdict() { # ok|FAILED TEST
    printf '%-6s %s\n' "$1" "$2" | tee -a "$work/verdicts"
}
says() { # TEST EXPECTED COMMAND...: all that a command says, and it fails if that is anything
    local test=$1 expected=$2 status
    shift 2
    "$@" >"$work/said" 2>&1
    status=$?
    if [ "$(cat "$work/said")" = "$expected" ] && [ $((status == 0)) -eq $([ -z "$expected" ] && echo 1 || echo 0) ]; then
        verdict ok "$test"
    else
        verdict FAILED "$test"
        head -n 20 "$work/said"
    fi
}

# ---- .ci/promises ----

broken() { # a fresh copy of what .ci/promises reads
    rm -rf "$work/copy"
    mkdir -p "$work/copy/docs"
    cp crates.txt "$work/copy/"
    cp docs/exceptions.txt "$work/copy/docs/"
    (cd crates && find . -path '*/src/*.rt' -o -path './demands/specs/*.antt') | while IFS= read -r file; do
        mkdir -p "$work/copy/crates/$(dirname "$file")" && cp "crates/$file" "$work/copy/crates/$file"
    done
}
edit() { # FILE SED
    sed -i "$2" "$work/copy/$1" && ! cmp -s "$work/copy/$1" "$1" || verdict FAILED "nothing was broken in $1"
}
hook=crates/hook/src/lib.rt
broken
says "promises: the repository as it is" '' .ci/promises "$work/copy"
edit $hook '/^pub fn hook(/,/^{/s/^{/    requires { ⊥ }\n{/'
says "promises: a condition on a public function" 'hook::hook has a condition on its inputs' .ci/promises "$work/copy"
broken
edit $hook '/^pub fn hook(/,/^{/{/ensures/d}'
says "promises: a public function without ensures" 'hook::hook promises nothing' .ci/promises "$work/copy"
broken
edit crates/demands/specs/Tie.antt '/^pub hook_says/,/^hook_says/d'
says "promises: no row in Tie" 'hook::hook has no row in crates/demands/specs/Tie.antt' .ci/promises "$work/copy"
broken
edit crates/demands/specs/Unique.antt '/^pub hook_one/,/^hook_one/d'
says "promises: no row in Unique" 'hook::hook has no row in crates/demands/specs/Unique.antt' .ci/promises "$work/copy"
broken
edit $hook '$a\
\
pub fn unhook() {}'
says "promises: a public function that nobody speaks of" 'hook::unhook promises nothing' .ci/promises "$work/copy"
broken
edit docs/exceptions.txt '/^stream_input::hear/s/ .*//'
says "promises: an exception without a cause" 'stream_input::hear has no row in crates/demands/specs/Tie.antt
stream_input::hear has no row in crates/demands/specs/Unique.antt
docs/exceptions.txt gives no cause for stream_input::hear' .ci/promises "$work/copy"
broken
edit docs/exceptions.txt '$a\
hook::lift nobody knows why'
says "promises: an exception for a function that is not there" \
    'docs/exceptions.txt names hook::lift, and there is no such public function' .ci/promises "$work/copy"
broken
changes=$(grep -l '^pub fn changes(' crates/explain/src/*.rt)
edit "$changes" '/^pub fn changes(/,/^{/{/ensures/d}'
says "promises: a program's public function without ensures" 'explain::changes promises nothing' .ci/promises "$work/copy"
broken
edit "$changes" '/^pub fn changes(/,/^{/s/^{/    requires { ⊥ }\n{/'
says "promises: a condition on a program's public function" 'explain::changes has a condition on its inputs' .ci/promises "$work/copy"
broken
edit docs/exceptions.txt '/^explain::tell_front/d'
says "promises: a program's function that writes and is not listed" 'explain::tell_front has a condition on its inputs
explain::tell_front promises nothing' .ci/promises "$work/copy"

exported=crates/handset_c/src/lib.rt
broken
edit $exported '/fn proved_hook/,/^{/s/hooked_in (hooked/hooked_in (unhooked/'
says "promises: an export that says something else" "handset_c::proved_hook does not promise what a library's function of its name does" \
    .ci/promises "$work/copy"
broken
edit $exported 's/    handset::proved_hook(/    handset::proved_second(/'
says "promises: an export that calls another function" "handset_c::proved_hook does not promise what a library's function of its name does" \
    .ci/promises "$work/copy"
broken
edit $exported '/fn proved_hook/,/^{/s/^{/    requires { ⊥ }\n{/'
says "promises: a condition on an export" "handset_c::proved_hook has a condition on its inputs
handset_c::proved_hook does not promise what a library's function of its name does" .ci/promises "$work/copy"

# ---- .ci/refusals ----

tried() { # LABEL TEXT: a wrong program, and what rt said of it
    mkdir -p "$work/crates/some/must-fail"
    : >"$work/crates/some/must-fail/$1.edit"
    printf 'rt: must-fail some/%s.edit: %s\n' "$1" "$2" >>"$work/said_of_edits"
}
again() { # TEXT: what rt said of the wrong program `shape` instead
    sed -i '/shape.edit/d' "$work/said_of_edits"
    tried shape "$1"
}
refusals() { .ci/refusals "$work/crates" "$work/said_of_edits"; }
refused='refused, as it must be'
tried a_fact_fails "$refused: note: src/lib.rt:17:1: it is not proved that what the function ensures holds when it returns (\`returns\`); the facts"
says "refusals: a fact fails" '' refusals
tried an_answer_fails "$refused: proofs/f/Answers.antt:9:5: error: \`f_answers\`: \`omega\`: the goal does not follow from what it read"
says "refusals: a fact fails in an answer" '' refusals
tried shape "$refused: proofs/f/Proof.antt:9:5: error: \`f_spec\`: this λ has 2 binders, but its type has room for only 1"
says "refusals: an answer that stands at another need" \
    'must-fail some/shape: its first error says only that the proof file does not fit the code' refusals
again "$refused (only because a proof file names what the edit took away, so this says little of the contract: change a value and keep the names): proofs/f/Proof.antt:9:5: error: \`f_spec\`: record \`Lts.Start\` has no field \`if1\`"
says "refusals: a fact that lies elsewhere" \
    'must-fail some/shape: its first error says only that the proof file does not fit the code' refusals
again "$refused"
says "refusals: no error" 'must-fail some/shape: no error says which fact fails' refusals
again "BAD EDIT: an 'old:' text is in src/lib.rt 0 times, and not once"
says "refusals: a wrong program that can't be made" \
    "must-fail some/shape: BAD EDIT: an 'old:' text is in src/lib.rt 0 times, and not once" refusals
again 'NOT REFUSED: the crate is still proved with this edit (one that means the same as before cannot be refused: remove it)'
says "refusals: a wrong program that is proved" \
    'must-fail some/shape: NOT REFUSED: the crate is still proved with this edit (one that means the same as before cannot be refused: remove it)' refusals
sed -i '/shape.edit/d' "$work/said_of_edits"
says "refusals: a wrong program that was not tried" 'must-fail some/shape was not tried' refusals

# ---- Tie asks that nothing is asked ----

# A crate of one function, and a page with Tie's own words and its row.
small() { # CONTRACT
    rm -rf "$work/small"
    mkdir -p "$work/small/crates/asks/src" "$work/small/crates/tie/src" "$work/small/crates/tie/specs"
    printf 'asks:\ntie: asks\n' >"$work/small/crates.txt"
    {
        printf '#![tactic(auto)]\nghost use Rattle.std.specs.Prelude.{◌≡◌};\n\npub fn same(n: u8) -> u8\n'
        printf '%s    ensures same { result ≡ n }\n{\n    n\n}\n' "$1"
    } >"$work/small/crates/asks/src/lib.rt"
    cp crates/demands/src/lib.rt "$work/small/crates/tie/src/lib.rt"
    cp crates/demands/specs/Lib.antt "$work/small/crates/tie/specs/Lib.antt"
    printf 'pub mod Tie\n' >"$work/small/crates/tie/specs/Lib.antt"
    {
        grep '^use ' crates/demands/specs/Tie.antt | grep -v '^use Rattle\.'
        grep '^use Rattle\.std\.' crates/demands/specs/Tie.antt
        printf 'use Rattle.asks.specs.contracts.same as Same\nuse Rattle.asks.proofs.same.Reads as SameReads\n\n'
        sed -n '/^-- a contract.s requires clause/,/^-- what a call on lent arrays/{/^-- what a call on lent/!p;}' crates/demands/specs/Tie.antt
        printf 'pub same_says : Says Same.ended SameReads.requires SameReads.ensures (λ κs a q e. q ≡ a.0)\n'
        printf 'same_says κs a q e w = (refl, refl)\n'
    } >"$work/small/crates/tie/specs/Tie.antt"
}
proved() { (cd "$work/small/crates/tie" && rt check) >"$work/said" 2>&1; }
small ''
if proved; then verdict ok "tie: a function that asks nothing"; else verdict FAILED "tie: a function that asks nothing"; cat "$work/said"; fi
small '    requires { n ≡ 0 }
'
if ! proved && grep -q 'same_says' "$work/said"; then
    verdict ok "tie: a function that asks something is refused"
else
    verdict FAILED "tie: a function that asks something is refused"
    cat "$work/said"
fi

passed=$(grep -c '^ok' "$work/verdicts")
failed=$(grep -vc '^ok' "$work/verdicts")
echo "$passed passed, $failed failed"
[ "$failed" -eq 0 ]
