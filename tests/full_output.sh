#!/usr/bin/env bash
# Runs the program `labels`, or the one that is named, where its output takes nothing: it must say so on standard error, and be silent there
# when all is written. The program ends with status 0 all the same, so the line is all that tells.
. "$(dirname "$0")/common"
echo 'labels: the listing could not be written whole' >"$room/told"
: >"$room/silent"

# expect OUTPUT SAID: what the run before this left on standard error is what the file SAID has
expect() {
    cmp -s "$room/$2" "$room/said" || fail "output $1: '$(head -c 80 "$room/said")' on standard error, not '$(cat "$room/$2")'"
    echo "full_output: output $1: $2"
}

"$program" <"$plan" >"$room/wrote" 2>"$room/said" || fail "the program ended with status $?"
expect 'to a file' silent
cmp -s crates/labels/stdout "$room/wrote" || fail 'the listing differs'
"$program" <"$plan" >/dev/full 2>"$room/said" || fail "the program ended with status $?"
expect 'to a full device' told
"$program" <"$plan" >&- 2>"$room/said" || fail "the program ended with status $?"
expect 'closed' told
