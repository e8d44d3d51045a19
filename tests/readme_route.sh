#!/usr/bin/env bash
# Runs the program `labels`, or the one that is named, on the plan of README.md that asks for a route, and compares what it writes, to the byte, with what
# the README says that it prints.
. "$(dirname "$0")/common"

# block LINE: the indented lines behind the first line of the README that ends so, without their four blanks
block() {
    awk -v end="$1" '
        found && /^    / { print substr($0, 5); shown = 1; next }
        found && shown { exit }
        index($0, end) && substr($0, length($0) - length(end) + 1) == end { found = 1 }
    ' README.md
}

block 'gate 1 to gate 3:' >"$room/plan"
block '`labels` prints:' >"$room/expected"
[ -s "$room/plan" ] && [ -s "$room/expected" ] || fail "README.md has no such plan"
"$program" <"$room/plan" >"$room/wrote" || fail "the program ended with status $?"
cmp -s "$room/expected" "$room/wrote" || fail "what was written differs from README.md"

echo "readme_route: the plan of README.md, listed as it says"
