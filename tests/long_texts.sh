#!/usr/bin/env bash
# Runs the program `labels`, or the one that is named, on a text of 60,000 bytes, as long as a text may be, and on one of 60,001. No
# contract can say how much of its input a program reads, so what it writes is compared.
. "$(dirname "$0")/common"

# expect SIZE LINE: the stored plan with blanks behind it, up to the size, is answered by the line and nothing else
expect() {
    { cat "$plan" && head -c $(($1 - $(wc -c <"$plan"))) /dev/zero | tr '\0' ' '; } >"$room/text"
    [ "$(wc -c <"$room/text")" -eq "$1" ] || fail "the text has $(wc -c <"$room/text") bytes, not $1"
    "$program" <"$room/text" >"$room/wrote" || fail "$1 bytes: the program ended with status $?"
    echo "$2" | cmp -s - "$room/wrote" || fail "$1 bytes: '$(head -c 80 "$room/wrote")' was written, not '$2'"
    echo "long_texts: $1 bytes: '$2' was written"
}

expect 60000 'refused 3'
expect 60001 'refused 2'
