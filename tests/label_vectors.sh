#!/usr/bin/env bash
# Runs the program `labels`, or the one that is named, on each text NAME.in of tests/labels and compares what it writes, to the byte, with
# NAME.out. The files are outside vectors: a model of the papers that shares nothing with this code made them.
. "$(dirname "$0")/common"

count=0
for text in tests/labels/*.in; do
    [ -f "$text" ] || fail "no text in tests/labels"
    expected=${text%.in}.out
    [ -f "$expected" ] || fail "$text: there is no $expected"
    "$program" <"$text" >"$room/wrote" || fail "$text: the program ended with status $?"
    cmp -s "$expected" "$room/wrote" || fail "$text: what was written differs from $expected"
    count=$((count + 1))
done

for expected in tests/labels/*.out; do
    [ -f "${expected%.out}.in" ] || fail "$expected: there is no ${expected%.out}.in"
done

echo "label_vectors: $count texts, each listed as stored"
