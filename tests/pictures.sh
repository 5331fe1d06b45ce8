#!/bin/sh
# Pictures of policies: what tools/draw-policy makes of what the built program shows of two certificates.
#
#     tests/pictures.sh [PROGRAM]
#
# PROGRAM is crates/decplan/out/decplan where none is given (./decplan builds it). The last line is
# 'N passed, M failed'. It needs Python 3.

root=$(CDPATH='' cd -- "$(dirname -- "$0")/.." && pwd) || exit 1
program=${1:-$root/crates/decplan/out/decplan}
passed=0
failed=0
folder=$(mktemp -d) || exit 1
trap 'rm -rf "$folder"' EXIT
trap 'exit 1' HUP INT TERM

# counts NAME BOXES ARROWS: whether the last picture has so many boxes (without its ground) and arrows.
counts() {
    boxes=$(grep -c '<rect x=' "$folder/picture")
    arrows=$(grep -c '<line ' "$folder/picture")
    if [ "$boxes $arrows" = "$2 $3" ] && [ "$(tail -n 1 "$folder/picture")" = '</svg>' ]; then
        passed=$((passed + 1))
        echo "$1: passed"
    else
        failed=$((failed + 1))
        echo "$1: FAILED: $boxes boxes and $arrows arrows, not $2 and $3"
    fi
}

# Each agent listens twice and then opens one door, the other, or listens: six subtrees, two arrows from three.
"$program" show "$root/models/tiger.dpomdp" "$root/certificates/tiger-3.cert" |
    "$root/tools/draw-policy" >"$folder/picture"
counts 'a policy of version 1' 12 12

# The best constant policy does the same after everything: one box at each step, and one arrow to the next.
"$program" plan "$root/models/tiger.dpomdp" --horizon 4 --nodes 0 --cert 2 >"$folder/cert"
"$program" show "$root/models/tiger.dpomdp" "$folder/cert" | "$root/tools/draw-policy" >"$folder/picture"
counts 'a policy of version 2' 8 6

if printf 'no line of show\n' | "$root/tools/draw-policy" >"$folder/picture" 2>"$folder/told"; then
    failed=$((failed + 1))
    echo 'a text that is no policy: FAILED: it is drawn'
else
    passed=$((passed + 1))
    echo 'a text that is no policy: passed'
fi

echo "$passed passed, $failed failed"
[ "$failed" = 0 ]
