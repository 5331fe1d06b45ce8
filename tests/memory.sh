#!/bin/sh
# Want of memory: the built program with each of its requests for memory refused in turn, the first, the second
# and so on up to the last. Each run has to end in time, with its answer or with want of memory, and with nothing
# on standard error. It needs a C compiler. This is not part of the gate.
#
#     tests/memory.sh [PROGRAM]
#
# PROGRAM is crates/decplan/out/decplan where none is given. The last line is 'N passed, M failed', a case for each
# refused request.

root=$(CDPATH='' cd -- "$(dirname -- "$0")/.." && pwd) || exit 1
program=${1:-$root/crates/decplan/out/decplan}
case $program in
/*) ;;
*) program=$PWD/$program ;;
esac
folder=$(mktemp -d) || exit 1
trap 'rm -rf "$folder"' EXIT
trap 'exit 1' HUP INT TERM
cd "$folder" || exit 1
"${CC:-cc}" -O2 -shared -fPIC -o refuse.so "$root/tests/refuse_memory.c" || exit 1

seconds=60
passed=0
failed=0

# run WHICH WORD..: the program on these words, with one request refused (0: none).
run() {
    which=$1
    shift
    rm -f count
    timeout "$seconds" env COUNT="$folder/count" REFUSE="$which" LD_PRELOAD="$folder/refuse.so" \
        "$program" "$@" >out 2>err
    status=$?
}

# judged WHICH: whether the run before ended as it may.
judged() {
    if [ -s err ]; then
        echo "request $1: something stands on standard error: $(head -c 200 err)"
    elif [ "$status" = "$wanted" ] && cmp -s out want; then
        return 0
    elif [ "$status" = 8 ] && { [ ! -s out ] || [ "$(cat out)" = 'refused memory' ]; }; then
        return 0
    else
        echo "request $1: status $status, with '$(head -c 200 out)'"
    fi
    return 1
}

# tried WORD..: all requests of a run on these words, one refused after the other.
tried() {
    run 0 "$@"
    wanted=$status
    cp out want
    last=$(cat count 2>/dev/null)
    if [ -z "$last" ] || [ "$last" = 0 ]; then
        echo "decplan $*: no request for memory was counted"
        failed=$((failed + 1))
        return
    fi
    which=1
    while [ "$which" -le "$last" ]; do
        run "$which" "$@"
        if judged "$which"; then passed=$((passed + 1)); else failed=$((failed + 1)); fi
        which=$((which + 1))
    done
    echo "decplan $*: $last requests"
}

models=$root/models
tried plan "$models/tiny.dpomdp" --horizon 1
tried plan "$models/tiger.dpomdp" --horizon 2
tried plan "$models/tiger.dpomdp" --horizon 2 --cert 2 --look 2
tried check "$models/tiger.dpomdp" "$root/certificates/tiger-2.cert"
tried value "$models/tiger.dpomdp" "$root/policies/tiger-3.policy"
tried show "$models/tiger.dpomdp" "$root/certificates/tiger-2.cert"
tried sim "$models/tiger.dpomdp" "$root/certificates/tiger-2.cert" --seed 7
tried print "$models/tiger.dpomdp"
tried make --seed 7 --agents 2 --states 3 --actions 2 --observations 2
tried trial --seed 1 --agents 2 --states 1 --actions 1 --observations 1 --horizon 1
tried trial --seed 7 --agents 2 --states 3 --actions 2 --observations 2 --horizon 2

echo "$passed passed, $failed failed"
[ "$failed" = 0 ]
