#!/bin/sh
# What the gate cannot hold: the built program over real files, devices, pipes and words.
#
#     tests/outside.sh [PROGRAM]
#
# PROGRAM is crates/decplan/out/decplan where none is given (./decplan builds it). Each case is a
# line that says whether the program ended in time, with the status and the text on standard output
# that it must have, and wrote nothing on standard error. The exit status is 0 where all passed.

root=$(CDPATH='' cd -- "$(dirname -- "$0")/.." && pwd) || exit 1
program=${1:-$root/crates/decplan/out/decplan}
case $program in
/*) ;;
*) program=$PWD/$program ;;
esac
if [ ! -x "$program" ]; then
    echo "no program at $program: ./decplan builds it" >&2
    exit 1
fi

seconds=60
passed=0
failed=0
folder=$(mktemp -d) || exit 1
trap 'rm -rf "$folder"' EXIT
trap 'exit 1' HUP INT TERM
cd "$folder" || exit 1

# judge NAME STATUS: compares what the last run left in the files status, out, err and want.
judge() {
    got=$(cat status)
    if [ "$got" = 124 ]; then
        verdict="FAILED: still running after $seconds seconds"
    elif [ "$got" != "$2" ]; then
        verdict="FAILED: status $got, not $2"
    elif ! cmp -s out want; then
        verdict="FAILED: wrote '$(head -c 200 out)', not '$(head -c 200 want)'"
    elif [ -s err ]; then
        verdict="FAILED: wrote '$(head -c 200 err)' on standard error"
    else
        verdict=passed
    fi
    if [ "$verdict" = passed ]; then passed=$((passed + 1)); else failed=$((failed + 1)); fi
    echo "$1: $verdict"
}

# limited WORD..: the program on these words, cut off when its time is over.
limited() { timeout "$seconds" "$program" "$@"; }

# answers NAME STATUS LINE WORD..: the program on these words ends so, and writes this one line.
answers() {
    name=$1 wanted=$2
    printf '%s\n' "$3" >want
    shift 3
    limited "$@" >out 2>err </dev/null
    echo $? >status
    judge "$name" "$wanted"
}

# Files and devices that hold the reading up.
mkdir a-folder
ln -s loop loop
printf 'agents: 1\n' >short
long_name=$(printf '%05000d' 0)
# A file with a hole in it takes no room: one byte more than a model may have, and many more.
dd if=/dev/null of=longer bs=1 seek=67108865 count=0 2>err
dd if=/dev/null of=much-longer bs=1 seek=1073741824 count=0 2>err
dd if=/dev/null of=longest bs=1 seek=67108864 count=0 2>err

answers 'a missing file' 6 'refused read 1' plan missing --horizon 1
answers 'a name of no bytes' 6 'refused read 1' plan '' --horizon 1
answers 'a name that is too long for the system' 6 'refused read 1' plan "$long_name" --horizon 1
answers 'a folder in place of a file' 6 'refused read 1' plan a-folder --horizon 1
answers 'a file in place of a folder' 6 'refused read 1' plan short/tiny --horizon 1
answers 'a link that leads to itself' 6 'refused read 1' plan loop --horizon 1
answers 'a file whose first read fails' 6 'refused read 1' plan /proc/self/mem --horizon 1
if [ "$(id -u)" = 0 ]; then
    echo 'a file that may not be read: not tried, since root may read all'
else
    : >closed && chmod 000 closed
    answers 'a file that may not be read' 6 'refused read 1' plan closed --horizon 1
fi
answers 'a file of one byte too many' 5 'refused large model-bytes 67108865' plan longer --horizon 1
answers 'a file of many bytes too many' 5 'refused large model-bytes 67108865' plan much-longer --horizon 1
answers 'an endless device' 5 'refused large model-bytes 67108865' plan /dev/zero --horizon 1
# These two are read whole. What they hold is no model.
answers 'a file of just as many bytes as are allowed' 3 'refused model line 1 column 1 bad-byte' plan longest --horizon 1
answers 'an empty file' 3 'refused model line 1 column 1 header' plan /dev/null --horizon 1

# A file that comes in pieces, and one without an end, through a pipe.
printf 'refused model line 2 column 1 header\n' >want
{ printf 'agents'; sleep 0.2; printf ': 1\n'; } | {
    limited plan /dev/stdin --horizon 1 >out 2>err
    echo $? >status
}
judge 'a file that comes in two pieces' 3
printf 'refused large model-bytes 67108865\n' >want
yes 2>/dev/null | {
    limited plan /dev/stdin --horizon 1 >out 2>err
    echo $? >status
}
judge 'a pipe that never ends' 5

# Want of memory: the address space has room for the program but not for the file.
printf 'refused memory\n' >want
(
    ulimit -v 65536
    limited plan longest --horizon 1 >out 2>err
    echo $? >status
)
judge 'a file that memory has no room for' 8

# Standard output that does not take the line.
: >want
: >out
limited plan missing --horizon 1 >/dev/full 2>err
echo $? >status
judge 'a full device' 7
limited plan missing --horizon 1 >&- 2>err
echo $? >status
judge 'a closed standard output' 7
limited plan short --horizon 1 >&- 2>err <&-
echo $? >status
judge 'closed standard output and input, with a file to read' 7
# The pipe is opened for both, so that opening it for writing does not wait; then its reader goes.
mkfifo pipe
(
    exec 3<>pipe 4>pipe 3>&-
    limited plan missing --horizon 1 >&4 2>err
    echo $? >status
)
judge 'a reader that closed the pipe' 7

# Words.
not_text=$(printf 'tin\377y')
answers 'a file name that is not UTF-8' 2 'refused usage' plan "$not_text" --horizon 1
answers 'a word behind the others that is not UTF-8' 2 'refused usage' plan short --horizon 1 "$not_text"
answers 'no words' 2 'refused usage'
answers 'an empty word' 2 'refused usage' ''
answers 'an unknown command' 2 'refused usage' solve short --horizon 1
answers 'a command without its file' 2 'refused usage' plan --horizon 1
answers 'a command with a file too many' 2 'refused usage' plan short short --horizon 1
answers 'no horizon' 2 'refused usage' plan short
answers 'an option without its value' 2 'refused usage' plan short --horizon
answers 'an option that is given twice' 2 'refused usage' plan short --horizon 1 --horizon 1
answers 'an unknown option' 2 'refused usage' plan short --horizon 1 --speed 2
answers 'horizon 0' 2 'refused usage' plan short --horizon 0
answers 'a number that begins with 0' 2 'refused usage' plan short --horizon 01
answers 'a number with a sign' 2 'refused usage' plan short --horizon +1
answers 'an order of another name' 2 'refused usage' plan short --horizon 1 --order last
answers 'a number that is out of range' 2 'refused usage' plan short --horizon 4294967296

# The certificates that come with the repository: each is closed, so its interval is one point.
printf 'accepted\nclosed yes\n' >want
for certificate in "$root"/certificates/*.cert; do
    name=$(basename "$certificate" .cert)
    limited check "$root/models/${name%-*}.dpomdp" "$certificate" >text 2>err </dev/null
    echo $? >status
    head -n 2 text >out
    judge "the certificate $name" 0
done
# What is planned is what its check accepts: over three steps, closed at the optimum, and an open plan.
printf '%s\n' accepted 'closed yes' 'lean yes' 'merged yes' 'repaired 0' 'unit 16000000000000' \
    'lower 83053000000000 5.190812' 'upper 83053000000000 5.190813' >want
limited plan "$root/models/tiger.dpomdp" --horizon 3 >planned 2>err </dev/null
limited check "$root/models/tiger.dpomdp" planned >out 2>>err </dev/null
echo $? >status
judge 'a plan over three steps, checked' 0
printf '%s\n' accepted 'closed no' 'lean yes' 'merged yes' >want
limited plan "$root/models/tiger.dpomdp" --horizon 4 --nodes 50 --look 4 --order heavy >planned 2>err </dev/null
limited check "$root/models/tiger.dpomdp" planned >text 2>>err </dev/null
echo $? >status
head -n 4 text >out
judge 'an open plan over four steps, checked' 0
# One that says more than it shows, and one of another model.
sed 's/^upper .*/upper 1/' "$root/certificates/tiger-2.cert" >upper
answers 'a certificate with another upper end' 1 'rejected upper -3200000000' check "$root/models/tiger.dpomdp" upper
answers 'a certificate for another model' 4 'refused file line 12 shape' \
    check "$root/models/solo.dpomdp" "$root/certificates/tiger-2.cert"

# Every proper prefix of a certificate has the fault 'shape' at the line of the cut.
limited plan "$root/models/tiger.dpomdp" --horizon 1 >whole 2>err </dev/null
: >out
: >want
: >err
echo 0 >status
bytes=$(wc -c <whole)
kept=0
while [ "$kept" -lt "$bytes" ]; do
    head -c "$kept" whole >cut
    limited check "$root/models/tiger.dpomdp" cut >>out 2>>err </dev/null
    [ $? = 4 ] || echo 1 >status
    echo "refused file line $(($(wc -l <cut) + 1)) shape" >>want
    kept=$((kept + 1))
done
judge 'every proper prefix of a certificate' 0

# The policy that comes with the repository, and a text that is none.
printf '%s\n' 'repaired 0' 'mode exact' 'unit 16000000000000' 'low 83053000000000 5.190812' \
    'high 83053000000000 5.190813' >want
limited value "$root/models/tiger.dpomdp" "$root/policies/tiger-3.policy" >out 2>err </dev/null
echo $? >status
judge 'the policy tiger-3' 0
answers 'a policy file that is none' 4 'refused file line 1 shape' value "$root/models/tiger.dpomdp" short
answers 'a second file that is missing' 6 'refused read 2' value "$root/models/tiger.dpomdp" missing
dd if=/dev/null of=long-policy bs=1 seek=268435457 count=0 2>err
answers 'a second file of one byte too many' 5 'refused large file-bytes 268435457' \
    check "$root/models/tiger.dpomdp" long-policy

echo "$passed passed, $failed failed"
[ "$failed" = 0 ]
