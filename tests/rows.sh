#!/bin/sh
# What the gate does not hold of the rows: that the copies of model files beside them are those of
# models/, and that the built program refuses faulty files of rows, with their line.
#
#     tests/rows.sh [PROGRAM]
#
# PROGRAM is crates/dp_rows/out/dp_rows where none is given (the gate leaves it there).

root=$(CDPATH='' cd -- "$(dirname -- "$0")/.." && pwd) || exit 1
program=${1:-$root/crates/dp_rows/out/dp_rows}
data=$root/crates/dp_rows/data
passed=0
failed=0
folder=$(mktemp -d) || exit 1
trap 'rm -rf "$folder"' EXIT
trap 'exit 1' HUP INT TERM

# judge NAME STATUS: counts a case by the status of what was tried last.
judge() {
    if [ "$2" = 0 ]; then
        passed=$((passed + 1))
        echo "$1: passed"
    else
        failed=$((failed + 1))
        echo "$1: FAILED"
    fi
}

for copy in "$data"/models/*.dpomdp; do
    cmp -s "$copy" "$root/models/$(basename "$copy")"
    judge "the rows' copy of $(basename "$copy")" $?
done

# refuses NAME LINE WHY: the rows on standard input are refused at this line, and nothing else is printed.
refuses() {
    cat >"$folder/rows"
    out=$(cd "$folder" && "$program" rows 2>&1 </dev/null)
    status=$?
    [ "$status $out" = "1 refused rows line $2 $3" ]
    judge "rows with $1" $?
}

refuses 'an entry above the first row' 1 place <<'ROWS'
status Done
ROWS
refuses 'an unknown word' 2 word <<'ROWS'
row first
states Done
ROWS
refuses 'a status that is none' 2 status <<'ROWS'
row first
status Finished
ROWS
refuses 'two texts' 3 again <<'ROWS'
row first
text
text
ROWS
refuses 'content of nothing' 2 place <<'ROWS'
row first
| agents: 1
ROWS
refuses 'a number that is none' 2 number <<'ROWS'
row first
fetches many
ROWS
refuses 'a file that is missing' 3 read <<'ROWS'
row first
file m
< missing
ROWS
refuses 'a put without its number of bytes' 2 form <<'ROWS'
row first
put 0 fails
ROWS
refuses 'a row that expects nothing' 1 unfinished <<'ROWS'
row first
words plan m
ROWS
refuses 'a later row that expects nothing' 7 unfinished <<'ROWS'
row first
words plan m
status Usage
text
| refused usage

row second
words plan m
ROWS
(cd "$folder" && "$program" missing >out 2>&1 </dev/null)
[ "$? $(cat "$folder/out")" = '1 refused missing line 0 read' ]
judge 'a file of rows that is missing' $?

echo "$passed passed, $failed failed"
[ "$failed" = 0 ]
