#!/usr/bin/env bash
# Lists of days, good and bad: the printed statement, and one clear line for
# everything that is wrong.
set -euo pipefail
cd "$(dirname "${BASH_SOURCE[0]}")/.."
. tests/lists.sh

input=scripts/statement-input
program=build/bin/statement
reader $input examples/week.days
refuses "line 1: expected sessions taken part and sessions rolled back" $input "$(list '1')"
refuses "line 2: expected sessions taken part" $input "$(list '1 1' '1 1 1')"
refuses "line 2: sessions taken part 65536 is not 0 to 65535" $input "$(list '#' '65536 1')"
refuses "line 1: sessions rolled back 99999999999999999999" $input "$(list '1 99999999999999999999')"
refuses "line 1: sessions taken part 'x' is no number" $input "$(list 'x 1')"
refuses "line 1: sessions rolled back '-1' is no number" $input "$(list '1 -1')"

# convert FILE: the input of a list, and what was said.
convert() {
    $input "$1" > "$folder/in" 2> "$folder/err" || fault "not converted: $(cat "$folder/err")"
}

# prints TEXT FILE: the statement over the list, without a word on standard error.
prints() {
    convert "$2"
    [ ! -s "$folder/err" ] || fault "$2: $(cat "$folder/err")"
    [ "$($program < "$folder/in")" = "$1" ] || fault "the statement over $(cat "$2")"
}

# refused NUMBER TEXT FILE: the list is converted, one line says why it is refused, and the program prints the number.
refused() {
    convert "$3"
    says "$2" "$folder/err" || fault "$3 gives: $(cat "$folder/err")"
    [ "$($program < "$folder/in")" = "$1" ] || fault "not refused with $1: $2"
}

prints $'1 3 2\n3 2 667' "$(list '3 2')"
prints $'1 16 1\n16 1 62' "$(list '16 1')"
prints $'1 16 3\n16 3 188' "$(list '16 3')"
prints $'1 0 0\n2 7 7\n7 7 1000' "$(list '0 0 # closed' '' '  007 0000000000007')"
refused 12 "0 days, not 1 to 366" "$(list '# none')"
refused 12 "line 2: more rolled back than taken part" "$(list '1 1' '2 3')"
refused 12 "line 1: more rolled back than taken part" "$(list '0 1')"
refused 13 "nobody took part" "$(list '0 0' '0 0')"
seq 366 | sed 's/.*/65535 65535/' > "$folder/longest"
$input "$folder/longest" | $program > "$folder/out"
[ "$(tail -n 1 "$folder/out")" = '23985810 23985810 1000' ] || fault "366 days"
echo '1 1' >> "$folder/longest"
refused 12 "367 days, not 1 to 366" "$folder/longest"
seq 65535 | sed 's/.*/1 1/' > "$folder/longest"
refused 12 "65535 days, not 1 to 366" "$folder/longest"
echo '1 1' >> "$folder/longest"
refuses "line 65536: more than 65535 days" $input "$folder/longest"

# The example is the stored one, also from a file with a space in its name.
$input examples/week.days | cmp -s - crates/statement/stdin || fault "examples/week.days is not the stored input"
cp examples/week.days "$folder/a week.days"
make --no-print-directory --silent statement FILE="$folder/a week.days" > "$folder/out"
cmp -s "$folder/out" crates/statement/stdout || fault "make statement does not print the stored output"
make --no-print-directory --silent statement > "$folder/out"
cmp -s "$folder/out" crates/statement/stdout || fault "make statement without a file"
if make --no-print-directory --silent statement FILE="$folder/missing" > "$folder/out" 2>&1; then
    fault "make statement accepts a missing file"
fi

verdict "lists of days"
