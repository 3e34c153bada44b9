#!/usr/bin/env bash
# Lists of steps, good and bad: the trace, the Graphviz file, and one clear line
# with a failing exit for everything that is wrong.
set -euo pipefail
cd "$(dirname "${BASH_SOURCE[0]}")/.."
. tests/lists.sh

input=scripts/replay-input
reader $input examples/two_sessions.steps
refuses "no line with the numbers" $input "$(list '# nothing')"
refuses "line 1: expected the numbers" $input "$(list '2')"
refuses "line 2: number of sessions 0 is not 1 to 64" $input "$(list '#' '0 1')"
refuses "line 1: number of sessions 65" $input "$(list '65 1')"
refuses "line 1: number of items 65" $input "$(list '1 65')"
refuses "line 1: number of items 99999999999999999999" $input "$(list '1 99999999999999999999')"
refuses "line 3: expected a verb, a session and an item" $input "$(list '2 2' '1 1 1' '1 1')"
refuses "line 2: no verb is called 'ask'" $input "$(list '2 2' 'ask 1 1')"
refuses "line 2: verb 256 is not 0 to 255" $input "$(list '2 2' '256 1 1')"
refuses "line 2: session 256" $input "$(list '2 2' '1 256 1')"
refuses "line 2: item '-1' is no number" $input "$(list '2 2' '1 1 -1')"
refuses "line 2: item 'x' is no number" $input "$(list '2 2' '1 1 x')"
$input "$(list '2 2' '0000000001 01 1')" | cmp - <($input "$(list '2 2' '1 1 1')") || fault "zeros before a number"
{ echo '2 2'; seq 4096 | sed 's/.*/9 0 255/'; } > "$folder/longest"
$input "$folder/longest" > "$folder/in" || fault "4096 steps are refused"
build/bin/replay < "$folder/in" > "$folder/out"
[ "$(tail -n 1 "$folder/out")" = 'end 0 0 0 0' ] || fault "4096 steps"
build/bin/trace "$folder/in" "$folder/out" > "$folder/trace" || fault "the trace of 4096 steps"
[ "$(grep -cx '      refused: bad verb' "$folder/trace")" = 4096 ] || fault "4096 refusals"
echo '1 1 1' >> "$folder/longest"
refuses "line 4098: more than 4096 steps" $input "$folder/longest"

# tells TEXT..: the trace has these lines.
tells() {
    for text in "$@"; do
        grep -qxF -- "$text" "$folder/trace" || fault "the trace has no line: $text"
    done
}

# The trace, from a file with a space in its name.
cp examples/two_sessions.steps "$folder/two sessions.steps"
make --no-print-directory --silent replay FILE="$folder/two sessions.steps" STEP=10 \
    DOT="$folder/the waits.dot" LIB="$LOCKMGR_LIB" > "$folder/trace"
tells "10 3 2 1 0 0 1 0 0" \
    "      CYCLE CLOSED: session 2 waits for session 1 waits for session 2" \
    "      session 2 waits for item 1 held by session 1" \
    "      sent: probe (1, 2) to session 2" \
    "      DEADLOCK DECLARED: session 2 is the victim, session 1 the initiator" \
    "      session 2 is rolled back" "end 0 1 1 1"
[ "$(grep -c 'color=red' "$folder/the waits.dot")" = 8 ] || fault "the cycle is not drawn"
# The next holder is the most senior of the queue, not the first.
make --no-print-directory --silent replay FILE=examples/senior_first.steps LIB="$LOCKMGR_LIB" \
    > "$folder/trace"
tells "10 3 2 1 0 2 0 0 0" \
    "      sent: grant to session 1" "      sent: resend to session 3" \
    "      session 3 waits for item 1 held by session 1" "end 0 0 0 0"
if make --no-print-directory --silent replay FILE="$folder/missing" LIB="$LOCKMGR_LIB" \
    > "$folder/out" 2>&1; then
    fault "make replay accepts a missing file"
fi

trace=build/bin/trace
$input examples/two_sessions.steps > "$folder/in"
build/bin/replay < "$folder/in" > "$folder/out1"
grep -q '^usage' <<< "$($trace --help)" || fault "trace --help"
refuses "No such file" $trace "$folder/missing" "$folder/out1"
refuses "No such file" $trace "$folder/in" "$folder/missing"
refuses "not the input" $trace "$folder/out1" "$folder/out1"
refuses "there are the steps 1 to 22" $trace "$folder/in" "$folder/out1" 23 "$folder/dot"
refuses "no step 'x'" $trace "$folder/in" "$folder/out1" x "$folder/dot"
refuses "No such file" $trace "$folder/in" "$folder/out1" 1 "$folder/none/dot"
sed 's/^10 3 2 1 0 0 1/10 3 2 1 0 0 0/' "$folder/out1" > "$folder/out2"
refuses "the library answers otherwise" $trace "$folder/in" "$folder/out2"
head -n 21 "$folder/out1" > "$folder/out2"
refuses "ends before step 22" $trace "$folder/in" "$folder/out2"
echo bad > "$folder/out2"
refuses "the library answers otherwise" $trace "$folder/in" "$folder/out2"

verdict "lists of steps"
