# What the tests of readable lists share: a folder of their own, faults that are
# counted, commands that must fail.
folder=$(mktemp -d)
trap 'rm -rf "$folder"' EXIT
failures=0

fault() {
    echo "FAILED: $1"
    failures=$((failures + 1))
}

# says TEXT FILE: the file is one line that has the text.
says() {
    [ "$(wc -l < "$2")" = 1 ] && grep -qF -- "$1" "$2"
}

# refuses TEXT COMMAND..: the command fails, with one line that has the text.
refuses() {
    local text=$1
    shift
    if "$@" > "$folder/out" 2> "$folder/err"; then
        fault "accepted: $*"
    elif ! says "$text" "$folder/err"; then
        fault "$* says: $(cat "$folder/err")"
    fi
}

# list TEXT..: a file with these lines.
list() {
    printf '%s\n' "$@" > "$folder/list"
    echo "$folder/list"
}

# reader SCRIPT EXAMPLE: what every reader of lists does with a file that is none, with --help, and where it cannot write.
reader() {
    refuses "No such file" "$1" "$folder/missing"
    refuses "Is a directory" "$1" "$folder"
    refuses "more than one file" "$1" a b
    printf '\377\376\n' > "$folder/bytes"
    refuses "not a text file" "$1" "$folder/bytes"
    grep -q '^usage' <<< "$("$1" --help)" || fault "$1 --help"
    if [ -w /dev/full ] && { "$1" "$2" > /dev/full 2> "$folder/err" || ! says "standard output" "$folder/err"; }; then
        fault "$1 on a full device says: $(cat "$folder/err")"
    fi
    "$1" "$2" > "$folder/named"
    "$1" < "$2" > "$folder/read"
    sed '1s/^/\xef\xbb\xbf/; s/$/\r/' "$2" > "$folder/other"
    "$1" "$folder/other" > "$folder/marked"
    cmp "$folder/named" "$folder/read" || fault "$1 reads standard input otherwise"
    cmp "$folder/named" "$folder/marked" || fault "$1 reads a byte order mark or carriage returns otherwise"
}

# verdict WHAT: the end of a test.
verdict() {
    [ $failures = 0 ] || exit 1
    echo "$1: no fault"
}
