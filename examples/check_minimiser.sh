#!/bin/sh
# Checks another minimiser on PLA files: whether it kept each function, and how far it is from the least size.
#
# usage: examples/check_minimiser.sh COMMAND FILE ..
#
# COMMAND is run by the shell, with the file as standard input and as $1. It writes its PLA to standard output, or
# to the file $2. So these are commands:
#     minimise
#     minimise "$1"
#     berkeley-abc -q "read_pla $1; collapse; write_pla $2"
# ESPRESSO names the program (without it, espresso beside this folder), and LIMIT the seconds that -Dexact has for a
# file (without it, 60; 0 leaves the least size out). The status is 0 where each function was kept, 1 where one was
# not, and 2 where one could not be compared.
set -u
if [ $# -lt 2 ]; then
    sed -n '2,13s/^# \{0,1\}//p' "$0" >&2
    exit 2
fi
espresso=${ESPRESSO:-$(dirname "$0")/../espresso}
limit=${LIMIT:-60}
command=$1
shift
folder=$(mktemp -d) || exit 2
trap 'rm -rf "$folder"' EXIT
trap 'exit 2' HUP INT TERM

# The number of rows of a printed PLA.
rows() { sed -n 's/^\.p //p'; }

# The number of terms of the file $2 beside the least for the file $1.
sizes() {
    found=$(rows <"$2")
    fewest=
    [ "$limit" = 0 ] || fewest=$(timeout "$limit" "$espresso" -Dexact -eeat "$1" | rows)
    echo "same function, $found terms; the least: ${fewest:-not known}"
}

# What is to be said of a file, and as status 0, 1 or 2.
checked() {
    rm -f "$folder"/*
    if [ ! -r "$1" ]; then
        echo "cannot be read"
        return 2
    fi
    if ! sh -c "$command" minimiser "$1" "$folder/file" <"$1" >"$folder/stdout" 2>"$folder/stderr"; then
        echo "the command failed: $(head -n 1 "$folder/stderr")"
        return 2
    fi
    [ -e "$folder/file" ] || mv "$folder/stdout" "$folder/file"
    # The ON list alone: what the command calls a don't-care is not one for that.
    if ! "$espresso" -Decho -eeat "$folder/file" >"$folder/on" 2>"$folder/stderr"; then
        echo "no PLA was written: its line $(sed 's/^espresso: .*\/file://' "$folder/stderr")"
        return 2
    fi
    "$espresso" -Dverify -eeat "$1" "$folder/on" >"$folder/answer" 2>"$folder/stderr"
    case $? in
    0) sizes "$1" "$folder/on" ;;
    1) echo "the function was changed" && return 1 ;;
    *) cat "$folder/stderr" && return 2 ;;
    esac
}

status=0
for file in "$@"; do
    said=$(checked "$file")
    case $? in
    0) ;;
    1) [ $status = 2 ] || status=1 ;;
    *) status=2 ;;
    esac
    echo "$file: $said"
done
exit $status
