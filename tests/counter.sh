#!/usr/bin/env bash
# Builds the counter's program in C over the proved book check, single move and log, which `rt lib` has put into a static library, and runs it on a few
# books, moves and logs. Its last line is 'N passed, M failed'.
set -u
cd "$(dirname "$0")/.." || exit 1
work=$(mktemp -d) || exit 1
trap 'rm -rf "$work"' EXIT
gcc -std=c11 -Wall -Wextra -Werror -O2 -o "$work/counter" tests/counter.c crates/c_api/out/libc_api.a || exit 1
passed=0
failed=0

# expect NAME WANTED WORD...: what the program prints for a file, or for a file with an agent and picks
expect() {
    local name=$1 wanted=$2 got
    shift 2
    got=$("$work/counter" "$@")
    if [ "$got" = "$wanted" ]; then
        passed=$((passed + 1))
    else
        failed=$((failed + 1))
        echo "counter: $name: '$got', not '$wanted'"
    fi
}

book=examples/rent/book.txt
expect "a sound book" "0 0" "$book"
: >"$work/empty"
expect "an empty file" "1 0" "$work/empty"
head -c 30 "$book" >"$work/cut"
expect "a line cut short" "1 1" "$work/cut"
{ cat "$book" && head -n 1 "$book"; } >"$work/surplus"
expect "a surplus line" "1 $(wc -l <"$book")" "$work/surplus"
sed '1s/^    20/ 10001/' "$book" >"$work/bounds"
expect "E out of bounds" "3 0" "$work/bounds"
sed '4s/^     1/     3/' "$book" >"$work/arity"
expect "an arity of 3" "4 1" "$work/arity"
sed '9s/^     2/    14/' "$book" >"$work/kind"
expect "a node of kind 14" "5 0" "$work/kind"
clerks=examples/pick/book.txt
expect "a pick" "0 0 0" "$clerks" 0 15
expect "another clerk's pick" "0 0 0" "$clerks" 2 17
expect "a pair that is out" "18 0 9" "$clerks" 0 16
expect "no pick" "19 0 9" "$clerks" 0
expect "a pick left over" "19 0 9" "$clerks" 0 15 14
expect "a pick that is no element" "9 2 0" "$clerks" 0 15 20
expect "a pick of 2^16 + 15" "9 1 0" "$clerks" 0 65551
expect "a pick of 2^32 + 15" "9 1 0" "$clerks" 0 4294967311
expect "a pick of 2^63 + 15" "9 1 0" "$clerks" 0 9223372036854775823
expect "a pick of 2^64 - 1" "9 2 0" "$clerks" 0 15 18446744073709551615
expect "no such clerk" "9 0 0" "$clerks" 3 15
expect "a move without a choice" "0 0 0" "$book" 0
expect "a pick for a move without a choice" "19 0 14" "$book" 0 15
expect "a move of a faulty book" "5 0 0" "$work/kind" 0
echo "$passed passed, $failed failed"
[ "$failed" -eq 0 ]
