#!/usr/bin/env bash
# Measures two static libraries of the proved code, row by row in turns, and prints a Markdown table: each row before and after, and its ratio
# to the independent implementation. The last line names the rows that take more than 1.05 times before. With --instructions the table is in
# instructions (valgrind counts them). Both libraries are linked with the benchmarks as they are here. A function that grows or shrinks moves those
# after it, and where a loop starts in a cache line alone can be a tenth of a row: with --aligned each function of both libraries starts at a
# multiple of 64 bytes, to tell that from what the code does. A library of before F-2 has rental_step, which takes no picks, in place of
# rental_move: then the rows without picks are measured through it, and the others are named below the table. One of before F-3 refuses logs with a
# release unordered beside other moves: these rows are named there too. One of before F-4 has rental_run and rental_report, which give no tally, in
# place of rental_run_log and rental_report_input: all rows are measured through them, with tallies of 0 and 0, which no row looks at. All files go to
# a temporary folder.
# Usage: tests/before_after.sh [--instructions] [--aligned] OLD.a NEW.a [WORD]; with a word, only the rows whose name has it.
set -eu

usage() {
    echo "usage: tests/before_after.sh [--instructions] [--aligned] OLD.a NEW.a [WORD]" >&2
    exit 2
}

options=()
place=cp
while [ $# -gt 0 ]; do
    case $1 in
        --instructions) options+=("$1") ;;
        --aligned) place=align ;;
        -*) usage ;;
        *) break ;;
    esac
    shift
done
if [ $# -lt 2 ] || [ ! -f "$1" ] || [ ! -f "$2" ]; then usage; fi
old=$(realpath "$1")
new=$(realpath "$2")
shift 2

tests=$(cd "$(dirname "$0")" && pwd)
work=$(mktemp -d)
trap 'rm -rf "$work"' EXIT

# align LIBRARY TARGET: the same library, its functions at multiples of 64 bytes
align() {
    local parts=$work/parts
    mkdir "$parts"
    (cd "$parts" && ar x "$1")
    for part in "$parts"/*.o; do objcopy --set-section-alignment '.text*=64' "$part"; done
    ar rcs "$2" "$parts"/*.o
    rm -r "$parts"
}

# add LIBRARY FUNCTION: adds what the C code on standard input defines to a library that lacks the function
add() {
    if nm "$1" | grep -q " T $2\$"; then return; fi
    gcc -O2 -c -o "$work/$2.o" -x c -
    ar rs "$1" "$work/$2.o" 2>"$work/ar"
}

# without_picks LIBRARY: rental_move over rental_step; what it is given with picks it answers with no number at all
without_picks() {
    add "$1" rental_move <<'END'
#include <stddef.h>
#include <stdint.h>
uint64_t rental_step(const uint8_t *, size_t, uint16_t *, size_t, size_t, size_t);
uint64_t rental_move(const uint8_t *book, size_t length, uint16_t *contents, size_t locations, size_t agent, const uint64_t *picks,
                     size_t picks_length, size_t lent) {
    (void)picks;
    return picks_length == 0 ? rental_step(book, length, contents, locations, agent, lent) : UINT64_MAX;
}
END
}

# without_tally LIBRARY: rental_run_log over rental_run, and rental_report_input over rental_report; their tallies are 0 and 0
without_tally() {
    add "$1" rental_run_log <<'END'
#include <stddef.h>
#include <stdint.h>
uint64_t rental_run(const uint8_t *, size_t, const uint8_t *, size_t, uint16_t *, size_t, uint64_t *, size_t, uint64_t *, size_t, size_t);
size_t rental_report(const uint8_t *, size_t, uint8_t *, size_t);
uint64_t rental_run_log(const uint8_t *book, size_t book_length, const uint8_t *log, size_t log_length, uint16_t *contents, size_t contents_length,
                        uint64_t *readers, size_t readers_length, uint64_t *writers, size_t writers_length, size_t lent, uint64_t tally[2]) {
    tally[0] = tally[1] = 0;
    return rental_run(book, book_length, log, log_length, contents, contents_length, readers, readers_length, writers, writers_length, lent);
}
size_t rental_report_input(const uint8_t *input, size_t length, uint8_t *output, size_t output_length, uint64_t tally[2]) {
    tally[0] = tally[1] = 0;
    return rental_report(input, length, output, output_length);
}
END
}

# build NAME LIBRARY: the program `bench` over a library, as $work/NAME/bench
build() {
    mkdir "$work/$1"
    $place "$2" "$work/$1/libc_api.a"
    without_picks "$work/$1/libc_api.a"
    without_tally "$work/$1/libc_api.a"
    RENTAL_LIBRARY="$work/$1" cargo build --offline --release --quiet --manifest-path "$tests/Cargo.toml" \
        --target-dir "$work/target" -p compare --bin bench
    cp "$work/target/release/bench" "$work/$1/bench"
}

build before "$old"
build after "$new"
"$work/after/bench" --against "$work/before/bench" "${options[@]}" "$@"
