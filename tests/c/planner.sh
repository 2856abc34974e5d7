#!/usr/bin/env bash
# Runs the example on a few lists and models of rows, and holds what it prints to planner.out beside this file, which is
# compared with the independent implementation by tests/reference/planner_cases.py. Lines on single windows are not
# stored: which of the best assignments is shown is free, and tests/reference/planner_windows.py checks them.
#
#     planner.sh PROGRAM            compare
#     planner.sh PROGRAM --print    print, to be read and stored
set -euo pipefail
program=$1
here=$(dirname "$0")
lists=$(mktemp -d "$(dirname "$program")/lists.XXXXXX")
trap 'rm -r "$lists"' EXIT

run() {
    echo "\$ planner$([ $# -eq 0 ] || printf ' %q' "$@")"
    "$program" "$@" 2>&1 || echo "exit $?"
}

# A folder that is left out of what is printed, and arguments.
run_in() {
    run "${@:2}" | sed "s,$1/,,"
}

run_file() { # FOLDER NAME
    run_in "$1" "$1/$2"
}

run_rows() { # FOLDER NAME, and numbers of steps
    run_in "$1" --rows "$1/$2" "${@:3}"
}

# A file of this name, with this text: \n and the like as for printf.
run_text() {
    printf "$2" >"$lists/$1"
    run_file "$lists" "$1"
}

run_rows_text() { # NAME TEXT, and numbers of steps
    printf "$2" >"$lists/$1"
    run_rows "$lists" "$1" "${@:3}"
}

repeat() {
    printf "$1%.0s" $(seq "$2")
}

run_lists() {
    run 10 7 7 5 5 5
    run 10 6 6 6
    run 5 3 3 3
    run 100 51 51 34 34 34 26 26 26 26
    run_file "$here" planner.txt
    run 1 1 1
    run 8192 4097 2731 2731
    run 12287 8192 8192 4096 4096 4096
    run 12290 8194 8194 4097 4097 4097
    run 20000 13334 13334 6667 6667 6667
    run 65536 40000 30000
    run 65537 40000 30000
    run 196607 131072 131072 65536 65536 65536
    run 1000000001 600000000 600000000 400000001
    run 4000000000 2400000000 2400000000 1600000001
    run 3999999999 2000000000 2147483648 2147483648
}

run_counted_lists() {
    run 10 7x2 5x3
    run 10 5x300
    run 10 6x255 6x256 4
    run 100 51x2 34x3 26x4
    run 10 7x1 5x1
    run 10 3x65535 7x65535
    run 4000000000 4000000000x65535 4000000000x65535 2400000000x2
}

run_blocks() {
    run 10 7 5 / 7 5 / 5
    run 10 5 / 5
    run 10 6 6 6 / 4 / 6
    run 10 7x1 / 5x1
    run 10 7x2 5 / 7 5x300 / 5
    run 100 51x2 34 26 / 34x2 / 26x3
    run 4000000000 4000000000x65535 / 2400000000x65535 2400000000
}

# Up to ten copies, and one more; the first needs a window more than its best floor.
run_short_lists() {
    run 11 2 5 10 7 5 3
    run 10 4 4 4 3 3 3 3 3 3
    run 10 5x10
    run 10 5x11
    run 10 5x4 / 5x6
    run 10 5x5 / 5x6
}

run_refused() {
    run 10 11
    run 10 0
    run 0 1
    run 4000000001 1
    run 4294967295 1
    run 99999999999 1
    run 4000000000 4000000001
}

run_refused_counts() {
    run 10 5x0
    run 10 5x2 5x0
    run 10 5x0 11
    run 10 0x10
    run 4000000001 5x0
}

run_refused_blocks() {
    run 10 / 7 5
    run 10 7 / / 5
    run 10 7 5 /
    run 10 /
    run 10 7 / / 11
    run 10 7 / / 5x0
    run 4000000001 5 /
    run 99999999999 /
}

run_wrong_arguments() {
    run
    run 10
    run 10 x
    run x 10
    run 10 5 -5
    run 10 ''
    run 10 18446744073709551616
    run 10 4294967296
    run 10 5x
    run 10 x5
    run 10 5 5xx3
    run 10 5x3x
    run 10 5X3
    run 10 5x-1
    run 10 5x+1
    run 10 -5x3
    run 10 5 x 3
    run 10x1 5
    run 10 5x65536
    run 10 5x4294967297
    run 10 5x18446744073709551617
    run 10 4294967297x1
    run 10 18446744073709551617x1
    run / 10
    run 10 5 //
    run 10 5/ 5
    run 10 5 /5
    run 10 5 /x2
    run 10 5x/
    run 10 5 / x
    run 10 $(repeat '5 / ' 64) 5
}

run_files() {
    run_text no_sizes.txt '60\n'
    run_text spaces.txt '\n 60\t20\v20\r\n\f20'
    run_text zeros.txt "60 $(repeat 0 1000)20\n"
    run_text most_sizes.txt "60\n$(repeat '7 ' 2047)61\n"
    run_text counts.txt '60\n20x5 31x3\n41x2\t12'
    run_text zeros_of_count.txt "60 20x$(repeat 0 1000)5\n"
    run_text most_counts.txt "60\n$(repeat '7x65535 ' 2047)7x0\n"
    run_text blocks.txt '60\n20x5 31\n/ 31x2 /\n41x2\t12'
    run_text most_blocks.txt "60\n$(repeat '31 /\\n' 63)7\n"
    run_text empty_block.txt '60\n20\n/\n/\n31\n'
}

run_wrong_files() {
    run_text empty.txt ''
    run_text blank.txt ' \n\n'
    run_text letter.txt '60\n20 20x 20\n20\n'
    run_text first.txt 'C 60\n20\n'
    run_text late.txt '60\n20 20\n\n31 31\n41 # 12\n'
    run_text sign.txt '60\n20\n20 -20\n'
    run_text plus.txt '+60\n20\n'
    run_text point.txt '60\n20.0\n'
    run_text comma.txt '60, 20\n'
    run_text bytes.txt '\357\273\27760\n20\n'
    run_text nul.txt '60\n2\0 0\n'
    run_text bits_64.txt '60\n20\n18446744073709551616\n'
    run_text capacity.txt '18446744073709551616\n20\n'
    run_text bits_32.txt '60\n20\n20\n4294967296\n'
    run_text most_of_64.txt '60\n18446744073709551615'
    run_text too_many.txt "60\n$(repeat '7\\n' 2048)8\n"
    run_text long.txt "60\n20 $(repeat a 70000) 20\n"
    run_text digits.txt "60\n20\n$(repeat 9 70000)\n"
    run_text count.txt '60\n20x5\n31x 3\n'
    run_text count_bits.txt '60\n20x65536\n'
    run_text counted_capacity.txt '60x1\n20x5\n'
    run_text block_first.txt '/ 60\n20\n'
    run_text glued.txt '60\n20 / 31\n41/12\n'
    run_text too_many_blocks.txt "60\n$(repeat '7 /\\n' 64)8\n"
    run_file "$lists" missing.txt
    mkdir "$lists/folder"
    run_file "$lists" folder
}

run_models() {
    run_rows "$here" planner_rows.txt
    run_rows "$here" planner_rows.txt 1 3 0 3 3 0
    run_rows "$here" planner_rows.txt 4 4 0 1 2 0 2 3 0 3 2 0 5 4 0 6 3 2 7 5 2 1 9 0
    run_rows_text no_coefficients.txt '\n10\n \n20 7\n30' 2 1 0
}

run_refused_models() {
    run_rows "$here" planner_rows.txt 8 0 0
    run_rows "$here" planner_rows.txt 7 4 1
    run_rows "$here" planner_rows.txt 1 3 0 1 5 0
    run_rows "$here" planner_rows.txt 2 400000000 0
    run_rows_text no_rows.txt '\n' 1 3 0
    run_rows_text zero.txt '10 5\n0 5\n' 1 3 0
    run_rows_text over.txt '10 5\n4 4\n\n6 5 7\n'
    run_rows_text most_rows.txt "$(repeat "31 $(repeat '7 ' 31)8"'\\n' 63)7 $(repeat '7 ' 31)8\n"
}

run_wrong_models() {
    run --rows
    run_rows "$here" planner_rows.txt 1
    run_rows "$here" planner_rows.txt 1 3
    run_rows "$here" planner_rows.txt $(repeat '1 3 0 ' 9)
    run_rows "$here" planner_rows.txt 1 x 0
    run_rows "$here" planner_rows.txt 256 3 0
    run_rows "$here" planner_rows.txt 1 3 0 2 4294967296 0
    run_rows_text row_letter.txt '10 7\n10 x\n'
    run_rows_text row_bits.txt '10 7\n\n4294967296 7\n'
    run_rows_text coefficient_bits.txt '10 7\n10 4294967296\n'
    run_rows_text too_many_rows.txt "$(repeat '10\\n' 64)11\n"
    run_rows_text too_many_coefficients.txt "10 $(repeat '7 ' 2048)\n10 8\n"
    run_rows_text row_count.txt '10 7\n10 5x3\n'
    run_rows_text right_side_count.txt '10x1 7\n'
    run_rows "$here" planner_rows.txt 1 3x1 0
    run_rows_text row_block.txt '10 7\n10 5 / 3\n'
    run_rows_text first_block.txt '10 7\n/ 10 5\n'
    run_rows "$here" planner_rows.txt 1 / 0
    run_rows "$lists" missing.txt
}

run_all() {
    run_lists
    run_counted_lists
    run_blocks
    run_short_lists
    run_refused
    run_refused_counts
    run_refused_blocks
    run_wrong_arguments
    run_files
    run_wrong_files
    run_models
    run_refused_models
    run_wrong_models
}

without_windows() {
    grep -v '^  window '
}

if [ "${2-}" = --print ]; then
    run_all | without_windows
else
    run_all >"$lists/printed"
    diff "$here/planner.out" <(without_windows <"$lists/printed")
    python3 -B "$here/../reference/planner_windows.py" "$lists/printed"
    echo "planner: prints what is stored, and windows that hold the lists"
fi
