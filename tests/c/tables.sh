#!/usr/bin/env bash
# Runs the example on a few tables, and holds what it prints to tables.out beside this file, which is reckoned by hand.
# Of a shortest list only the number of sizes is stored: which of the shortest is shown is free, and tables.py checks it.
# README.md shows what is printed of examples/solver.table.
#
#     tables.sh PROGRAM
set -euo pipefail
program=$(realpath "$1")
here=$(dirname "$(realpath "$0")")
files=$(mktemp -d "$(dirname "$program")/tables.XXXXXX")
trap 'rm -r "$files"' EXIT
cd "$files"
exec 3>/dev/full

fail() {
    echo "tables: $*" >&2
    exit 1
}

run_to() { # DESCRIPTOR, and arguments
    local status=0
    echo "\$ tables$([ $# -eq 1 ] || printf ' %q' "${@:2}")"
    "$program" "${@:2}" >&"$1" 2>errors || status=$?
    sed 's/^/standard error: /' errors
    [ "$status" -eq 0 ] || echo "exit $status"
}

run() {
    run_to 1 "$@"
}

# A file of this name, with this text: \n and the like as for printf.
run_text() {
    printf "$2" >"$1"
    run check "$1"
}

repeat() {
    printf "$1%.0s" $(seq "$2")
}

run_dual_feasible() {
    run_text passes.txt '0 1 1 1 1 5\n'
    run_text least.txt '0 1'
    run_text halves.txt '0 0 1 1 2\n2 3 3 4\n4 5\n'
    run_text greatest.txt '0 4000000000\n'
    run_text spaces.txt '\n 0\t0\v1\r\n\f1'
    run_text zeros.txt "0 $(repeat 0 1000)1\n"
    run_text most_entries.txt "$(seq -s '\n' 0 2047)\n"
}

# The table check begins with the smallest size that leaves the greatest total within reach: of images that are sizes, with 1.
run_not_dual_feasible() {
    run_text three_ones.txt '0 1 1 2\n'
    run_text one_size.txt '0 0 2 1\n'
    run check solver.table
    run_text smaller_total.txt '0 0 0 0 3 0 0 5 0 0 0 0 7\n'
    run_text counts.txt '0 0 2 3 0 0 0 0 0 0 0 10\n'
    run_text over_32_bits.txt '0 4000000000 4000000000 1\n'
    run_text last_too_small.txt "$(seq -s ' ' 0 299) 299\n" # two sizes of 300 in all, none alone
    run_text all_ones.txt "0 $(repeat '1\\n' 2046)2046\n"   # each size adds 1, and 2,047 are due
}

run_refused() {
    run_text one_entry.txt '0\n'
    run_text one_large_entry.txt '\n4294967295\n'
    run_text first.txt '\n1 1 2\n'
    run_text last.txt '0 1\n0\n'
    run_text limit.txt '0 4000000000\n\n4000000001 4294967295\n5\n'
    run_text last_over_limit.txt '0 1 4000000001\n'
    run_text first_and_all.txt '1 4000000001 0\n'
    run_text last_and_limit.txt '0 4000000001\n0\n'
}

run_wrong_files() {
    run_text empty.txt ''
    run_text blank.txt ' \n\n'
    run_text letter.txt '0 1\n1 x\n2\n'
    run_text late.txt '0 1\n\n1 1 # 5\n-3\n'
    run_text minus.txt '0\n-1 2\n'
    run_text plus.txt '0 +1 2\n'
    run_text point.txt '0 1.5 2\n'
    run_text comma.txt '0, 1, 2\n'
    run_text count.txt '0 1x3 5\n'
    run_text slash.txt '0 1 / 2\n'
    run_text nul.txt '0 1\0 2\n'
    run_text bits_32.txt '0 1\n4294967296\n'
    run_text bits_64.txt '0\n18446744073709551616\n'
    run_text long.txt "0 $(repeat a 70000) 1\n"
    run_text too_many.txt "0\n$(repeat '1\\n' 2047)2\n"
    run_text far_too_many.txt "0 1 $(repeat '1 ' 5000)\n"
    run check missing.txt
    mkdir folder
    run check folder
}

run_wrong_arguments() {
    run
    run check
    run passes.txt
    run check passes.txt one_size.txt
    run chek passes.txt
    run --check passes.txt
    run check ''
}

# The answer, whichever it is, cannot be written.
run_full_device() {
    run_to 3 check passes.txt
    run_to 3 check one_size.txt
    run_to 3 check first.txt
}

run_all() {
    run_dual_feasible
    run_not_dual_feasible
    run_refused
    run_wrong_files
    run_wrong_arguments
    run_full_device
}

without_shortest() {
    sed -E 's/^(  shortest: +[0-9]+ sizes?), .*/\1/'
}

check_lists() {
    python3 -B "$here/tables.py" "$files" "$1"
}

# The lists of one run, changed, are told.
expect_told() { # EDIT
    sed "$1" printed >changed
    ! cmp -s printed changed || fail "changes nothing: $1"
    ! check_lists changed >told || fail "not told: $1"
    grep -q '^tables: ' told || fail "no fault is named: $1"
}

check_what_is_told() {
    local begin='/ check solver/,/shortest/' all_ones='12 sizes, total 12 of 12, images 24 over 20: 1x12'
    expect_told "$begin s/shortest: .*/shortest: $all_ones/"
    expect_told "$begin s/shortest: .*/shortest: 1 size, total 12 of 12, images 20 over 20: 12/"
    expect_told "$begin s/shortest: .*/shortest: 2 sizes, total 14 of 12, images 24 over 20: 7x2/"
    expect_told "$begin s/5 7/7 5/"
    expect_told "$begin s/images 21/images 22/"
    expect_told "$begin s/total 12/total 11/"
    expect_told "$begin s/1x12/1x11/"
    expect_told "$begin { /shortest/d }"
    expect_told '/ check passes/,/table/ s/: dual/: not dual/'
    expect_told '/ check one_size/,/table/ s/: not dual/: dual/'
}

cp "$here/../../examples/solver.table" .
run_all >printed
diff "$here/tables.out" <(without_shortest <printed)
check_lists printed
check_what_is_told
run check solver.table | sed -n '2,4s/^/    /p' | while IFS= read -r line; do
    grep -Fxq "$line" "$here/../../README.md" || fail "not in README.md: $line"
done
echo "tables: prints what is stored, and lists that fit and overshoot"
