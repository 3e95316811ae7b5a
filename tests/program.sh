#!/usr/bin/env bash
# tests/program.sh [PROGRAM]: runs a program (default crates/thunyaworm/out/thunyaworm) as people meet it: with every kind of words, at
# the ends of what it holds of a sheet, on sheets that come in pieces, at budgets up to the largest, and where reading or writing fails.
# What it prints, and what it says on standard error, is compared byte for byte.
# The last line is "program: N passed, M failed"; exit status 1 if one failed.
set -u
here=$(cd "$(dirname "$0")" && pwd)
program=${1:-$here/../crates/thunyaworm/out/thunyaworm}
if [ ! -x "$program" ]; then
    echo "program: no program at $program" >&2
    exit 1
fi
# A relative path without a slash would be looked for among the commands.
program=$(cd "$(dirname "$program")" && pwd)/$(basename "$program")
usage="usage: thunyaworm [budget N] [cnf] < SHEET"
example=$here/../examples/printed
work=$(mktemp -d)
trap 'rm -rf "$work"' EXIT
passed=0
failed=0

# outcome NAME WANTED [LINE]: $work/out is the file WANTED, and $work/told the line, or empty without one.
outcome() {
    printf '%s' "${3:+$3$'\n'}" > "$work/line"
    if cmp -s "$work/out" "$2" && cmp -s "$work/told" "$work/line"; then
        passed=$((passed + 1))
    else
        failed=$((failed + 1))
        echo "differs: ${1:0:100}"
    fi
}

# run [WORD...]: the program on its standard input.
run() {
    "$program" "$@" > "$work/out" 2> "$work/told"
}

# refused QUESTION LINE: a file with the line of a refusal.
refused() {
    printf '%4d%4d%4d\n' 9 "$1" "$2" > "$work/refused"
    echo "$work/refused"
}

# ── words ──

# bad [WORD...]: these are no words of the program. It says so, prints nothing and leaves its standard input unread.
bad() {
    { run "$@"; cat > "$work/rest"; } < "$example.sheet"
    cmp -s "$work/rest" "$example.sheet" || echo "read" >> "$work/told"
    outcome "words$(printf ' "%s"' "$@")" /dev/null "$usage"
}

# good WANTED [WORD...]: what the program prints for the example.
good() {
    run "${@:2}" < "$example.sheet"
    outcome "words ${*:2}" "$1"
}

printf 'p cnf 4 4\n1 2 0\n3 0\n-4 0\n-1 -3 4 0\n' > "$work/cnf"
good "$example.listing"
good "$work/cnf" cnf
good "$example.listing" budget 1000000
good "$example.listing" budget 1
good "$example.listing" budget 4294967295
good "$work/cnf" budget 1000000 cnf
good "$work/cnf" budget 4294967295 cnf
printf '   5   2   4   0           0           0\n' > "$work/spent"
good "$work/spent" budget 0
printf 'p cnf 4 3\n1 2 0\n3 0\n-4 0\n' > "$work/spent"
good "$work/spent" budget 0 cnf

for word in "" " " x cn cnfx CNF " cnf" "cnf " cnf= -h --help budge budgets Budget budget=1 1 0; do
    bad "$word"
    bad budget 1 "$word"
done
bad budget
for number in "" " " x cnf budget 00 007 01 -1 +1 -0 " 1" "1 " 1x x1 1.0 1e6 0x10 1,000 1_000 4294967296 4294967297 4294967300 5000000000 9999999999 \
    10000000000 42949672950 99999999999 18446744073709551615 18446744073709551616 18446744073709551617 340282366920938463463374607431768211457; do
    bad budget "$number"
    bad budget "$number" cnf
done
bad cnf cnf
bad cnf ""
bad cnf 1
bad cnf budget 1
bad cnf budget
bad budget 1 2
bad budget 1 budget
bad budget 1 budget 1
bad budget 1 cnf cnf
bad budget 1 cnf ""
bad budget 1 cnf budget 1
bad budget 1 cnf x y z
bad "" ""
bad "" cnf
bad "" budget 1
# Words at the ends of what is held of one, and far behind: none is taken for what it begins with.
for length in 10 11 15 16 17 31 32 33 4095 4096 4097 100000; do
    zeros=$(printf "%0${length}d" 0)
    bad "cnf$zeros"
    bad "$zeros"
    bad budget "1$zeros"
    bad budget "${zeros}1"
    bad "budget$zeros" 1
    bad budget 1 "cnf$zeros"
    bad budget 1 cnf "$zeros"
done

# ── budgets ──

# Stored sheets that take many decisions, each at its budget: one of these is the budget that is not said.
for sheet in "$here"/program/*.sheet; do
    name=${sheet%.sheet}
    budget=$(cat "$name.budget")
    run budget "$budget" < "$sheet"
    outcome "$(basename "$sheet") at $budget" "$name.listing"
    run budget "$budget" cnf < "$sheet"
    outcome "$(basename "$sheet") at $budget, cnf" "$name.cnf"
    if [ "$budget" = 1000000 ]; then
        run < "$sheet"
        outcome "$(basename "$sheet")" "$name.listing"
        run cnf < "$sheet"
        outcome "$(basename "$sheet"), cnf" "$name.cnf"
    fi
done

# ── what is held of a sheet ──

# long BYTES QUESTION LINE: zeros are refused. One byte more than a sheet may have shows, and so does one less.
long() {
    head -c "$1" /dev/zero > "$work/long"
    for word in "" cnf; do
        run $word < "$work/long"
        outcome "$1 bytes${word:+, $word}" "$(refused "$2" "$3")"
        head -c "$1" /dev/zero | run $word
        outcome "$1 bytes through a pipe${word:+, $word}" "$(refused "$2" "$3")"
    done
}

run < /dev/null
outcome "no bytes" "$(refused 3 0)"
long 1 4 1
long 16383 4 1
long 16384 4 1
long 16385 2 0
long 16386 2 0
long 1000000 2 0

# pieces BYTES FILE: the file in pieces of so many bytes, with a pause between them.
pieces() {
    local at size
    size=$(wc -c < "$2")
    for ((at = 0; at < size; at += $1)); do
        tail -c "+$((at + 1))" "$2" | head -c "$1"
        sleep 0.02
    done
}

for bytes in 5 64; do
    pieces "$bytes" "$example.sheet" | run
    outcome "pieces of $bytes bytes" "$example.listing"
    pieces "$bytes" "$example.sheet" | run cnf
    outcome "pieces of $bytes bytes, cnf" "$work/cnf"
done
pieces 500 "$here/../examples/workshop.sheet" | run
outcome "a larger sheet in pieces" "$here/../examples/workshop.listing"
head -c 16385 /dev/zero > "$work/long"
for bytes in 4096 16384; do
    pieces "$bytes" "$work/long" | run
    outcome "16385 bytes in pieces of $bytes" "$(refused 2 0)"
done
sleep 0.1 | run
outcome "no bytes, late" "$(refused 3 0)"

# ── where reading or writing fails ──

unread="thunyaworm: the sheet could not be read"
unwritten="thunyaworm: the output could not be written"
for words in "" cnf "budget 1" "budget 1 cnf"; do
    run $words < "$work"
    outcome "a folder as the sheet, $words" /dev/null "$unread: Is a directory"
    run $words <&-
    outcome "a closed input, $words" /dev/null "$unread: Bad file descriptor"
    : > "$work/out"
    "$program" $words < "$example.sheet" >&- 2> "$work/told"
    outcome "a closed output, $words" /dev/null "$unwritten: Bad file descriptor"
    if [ -c /dev/full ]; then
        "$program" $words < "$example.sheet" > /dev/full 2> "$work/told"
        outcome "a full device, $words" /dev/null "$unwritten: No space left on device"
    fi
done

echo "program: $passed passed, $failed failed"
[ "$failed" -eq 0 ] && [ "$passed" -gt 0 ]
