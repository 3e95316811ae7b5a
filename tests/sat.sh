#!/usr/bin/env bash
# tests/sat.sh [PROGRAM [SOLVER]]: gives an ordinary SAT program what `PROGRAM cnf` (default crates/thunyaworm/out/thunyaworm) prints for
# every accepted sheet of tests/vectors and examples, the texts stored for other budgets, and those of random sheets, 300 of them UNSAT,
# as `brute/run --texts` writes them from the library. It has to read each text, and where the listing says UNSAT it has to say so too.
# The SAT program is SOLVER or the first of those below that is installed; without any the script says so, counts nothing and ends with
# status 0.
# The last line ends with "N passed, M failed"; exit status 1 if one failed.
set -u
# Those that hold a text to the counts in its first line come first.
solvers="cadical picosat kissat lingeling plingeling cryptominisat5 glucose minisat clasp"
here=$(cd "$(dirname "$0")" && pwd)
program=${1:-$here/../crates/thunyaworm/out/thunyaworm}
solver=${2:-}
if [ -z "$solver" ]; then
    for name in $solvers; do
        if command -v "$name" > /dev/null; then
            solver=$name
            break
        fi
    done
fi
if [ -z "$solver" ]; then
    echo "sat: skipped, none of $solvers is installed: 0 passed, 0 failed"
    exit 0
fi
if [ ! -x "$program" ]; then
    echo "sat: no program at $program" >&2
    exit 1
fi
program=$(cd "$(dirname "$program")" && pwd)/$(basename "$program")
work=$(mktemp -d)
trap 'rm -rf "$work"' EXIT
passed=0
failed=0

# solve TEXT: the SAT program's exit status, 10 for satisfiable and 20 for unsatisfiable.
solve() {
    local status=0
    case $(basename "$solver") in
        cadical | kissat | lingeling) "$solver" -q "$1" ;;
        cryptominisat5) "$solver" --verb=0 "$1" ;;
        glucose | minisat) "$solver" -verb=0 "$1" ;;
        *) "$solver" "$1" ;;
    esac > /dev/null 2>&1 || status=$?
    # clasp adds 20 to 10 where it has seen all assignments.
    [ "$status" -ne 30 ] || status=10
    echo "$status"
}

# check NAME LISTING TEXT: the SAT program on a text, with the listing of its sheet.
check() {
    local status
    status=$(solve "$3")
    # The first line's second column is the answer.
    if [ "$status" = 20 ] || { [ "$status" = 10 ] && [ "$(head -c 8 "$2")" != "   5   0" ]; }; then
        passed=$((passed + 1))
    else
        failed=$((failed + 1))
        echo "$1: $solver ends with $status, the listing begins with$(head -c 8 "$2")"
    fi
}

for sheet in "$here"/vectors/*/*.sheet "$here"/vectors/*/export/*.sheet "$here"/../examples/*.sheet; do
    name=$(basename "$(dirname "$sheet")")/$(basename "$sheet")
    "$program" < "$sheet" > "$work/listing"
    # A refused sheet has no text.
    if [ "$(head -c 4 "$work/listing")" != "   9" ]; then
        "$program" cnf < "$sheet" > "$work/text.cnf"
        check "$name" "$work/listing" "$work/text.cnf"
    fi
done
for budget in "$here"/vectors/*/export/*.budget; do
    stored=${budget%.budget}
    if [ "$(cat "$budget")" != 1000000 ] && [ -s "$stored.cnf" ]; then
        check "$(basename "$(dirname "$budget")")/$(basename "$stored.cnf")" "$stored.listing" "$stored.cnf"
    fi
done
# A text that fails is written again by `brute/run --texts FOLDER`.
if "$here/../brute/run" --texts "$work/random" > "$work/told" 2>&1; then
    for text in "$work"/random/*.cnf; do
        check "random/$(basename "$text")" "${text%.cnf}.listing" "$text"
    done
else
    failed=$((failed + 1))
    echo "brute/run --texts fails:"
    cat "$work/told"
fi
echo "sat: by $solver, $passed passed, $failed failed"
[ "$failed" -eq 0 ] && [ "$passed" -gt 0 ]
