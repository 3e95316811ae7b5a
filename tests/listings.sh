#!/usr/bin/env bash
# tests/listings.sh [PROGRAM]: runs a program (default crates/thunyaworm/out/thunyaworm) on every sheet of tests/vectors/* and examples
# and compares what it prints with the listing beside the sheet, byte for byte. The same with the sheets of tests/vectors/*/export, by
# `PROGRAM budget N` with the budget beside the sheet; there `PROGRAM budget N cnf` has to print the text beside the sheet, or, where that
# is empty, the refusal. Where the budget is the one that is used without that word, the same without it.
# The last line is "listings: N passed, M failed"; exit status 1 if one failed.
set -u
here=$(cd "$(dirname "$0")" && pwd)
program=${1:-$here/../crates/thunyaworm/out/thunyaworm}
if [ ! -x "$program" ]; then
    echo "listings: no program at $program" >&2
    exit 1
fi
# A relative path without a slash would be looked for among the commands.
program=$(cd "$(dirname "$program")" && pwd)/$(basename "$program")
passed=0
failed=0

# compare SHEET EXPECTED [WORD...]: what the program prints for a sheet, with these words, against a file.
compare() {
    # cmp reads the program's output as it is, so that missing or further line ends count too.
    if "$program" "${@:3}" < "$1" | cmp -s - "$2"; then
        passed=$((passed + 1))
    else
        failed=$((failed + 1))
        echo "differs: $(basename "$(dirname "$1")")/$(basename "$1")${3:+, ${*:3}}"
    fi
}

for sheet in "$here"/vectors/*/*.sheet "$here"/../examples/*.sheet; do
    compare "$sheet" "${sheet%.sheet}.listing"
done
for sheet in "$here"/vectors/*/export/*.sheet; do
    name=${sheet%.sheet}
    budget=$(cat "$name.budget")
    text=$name.cnf
    [ -s "$text" ] || text=$name.listing
    compare "$sheet" "$name.listing" budget "$budget"
    compare "$sheet" "$text" budget "$budget" cnf
    if [ "$budget" = 1000000 ]; then
        compare "$sheet" "$name.listing"
        compare "$sheet" "$text" cnf
    fi
done
echo "listings: $passed passed, $failed failed"
[ "$failed" -eq 0 ] && [ "$passed" -gt 0 ]
