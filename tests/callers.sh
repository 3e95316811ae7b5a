#!/usr/bin/env bash
# tests/callers.sh: builds the callers of examples/callers against the library, in C, C++ and Rust of the editions 2021 and 2024, and
# compares what each prints for stored sheets with the listings beside them, byte for byte: the examples, a fifth of the base with its
# largest, some of them refused, an empty sheet and one that is too long. A compiler that isn't installed is said, and its caller skipped.
# The last line is "callers: N passed, M failed"; exit status 1 if one failed.
set -u
cd "$(dirname "$0")/.." || exit 1
library=crates/interface/out/libinterface.a
work=target/callers
mkdir -p "$work"
[ -f "$library" ] || (cd crates/interface && rt lib) || exit 1
passed=0
failed=0

# What no stored sheet has.
: > "$work/empty.sheet"
echo "   9   3   0" > "$work/empty.listing"
head -c 20000 /dev/zero > "$work/long.sheet"
echo "   9   2   0" > "$work/long.listing"

# caller NAME COMPILER [WORD...]: a caller that the compiler makes with these words, on the sheets.
caller() {
    local name=$1 program=$work/$1 sheet
    shift
    if ! command -v "$1" > /dev/null; then
        echo "callers: $name is skipped, $1 isn't installed"
        return
    fi
    if ! "$@" -o "$program"; then
        failed=$((failed + 1))
        echo "doesn't build: $name"
        return
    fi
    for sheet in examples/*.sheet tests/vectors/base/*[05].sheet tests/vectors/base/largest.sheet "$work"/*.sheet; do
        if "$program" < "$sheet" | cmp -s - "${sheet%.sheet}.listing"; then
            passed=$((passed + 1))
        else
            failed=$((failed + 1))
            echo "differs: $name, $sheet"
        fi
    done
}

caller c cc -std=c99 -pedantic -Wall -Wextra -Werror -I include examples/callers/caller.c "$library"
caller c++ c++ -std=c++11 -pedantic -Wall -Wextra -Werror -I include examples/callers/caller.cpp "$library"
for edition in 2021 2024; do
    caller rust-$edition rustc --edition $edition -D warnings examples/callers/caller.rs -L native=crates/interface/out -l static=interface
done
echo "callers: $passed passed, $failed failed"
[ "$failed" -eq 0 ] && [ "$passed" -gt 0 ]
