#!/usr/bin/env bash
# tests/docs.sh [PAGE...]: runs the commands that the pages show and compares what each prints with what stands below it, byte for byte.
# Without a name the pages are README.md, those of docs and docs/changes, and the README.md of examples and of tests.
#
# How a block is written:
# - A block with commands begins with ```console. A line of it that begins with "$ " is a command. Bash runs each by itself, from the top
#   of the repository, with nothing on standard input. The lines below it, up to the next command or the end of the block, are exactly
#   what it prints, on standard output and standard error.
# - A line of a ```c, ```cpp or ```rust block, without blanks in front and without a comment behind //, stands in the caller of that
#   language in examples/callers; of a ```rust block it may stand in a crate's source too, since Rattle is shown so.
# - Other blocks are only shown.
#
# Without a page's name it also holds docs/WRONG_ANSWERS.md to the files: each must-fail edit stands in its first column once.
#
# Skipped, and said: what runs rt or .ci/run, which take long and print what they prove, and what needs one of the programs below that
# isn't installed.
# The last line is "docs: K skipped, N passed, M failed"; exit status 1 if one failed.
set -u
export LC_ALL=C
cd "$(dirname "$0")/.." || exit 1
optional="cc c++ rustc minisat valgrind"
if [ ! -x crates/thunyaworm/out/thunyaworm ]; then
    echo "docs: no program at crates/thunyaworm/out/thunyaworm" >&2
    exit 1
fi
[ -f crates/interface/out/libinterface.a ] || (cd crates/interface && rt lib) || exit 1
pages=("$@")
[ $# -gt 0 ] || pages=(README.md docs/*.md docs/changes/*.md examples/README.md tests/README.md)
work=$(mktemp -d)
trap 'rm -rf "$work"' EXIT
passed=0
failed=0
skipped=0

# Lines without blanks in front and a comment behind.
bare() {
    sed 's/^ *//; s/ *\/\/.*//' "$@"
}

bare examples/callers/caller.c > "$work/c"
bare examples/callers/caller.cpp > "$work/cpp"
bare examples/callers/caller.rs crates/*/src/*.rt > "$work/rust"

fail() {
    failed=$((failed + 1))
    echo "$1"
}

# why_not COMMAND: why a command is skipped; nothing for one that is run.
why_not() {
    local name words=" ${1//brute\/run/rustc} "
    case $words in
        *" rt "* | " .ci/run"*) echo "it takes long" ;;
    esac
    for name in $optional; do
        [[ $words != *" $name "* ]] || command -v "$name" > /dev/null || echo "$name isn't installed"
    done
}

# The command that was read last, and its place. The lines below it are gathered in a file.
shown=
place=

# Runs that command, if there is one.
run_shown() {
    local why
    [ -n "$shown" ] || return 0
    why=$(why_not "$shown")
    if [ -n "$why" ]; then
        skipped=$((skipped + 1))
        echo "$place: skipped, $why: $shown"
    else
        bash -c "$shown" > "$work/printed" 2>&1 < /dev/null
        if diff -a "$work/below" "$work/printed" > "$work/differences"; then
            passed=$((passed + 1))
        else
            fail "$place: prints (>) other than shown (<): $shown"
            cat "$work/differences"
        fi
    fi
    shown=
}

# look_up LINE LANGUAGE PLACE: a line of code among the sources of its language.
look_up() {
    local code
    code=$(bare <<< "$1")
    [ -n "$code" ] || return 0
    if grep -Fxq -e "$code" "$work/$2"; then
        passed=$((passed + 1))
    else
        fail "$3: stands in no source: $code"
    fi
}

# page FILE: all its blocks.
page() {
    local line block="" number=0
    while IFS= read -r line || [ -n "$line" ]; do
        number=$((number + 1))
        case $block:$line in
            ':```'*)
                block=${line#'```'}
                block=${block:-shown}
                ;;
            *':```')
                run_shown
                block=
                ;;
            'console:$ '*)
                run_shown
                shown=${line#'$ '}
                place=$1:$number
                : > "$work/below"
                ;;
            console:*)
                [ -n "$shown" ] || fail "$1:$number: stands below no command: $line"
                printf '%s\n' "$line" >> "$work/below"
                ;;
            c:* | cpp:* | rust:*) look_up "$line" "$block" "$1:$number" ;;
        esac
    done < "$1"
    [ -z "$block" ] || fail "$1: the last block isn't ended"
    run_shown
}

for name in "${pages[@]}"; do
    page "$name"
done
if [ $# -eq 0 ]; then
    sed -n 's/^| `\([a-z_0-9]*\/[a-z_0-9]*\)` |.*/\1/p' docs/WRONG_ANSWERS.md | sort > "$work/named"
    ls crates/*/must-fail/*.edit | sed 's/crates\/\(.*\)\/must-fail\/\(.*\)\.edit/\1\/\2/' | sort > "$work/edits"
    if diff "$work/named" "$work/edits" > "$work/differences"; then
        passed=$((passed + 1))
    else
        fail "docs/WRONG_ANSWERS.md names (<) other edits than there are (>):"
        cat "$work/differences"
    fi
fi
echo "docs: $skipped skipped, $passed passed, $failed failed"
[ "$failed" -eq 0 ] && [ "$passed" -gt 0 ]
