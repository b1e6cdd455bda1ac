#!/bin/sh
# Builds round_by_round.c, runs it on the cases here, on a case with bytes after its parts, on one that is cut off and on no input, and
# compares what it prints with expected.txt, and the case that it writes with the one here, which has no gaps; a name that cannot be
# written has to be said. Prints 'ok', or the difference and ends with status 1; status 2 where it could not be built. Needs the archive of
# `tools/archive`. CC and CFLAGS may name another compiler and more options.
cd "$(dirname "$0")/../.." || exit 2
archive=target/staticlib/libexports.a
if [ ! -f "$archive" ]; then
    echo "no $archive: run 'tools/archive' first" >&2
    exit 2
fi
work=$(mktemp -d) || exit 2
trap 'rm -rf "$work"' EXIT
# CFLAGS is split into words on purpose
# shellcheck disable=SC2086
${CC:-cc} -std=c99 -Wall -Wextra -Werror -pedantic ${CFLAGS:-} -Iinclude examples/c/round_by_round.c "$archive" -o "$work/round_by_round" || exit 2
dd if=examples/c/example1.bytes of="$work/cut.bytes" bs=41 count=1 2>/dev/null || exit 2
{ cat examples/c/example1.bytes && printf 'in no part'; } > "$work/longer.bytes" || exit 2

# A run's output under a heading, and its exit status.
run() {
    echo "== $1"
    "$work/round_by_round" < "$2"
    echo "exit status $?"
}

# The exit status of a run that writes the case back into a file, and whether the file holds the bytes of the last argument.
written() {
    echo "== $1, written back"
    "$work/round_by_round" "$work/written.bytes" < "$2" > /dev/null
    echo "exit status $?"
    if cmp "$work/written.bytes" "$3"; then echo "the file is the case without gaps"; fi
    rm -f "$work/written.bytes"
}

# What a run says of a name that it cannot write, here that of a directory, and its exit status.
unwritable() {
    echo "== $1, written back to a directory"
    { "$work/round_by_round" examples/c < "$2" > /dev/null; } 2>&1
    echo "exit status $?"
}

{
    run "example 1" examples/c/example1.bytes
    run "example 4" examples/c/example4.bytes
    run "examples/covered-from.case" examples/c/covered-from.bytes
    written "example 4" examples/c/example4.bytes examples/c/example4.bytes
    written "example 1 and bytes after it" "$work/longer.bytes" examples/c/example1.bytes
    unwritable "example 1" examples/c/example1.bytes
    run "example 1 without its last byte" "$work/cut.bytes"
    run "no input" /dev/null
} > "$work/output.txt"
if diff examples/c/expected.txt "$work/output.txt"; then
    echo ok
else
    exit 1
fi
