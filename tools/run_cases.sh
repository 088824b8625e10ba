#!/bin/sh
# Runs the program on each folder of cases/ and compares what it writes and how it ends.
# usage: run_cases.sh PROGRAM. A case has args (one word a line), stdout, stderr and status.
set -eu
cd "$(dirname "$0")/.."

program=$(pwd)/$1
work=$(mktemp -d)
trap 'rm -rf "$work"' EXIT
ran=0
failed=0
for case in cases/*/; do
    set --
    while IFS= read -r word; do
        set -- "$@" "$word"
    done < "$case/args"
    status=0
    (cd "$case" && "$program" "$@" > "$work/stdout" 2> "$work/stderr") || status=$?
    echo "$status" > "$work/status"
    for part in stdout stderr status; do
        if ! cmp -s "$case/$part" "$work/$part"; then
            echo "run_cases: $case: $part is not as expected:"
            diff "$case/$part" "$work/$part" || true
            failed=1
        fi
    done
    ran=$((ran + 1))
done
echo "run_cases: $ran cases run"
[ "$ran" -gt 0 ] || failed=1
exit "$failed"
