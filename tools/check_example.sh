#!/bin/sh
# Fails where the example inside the program differs from the file in examples/.
set -eu
cd "$(dirname "$0")/.."

inside=$(awk '
    /const TEXT: &str =/ { on = 1; sub(/^.*const TEXT: &str = */, "") }
    on && /^";$/ { exit }
    on { sub(/^ *"/, "") }
    on && $0 != "" { print }
' crates/goulvrezh/src/example.rt)
if [ "$inside" != "$(cat examples/offer.table)" ]; then
    echo "check_example: crates/goulvrezh/src/example.rt is not examples/offer.table" >&2
    exit 1
fi
echo "check_example: the shipped example is the file"
