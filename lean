#!/bin/sh
# Runs the program in the current folder, and has it built first where it is not there or older than its sources.
top=$(cd "$(dirname "$0")" && pwd)
program=$top/crates/lean/out/lean
is_old() { [ ! -x "$program" ] || [ -n "$(find "$top/crates" -name out -prune -o -type f -newer "$program" -print | head -n 1)" ]; }
if is_old; then
    # It goes on as the program.
    exec "$top/build" "$program" "$@"
fi
exec "$program" "$@"
