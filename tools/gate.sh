#!/usr/bin/env bash
# The gate: every crate by rt ci, which passes over an edit that could not be tried. Such an edit fails the gate too.
set -u
cd "$(dirname "$0")/.."
log=$(mktemp)
trap 'rm -f "$log"' EXIT
rt ci 2>&1 | tee "$log"
status=${PIPESTATUS[0]}
[ "$status" = 0 ] || exit "$status"
grep -q '^rt: ok' "$log" || { echo "gate: rt ci has no line 'rt: ok'" >&2; exit 1; }
if grep -Eq '^rt: ok.*, [0-9]+ bad' "$log"; then
    echo "gate: a must-fail edit could not be tried" >&2
    exit 1
fi
