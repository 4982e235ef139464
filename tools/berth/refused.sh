#!/usr/bin/env bash
# Runs berth on scripts that it must refuse, and checks the status and what it says; the gate can run only what ends well.
set -eu
top=$(cd "$(dirname "$0")/../.." && pwd)
berth=$top/crates/berth/out/berth
[ -x "$berth" ] || { echo "build it first: cd crates/berth && rt run <stdin" >&2; exit 2; }

refuse() {
    local said=$1 script=$2 out status=0
    out=$(printf "$script" | "$berth" 2>&1 >/dev/null) || status=$?
    printf '%s\n' "$out"
    [ "$status" = 1 ] && [ "$out" = "berth: $said" ] && [ -z "$(printf "$script" | "$berth" 2>/dev/null || true)" ] || {
        echo "expected status 1 and: berth: $said" >&2
        exit 1
    }
}

call='expected base STRING, directory STRING or resolve ROOM STRING'
refuse "line 1: read \"width\", $call" 'width 80\n'
refuse "line 3: read \"resolved\", $call" 'base "a"\nresolve 9 "x"\nresolved 9 "x"\n'
refuse 'line 1: read "x", expected a number from 0 to 4294967295' 'resolve x "a"\n'
refuse 'line 2: read nothing, expected a number from 0 to 4294967295' '\nresolve\n'
strings='expected strings, as ".." or ".."*N, where *N makes at most 16777216 bytes'
refuse "line 1: read \"\\\"a\", $strings" 'base "a\n'
refuse "line 1: read \"\\\"a\\\"*4294967295\", $strings" 'base "a"*4294967295\n'

status=0
said=$("$berth" < / 2>&1) || status=$?
printf '%s\n' "$said"
[ "$status" = 1 ] && [ "$said" = "berth: cannot read the script" ]
