#!/usr/bin/env bash
# Builds the resolver as a static library, links the C host to it, and shows what it prints.
set -eu
here=$(cd "$(dirname "$0")" && pwd)
top=$(cd "$here/../.." && pwd)
cd "$top"
mkdir -p target/staticlib
(cd crates/address_c && rt lib) >target/staticlib.log 2>&1 || { cat target/staticlib.log >&2; exit 1; }
cp crates/address_c/out/libaddress_c.a target/staticlib/libaddress.a
gcc -std=c11 -Wall -Wextra -Werror -o target/host "$here/host.c" target/staticlib/libaddress.a

expect() {
    local wanted=$1
    shift
    local got
    got=$(target/host "$@" || true)
    printf '%s  =>  %s\n' "$*" "$got"
    if [ "$got" != "$wanted" ]; then
        echo "expected: $wanted" >&2
        exit 1
    fi
}

expect 'https://nexte.st/docs/a/x/#y' 'x.md#y' https://nexte.st docs/a
expect 'https://nexte.st/x/?q' '/x.md?q' https://nexte.st docs
expect 'mailto:a@b' mailto:a@b https://nexte.st docs
expect 'none' '#y' https://nexte.st docs
expect 'refused 7, layer 1, place 0' ../../x https://nexte.st docs
expect 'refused 4, layer 1, place 1' $'a\tb' https://nexte.st docs
