#!/usr/bin/env bash
# The bench program on 01's own listing, in one piece, in parts of one byte, and without its last line feed.
set -eu
cd "$(dirname "$0")/.."
. tests/lib/build.sh

proved bench

work=$(mktemp -d)
trap 'rm -rf "$work"' EXIT

printf 'G 2 2\nS 1 p\nS 1 q\nS 1 r\nA 2 2\nA 2 1' >"$work/script"
printf 'group 2 2\n2 0\n3 0\n4 15\n5 9\n6 0\n' >"$work/listing"

held() {
    target/bin/bench >"$work/said"
    diff "$work/listing" "$work/said"
}

held <"$work/script"
{ cat "$work/script" && echo; } | held
dd if="$work/script" bs=1 status=none | held
# no line after the 65th is read, however many there are
{ printf 'G 2 2\n' && yes 'T 1' | head -n 100000; } >"$work/long"
{ echo 'group 2 2' && seq 2 65 | sed 's/$/ 18/'; } >"$work/listing"
held <"$work/long"
echo "bench_listing: ok"
