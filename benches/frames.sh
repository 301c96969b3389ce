#!/usr/bin/env bash
# How much processor time the proved code and the second program take to write a million data frames and read them back:
# the least of five runs each.
# usage: benches/frames.sh [ROUNDS]
set -eu
cd "$(dirname "$0")/.."
. tests/lib/build.sh
. benches/lib/timed.sh

rounds=${1:-1000000}

proved framebench
cargo build --release --offline --quiet --manifest-path second/Cargo.toml

work=$(mktemp -d)
trap 'rm -rf "$work"' EXIT

for _ in 1 2 3 4 5; do
    timed proved "$rounds" target/bin/framebench
    timed second "$rounds" second/target/release/framebench
done
for name in proved second; do
    echo "$name: $rounds frames written and read in ${least[$name]} ms, sum $(cat "$work/$name")"
done

if ! cmp -s "$work/proved" "$work/second"; then
    echo "the sums differ"
    exit 1
fi
echo "ratio proved / second: $(ratio "${least[proved]}" "${least[second]}")"
