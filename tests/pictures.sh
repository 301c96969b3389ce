#!/usr/bin/env bash
# Every example can be drawn, so that both programs print the same for it; the pictures in docs/ are those of today.
set -eu
cd "$(dirname "$0")/.."
. tests/lib/build.sh

proved bench

work=$(mktemp -d)
trap 'rm -rf "$work"' EXIT

cargo build --release --offline --quiet --manifest-path second/Cargo.toml
for script in examples/*.script; do
    second/target/release/picture --bench target/bin/bench <"$script" >"$work/$(basename "$script" .script).svg"
done
for picture in docs/pictures/*.svg; do
    cmp "$picture" "$work/$(basename "$picture")"
done
echo "pictures: ok"
