#!/usr/bin/env bash
# The exported frame reader and the second program's on lawful frames, damaged frames and noise: from C, under the
# address sanitizer, and from Rust.
set -eu -o pipefail
cd "$(dirname "$0")/.."
. tests/lib/build.sh

lib=$(archive frame)
cargo build --release --offline --quiet --manifest-path second/Cargo.toml
release=second/target/release

work=$(mktemp -d)
trap 'rm -rf "$work"' EXIT

compare() {
    "$release/compare_frames" frames | "$1" | "$release/compare_frames" judge
}

echo "compare_frames: from C"
c_build "$work/plain" -O2 tests/read_frames.c "$lib"
compare "$work/plain"

echo "compare_frames: from C, with the address sanitizer"
c_build "$work/checked" -O1 -g -fsanitize=address tests/read_frames.c "$lib"
compare "$work/checked"

echo "compare_frames: from Rust"
rustc --edition 2021 -O second/ffi/compare_frames.rs -o "$work/linked" \
    --extern "second=$release/libsecond.rlib" -L target/staticlib -l static=frame
"$work/linked"
