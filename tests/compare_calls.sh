#!/usr/bin/env bash
# The unit against the second program, call by call, on random groups with a fixed seed.
set -eu
cd "$(dirname "$0")/.."
. tests/lib/build.sh

proved replay

cargo build --release --offline --quiet --manifest-path second/Cargo.toml
second/target/release/compare_calls target/bin/replay
