#!/usr/bin/env bash
# The bench program against the second program, on random scripts with a fixed seed.
set -eu
cd "$(dirname "$0")/.."
. tests/lib/build.sh

proved bench

cargo build --release --offline --quiet --manifest-path second/Cargo.toml
second/target/release/compare target/bin/bench
