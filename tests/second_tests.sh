#!/usr/bin/env bash
# The second program's own tests.
set -eu
cd "$(dirname "$0")/../second"

cargo test --release --offline --quiet
