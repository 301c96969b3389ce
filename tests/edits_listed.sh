#!/usr/bin/env bash
# docs/EDITS.md has a line for every wrong version that is tried, and for no other.
set -eu
cd "$(dirname "$0")/.."

tried() {
    ls crates/*/must-fail/*.edit | sed 's|crates/\(.*\)/must-fail/\(.*\)\.edit|\1 \2|'
}

listed() {
    awk '/^## / { crate = $2 } /^\| `/ { gsub(/`/, "", $2); print crate, $2 }' docs/EDITS.md
}

diff <(tried | sort) <(listed | sort)
echo "edits_listed: ok"
