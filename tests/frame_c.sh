#!/usr/bin/env bash
# The reader from C: hand-worked frames against the archive, plainly and under the sanitizers, and the example host.
set -eu
cd "$(dirname "$0")/.."
. tests/lib/build.sh

lib=$(archive frame)

work=$(mktemp -d)
trap 'rm -rf "$work"' EXIT

c_build "$work/plain" -O2 tests/frame_c.c "$lib"
"$work/plain"

c_build "$work/checked" -O1 -g -fsanitize=address,undefined -fno-sanitize-recover=all tests/frame_c.c "$lib"
"$work/checked"

# n = 2, CID 9, SRC 2, SEQ 3, ACK 4 and 3, BUF 12, data "hi"
frame=01000101020001010300040000000904000102050004000000030600080000000400000003070002000c0a00026869
c_build "$work/read_frame" -O2 examples/read_frame.c "$lib"

said() {
    "$work/read_frame" "$1" >"$work/said" || echo "status $?" >>"$work/said"
    diff - "$work/said"
}

said "$frame" <<'SAID'
data frame CID 9 SRC 2
ACK 4 3
SEQ 3 BUF 12
data 6869
SAID
said "${frame%69}" <<'SAID'
refused 3
status 1
SAID
