#!/usr/bin/env bash
# A lossless group, everyone sending in turn and everything taken, in the proved engine and in the second program's, which
# works on `&mut` state: time for each message (one send, n - 1 arrivals, and takes at every unit until nothing is left),
# the least of five runs; how often the proved program copies a whole unit; the size of a unit; the stack.
# usage: benches/units.sh [MESSAGES]
set -eu
cd "$(dirname "$0")/.."
. tests/lib/build.sh
. benches/lib/timed.sh

# for n = 8; fewer units get more messages, so that the runs take as long
messages=${1:-20000}

proved drive
# the engine tests soundness in each call, as 01 asks; `trusting` leaves that test out
build="cargo build --release --offline --quiet --manifest-path second/Cargo.toml --bin drive"
$build
$build --features trusting --target-dir second/target/trusting

work=$(mktemp -d)
trap 'rm -rf "$work"' EXIT

proved=target/bin/drive
second=second/target/release/drive
trusting=second/target/trusting/release/drive
gcc -std=gnu11 -Wall -Wextra -Werror -O2 -fno-builtin -shared -fPIC benches/lib/copies.c -o "$work/copies.so"

# same NAME: the program printed what the proved one printed
same() {
    if ! cmp -s "$work/proved" "$work/$1"; then
        echo "$input: the sums differ: proved $(cat "$work/proved"), $1 $(cat "$work/$1")"
        exit 1
    fi
}

# nanoseconds NAME: the program's least time for each message
nanoseconds() {
    echo $((${least[$1]} * 1000000 / count))
}

# copies CALLS: the bytes that the proved program copies 8 KB and more at a time, in units, for each call; the size of a
# unit, which is what it copies most often, goes to $work/size
copies() {
    printf %s "$input" | LD_PRELOAD=$work/copies.so $proved 2>"$work/copies" >/dev/null
    sort -k2,2nr "$work/copies" | awk -v calls="$1" -v size="$work/size" '
        NR == 1 { unit = $1; print unit > size }
        { bytes += $1 * $2 }
        END { printf "%.2f", bytes / unit / calls }'
}

# stack: the least limit, in steps of 8 KB, under which the proved program runs
stack() {
    local low=0 high=8192 middle
    while [ $((high - low)) -gt 8 ]; do
        middle=$(((low + high) / 2 & ~7))
        if (ulimit -s "$middle" && printf %s "$input" | $proved) >/dev/null 2>&1; then
            high=$middle
        else
            low=$middle
        fi
    done
    echo "$high"
}

line='%2s %2s %9s %9s %9s %10s %11s %9s\n'
# shellcheck disable=SC2059
printf "$line" n W proved second trusting /second /trusting copies
for n in 2 3 8; do
    for w in 2 4; do
        count=$((messages * 8 / n))
        input="$n $w $count"
        least=()
        for _ in 1 2 3 4 5; do
            timed proved "$input" $proved
            timed second "$input" $second
            timed trusting "$input" $trusting
        done
        same second
        same trusting
        each=$(copies "$(cat "$work/second.said")")
        # shellcheck disable=SC2059
        printf "$line" "$n" "$w" "$(nanoseconds proved)" "$(nanoseconds second)" "$(nanoseconds trusting)" \
            "$(ratio "${least[proved]}" "${least[second]}")" "$(ratio "${least[proved]}" "${least[trusting]}")" "$each"
    done
done
cat <<END
proved, second, trusting: nanoseconds for each message; second tests soundness in each call, as the proved engine does,
trusting does not. copies: whole units copied for each call, the driver's own copies counted in.
END
echo "a unit has $(cat "$work/size") bytes; the proved program, with eight units, runs in $(stack) KB of stack"
