# Building what the tests run: the proved programs and archives by `rt`, and C programs over the archives by gcc. `rt`
# builds for x86-64 Linux alone.

# proved NAME: a program, proved and built as target/bin/NAME; where it is not proved, says why
proved() {
    local log status=0
    log=$(mktemp)
    # `rt run` is what builds a program: it is run once, on no input
    (cd "crates/$1" && rt run) >"$log" 2>&1 </dev/null || status=$?
    [ "$status" -eq 0 ] || cat "$log" >&2
    rm "$log"
    [ "$status" -eq 0 ] || return "$status"
    mkdir -p target/bin
    cp "crates/$1/out/$1" "target/bin/$1"
}

# archive NAME: the archive for C hosts of a crate, which the crate NAME_c exports; prints its path
archive() {
    local lib=target/staticlib/lib$1.a
    (cd "crates/$1_c" && rt lib) >/dev/null || return 1
    mkdir -p target/staticlib
    cp "crates/$1_c/out/lib$1_c.a" "$lib"
    echo "$lib"
}

# c_build OUT WORDS..: WORDS are flags, sources and archives
c_build() {
    local out=$1
    shift
    gcc -std=c11 -Wall -Wextra -Werror -Iinclude "$@" -o "$out"
}
