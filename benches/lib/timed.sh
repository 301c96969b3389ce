# shellcheck shell=bash disable=SC2154
# timed NAME INPUT COMMAND..: runs the command with INPUT on its standard input, and keeps in ${least[NAME]} the least
# processor time, in milliseconds, of all its runs so far. $work/NAME has what it printed, $work/NAME.said its standard
# error.
declare -A least
timed() {
    local name=$1 input=$2 TIMEFORMAT=%3U time
    shift 2
    time=$({ time printf %s "$input" | "$@" >"$work/$name" 2>"$work/$name.said"; } 2>&1)
    time=$((10#${time/./}))
    least[$name]=${least[$name]:-$time}
    [ "$time" -ge "${least[$name]}" ] || least[$name]=$time
}

# ratio A B
ratio() {
    awk "BEGIN { printf \"%.2f\", $1 / ($2 ? $2 : 1) }"
}
