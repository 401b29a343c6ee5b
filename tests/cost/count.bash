#!/usr/bin/env bash
# What runs cost: instructions, page faults and memory of the proved program, or of the one that is named. It is run
# by hand, and needs valgrind and /usr/bin/time:
#     bash tests/cost/count.bash [PROGRAM]
set -euo pipefail
cd -- "$(dirname -- "${BASH_SOURCE[0]}")/../.."

readonly program=${1:-crates/mlx5_cli/out/mlx5}
folder=$(mktemp -d)
readonly folder
trap 'rm -rf -- "$folder"' EXIT

# A million turns, with this many queue pairs declared: 250 times a post of 16 requests and a drain of them.
million_turns() {
    printf 'eq e 4\npd p\ncq c 12 12 e 0\nqp q p c c 8 rq:0 1 0\n'
    local pair post
    for ((pair = 1; pair < $1; pair++)); do
        printf 'qp q%d p c c 8 rq:0 1 0\n' "$pair"
    done
    printf 'connect q q\nthread t\n'
    for ((post = 0; post < 250; post++)); do
        printf 'post q\n'
        printf '+ %d nop c\n' {1..16}
        printf 'drain c 16\n'
    done
    printf 'end\nrounds 500000\n'
}

# 2.3 megabytes of lines that poll, in four threads, and no turn.
poll_lines() {
    printf 'eq e 4\n'
    local thread
    for thread in a b c d; do
        printf 'cq c%s 1 1 e 0\n' "$thread"
    done
    for thread in a b c d; do
        printf 'thread %s\n' "$thread"
        printf "poll c$thread 1%.0s\\n" {1..52000}
        printf 'end\n'
    done
    printf 'rounds 0\n'
}

# Prints the lines of the output, the instructions, the page faults and the most kilobytes of a run of this input.
count() {
    local lines instructions faults kilobytes
    lines=$("$program" run <"$folder/$1" | wc -l)
    /usr/bin/time -f '%R %M' -o "$folder/time" "$program" run <"$folder/$1" >/dev/null
    read -r faults kilobytes <"$folder/time"
    valgrind --tool=callgrind --callgrind-out-file="$folder/calls" "$program" run <"$folder/$1" >/dev/null 2>"$folder/log"
    instructions=$(sed -nE 's/.*Collected : ([0-9]+).*/\1/p' "$folder/log")
    printf '%-22s %9d %13d %7d %8d\n' "$1" "$lines" "$instructions" "$faults" "$kilobytes"
}

million_turns 1 >"$folder/one_queue_pair"
million_turns 64 >"$folder/64_queue_pairs"
poll_lines >"$folder/poll_lines"
printf '%-22s %9s %13s %7s %8s\n' input lines instructions faults kB
for input in one_queue_pair 64_queue_pairs poll_lines; do
    count "$input"
done
