#!/usr/bin/env bash
# Scenarios of which one line is another: the first line that breaks a rule, the first quantity that passes its limit, or
# nothing. tests/grammar.table has the lines.
set -uo pipefail
cd -- "$(dirname -- "${BASH_SOURCE[0]}")/.."

mlx5=$PWD/mlx5
source tests/judging.bash

readonly scenario=(
    'eq e 1'
    'pd p'
    'cq c 2 2 e 0'
    'qp q p c c 2 rq:0 1 0'
    'connect q q'
    'thread a'
    'post q'
    '+ 7 nop -'
    '+ 8 nop c'
    'end'
    'thread b'
    'poll c 1'
    'drain c 1'
    'end'
    'schedule b a dev*3 b*4'
)

# Runs the scenario with another line in the place of one.
with_line() {
    local lines=("${scenario[@]}")
    lines[$1 - 1]=$(printf '%b.' "$2")
    lines[$1 - 1]=${lines[$1 - 1]%.}
    printf '%s\n' "${lines[@]}" | "$mlx5" run
}

# Runs these lines.
of_lines() { printf '%s\n' "$@" | "$mlx5" run; }

# A receive of these scatter/gather entries, on a queue pair of two each.
of_receive() {
    of_lines 'eq e 1' 'pd p' 'cq c 2 2 e 0' 'qp q p c c 0 rq:0 2 0' 'thread a' 'recv q' "+ 1$1" 'end'
}

of_lines_without_end() { printf '%s\n' "${scenario[@]:0:$1}" | "$mlx5" run; }
of_17_requests() {
    { printf '%s\n' 'eq e 1' 'pd p' 'cq c 5 5 e 0' 'qp q p c c 8 rq:0 1 0' 'thread a' 'post q'; printf '+ %d nop -\n' {1..17}; echo end; } | "$mlx5" run
}
of_17_threads() { printf 'thread %s\nend\n' {a..q} | "$mlx5" run; }
of_11_drains() {
    { printf '%s\n' 'eq e 6' 'cq c 12 12 e 0' 'thread a'; printf 'drain c %d\n' 65536{,,,,,,,,,,}; echo end; } | "$mlx5" run
}

while IFS='|' read -r place lines says; do
    [[ $says == 0 ]] && says='0 '
    judge "line $place as $lines" "$(said with_line "$place" "$lines")" "$says"
done < <(grep -v '^#' tests/grammar.table)

judge 'a text that ends in a post' "$(said of_lines_without_end 7)" '3 mlx5: line 7: missing'
judge 'a name before its line' "$(said of_lines "${scenario[@]:1}")" '3 mlx5: line 2: name'
judge 'one byte too many' "$(said of_receive ' #00000001:0:65536 #00000001:0:1')" '4 mlx5: limit length 65537'
judge 'a segment that is too long' "$(said of_receive ' #00000001:0:65537 #00000001:0:1 #00000001:0:1')" '4 mlx5: limit length 65537'
judge 'one segment too many' "$(said of_receive ' #00000001:0:1 #00000001:0:1 #00000001:0:65537')" '4 mlx5: limit sges 3'
judge 'a length past all lengths' "$(said of_receive ' #00000001:0:1 #00000001:0:18446744073709551615')" '4 mlx5: limit length 18446744073709551615'
judge 'one request too many' "$(said of_17_requests)" '4 mlx5: limit list 17'
judge 'one thread too many' "$(said of_17_threads)" '4 mlx5: limit threads 17'
judge 'too many notes' "$(said of_11_drains)" '4 mlx5: limit notes 4326568'

counted
