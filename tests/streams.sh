#!/usr/bin/env bash
# The launcher and the program on real streams: statuses, and lines on standard error.
set -uo pipefail
cd -- "$(dirname -- "${BASH_SOURCE[0]}")/.."

mlx5=$PWD/mlx5
source tests/judging.bash

into_full_device() { "$mlx5" run </dev/null >/dev/full; }

# Into a pipe whose reader has ended.
into_closed_pipe() {
    local pipe
    exec {pipe}> >(:)
    wait $!
    "$mlx5" run </dev/null >&"$pipe"
}

layout_into_full_device() { "$mlx5" layout raddr >/dev/full; }
from_folder() { "$mlx5" run <"$PWD"; }
from_elsewhere() { (cd / && "$mlx5" run </dev/null); }
of_32_large_queues() { { echo 'eq e 6'; printf 'cq c%d 12 12 e 0\n' {0..31}; } | "$mlx5" run; }
of_long_text() { head -c 4194305 /dev/zero | "$mlx5" run; }
of_text() { printf '%s' "$1" | "$mlx5" run; }

judge 'the empty text' "$(said "$mlx5" run </dev/null)" '0 '
judge 'another folder' "$(said from_elsewhere)" '0 '
judge 'no words' "$(said "$mlx5")" '2 mlx5: usage'
judge 'a layout' "$("$mlx5" layout raddr <&-)" $'addr 0 64\nrkey 64 32\nreserved 96 32'
judge 'a layout into a full device' "$(said layout_into_full_device)" '6 mlx5: write fault'
judge 'a layout that is not there' "$(said "$mlx5" layout foo)" '2 mlx5: usage'
judge 'a layout without a name' "$(said "$mlx5" layout)" '2 mlx5: usage'
judge 'a wrong word' "$(said "$mlx5" walk)" '2 mlx5: usage'
judge 'a word that is no text' "$(said "$mlx5" $'\xff')" '2 mlx5: usage'
judge 'a text outside the grammar' "$(said of_text x)" '3 mlx5: line 1: form'
judge 'a line that is not built' "$(said of_text $'arena 8\n')" '3 mlx5: line 1: not built'
judge 'a text that ends too early' "$(said of_text $'thread a\n')" '3 mlx5: line 1: missing'
judge 'a limit' "$(said of_text $'# eleven\neq e 11\n')" '4 mlx5: limit log 11'
judge 'too many words' "$(said of_32_large_queues)" '4 mlx5: limit words 2115202'
judge 'a text that is too long' "$(said of_long_text)" '4 mlx5: limit text 4194305'
judge 'a folder as input' "$(said from_folder)" '5 mlx5: read fault'
judge 'a full device' "$(said into_full_device)" '6 mlx5: write fault'
judge 'a closed pipe' "$(said into_closed_pipe)" '6 mlx5: write fault'
judge 'help' "$(said "$mlx5" --help)" '0 '
judge 'version' "$("$mlx5" --version)" 'mlx5 0.1.0'

counted
