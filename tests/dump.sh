#!/usr/bin/env bash
# The launcher of mlx5_dump and the program on real streams: the stored table, statuses, and lines on
# standard error.
set -uo pipefail
cd -- "$(dirname -- "${BASH_SOURCE[0]}")/.."

dump=$PWD/mlx5_dump
table=crates/mlx5_dump
source tests/judging.bash

from_folder() { "$dump" <"$PWD"; }
into_full_device() { "$dump" <"$table/stdin" >/dev/full; }
of_text() { printf '%s' "$1" | "$dump"; }

judge 'the stored table' "$("$dump" <"$table/stdin" | cmp - "$table/stdout" && printf same)" same
judge 'byte by byte' "$(dd bs=1 status=none if="$table/stdin" | "$dump" | cmp - "$table/stdout" && printf same)" same
judge 'the empty text' "$(of_text '')" ''
judge 'an empty line' "$(of_text $'\n')" 'malformed'
judge 'a last line without a line end' "$(of_text $'x\ny')" $'malformed\nmalformed'
judge 'the status of a malformed line' "$(said of_text x)" '0 '
judge 'words' "$(said "$dump" run </dev/null)" '2 mlx5_dump: usage'
judge 'a folder as input' "$(said from_folder)" '5 mlx5_dump: read fault'
judge 'a full device' "$(said into_full_device)" '6 mlx5_dump: write fault'
judge 'version' "$("$dump" --version)" 'mlx5_dump 0.1.0'

counted
