#!/usr/bin/env bash
# Each examples/NAME.scenario has the output examples/NAME.output.
set -uo pipefail
shopt -s nullglob
cd -- "$(dirname -- "${BASH_SOURCE[0]}")/.."

source tests/judging.bash
for scenario in examples/*.scenario; do
    if ./mlx5 run <"$scenario" | cmp - "${scenario%.scenario}.output"; then
        passed=$((passed + 1))
    else
        failed=$((failed + 1))
        printf '%s: another output\n' "$scenario"
    fi
done
counted
