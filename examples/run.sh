#!/usr/bin/env bash
# Runs the built program on each example, and compares what it writes in the fixed order with the
# text that stands beside it. `rt run` in crates/linx_sim builds the program, and leaves it in
# out/.
#   examples/run.sh [PROGRAM]
set -euo pipefail
here="$(cd "$(dirname "$0")" && pwd)"
program="${1:-$here/../crates/linx_sim/out/linx_sim}"
for script in "$here"/*.linx; do
    "$program" serial < "$script" | cmp - "${script%.linx}.txt"
    echo "$(basename "$script"): as it should be"
done
