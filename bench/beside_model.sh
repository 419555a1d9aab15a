#!/usr/bin/env bash
# Runs the built program and the model of bench/model on the random scripts of the seeds 1 to COUNT
# (500 if unsaid) and on every script in examples/, and compares what they write, byte by byte. It
# says how many were alike, and the first that wasn't. `rt run` in crates/linx_sim builds the
# program, and leaves it in out/; `bench/try random_script SEED` writes the script of a seed.
#   bench/try beside_model [COUNT] [PROGRAM]
set -euo pipefail
top="$(cd "$(dirname "$0")/.." && pwd)"
count="${1:-500}"
program="$(realpath -m "${2:-$top/crates/linx_sim/out/linx_sim}")"
[ -x "$program" ] || { echo "no program at $program" >&2; exit 1; }
work="$(mktemp -d)"
trap 'rm -rf "$work"' EXIT
alike=0
all=0
first=""

# compare NAME: runs both on $work/script, the program for at most a minute; they are alike where
# both succeed and write the same.
compare() {
    local status=0
    all=$((all + 1))
    timeout 60 "$program" serial < "$work/script" > "$work/program" 2> "$work/error" || status=$?
    if [ "$status" = 0 ] \
        && python3 "$top/bench/model" < "$work/script" > "$work/model" 2> "$work/error" \
        && cmp "$work/program" "$work/model" > "$work/error" 2>&1; then
        alike=$((alike + 1))
    elif [ -z "$first" ]; then
        first="$1: the program ended with $status; $(tail -n 1 "$work/error")"
    fi
}

for script in "$top"/examples/*.linx; do
    cp "$script" "$work/script"
    compare "$(basename "$script")"
done
for seed in $(seq "$count"); do
    python3 "$top/bench/random_script.py" "$seed" > "$work/script"
    compare "seed $seed"
done

echo "$alike of $all alike"
if [ -n "$first" ]; then
    echo "first that differs: $first"
    exit 1
fi
