#!/usr/bin/env bash
# What the work of a single layer costs, as the crate layer_speeds does it. LAYER is
#   queue     a receive of one number among SIZE waiting items, 30,000 if unsaid, and fewer, which is
#             made SIZE times; and half as many detaches behind them, where the queue has the notice
#             and where it has none
#   tables    calls on the tables of names, hunts and attaches with SIZE entries that they don't touch,
#             100,000 if unsaid, a hundredth of these, and a hundredth of that
#   kernel    a hunt, an attach, a detach, a found hunt and a notification where SIZE hunts and as many
#             attaches are pending, 100,000 if unsaid, a hundredth of these, and a hundredth of that
#   text      the text of a journal of SIZE steps, 200,000 if unsaid, by the number of incarnations in
#             it, and that of large signals, one for 400 or 800 of these steps, by their kinds
#   end       SIZE pieces of 1,400 bytes from one end of a link to the other, 1,000,000 if unsaid
#   trunk     SIZE signals of 100 bytes over a trunk, 100,000 if unsaid, by halves
#   lock      SIZE turns of the lock, 1,000,000 if unsaid, on one thread and on several at once
# `run` proves the program, `try` builds it unproved and checked, which is slow: there only ratios
# mean something. The work is done so many times, once if unsaid.
#   bench/try layers LAYER [run|try [SIZE [TIMES]]]
set -euo pipefail
layers='queue|tables|kernel|text|end|trunk|lock'
layer=${1:-} way=${2:-run} size=${3:-} times=${4:-1}
if [[ ! $layer =~ ^($layers)$ || ! $way =~ ^(run|try)$ || ! $size =~ ^([1-9][0-9]*)?$
    || ! $times =~ ^[1-9][0-9]*$ || $# -gt 4 ]]; then
    echo "usage: bench/try layers $layers [run|try [SIZE [TIMES]]]" >&2
    exit 1
fi
cd "$(dirname "$0")/../crates/layer_speeds"
for ((k = 0; k < times; k++)); do
    # shellcheck disable=SC2086 # no size is no word
    rt "$way" -- "$layer" $size
done
