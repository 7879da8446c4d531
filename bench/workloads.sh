#!/usr/bin/env bash
# Times `cape bench 1 256` and `cape bench 1 4096`, and the same by the executable model in the same run, and prints the ratio
# of the two times of each. Skips the model where it is missing.
#   bench/workloads.sh [CAPE] [RUNS]     CAPE: the built program, crates/cape/out/cape by default; RUNS of each, 3 by default
source "$(dirname "$0")/common.sh"
cape=${1:-$top/crates/cape/out/cape}
runs=${2:-3}
for size in 256 4096; do
    race "bench 1 $size" "$runs" "$cape" bench 1 "$size"
done
