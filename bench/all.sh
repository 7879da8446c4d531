#!/usr/bin/env bash
# Runs every benchmark that is compared with the executable model, and prints one table: the processor milliseconds of the
# built program and of the model, and their ratio.
#   bench/all.sh [CAPE] [RUNS]     CAPE: the built program, crates/cape/out/cape by default; RUNS of each, 5 by default
source "$(dirname "$0")/common.sh"
cape=${1:-$top/crates/cape/out/cape}
need_built "$cape" cape
need_beside "$model"

for benchmark in scalar vector pages workloads; do
    "$top/bench/$benchmark.sh" "$cape" "${2:-5}"
done | table
