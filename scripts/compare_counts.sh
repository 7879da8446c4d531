#!/usr/bin/env bash
# Compares `cape run --counts --work`, with the state or without, with the executable model on random programs of vector
# instructions: those of compare_vectors but for the longest registers. What an instruction takes, and the work rows and tags
# that it leaves, are compared with what the model's slices tell. Skips where the model is missing.
#   scripts/compare_counts.sh [CAPE] [FIRST] [LAST]
#     CAPE         the built program, crates/cape/out/cape by default
#     FIRST, LAST  the seeds, 1 to 500 by default
source "$(dirname "$0")/common.sh"
cape=${1:-$top/crates/cape/out/cape}
need_beside "$model"
need_built "$cape" cape
python3 -B "$top/scripts/compare_counts.py" "$cape" "$model" "$work" "${2:-1}" "${3:-500}"
