#!/usr/bin/env bash
# Compares outputs and last states of `cape run --state` with the executable model on random programs of vector loads and
# stores: all forms, widths, settings, masks, policies, numbers of fields and first elements, bases at the ends of pages,
# strides below 0 and of 0, indices that wrap, and faults. A program that comes to its end writes out its memory. The
# programs are told by their seeds. Skips where the model is missing.
#   scripts/compare_memory.sh [CAPE] [FIRST] [LAST]
#     CAPE         the built program, crates/cape/out/cape by default
#     FIRST, LAST  the seeds, 1 to 3,000 by default
# The program of one seed is written, and its options are shown, by: python3 -B scripts/compare_memory.py image SEED FILE
source "$(dirname "$0")/common.sh"
cape=${1:-$top/crates/cape/out/cape}
first=${2:-1}
last=${3:-3000}
need_beside "$model"
need_built "$cape" cape
python3 -B "$top/scripts/compare_memory.py" compare "$cape" "$model" "$work" "$first" "$last"
