#!/usr/bin/env bash
# Compares outputs and last states of `cape run --state` with the executable model on random programs of all kinds of
# instruction: on elements at the same place, loads and stores, and those that read whole groups or whole masks, at VLEN 32 to
# 1,024, or of the last kinds alone. The programs are told by their seeds. Skips where the model is missing.
#   scripts/compare_programs.sh [CAPE] [FIRST] [LAST] [whole]
#     CAPE         the built program, crates/cape/out/cape by default
#     FIRST, LAST  the seeds, 1 to 2,000 by default
#     whole        instructions that read whole groups or masks alone
# The program of one seed is written, and its options are shown, by: python3 -B scripts/compare_programs.py image SEED FILE [whole]
source "$(dirname "$0")/common.sh"
cape=${1:-$top/crates/cape/out/cape}
first=${2:-1}
last=${3:-2000}
need_beside "$model"
need_built "$cape" cape
python3 -B "$top/scripts/compare_programs.py" compare "$cape" "$model" "$work" "$first" "$last" ${4:+whole}
