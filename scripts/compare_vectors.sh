#!/usr/bin/env bash
# Compares the last states of `cape run --state` with the executable model on random programs of the instructions on
# integers that add, subtract, multiply, divide, shift, compare, choose, merge, move, widen, narrow, extend or act bit
# by bit, of those in fixed point that clip, also to half the width, average, round a shift or multiply fractions, and
# of the move of a first element into a scalar register: all forms, settings, masks, policies, rounding modes and first
# elements, equal and overlapping registers, corners of a width as operands, nine in ten legal, at VLEN 32, 64, 128,
# 1,024 and, one in forty, 65,536. The programs are told by their seeds. Skips where the model is missing.
#   scripts/compare_vectors.sh [CAPE] [FIRST] [LAST]
#     CAPE         the built program, crates/cape/out/cape by default
#     FIRST, LAST  the seeds, 1 to 2,000 by default
# The program of one seed is written, and its options are shown, by: python3 -B scripts/compare_vectors.py image SEED FILE
source "$(dirname "$0")/common.sh"
cape=${1:-$top/crates/cape/out/cape}
first=${2:-1}
last=${3:-2000}
need_beside "$model"
need_built "$cape" cape
python3 -B "$top/scripts/compare_vectors.py" compare "$cape" "$model" "$work" "$first" "$last"
