#!/usr/bin/env bash
# Compares decode_v, bits and legal with the executable model on vector words under vector types: whether a word has a row,
# the word of its instruction, and whether it is legal. The words are drawn at random, near overlaps of registers
# preferred; one seed gives the same words again. Skips where the model is missing.
#   scripts/compare_words.sh [COUNT] [SEED]     120,000 words and the seed 1 by default
source "$(dirname "$0")/common.sh"
count=${1:-120000}
seed=${2:-1}
probe=$top/crates/library_probe/out/library_probe
need_beside "$model"
need_built "$probe" library_probe
python3 -B "$top/scripts/compare_words.py" make "$count" "$seed" >"$work/cases" || exit 2
"$probe" <"$work/cases" >"$work/answers" || exit 2
python3 -B "$top/scripts/compare_words.py" ask "$model" "$work/cases" "$work/answers"
