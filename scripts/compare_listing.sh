#!/usr/bin/env bash
# Compares the listing of words with the executable model's: words of every combination of the fields that choose a row, with
# registers drawn at random, and words drawn at random; one seed gives the same words again. Skips where the model is missing.
#   scripts/compare_listing.sh [COUNT] [SEED]     40,000 drawn words beside those of the rows, and the seed 1 by default
source "$(dirname "$0")/common.sh"
count=${1:-40000}
seed=${2:-1}
probe=$top/crates/library_probe/out/library_probe
need_beside "$model"
need_built "$probe" library_probe
python3 -B "$top/scripts/compare_listing.py" make "$count" "$seed" >"$work/cases" || exit 2
"$probe" <"$work/cases" >"$work/answers" || exit 2
python3 -B "$top/scripts/compare_listing.py" ask "$model" "$work" "$work/cases" "$work/answers"
