#!/usr/bin/env bash
# Compares random lists of micro-operations, which crates/list_replay carries out on random slices, with the executable
# model: it replays each list itself and compares all rows, tags and control numbers. Skips where the model is missing.
#   scripts/compare_replays.sh [COUNT] [FIRST]     COUNT lists, 2,000 by default; FIRST: the first seed
source "$(dirname "$0")/common.sh"
replay=$top/crates/list_replay/out/list_replay
need_beside "$model"
need_built "$replay" list_replay
compare=$top/scripts/compare_replays.py
count=${1:-2000}
first=${2:-1}
python3 -B "$compare" cases "$first" "$count" >"$work/cases" || exit 2
"$replay" <"$work/cases" >"$work/left" || exit 2
python3 -B "$compare" check "$model" "$work" "$first" "$count" "$work/left"
