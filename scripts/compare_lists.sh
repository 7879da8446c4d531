#!/usr/bin/env bash
# Compares the lists of micro-operations of kinds, which crates/library_probe tells, with those of the executable model: the
# length and the hash of each kind's list at each width, and the lists of instructions, which have equal operands and the
# row of the scalar too. The lists of the kinds in fixed point, at each width and in each rounding mode, are taken out of the
# programs that crates/plan_listing tells. Then compares whole programs of it, under random settings. Skips where the model is
# missing.
#   scripts/compare_lists.sh
source "$(dirname "$0")/common.sh"
probe=$top/crates/library_probe/out/library_probe
hashes=$shared/oracle/HASHES.txt
need_beside "$model" "$hashes"
need_built "$probe" library_probe
planner=$top/crates/plan_listing/out/plan_listing
need_built "$planner" plan_listing
compare=$top/scripts/compare_lists.py
python3 -B "$compare" ask >"$work/asked" || exit 2
"$probe" <"$work/asked" >"$work/told" || exit 2
status=0
python3 -B "$compare" hashes "$work/told" "$hashes" || status=1
python3 -B "$compare" guests "$model" "$work" "$work/told" || status=1
python3 -B "$compare" ask_fixed >"$work/asked" || exit 2
"$planner" <"$work/asked" >"$work/told" || exit 2
python3 -B "$compare" fixed "$work/told" "$hashes" || status=1
plans=$top/scripts/compare_plans.py
python3 -B "$plans" ask >"$work/asked" || exit 2
"$planner" <"$work/asked" >"$work/told" || exit 2
python3 -B "$plans" compare "$model" "$work" "$work/told" || status=1
exit "$status"
