#!/usr/bin/env bash
# Compares `cape run --steps N --state` with the executable model on the corpus of real programs, for N = 1000, 2000, ..:
# output, error output and status, until the program ended or made 20,000 steps. Skips where the corpus or the model is missing.
#   scripts/compare_states.sh [CAPE]     CAPE: the built program, crates/cape/out/cape by default
source "$(dirname "$0")/common.sh"
cape=${1:-$top/crates/cape/out/cape}
last=20000
apart=1000
need_beside "$model" "$shared/corpus"
need_built "$cape" cape
states=0
programs=0
differ=0
while IFS=$'\t' read -r name arch _ _ _ elf stdin _; do
    [ "$arch" = rv32im ] || continue
    programs=$((programs + 1))
    input=/dev/null
    [ "$stdin" = - ] || input=$shared/corpus/$stdin
    for ((n = apart; n <= last; n += apart)); do
        "$cape" run "$shared/corpus/$elf" --steps "$n" --state <"$input" >"$work/out" 2>"$work/err"
        echo "status $?" >>"$work/err"
        "$model" run "$shared/corpus/$elf" --steps "$n" --state <"$input" >"$work/model_out" 2>"$work/model_err"
        echo "status $?" >>"$work/model_err"
        states=$((states + 1))
        if ! cmp -s "$work/out" "$work/model_out" || ! cmp -s "$work/err" "$work/model_err"; then
            differ=$((differ + 1))
            echo "differs: $name at $n steps"
            break
        fi
        grep -q '^cape: step limit' "$work/err" || break
    done
done < <(tail -n +2 "$shared/corpus/manifest.tsv")
echo "$programs programs, $states states the same, $differ different"
[ "$differ" -eq 0 ]
