#!/usr/bin/env bash
# Compares `cape check` with the executable model on every image of the corpus of real programs: the text, the error
# output and the status. Skips where the corpus or the model is missing.
#   scripts/check_corpus.sh [CAPE]     CAPE: the built program, crates/cape/out/cape by default
source "$(dirname "$0")/common.sh"
cape=${1:-$top/crates/cape/out/cape}
need_beside "$model" "$shared/corpus"
need_built "$cape" cape
same=0
differ=0
while IFS= read -r image; do
    "$cape" check "$image" >"$work/out" 2>"$work/err"
    echo "status $?" >>"$work/err"
    CAPE_REF_LEVEL=2 "$model" check "$image" >"$work/model_out" 2>"$work/model_err"
    echo "status $?" >>"$work/model_err"
    if cmp -s "$work/out" "$work/model_out" && cmp -s "$work/err" "$work/model_err"; then
        same=$((same + 1))
    else
        differ=$((differ + 1))
        echo "differs: $image"
    fi
done < <(find "$shared/corpus/build" "$shared/corpus/traps" -type f | sort)
echo "$same same, $differ different"
[ "$differ" -eq 0 ]
