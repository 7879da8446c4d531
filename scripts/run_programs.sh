#!/usr/bin/env bash
# Runs every program of the corpus of real programs that has no compressed code, at VLEN 32, 128 and 1,024: outputs, statuses
# and retired instructions must be those that the corpus tells, and a program that is to trap must name the pc. Then it tells
# the processor time of all of them by the built program and by the executable model, and the ratio. Skips where the corpus is
# missing, and the times where the model is.
#   scripts/run_programs.sh [CAPE] [JOBS]     CAPE: the built program, crates/cape/out/cape by default; JOBS at once, 2 by default
source "$(dirname "$0")/common.sh"
cape=${1:-$top/crates/cape/out/cape}
jobs=${2:-2}
programs=$shared/corpus/run_corpus.sh
need_beside "$programs"
need_built "$cape" cape

# Runs all programs that a length of registers allows, by a runner.
run_all() {
    local vlen=$1
    shift
    VLEN=$vlen POST="--vlen $vlen" COUNT=1 TRAPPC=1 JOBS=$jobs "$programs" "$@" run
}

# The processor seconds of all programs at one length, by a runner.
time_all() {
    local TIMEFORMAT=%U
    { time run_all "$@" >/dev/null 2>&1 || true; } 2>&1
}

failed=0
for vlen in 32 128 1024; do
    run_all "$vlen" "$cape" >"$work/ran" || failed=1
    grep '^FAIL' "$work/ran"
    echo "VLEN $vlen: $(tail -n 1 "$work/ran")"
done
if [ -x "$model" ]; then
    ours=$(time_all 128 "$cape")
    theirs=$(time_all 128 "$model")
    echo "processor seconds at VLEN 128: cape $ours, model $theirs, ratio $(awk -v a="$ours" -v b="$theirs" 'BEGIN { printf "%.2f", a / b }')"
fi
[ "$failed" -eq 0 ]
