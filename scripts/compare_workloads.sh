#!/usr/bin/env bash
# Compares `cape gen`, `cape bench` and `cape help` with the executable model: outputs, error outputs and statuses, for drawn
# seeds and sizes, the least and the greatest among them. Skips where the model
# is missing.
#   scripts/compare_workloads.sh [CAPE] [WORKLOADS]
#     CAPE       the built program, crates/cape/out/cape by default
#     WORKLOADS  how many, 200 by default
source "$(dirname "$0")/common.sh"
cape=${1:-$top/crates/cape/out/cape}
need_beside "$model"
need_built "$cape" cape
# The level of the model's grammar that has these commands.
export CAPE_REF_LEVEL=13

# Output, error output and status of a command of a program, in files of the scratch folder.
told() {
    local name=$1
    shift
    "$@" >"$work/$name" 2>"$work/$name.err" </dev/null
    echo "status $?" >>"$work/$name.err"
}

# Whether the words of a command are told the same.
same() {
    told ours "$cape" "$@"
    told theirs "$model" "$@"
    cmp -s "$work/ours" "$work/theirs" && cmp -s "$work/ours.err" "$work/theirs.err"
}

# The seed and the size of a number: corners first, then drawn ones, the sizes of a bench at most 64.
drawn() {
    python3 -B -c '
import random, sys
number, most = int(sys.argv[1]), int(sys.argv[2])
corners = [(0, 1), (1, 1), (2**64 - 1, most), (2**63, 2), (1, most)]
rng = random.Random(number)
seed, size = corners[number] if number < len(corners) else (rng.getrandbits(rng.choice([8, 32, 64])), rng.randint(1, most))
print(f"{seed} {size:0{rng.choice([1, 20])}}")' "$1" "$2"
}

differ=0
workloads=${2:-200}
same help || { differ=$((differ + 1)); echo "differs: help"; }
for ((number = 0; number < workloads; number++)); do
    read -r seed size < <(drawn "$number" 4096)
    same gen "$seed" "$size" || { differ=$((differ + 1)); echo "differs: gen $seed $size"; }
    read -r seed size < <(drawn "$number" 64)
    if ! same bench "$seed" "$size"; then
        differ=$((differ + 1))
        echo "differs: bench $seed $size"
    fi
done
for words in "gen 1 0" "gen 1 4097" "gen 18446744073709551616 1" "gen 1" "gen 1 1 1" "bench 1 0" "bench -1 1" "bench" "help me"; do
    # shellcheck disable=SC2086
    same $words || { differ=$((differ + 1)); echo "differs: $words"; }
done
echo "$workloads workloads, $differ differences"
[ "$differ" -eq 0 ]
