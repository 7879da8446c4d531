#!/usr/bin/env bash
# Times each operation of a chain, its networks and its tree at 1, 32, 256 and 2,048 columns, and prints the nanoseconds of
# one operation on all subarrays, the bytes that it reads and writes at least, and the bytes of a nanosecond.
#   bench/slices.sh [PROGRAM]     PROGRAM: the built program, crates/slice_bench/out/slice_bench by default
source "$(dirname "$0")/common.sh"
program=${1:-$top/crates/slice_bench/out/slice_bench}
need_built "$program" slice_bench

# How often an operation is made in a batch, so that a batch takes some hundredths of a second.
times_of() {
    case $1 in
        1 | 32) echo 20000 ;;
        256) echo 5000 ;;
        *) echo 1000 ;;
    esac
}

for operation in search keys join update pass window bytes masked mask free pack count any first; do
    for columns in 1 32 256 2048; do
        echo "$operation $columns $(times_of "$columns")"
    done
done | "$program" | awk '{ printf "%-7s %5d columns %8d ns %7d bytes %8.2f bytes a ns\n", $1, $2, $6, $4, ($6 > 0 ? $4 / $6 : 0) }'
