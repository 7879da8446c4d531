#!/usr/bin/env bash
# Times a scalar loop of ten million instructions, and the same loop by the executable model in the same run, and prints
# the ratio of the two times. Skips the model where it is missing.
#   bench/scalar.sh [CAPE] [RUNS]     CAPE: the built program, crates/cape/out/cape by default; RUNS of each, 3 by default
source "$(dirname "$0")/common.sh"

# lui x6, 610; loop: addi x5, x5, 1; add x7, x7, x5; xor x9, x7, x5; bne x5, x6, loop; addi x17, x0, 93; ecall
image 0x00262337 0x00128293 0x005383b3 0x0053c4b3 0xfe629ae3 0x05d00893 0x00000073 >"$work/loop"
race "scalar loop" "${2:-3}" "${1:-$top/crates/cape/out/cape}" run "$work/loop"
