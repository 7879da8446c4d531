#!/usr/bin/env bash
# Times loops of vector instructions, and the same by the executable model in the same run, and prints the ratio of the two
# times of each: 20,000 vxor.vv at e32, m8 and VLEN 65,536; 40,000 vadd.vv at e32, m1 and 8,000 at e8, m8, and 4,000 masked
# vmseq.vv at e8, m8, each at VLEN 128 and 1,024. Skips the model where it is missing.
#   bench/vector.sh [CAPE] [RUNS]     CAPE: the built program, crates/cape/out/cape by default; RUNS of each, 3 by default
source "$(dirname "$0")/common.sh"
cape=${1:-$top/crates/cape/out/cape}
runs=${2:-3}

# An image that makes a setting, puts two values into v8 and v16, and makes a loop of some vector instructions, whose words
# are given. The setting is that of the word of vsetvli x7, x0.
#   vector_image SETTING TURNS WORD..
vector_image() {
    local setting=$1 turns=$2 back
    shift 2
    # From the branch back to the setting, over the instructions and the addi.
    back=$((-4 * ($# + 2)))
    # lui x5, 0x12345; addi x6, x0, turns; vsetvli; vmv.v.x v8, x5; vmv.v.x v16, x6
    # loop: vsetvli; the instructions; addi x6, x6, -1; bne x6, x0, loop; addi x17, x0, 93; ecall
    image 0x123452b7 $((turns << 20 | 0x313)) "$setting" 0x5e02c457 0x5e034857 \
        "$setting" "$@" 0xfff30313 "$(branch_word $back)" 0x05d00893 0x00000073
}

# The word of bne x6, x0 by so many bytes.
branch_word() {
    local by=$1
    echo $((0x00031063 | (by >> 12 & 1) << 31 | (by >> 5 & 63) << 25 | (by >> 1 & 15) << 8 | (by >> 11 & 1) << 7))
}

# Ten times the words.
ten() {
    local i
    for ((i = 0; i < 10; i++)); do echo "$@"; done
}

# vsetvli x7, x0 with e32, m8; e32, m1; e8, m8; each ta, ma
e32m8=0x0d3073d7
e32m1=0x0d0073d7
e8m8=0x0c3073d7

# vxor.vv v0, v8, v16; vxor.vv v8, v16, v24
vector_image $e32m8 1000 $(ten 0x2e880057 0x2f0c0457) >"$work/xor"
race "vxor.vv, e32, m8, VLEN 65536" "$runs" "$cape" run "$work/xor" --vlen 65536
# vadd.vv v24, v8, v16; vadd.vv v8, v16, v24
vector_image $e32m1 2000 $(ten 0x02880c57 0x030c0457) >"$work/words"
vector_image $e8m8 400 $(ten 0x02880c57 0x030c0457) >"$work/bytes"
# vmseq.vv v0, v8, v16 once in the loop as the mask, then vmseq.vv v24, v8, v16, v0.t and vmseq.vv v25, v8, v16, v0.t
vector_image $e8m8 200 0x62880057 $(ten 0x60880c57 0x60880cd7) >"$work/compare"
for vlen in 128 1024; do
    race "vadd.vv, e32, m1, VLEN $vlen" "$runs" "$cape" run "$work/words" --vlen "$vlen"
    race "vadd.vv, e8, m8, VLEN $vlen" "$runs" "$cape" run "$work/bytes" --vlen "$vlen"
    race "vmseq.vv under a mask, e8, m8, VLEN $vlen" "$runs" "$cape" run "$work/compare" --vlen "$vlen"
done
