#!/usr/bin/env bash
# Times a guest that touches 16,384 pages at random, and one that touches 16 of as many: the first is to take no more than
# twice the time of the second. The executable model runs the first too. Skips the model where it is missing.
#   bench/pages.sh [CAPE]     CAPE: the built program, crates/cape/out/cape by default
source "$(dirname "$0")/common.sh"
cape="${1:-$top/crates/cape/out/cape}"
need_built "$cape" cape

# An image whose one segment has all pages but those of the stack, and leaves none for a heap. The guest goes through
# numbers that look random, takes the highest bits of each as the number of a page, and adds one to a word of that page.
#   pages_image BITS >IMAGE     BITS: 14 for all pages, 4 for 16 of them
pages_image() {
    python3 -B - "$top/scripts" "$1" <<'PYTHON'
import struct
import sys

sys.path.insert(0, sys.argv[1])
from guest import load

PAGE, PAGES, STACK_PAGES, STACK, TOP = 4096, 16384, 256, 0x7FF00000, 0xFFFFF000
IN_SEGMENT = PAGES - STACK_PAGES
START = TOP - IN_SEGMENT * PAGE
TURNS, PLACE = 500_000, 2044
bits = int(sys.argv[2])


def r(function, rd, rs1, rs2, upper=0):
    return upper << 25 | rs2 << 20 | rs1 << 15 | function << 12 | rd << 7 | 0x33


def i(function, rd, rs1, imm, opcode=0x13):
    return (imm & 0xFFF) << 20 | rs1 << 15 | function << 12 | rd << 7 | opcode


def s(rs2, rs1, imm):
    return imm >> 5 << 25 | rs2 << 20 | rs1 << 15 | 2 << 12 | (imm & 31) << 7 | 0x23


def b(function, rs1, rs2, imm):
    return (imm >> 12 & 1) << 31 | (imm >> 5 & 63) << 25 | rs2 << 20 | rs1 << 15 | function << 12 | (imm >> 1 & 15) << 8 | (imm >> 11 & 1) << 7 | 0x63


code = [
    *load(5, 1),
    *load(6, 1664525),
    *load(7, 1013904223),
    *load(8, TURNS),
    *load(9, START),
    *load(10, STACK - IN_SEGMENT * PAGE & 0xFFFFFFFF),
    *load(11, IN_SEGMENT),
]
loop = [
    r(0, 5, 5, 6, 1),  # mul x5, x5, x6
    r(0, 5, 5, 7),  # add x5, x5, x7
    i(5, 12, 5, 32 - bits),  # srli x12, x5, 32 - bits
    i(1, 13, 12, 12),  # slli x13, x12, 12
    r(0, 14, 13, 9),  # add x14, x13, x9
    b(6, 12, 11, 8),  # bltu x12, x11, over the next
    r(0, 14, 13, 10),  # add x14, x13, x10
    i(2, 15, 14, PLACE, 0x03),  # lw x15, place(x14)
    i(0, 15, 15, 1),  # addi x15, x15, 1
    s(15, 14, PLACE),  # sw x15, place(x14)
    i(0, 8, 8, -1),  # addi x8, x8, -1
]
end = [i(0, 10, 0, 0), i(0, 17, 0, 93), 0x73]  # addi x10, x0, 0; addi x17, x0, 93; ecall
words = [*code, *loop, b(1, 8, 0, -4 * len(loop)), *end]
size = 84 + 4 * len(words)
header = b"\x7fELF\x01\x01\x01" + bytes(9)
header += struct.pack("<HHIIIIIHHHHHH", 2, 243, 1, START + 84, 52, 0, 0, 52, 32, 1, 0, 0, 0)
header += struct.pack("<8I", 1, 0, START, START, size, IN_SEGMENT * PAGE, 7, PAGE)
sys.stdout.buffer.write(header + struct.pack(f"<{len(words)}I", *words))
PYTHON
}

pages_image 4 >"$work/few"
pages_image 14 >"$work/all"
few=$(least_time 3 "$cape" run "$work/few")
echo "16 pages: $few ms"
all=$(least_time 3 "$cape" run "$work/all")
echo "16,384 pages: $all ms, $((all * 100 / (few > 0 ? few : 1))) hundredths of it"
race "16,384 pages at random" 3 "$cape" run "$work/all"
