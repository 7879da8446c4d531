#!/usr/bin/env bash
# Times loads and stores of every shape in loops, and the same by the executable model in the same run, and prints one table:
# the processor milliseconds of the built program and of the model, and their ratio. Then it times a unit-stride load of
# 65,536 bytes (VLEN 65,536, LMUL 8) at elements of 8 and of 32 bits, and a loop of the host that copies as many bytes one by
# one, and prints how many such copies a load takes: no more than 20 are wanted. Skips the model where it is missing, and the
# loop of the host where no C compiler is.
#   bench/memory.sh [CAPE] [RUNS]     CAPE: the built program, crates/cape/out/cape by default; RUNS of each, 3 by default
source "$(dirname "$0")/common.sh"
cape=${1:-$top/crates/cape/out/cape}
runs=${2:-3}
need_built "$cape" cape

# An image whose guest makes a setting and a loop of ten equal loads or stores. Its data are 65,536 bytes, the words 0, 4, 8
# and so on, from 0x20000 on, with as many bytes of room behind them. Before the loop the mask is loaded from them, v8 to v15
# get them as indices, x10 has their address and x11 a stride.
#   memory_image SHAPE TURNS >IMAGE
memory_image() {
    python3 -B - "$top/scripts" "$1" "$2" <<'PYTHON'
import struct
import sys

sys.path.insert(0, sys.argv[1])
from guest import load

PAGE, CODE, DATA, SIZE = 4096, 0x10000, 0x20000, 65536
LOAD, STORE = 0x07, 0x27
UNIT, INDEXED, STRIDED = 0, 1, 2
WIDTHS = {8: 0, 16: 5, 32: 6}
E8, E32 = 0, 2 << 3
M1, M2, M4, M8 = range(4)


def memory(opcode, width, order=UNIT, second=0, fields=1, unmasked=1):
    return fields - 1 << 29 | order << 26 | unmasked << 25 | second << 20 | 10 << 15 | WIDTHS[width] << 12 | 16 << 7 | opcode


def both(setting, *form, **more):
    return {"l": (setting, memory(LOAD, *form, **more)), "s": (setting, memory(STORE, *form, **more))}


# The setting and the word of each shape: a load, and a store where there is one.
SHAPES = {
    "unit8": both(E8 | M8, 8),
    "unit32": both(E32 | M8, 32),
    "masked": both(E32 | M8, 32, unmasked=0),
    "strided": both(E32 | M8, 32, STRIDED, 11),
    "indexed": both(E32 | M8, 32, INDEXED, 8),
    "segments2": both(E32 | M4, 32, fields=2),
    "segments8": both(E8 | M1, 8, fields=8),
    "whole": both(E8 | M8, 8, second=8, fields=8),
    "mask": both(E8 | M8, 8, second=11),
    "first": {"l": (E32 | M8, memory(LOAD, 32, second=16))},
}
setting, word = SHAPES[sys.argv[2][:-1]][sys.argv[2][-1]]
turns = int(sys.argv[3])


def vsetvli(vtype):
    return vtype << 20 | 7 << 12 | 7 << 7 | 0x57


def branch(by):
    return 0x00031063 | (by >> 12 & 1) << 31 | (by >> 5 & 63) << 25 | (by >> 1 & 15) << 8 | (by >> 11 & 1) << 7


before = load(10, DATA) + load(11, 8)
before += [vsetvli(E8 | M1), 0x02B50007, vsetvli(E32 | M8), 0x02056407, vsetvli(setting)]  # vlm.v v0; vle32.v v8
before += load(6, turns)
loop = [word] * 10 + [0xFFF30313]  # addi x6, x6, -1
end = load(17, 93) + [0x73]
words = before + loop + [branch(-4 * len(loop))] + end
code = struct.pack(f"<{len(words)}I", *words)
data = struct.pack(f"<{SIZE // 4}I", *range(0, SIZE, 4))
header = b"\x7fELF\x01\x01\x01" + bytes(9)
header += struct.pack("<HHIIIIIHHHHHH", 2, 243, 1, CODE, 52, 0, 0, 52, 32, 2, 0, 0, 0)
header += struct.pack("<8I", 1, 116, CODE, CODE, len(code), len(code), 5, PAGE)
header += struct.pack("<8I", 1, 116 + len(code), DATA, DATA, SIZE, 4 * SIZE, 6, PAGE)
sys.stdout.buffer.write(header + code + data)
PYTHON
}

# The microseconds of one load, by a loop of 300 turns and one of a single turn.
#   load_time SHAPE
load_time() {
    local few many
    memory_image "$1" 1 >"$work/few"
    memory_image "$1" 301 >"$work/many"
    few=$(least_time "$runs" "$cape" run "$work/few" --vlen 65536)
    many=$(least_time "$runs" "$cape" run "$work/many" --vlen 65536)
    echo $(((many - few) / 3))
}

# The microseconds that the host takes to copy 65,536 bytes one by one.
copy_time() {
    cat >"$work/copy.c" <<'C'
static unsigned char from[65536];
static volatile unsigned char into[65536];

int main(int count, char **words) {
    for (int turn = 0; turn < (count > 1 ? 20000 : 1); turn++)
        for (int i = 0; i < 65536; i++)
            into[i] = from[i];
    return words == 0;
}
C
    cc -O2 -o "$work/copy" "$work/copy.c"
    local few many
    few=$(least_time "$runs" "$work/copy")
    many=$(least_time "$runs" "$work/copy" often)
    echo $(((many - few) / 20))
}

# Each shape, and its turns at VLEN 128 and 65,536.
races() {
    local shape
    for shape in unit8 unit32 masked strided indexed segments2 segments8 whole mask first; do
        race_of "$shape" load l
        [ "$shape" = first ] || race_of "$shape" store s
    done
}

# race_of SHAPE WAY LETTER
race_of() {
    memory_image "$1$3" 1000 >"$work/short"
    memory_image "$1$3" 5 >"$work/long"
    race "$1 $2, VLEN 128" "$runs" "$cape" run "$work/short" --vlen 128
    race "$1 $2, VLEN 65536" "$runs" "$cape" run "$work/long" --vlen 65536
}

if [ -x "$model" ]; then
    races | table
else
    echo "model: skipped, nothing at $model"
fi
if command -v cc >/dev/null; then
    copy=$(copy_time)
    echo "a copy of 65,536 bytes by a loop of the host: $copy us"
    for shape in unit8l unit32l; do
        time=$(load_time "$shape")
        echo "$shape: $time us, $((time * 10 / (copy > 0 ? copy : 1))) tenths of it"
    done
else
    echo "host: skipped, no C compiler"
fi
