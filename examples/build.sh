#!/usr/bin/env bash
# Builds the images of all examples by clang and lld, version 14 or later, without compressed code.
#   examples/build.sh [FOLDER]     examples/images by default
set -eu
cd "$(dirname "$0")"
into=${1:-images}
clang=${CLANG:-clang}
mkdir -p "$into"
common=(-target riscv32 -mabi=ilp32 -O2 -Wall -Werror -ffreestanding -fno-builtin -nostdlib -static -fuse-ld=lld
    -Wl,--strip-all -Wl,--build-id=none)
for source in *.c; do
    name=${source%.c}
    march=rv32im_zve32x
    vectors=(-fno-vectorize -fno-slp-vectorize)
    if [ "$name" = brighten ]; then
        march=rv32im_zve32x_zvl128b
        vectors=(-mllvm -riscv-v-vector-bits-min=128)
    fi
    "$clang" "${common[@]}" -march="$march" "${vectors[@]}" -o "$into/$name" start.S "$source"
done
for name in cipher memcpy strlen; do
    "$clang" "${common[@]}" -march=rv32im_zve32x -o "$into/$name" "$name.S"
done
