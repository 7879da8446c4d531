"""Guests of a few words, which the comparisons with the executable model write themselves."""

import struct

# The address of the first byte of an image, and of the first word behind its headers.
START = 0x10000
CODE = 0x10054
# The bits of a vector type that name a supported setting of SEW and LMUL.
SETTINGS = [0x06, 0x07, 0x00, 0x01, 0x02, 0x03, 0x0F, 0x08, 0x09, 0x0A, 0x0B, 0x10, 0x11, 0x12, 0x13]


def image(words):
    """An image of one segment, to read, write and execute, with the words behind its headers."""
    size = CODE - START + 4 * len(words)
    header = b"\x7fELF\x01\x01\x01" + bytes(9)
    header += struct.pack("<HHIIIIIHHHHHH", 2, 243, 1, CODE, 52, 0, 0, 52, 32, 1, 0, 0, 0)
    header += struct.pack("<8I", 1, 0, START, START, size, size, 7, 4096)
    return header + struct.pack(f"<{len(words)}I", *words)


def load(register, value):
    """lui and addi, which put a value into a register."""
    upper = (value + 0x800) >> 12 & 0xFFFFF
    return [upper << 12 | register << 7 | 0x37, (value & 0xFFF) << 20 | register << 15 | register << 7 | 0x13]
