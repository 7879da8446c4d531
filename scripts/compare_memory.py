"""Makes random programs of vector loads and stores, and compares their outputs and last states with the executable model's.

    compare_memory.py compare CAPE MODEL FOLDER FIRST LAST   compares the programs of the seeds
    compare_memory.py image SEED FILE                        writes one program, and shows its options
"""

import collections
import multiprocessing
import os
import random
import struct
import sys

from compare_vectors import TOLD, first_difference, lmul, set_first, sew, told_by
from guest import SETTINGS, load

PAGE = 4096
CODE = 0x10000
# Data to read and write, a page after it that is not mapped, one to read alone, and one to read and write, behind which
# the heap lies.
DATA, DATA_SIZE = 0x20000, 2 * PAGE
HOLE = DATA + DATA_SIZE
READ_ONLY = HOLE + PAGE
LAST = READ_ONLY + PAGE
REGIONS = [(DATA, DATA_SIZE), (LAST, PAGE)]
READ, WRITE, EXECUTE = 4, 2, 1
VLENS = [32, 64, 128, 256, 1024]
WIDTHS = {8: 0, 16: 5, 32: 6}
LOAD, STORE = 0x07, 0x27
UNIT, UNORDERED, STRIDED, ORDERED = range(4)
NORMAL, WHOLE, MASK, FAULT_ONLY_FIRST = 0, 8, 11, 16
E8_M8, E32_M8 = 0xC3, 0xD3
VSETVLI = 0x00007057
ECALL, EXIT, PUT = 0x00000073, 93, 64
# The scalar registers of a length, a first element, a base and a stride.
LENGTH, FIRST, BASE, STRIDE = 5, 6, 11, 12
MOST = 0xFFFFFFFF


def memory_word(opcode, fields, order, unmasked, second, base, width, register):
    return fields - 1 << 29 | order << 26 | unmasked << 25 | second << 20 | base << 15 | WIDTHS[width] << 12 | register << 7 | opcode


def program_header(start, size, perms, offset):
    flags = (perms & READ) | (perms & WRITE) | (perms & EXECUTE)
    return struct.pack("<8I", 1, offset, start, start, size, size, flags, PAGE)


def image(words, data):
    """An image of the words, and of the data in its segments."""
    code = struct.pack(f"<{len(words)}I", *words)
    segments = [(CODE, code, READ | EXECUTE), (DATA, data[0], READ | WRITE), (READ_ONLY, data[1], READ), (LAST, data[2], READ | WRITE)]
    offset = 52 + 32 * len(segments)
    header = b"\x7fELF\x01\x01\x01" + bytes(9)
    header += struct.pack("<HHIIIIIHHHHHH", 2, 243, 1, CODE, 52, 0, 0, 52, 32, len(segments), 0, 0, 0)
    body = b""
    for start, content, perms in segments:
        header += program_header(start, len(content), perms, offset + len(body))
        body += content
    return header + body


class Program:
    """The words of a program, its data and its options."""

    def __init__(self, seed):
        self.rng = rng = random.Random(seed)
        self.vlen = rng.choice(VLENS)
        self.words = []
        self.data = [rng.randbytes(DATA_SIZE), rng.randbytes(PAGE), rng.randbytes(PAGE)]
        self.options = ["--state", "--vlen", str(self.vlen), "--agnostic", rng.choice(["keep", "ones"])]
        self.fill()
        for _ in range(rng.randrange(3, 10)):
            self.round()
        for start, size in REGIONS:
            self.words += load(10, 1) + load(11, start) + load(12, size) + load(17, PUT) + [ECALL]
        self.words += load(10, rng.getrandbits(7)) + load(17, EXIT) + [ECALL]

    def fill(self):
        """Draws all registers from the data; sometimes words of small numbers, which are near indices, into eight of them."""
        for register in range(0, 32, 8):
            self.words += load(BASE, DATA + self.rng.randrange(0, 64) * 4)
            self.words.append(memory_word(LOAD, 8, UNIT, 1, WHOLE, BASE, 8, register))
        self.set(E32_M8, None)
        for register in self.rng.sample([8, 16, 24], self.rng.randrange(1, 3)):
            self.words += load(STRIDE, self.rng.choice([0xFF, 0x7FF, 0x1FFF]))
            # vand.vx register, register, x12
            self.words.append(9 << 26 | 1 << 25 | register << 20 | STRIDE << 15 | 4 << 12 | register << 7 | 0x57)

    def set(self, vtype, length):
        """vsetvli, with the greatest length where none is given."""
        self.vtype = vtype
        self.vl = lmul(vtype) * self.vlen // (4 * sew(vtype)) if length is None else length
        if length is None:
            self.words.append(VSETVLI | vtype << 20 | 31 << 7)
        else:
            self.words += load(LENGTH, length) + [VSETVLI | vtype << 20 | LENGTH << 15]

    def configure(self):
        rng = self.rng
        vtype = rng.choice(SETTINGS) | rng.getrandbits(2) << 6
        most = lmul(vtype) * self.vlen // (4 * sew(vtype))
        self.set(vtype, min(rng.choice([0, 1, most, most, most - 1, rng.randint(0, most)]), most) if most else 0)

    def base(self):
        """An address, often near the end of a page or of what is mapped."""
        rng = self.rng
        ends = [DATA + PAGE, HOLE, HOLE, READ_ONLY, LAST, LAST + PAGE]
        if rng.random() < 0.35:
            return rng.choice(ends) + rng.randint(-96, 8)
        if rng.random() < 0.05:
            return rng.choice([0, MOST - 3, DATA - 2, CODE])
        return DATA + rng.randrange(0, DATA_SIZE - 2048)

    def stride(self):
        rng = self.rng
        return rng.choice([0, 1, 2, 4, 8, 12, 64, MOST, MOST - 3, MOST - 7, 0x200, rng.randrange(-96, 96) & MOST])

    def registers(self, width):
        """The registers of a group of elements of that width, in eighths."""
        return lmul(self.vtype) * 2 * width // sew(self.vtype)

    def group(self, eighths, fields, spares_mask):
        """A register whose group of so many fields is legal, but in a few cases."""
        rng = self.rng
        count = max(8, eighths) // 8
        if rng.random() < 0.03 or count * fields > 8:
            return rng.randrange(32)
        firsts = [first for first in range(0, 33 - count * fields, count) if first > 0 or not spares_mask]
        return rng.choice(firsts)

    def fields(self, eighths):
        most = min(8, 64 // max(8, eighths)) or 1
        return 1 if self.rng.random() < 0.5 else self.rng.randint(1, most)

    def any_word(self):
        rng = self.rng
        opcode = rng.choice([LOAD, LOAD, STORE])
        width = rng.choice(list(WIDTHS))
        unmasked = rng.choice([0, 1, 1])
        order = rng.choice([UNIT, UNIT, UNIT, UNORDERED, STRIDED, ORDERED])
        if order == UNIT:
            return self.unit(opcode, width, unmasked)
        if order == STRIDED:
            eighths = self.registers(width)
            fields = self.fields(eighths)
            vd = self.group(eighths, fields, opcode == LOAD and not unmasked)
            return memory_word(opcode, fields, order, unmasked, rng.choice([0, STRIDE, STRIDE]), BASE, width, vd)
        eighths = 2 * lmul(self.vtype)
        fields = self.fields(eighths)
        vd = self.group(eighths, fields, opcode == LOAD and not unmasked)
        return memory_word(opcode, fields, order, unmasked, self.group(self.registers(width), 1, False), BASE, width, vd)

    def unit(self, opcode, width, unmasked):
        rng = self.rng
        form = rng.choice([NORMAL, NORMAL, NORMAL, WHOLE, MASK, FAULT_ONLY_FIRST])
        if form == WHOLE:
            count = rng.choice([1, 2, 4, 8])
            vd = rng.randrange(0, 32, count)
            return memory_word(opcode, count, UNIT, 1, WHOLE, BASE, width if opcode == LOAD else 8, vd)
        if form == MASK:
            return memory_word(opcode, 1, UNIT, 1, MASK, BASE, 8, rng.randrange(32))
        form = form if opcode == LOAD else NORMAL
        eighths = self.registers(width)
        fields = self.fields(eighths)
        vd = self.group(eighths, fields, opcode == LOAD and not unmasked)
        return memory_word(opcode, fields, UNIT, unmasked, form, BASE, width, vd)

    def round(self):
        """Perhaps a setting and a first element; then a base, a stride, and a load or a store."""
        rng = self.rng
        if rng.random() < 0.7:
            self.configure()
        self.words += load(BASE, self.base() & MOST) + load(STRIDE, self.stride())
        if rng.random() < 0.3:
            self.words += load(FIRST, rng.randrange(max(1, min(self.vl + 2, self.vlen)))) + [set_first(FIRST)]
        self.words.append(self.any_word())


def digits_of(output):
    """The bytes of an output, which are no text, as one line."""
    return [output.hex()]


def compared(job):
    """How the model ended the program of a seed, and in what the runs differ, if they do."""
    cape, model, folder, seed = job
    program = Program(seed)
    path = os.path.join(folder, f"image{os.getpid()}")
    with open(path, "wb") as file:
        file.write(image(program.words, program.data))
    theirs = told_by(model, path, program.options, {"CAPE_REF_LEVEL": "5", "CAPE_REF_FAST": "1"}, digits_of)
    ours = told_by(cape, path, program.options, {}, digits_of)
    report = next((line for line in theirs if line.startswith("cape: ")), "cape: none")
    end = "exited" if report.startswith("cape: exited") else " ".join(report.split()[1:3])
    return seed, end, " ".join(program.options), None if ours == theirs else first_difference(ours, theirs)


def compare(cape, model, folder, first, last):
    ends = collections.Counter()
    different = []
    with multiprocessing.Pool(2) as pool:
        jobs = ((cape, model, folder, seed) for seed in range(first, last + 1))
        for seed, end, options, difference in pool.imap(compared, jobs):
            ends[end] += 1
            if difference is not None:
                different.append(f"differs: seed {seed} with {options}: {difference}")
    for line in different[:TOLD]:
        print(line)
    told = ", ".join(f"{count} {end}" for end, count in sorted(ends.items()))
    print(f"{last + 1 - first - len(different)} the same, {len(different)} different; {told}")
    return 0 if not different else 1


def main():
    if sys.argv[1] == "image":
        program = Program(int(sys.argv[2]))
        with open(sys.argv[3], "wb") as file:
            file.write(image(program.words, program.data))
        print(" ".join(program.options))
        return 0
    cape, model, folder, first, last = sys.argv[2:]
    return compare(cape, model, folder, int(first), int(last))


if __name__ == "__main__":
    sys.exit(main())
