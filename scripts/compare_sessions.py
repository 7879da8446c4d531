"""Makes random sessions of the debugger over random and real programs, and compares them with the executable model, byte for
byte: the answers, the guest's output and the status.

    compare_sessions.py compare CAPE MODEL FOLDER CORPUS FIRST LAST   compares the sessions of the seeds
    compare_sessions.py limits CAPE MODEL FOLDER                      compares sessions at the limits
    compare_sessions.py session CORPUS SEED FOLDER                    writes one session, and shows its options
"""

import collections
import multiprocessing
import os
import random
import struct
import subprocess
import sys

from compare_vectors import WIDE_APART, Program, any_value, vector_word
from guest import CODE, SETTINGS, image, load

LONGEST = 300
TOLD = 10
# The level of the model that has sessions and no compressed code.
LEVEL = {"CAPE_REF_LEVEL": "13"}
# The most bytes of commands, of a line, and the most breaks and pages of a session.
MOST_BYTES, MOST_LINE, MOST_BREAKS, MOST_PAGES = 16777216, 255, 64, 4096
PAGE = 4096
ECALL = 0x00000073
VSETVLI = 0x00007057
# Addresses near the ends of mapped ranges: the segment, the stack, and the two ends of memory.
EDGES = [0x0000FFF0, 0x00010000, CODE, 0x00010FF8, 0x00011000, 0x01010FF8, 0x7FEFFFF8, 0x7FFFFFF4, 0x7FFFFFFB, 0x80000000, 0xFFFFFFFC, 0]
# The funct6 of instructions on elements: vadd, vsub, vand, vxor, vsll, vmseq, and vmul where the f3 is that of a product.
FUNCT6 = [0, 2, 9, 11, 37, 24]
NAMES = ["step", "cont", "break", "regs", "vregs", "vcsr", "mem", "slice", "tags", "micro", "ustep", "map", "quit"]
EXAMPLES = os.path.join(os.path.dirname(__file__), "..", "examples", "images")


def memory_word(rng):
    """A vector load or store of any of the simple forms, from x10 on."""
    store = rng.random() < 0.4
    width = rng.choice([0, 5, 6])
    form = rng.choice([0, 0, 16, 8]) if not store else rng.choice([0, 0, 8])
    return rng.randrange(2) << 25 | form << 20 | 10 << 15 | width << 12 | rng.randrange(0, 32, 4) << 7 | (0x27 if store else 0x07)


def scalar_words(rng):
    """A few scalar instructions: register arithmetic, an access near an edge, a control register, or a short way back."""
    kind = rng.randrange(5)
    rd, rs1, rs2 = rng.randrange(11, 16), rng.randrange(32), rng.randrange(32)
    if kind == 0:
        return [rng.choice([0, 1, 32]) << 25 | rs2 << 20 | rs1 << 15 | rng.randrange(8) << 12 | rd << 7 | 0x33]
    if kind == 1:
        return load(10, rng.choice(EDGES)) + [(rng.getrandbits(3) << 20) | 10 << 15 | rng.choice([0, 1, 2, 4, 5]) << 12 | rd << 7 | 0x03]
    if kind == 2:
        return load(10, rng.choice(EDGES)) + [rs2 << 20 | 10 << 15 | rng.randrange(3) << 12 | rng.randrange(8) << 7 | 0x23]
    if kind == 3:
        return [rng.choice([0x008, 0x009, 0x00A, 0x00F, 0xC20, 0xC21, 0xC22, 0x300]) << 20 | rs1 << 15 | rng.choice([1, 2, 3, 5, 6]) << 12 | rd << 7 | 0x73]
    return [rng.getrandbits(32)] if rng.random() < 0.3 else [0x00000013]


def call_words(rng):
    """A call of the environment: mostly a write or a read of some bytes near an edge."""
    number = rng.choice([63, 63, 64, 64, 64, 64, 93, 214, 80, 62, 57])
    if number == 93 and rng.random() < 0.7:
        number = 64
    where = CODE if rng.random() < 0.6 else rng.choice(EDGES)
    descriptor = 0 if number == 63 else rng.choice([1, 1, 2, 2, 3])
    return load(10, descriptor) + load(11, where) + load(12, rng.randrange(40)) + load(17, number) + [ECALL]


def any_guest(rng):
    """The words of a guest that computes, moves, calls and traps."""
    words = []
    for _ in range(rng.randrange(4, 14)):
        kind = rng.randrange(6)
        if kind == 0:
            words += call_words(rng)
        elif kind == 1:
            words += load(5, rng.randrange(70)) + [VSETVLI | (rng.choice(SETTINGS) | rng.getrandbits(2) << 6) << 20 | 5 << 15 | 6 << 7]
        elif kind == 2:
            words += load(10, rng.choice(EDGES)) + [memory_word(rng)]
        elif kind == 3:
            words += load(6, any_value(rng))
            words += [vector_word(rng.choice(FUNCT6), rng.randrange(2), rng.randrange(0, 32, 2), rng.randrange(0, 32, 2), rng.choice([0, 4, 3]), rng.randrange(0, 32, 2))]
        else:
            words += scalar_words(rng)
    return words + [0xFE000EE3 if rng.random() < 0.2 else 0x0000006F]


def number(rng, value):
    """A number as a session may write it: in decimal or hexadecimal digits of either case, with zeros before or none."""
    return rng.choice(["{}", "{}", "0x{:x}", "0x{:X}", "{:03}", "{:010}"]).format(value)


def bad_number(rng):
    return rng.choice(["", "-1", "+1", "0x", "0X10", "1.5", "12345678901", "0x123456789", "ff", "1_0", "0x1g", "4294967296", "0xffffffff", "0x100000000"])


def stops_of(path):
    """The addresses of an image where a vector instruction stands that is neither a load, nor a store, nor a setting."""
    with open(path, "rb") as file:
        image_bytes = file.read()
    first, count = struct.unpack_from("<I", image_bytes, 28)[0], struct.unpack_from("<H", image_bytes, 44)[0]
    stops = []
    for header in range(first, first + 32 * count, 32):
        kind, offset, start, _, size, _, flags, _ = struct.unpack_from("<8I", image_bytes, header)
        if kind == 1 and flags & 1:
            words = struct.unpack_from(f"<{size // 4}I", image_bytes, offset)
            stops += [start + 4 * i for i, word in enumerate(words) if word & 0x7F == 0x57 and word >> 12 & 7 != 7]
    return stops


class Session:
    """The lines of a session, by what is drawn, and by the places of an image where a stop is worth while."""

    def __init__(self, rng, stops, ends):
        self.rng = rng
        self.stops = stops
        self.ends = ends

    def address(self):
        rng = self.rng
        if self.stops and rng.random() < 0.4:
            return rng.choice(self.stops)
        if rng.random() < 0.5:
            return CODE + 4 * rng.randrange(40)
        return (rng.choice(EDGES) + rng.randrange(-8, 9)) % (1 << 32)

    def numbers_of(self, name):
        """Numbers in the ranges of a command, or near their ends."""
        rng = self.rng
        sub, row = rng.randrange(33) if rng.random() < 0.1 else rng.randrange(32), rng.choice([rng.randrange(65), 34, 35, 36])
        count = rng.choice([0, 0, 1, 2, 3, rng.randrange(12), rng.randrange(60), rng.randrange(300), rng.randrange(2000), 300000])
        steps = rng.choice([1, 1, 2, 3, 5, 10, rng.randrange(200), rng.randrange(2000)])
        return {
            "step": rng.choice([[], [], [steps]]),
            "cont": rng.choice([[], [rng.randrange(5000)]] if self.ends else [[rng.randrange(5000)]]),
            "break": [self.address()],
            "vregs": [rng.randrange(33)],
            "mem": [self.address(), rng.choice([0, 1, 4, 16, 64, 65, rng.randrange(70)])],
            "slice": [sub, row],
            "tags": [sub],
            "micro": rng.choice([[], [count]]),
            "ustep": [count, sub, row],
            "map": [self.address()],
        }.get(name, [])

    def valid_line(self):
        rng = self.rng
        name = rng.choices(NAMES, [12, 5, 6, 2, 3, 2, 4, 7, 5, 7, 14, 2, 0.3])[0]
        words = [name] + [number(rng, value) for value in self.numbers_of(name)]
        return (" " * rng.choice([1, 1, 1, 1, 2, 3])).join(words)

    def any_line(self):
        """A line: mostly a command, else one that is empty, too long, has bad numbers, or is no text at all."""
        rng = self.rng
        line = self.valid_line()
        if rng.random() < 0.8:
            return line.encode()
        return rng.choice([
            b"",
            line.encode() + b" ",
            b" " + line.encode(),
            line.replace(" ", "\t").encode(),
            line.encode() + b"\r",
            (line + " " + bad_number(rng)).encode(),
            (line.split(" ")[0] + " " + bad_number(rng)).encode(),
            line.upper().encode(),
            line[:-1].encode(),
            (line + " " + number(rng, rng.getrandbits(10))).encode(),
            line.ljust(rng.choice([254, 255, 256, 257, 300, 1100])).encode(),
            (line[:1] * rng.choice([255, 256, 2000])).encode(),
            bytes(rng.randrange(256) for _ in range(rng.randrange(1, 30))).replace(b"\n", b" "),
        ])

    def first_lines(self):
        """Half of the sessions begin by stops at some places."""
        if not self.stops or self.rng.random() < 0.5:
            return []
        return [f"break {place}".encode() for place in self.rng.sample(self.stops, min(len(self.stops), self.rng.randrange(1, 6)))] + [b"cont 5000"]

    def commands(self):
        lines = self.first_lines() + [self.any_line() for _ in range(self.rng.choice([3, 10, 30, 60, 120]))]
        return b"\n".join(lines) + (b"\n" if self.rng.random() < 0.8 else b"")


def real_programs(corpus):
    """The images that are there, with the file that each reads, or none."""
    found = [(os.path.join(EXAMPLES, name), None) for name in sorted(os.listdir(EXAMPLES))]
    manifest = os.path.join(corpus, "manifest.tsv")
    if os.path.exists(manifest):
        with open(manifest) as file:
            for row in [line.split("\t") for line in file][1:]:
                if row[1] == "rv32im_zve32x":
                    found.append((os.path.join(corpus, row[5]), None if row[6] == "-" else os.path.join(corpus, row[6])))
    return found


class Case:
    """A session: the path of its image, its options, and its commands."""

    def __init__(self, corpus, seed, folder):
        self.rng = rng = random.Random(seed)
        self.options = []
        self.path = os.path.join(folder, f"image_{seed}")
        self.made = [self.path]
        kind = seed % 4
        if kind == 0:
            self.path, given = rng.choice(real_programs(corpus))
            self.made = []
            if given is not None:
                self.options += ["--input", given]
        elif kind == 1:
            program = Program(seed * WIDE_APART + 1)
            self.write(program.words)
            self.options += [word for word in program.options if word != "--state"]
        elif kind == 2:
            self.write(any_guest(rng))
            self.any_options(folder, seed)
        else:
            self.write([*any_guest(rng)[:rng.randrange(1, 20)], *(rng.getrandbits(32) for _ in range(8))])
            self.any_options(folder, seed)
        # Programs that were drawn word by word may never end.
        self.commands = Session(rng, stops_of(self.path), ends=kind < 2).commands()

    def write(self, words):
        with open(self.path, "wb") as file:
            file.write(image(words))

    def any_options(self, folder, seed):
        options = [["--vlen", str(self.rng.choice([32, 64, 128, 256, 1024, 2048]))], ["--agnostic", self.rng.choice(["keep", "ones"])]]
        if self.rng.random() < 0.6:
            path = os.path.join(folder, f"input_{seed}")
            with open(path, "wb") as file:
                file.write(bytes(self.rng.randrange(256) for _ in range(self.rng.randrange(100))))
            self.made.append(path)
            options.append(["--input", path])
        self.rng.shuffle(options)
        for option in options[:self.rng.randrange(len(options) + 1)]:
            self.options += option

    def remove(self):
        for path in self.made:
            if os.path.exists(path):
                os.remove(path)


def ran(program, words, commands):
    done = subprocess.run([program, *words], input=commands, capture_output=True, env={**os.environ, **LEVEL}, timeout=LONGEST)
    return done.stdout, done.stderr, done.returncode


def told_difference(ours, theirs):
    for name, a, b in zip(["out", "err"], ours, theirs):
        if a != b:
            pairs = zip(a.split(b"\n"), b.split(b"\n"))
            for line, (one, other) in enumerate(pairs):
                if one != other:
                    return f"{name} line {line + 1}: {one[:100]!r}, and the model: {other[:100]!r}"
            return f"{name}: {len(a)} bytes, and the model: {len(b)}"
    return f"status {ours[2]}, and the model: {theirs[2]}"


def kinds_of(answers):
    """How many answers of each kind there are: by the first word of a line, and what was answered in place of a command."""
    lines = answers.split(b"\n")[:-1]
    return collections.Counter(" ".join(line.decode().split()[:2]) if line[:1] == b"?" else line.split()[0].decode() for line in lines)


def compared(arguments):
    """The seed; None where its session is the same, else what differs; and its answers by their kind."""
    cape, model, folder, corpus, seed = arguments
    case = Case(corpus, seed, folder)
    try:
        words = ["debug", case.path, *case.options]
        ours, theirs = ran(cape, words, case.commands), ran(model, words, case.commands)
    finally:
        case.remove()
    return seed, None if ours == theirs else told_difference(ours, theirs), kinds_of(theirs[0])


def compare(cape, model, folder, corpus, first, last):
    seeds = range(int(first), int(last) + 1)
    with multiprocessing.Pool(2) as pool:
        results = pool.map(compared, [(cape, model, folder, corpus, seed) for seed in seeds], chunksize=4)
    different = [(seed, what) for seed, what, _ in results if what is not None]
    for seed, what in different[:TOLD]:
        print(f"differs: seed {seed}: {what}")
    kinds = sum((collections.Counter(kinds) for _, _, kinds in results), collections.Counter())
    print("answers: " + ", ".join(f"{count} {kind}" for kind, count in kinds.most_common() if not is_register(kind)))
    same = sum(what is None for _, what, _ in results)
    print(f"sessions: {same} the same, {len(different)} different")
    sys.exit(1 if different else 0)


def is_register(kind):
    """Whether the first word of a line names a register."""
    return kind[:1] in ("x", "v") and kind[1:].isdigit()


def limit_cases():
    """Sessions at the limits: of bytes, with a line cut off or a `quit` before and behind; of a line; of breaks; of pages."""
    last = b"vcsr\nregs\n"
    before = b"\n" * (MOST_BYTES - len(last))
    yield before + last
    yield before + last + b"step\n"
    yield before + b"\n" + last
    yield before + last[:-1]
    yield before + b"vcsr\nquit\n"
    yield before + b"\nvcsr\nquit"
    yield before + b"\n\nvcsr\nquit"
    yield before + b"quit\nregs\nstep\n"
    yield b" " * MOST_BYTES
    yield b"x" * (MOST_BYTES + 100) + b"\nstep\n"
    breaks = "".join(f"break {4 * k}\n" for k in range(MOST_BREAKS + 2))
    yield (breaks + "break 0\nbreak 260\nbreak 8\nbreak 8\ncont 5\n").encode()
    pages = "".join(f"map {0x20000000 + PAGE * k}\n" for k in range(MOST_PAGES + 2))
    yield (pages + f"map 0x20000000\nmap 0x10000\nmem 0x20000ffe 4\nmem {0x20000000 + PAGE * MOST_PAGES - 2} 4\n").encode()
    for length in (MOST_LINE - 1, MOST_LINE, MOST_LINE + 1):
        yield b"step".ljust(length - 1) + b"1\nregs"
        yield b"step".ljust(length - 1) + b"1"


def limits(cape, model, folder):
    path = os.path.join(folder, "image")
    with open(path, "wb") as file:
        file.write(image([0x00100513, 0xFFDFF06F]))
    same = different = 0
    for number_of_case, commands in enumerate(limit_cases()):
        ours, theirs = (ran(program, ["debug", path], commands) for program in (cape, model))
        if ours == theirs:
            same += 1
        else:
            different += 1
            print(f"differs: case {number_of_case}: {told_difference(ours, theirs)}")
    print(f"limits: {same} the same, {different} different")
    sys.exit(1 if different else 0)


if __name__ == "__main__":
    if sys.argv[1] == "compare":
        compare(*sys.argv[2:])
    elif sys.argv[1] == "limits":
        limits(*sys.argv[2:])
    else:
        made = Case(sys.argv[2], int(sys.argv[3]), sys.argv[4])
        with open(os.path.join(sys.argv[4], "commands"), "wb") as commands_file:
            commands_file.write(made.commands)
        print(made.path, *made.options)
