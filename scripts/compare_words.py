"""Makes cases of vector words for crates/library_probe, and asks the executable model about them.

    compare_words.py make COUNT SEED          writes lines `word WORD VTYPE VSTART VLEN`
    compare_words.py ask MODEL CASES ANSWERS  compares the model's answers with those of library_probe
"""

import collections
import multiprocessing
import os
import random
import subprocess
import sys
import tempfile

from guest import CODE, SETTINGS, image, load

# The funct6 of the OPI and OPM words that have rows (vector specification 1.0, section 19).
OPI = [0, 2, 3, 4, 5, 6, 7, 9, 10, 11, 12, 14, 15, 16, 17, 18, 19, *range(23, 36), 37, *range(39, 50)]
OPM = [*range(12), 14, 15, 16, 18, 20, *range(23, 40), 41, 43, 45, *range(47, 57), *range(58, 64)]
# What stands for vs1 in the words whose vs1 names an operation, by funct6.
UNARY = {16: [0, 16, 17], 18: [2, 3, 4, 5, 6, 7], 20: [1, 2, 3, 16, 17]}
VLENS = [1024] * 6 + [32, 64, 128, 256, 512, 4096, 65536]
VILL = 0x80000000


def near(rng, register):
    """A register that is likely to lie close to another one."""
    kind = rng.random()
    if kind < 0.2:
        return register
    if kind < 0.75:
        return (register + rng.choice([-8, -4, -3, -2, -1, 1, 2, 3, 4, 8])) % 32
    return rng.randrange(0, 32, rng.choice([1, 2, 4, 8]))


def registers(rng):
    first = 0 if rng.random() < 0.1 else rng.randrange(0, 32, rng.choice([1, 2, 4, 8]))
    return first, near(rng, first), near(rng, first)


def arithmetic(rng):
    vd, vs2, vs1 = registers(rng)
    vm = rng.getrandbits(1)
    f3 = rng.choice([0, 0, 0, 3, 3, 4, 2, 2, 2, 2, 6, 6]) if rng.random() < 0.97 else rng.choice([1, 5])
    multiplies = f3 in (2, 6)
    funct6 = rng.choice(OPM if multiplies else OPI) if rng.random() < 0.95 else rng.getrandbits(6)
    if rng.random() < 0.9:
        if f3 == 2 and funct6 in UNARY:
            vs1 = rng.choice(UNARY[funct6])
        if (f3 == 6 and funct6 == 16) or (not multiplies and funct6 == 23 and vm) or (f3 == 2 and funct6 == 20 and vs1 == 17):
            vs2 = 0
        if f3 == 3 and funct6 == 39:
            vs1 = rng.choice([0, 1, 3, 7])
            vm = 1
        if not multiplies and funct6 in (16, 18):
            vm = 0
    return funct6 << 26 | vm << 25 | vs2 << 20 | vs1 << 15 | f3 << 12 | vd << 7 | 0x57


def memory(rng):
    vd, vs2, rs1 = registers(rng)
    vm = rng.getrandbits(1)
    nf = rng.choice([0, 0, 0, rng.getrandbits(3)])
    mew = int(rng.random() < 0.02)
    mop = rng.getrandbits(2)
    width = rng.choice([0, 5, 6]) if rng.random() < 0.97 else rng.getrandbits(3)
    if mop == 0 and rng.random() < 0.95:
        vs2 = rng.choice([0, 0, 8, 8, 11, 16])
        if vs2 == 8:
            nf = rng.choice([0, 1, 3, 7, rng.getrandbits(3)])
            vm = int(rng.random() < 0.95)
        if vs2 == 11:
            nf, vm, width = (0, 1, 0) if rng.random() < 0.9 else (nf, vm, width)
    opcode = rng.choice([0x07, 0x27])
    if opcode == 0x27 and mop == 0 and vs2 == 8 and rng.random() < 0.9:
        width = 0
    return nf << 29 | mew << 28 | mop << 26 | vm << 25 | vs2 << 20 | rs1 << 15 | width << 12 | vd << 7 | opcode


def any_word(rng):
    return rng.getrandbits(25) << 7 | rng.choice([0x57, 0x07, 0x27])


def configuration(rng):
    return rng.choice([0, 0xC0000000, 0x80000000]) | rng.getrandbits(24) << 7 | 0x7057


def vector_type(rng):
    kind = rng.random()
    if kind < 0.9:
        return rng.choice(SETTINGS) | rng.getrandbits(2) << 6
    if kind < 0.95:
        return VILL
    return rng.choice([rng.getrandbits(8), rng.getrandbits(11), rng.getrandbits(32)])


def make(count, seed):
    rng = random.Random(seed)
    kinds = [arithmetic] * 62 + [memory] * 28 + [any_word] * 8 + [configuration] * 2
    for _ in range(count):
        word = rng.choice(kinds)(rng)
        vlen = rng.choice(VLENS)
        vstart = 0 if rng.random() < 0.6 else rng.randrange(min(vlen, 64))
        print(f"word {word:08x} {vector_type(rng):08x} {vstart} {vlen}")


# vsetvl x0, x6, x5; csrrw x0, vstart, x7
SET_VECTOR_TYPE = 0x80537057
SET_FIRST = 0x00839073
# How many instructions stand before the word.
BEFORE = 8


def image_of(word, vtype, vstart):
    """An image that sets a vector type and a first element, and goes on with the word."""
    before = load(5, vtype) + load(6, word >> 7 & 31) + load(7, vstart) + [SET_VECTOR_TYPE, SET_FIRST]
    return image([*before, word, 0x6F])


def told_by(model, folder, case):
    """What the model tells of a case, in the form of library_probe, and the name in its listing: by the listing of the word it
    has a row, and by its trap it is illegal."""
    word, vtype, vstart, vlen = int(case[1], 16), int(case[2], 16), int(case[3]), case[4]
    path = os.path.join(folder, str(os.getpid()))
    with open(path, "wb") as file:
        file.write(image_of(word, vtype, vstart))
    session = f"step {BEFORE}\nstep\n".encode()
    run = subprocess.run([model, "debug", path, "--vlen", vlen], input=session, capture_output=True, env={"CAPE_REF_FAST": "1"})
    lines = run.stdout.decode().split("\n")
    pc = f"{CODE + 4 * BEFORE:08x}"
    at = f"at {pc} {BEFORE} "
    if run.returncode != 0 or len(lines) != 3 or not lines[0].startswith(at):
        return f"no answer: {run.returncode} {run.stdout!r} {run.stderr!r}", "?"
    illegal = lines[1] == f"cape: trap 2 at {pc} value {word:08x} after {BEFORE}"
    name = lines[0][len(at):].split()[0]
    if name == ".word":
        return "none" if illegal else "carried out, but listed as no word", name
    return f"{word:08x} {'illegal' if illegal else 'legal'}", name


def differences(job):
    model, folder, cases = job
    counts = collections.Counter()
    names = set()
    wrong = []
    for case, answer in cases:
        told, name = told_by(model, folder, case)
        counts[told.split()[-1]] += 1
        names.add(name)
        if told != answer:
            wrong.append(f"{' '.join(case)}: {answer}, and the model: {told}")
    return counts, names, wrong


def ask(model, cases_path, answers_path):
    with open(cases_path) as cases, open(answers_path) as answers:
        asked = [case.split() for case in cases]
        told = [answer.rstrip("\n") for answer in answers]
    if len(asked) != len(told):
        sys.exit(f"{len(asked)} cases, but {len(told)} answers")
    pairs = list(zip(asked, told))
    counts = collections.Counter()
    names = set()
    wrong = []
    with tempfile.TemporaryDirectory() as folder, multiprocessing.Pool(2) as pool:
        jobs = [(model, folder, pairs[at:at + 500]) for at in range(0, len(pairs), 500)]
        for part, some_names, lines in pool.imap(differences, jobs):
            counts += part
            names |= some_names
            wrong += lines
    for line in wrong[:20]:
        print(f"differs: {line}")
    print(f"{len(pairs)} words, {len(names - {'.word'})} names: {counts['legal']} legal, {counts['illegal']} illegal, {counts['none']} of no row; {len(wrong)} different")
    sys.exit(1 if wrong else 0)


if __name__ == "__main__":
    if sys.argv[1] == "make":
        make(int(sys.argv[2]), int(sys.argv[3]))
    else:
        ask(*sys.argv[2:5])
