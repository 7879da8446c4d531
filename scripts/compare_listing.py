"""Makes words for crates/library_probe to list, and asks the executable model about them.

    compare_listing.py make COUNT SEED                 writes lines `text WORD`
    compare_listing.py ask MODEL FOLDER CASES ANSWERS  compares the model's listings with those of library_probe
"""

import os
import random
import subprocess
import sys

from compare_words import any_word, arithmetic, configuration, memory

# The opcodes of words of 32 bits (bits 6:2), those of vectors among them.
OPCODES = range(32)
VECTOR, LOAD, STORE = 0x57, 0x07, 0x27
# What a unit stride moves (bits 24:20): elements, whole registers, a mask, up to the first fault; and one that has no row.
MOVED = [0, 8, 11, 16, 1]
# The lines of a source that the model assembles at once.
LINES = 50000


def with_registers(rng, word):
    """The word with registers in bits 24:7 where it has none yet, drawn at random."""
    return word | rng.getrandbits(5) << 20 | rng.getrandbits(5) << 15 | rng.getrandbits(5) << 7


def scalar_rows(rng):
    """Each opcode, funct3 and funct7; and the words whose registers are fixed, or choose the row."""
    for opcode in OPCODES:
        for funct3 in range(8):
            for funct7 in range(128):
                yield with_registers(rng, funct7 << 25 | funct3 << 12 | opcode << 2 | 3)
    yield from [0x00000073, 0x00100073, 0x00200073, 0x000000F3, 0x0000000F, 0x0FF0000F, 0x8330000F, 0x0000100F]


def arithmetic_rows(rng):
    """Each funct6, mask bit and funct3, and there each vs1, which names an operation in some rows, with any vs2 and with 0."""
    for funct6 in range(64):
        for vm in range(2):
            for funct3 in range(8):
                for vs1 in range(32):
                    word = funct6 << 26 | vm << 25 | vs1 << 15 | funct3 << 12 | VECTOR
                    yield word | rng.getrandbits(5) << 20 | rng.getrandbits(5) << 7
                    yield word | rng.getrandbits(5) << 7


def memory_rows(rng):
    """Each number of fields, mew, mode, mask bit, width and opcode, with each way of a unit stride."""
    for high in range(128):
        for width in range(8):
            for moved in MOVED:
                for opcode in (LOAD, STORE):
                    yield high << 25 | moved << 20 | rng.getrandbits(5) << 15 | width << 12 | rng.getrandbits(5) << 7 | opcode


def scalar(rng):
    return rng.getrandbits(30) << 2 | 3


def of_any_bits(rng):
    return rng.getrandbits(32)


def make(count, seed):
    rng = random.Random(seed)
    words = [*scalar_rows(rng), *arithmetic_rows(rng), *memory_rows(rng)]
    kinds = [arithmetic, memory, configuration, any_word, scalar, of_any_bits]
    words += [rng.choice(kinds)(rng) for _ in range(count)]
    for word in words:
        print(f"text {word:08x}")


def listings(model, folder, words):
    """The model's listing of each word: it assembles a source of these words, and lists that."""
    path = os.path.join(folder, "source")
    listed = []
    for at in range(0, len(words), LINES):
        with open(path, "w") as file:
            file.writelines(f".word 0x{word}\n" for word in words[at:at + LINES])
        run = subprocess.run([model, "asm", path, "--list"], capture_output=True, text=True)
        if run.returncode != 0:
            sys.exit(f"the model ended with {run.returncode}: {run.stderr}")
        listed += run.stdout.splitlines()
    return listed


def ask(model, folder, cases_path, answers_path):
    with open(cases_path) as cases, open(answers_path) as answers:
        words = [case.split()[1] for case in cases]
        told = answers.read().splitlines()
    listed = listings(model, folder, words)
    if not len(words) == len(told) == len(listed):
        sys.exit(f"{len(words)} words, but {len(told)} answers, and {len(listed)} of the model")
    wrong = [(word, ours, theirs) for word, ours, theirs in zip(words, told, listed) if ours != theirs]
    for word, ours, theirs in wrong[:20]:
        print(f"differs: {word}: {ours}, and the model: {theirs}")
    names = {line.split()[0] for line in listed}
    print(f"{len(words)} words, {len(names)} mnemonics; {len(wrong)} different")
    sys.exit(1 if wrong else 0)


if __name__ == "__main__":
    if sys.argv[1] == "make":
        make(int(sys.argv[2]), int(sys.argv[3]))
    else:
        ask(*sys.argv[2:6])
