"""Compares the whole programs of vector instructions that crates/plan_listing tells with the executable model's.

    compare_plans.py ask                        writes the lines that plan_listing is asked
    compare_plans.py compare MODEL FOLDER TOLD  compares its answers with the last steps of guests of one instruction each
"""

import os
import random
import subprocess
import sys

from guest import SETTINGS, image, load

# How many questions each operation in each form has, how many rounding modes these have in turn, and the seed of the numbers
# that they are drawn by.
QUESTIONS = 16
MODES = 4
SEED = 16
# No longer program is compared, and none of more registers than one is asked for where one register takes so long.
MOST_OPERATIONS = 60000
# The f3 of the forms of OPI and of OPM.
OPI_FORMS = [0, 4, 3]
OPM_FORMS = [2, 6]
# The funct6 of the instructions whose vs1 names the operation, and the fields that do.
UNARY = {16: [0, 16, 17], 18: [4, 5, 6, 7, 4, 5, 6, 7], 20: [1, 2, 3, 16, 17]}
# Few of the words whose vs2 is twice as wide are legal, so so many times as many are asked for: vnsrl, vnsra, vnclipu, vnclip.
NARROWING = range(44, 48)
MORE = 4
# Products and quotients take long programs, so their groups have one register, but for one question of so many.
LONG = set(range(32, 64))
ONE_IN = 8
# Registers of 32 to 1,024 bits.
LENGTHS = [32, 64, 128, 256, 1024]
SCALAR_REGISTER = 6
LENGTH_REGISTER, START_REGISTER, ROUNDING_REGISTER = 5, 7, 8
VSTART, VXRM = 0x008, 0x00A


def operations_of(funct6, form):
    """The fields vs1 that name an operation, or one of no number where the field names a register."""
    return UNARY.get(funct6, [None]) if form == OPM_FORMS[0] else [None]


def questions_of(funct6, form):
    more = MORE if form in OPI_FORMS and funct6 in NARROWING else 1
    return QUESTIONS * more * len(operations_of(funct6, form))


def word_of(draw, funct6, form):
    def register():
        return draw.choice([draw.randrange(0, 32, 8), draw.randrange(0, 32, 4), draw.randrange(32)])

    vd, vs2, vs1 = register(), register(), register()
    if form in (3, 4, 6):
        vs1 = SCALAR_REGISTER if form != 3 else draw.randrange(32)
    vs1 = draw.choice(operations_of(funct6, form)) or vs1
    return funct6 << 26 | draw.randrange(2) << 25 | vs2 << 20 | vs1 << 15 | form << 12 | vd << 7 | 0x57


def setting_of(draw, funct6, form):
    """The bits of a vector type. A long program has one register at most, but for a few."""
    settings = SETTINGS
    if form in OPM_FORMS and funct6 in LONG and draw.randrange(ONE_IN):
        settings = [setting for setting in SETTINGS if setting % 8 in (0, 5, 6, 7)]
    return draw.choice(settings) | draw.randrange(4) << 6


def questions():
    """A word, a vector type, a length, a first element, the bits of a register, a rounding mode, a policy and a scalar."""
    draw = random.Random(SEED)
    for forms in (OPI_FORMS, OPM_FORMS):
        for form in forms:
            for funct6 in range(64):
                for number in range(questions_of(funct6, form)):
                    vtype = setting_of(draw, funct6, form)
                    vlen = draw.choice(LENGTHS)
                    most = most_elements(vtype, vlen)
                    vl = draw.choice([most, draw.randrange(most + 1)])
                    vstart = draw.choice([0, 0, 0, draw.randrange(vl + 1)]) % vlen
                    policy = draw.choice(["keep", "ones"])
                    vxrm = number % MODES
                    yield word_of(draw, funct6, form), vtype, vl, vstart, vlen, vxrm, policy, draw.getrandbits(32)


def most_elements(vtype, vlen):
    eighths = {5: 1, 6: 2, 7: 4}.get(vtype % 8, 8 << vtype % 8)
    return eighths * vlen // (64 << (vtype >> 3) % 8)


def ask():
    for word, vtype, vl, vstart, vlen, vxrm, policy, scalar in questions():
        print(f"{word:08x} {vtype:x} {vl} {vstart} {vlen} {vxrm} {policy} {scalar:x}")


def set_csr(csr, register):
    return csr << 20 | register << 15 | 1 << 12 | 0x73


def guest(question):
    word, vtype, vl, vstart, _, vxrm, _, scalar = question
    before = [
        *load(SCALAR_REGISTER, scalar),
        *load(LENGTH_REGISTER, vl),
        vtype << 20 | LENGTH_REGISTER << 15 | 7 << 12 | 1 << 7 | 0x57,
        *load(START_REGISTER, vstart),
        set_csr(VSTART, START_REGISTER),
        *load(ROUNDING_REGISTER, vxrm),
        set_csr(VXRM, ROUNDING_REGISTER),
    ]
    return [*before, word, 0x6F]


def model_answer(model, folder, question, length):
    """The program of the last instruction, or how the guest ended. One operation more than `length` is asked for."""
    path = os.path.join(folder, "image")
    words = guest(question)
    with open(path, "wb") as file:
        file.write(image(words))
    session = f"step {len(words) - 1}\nmicro\n" + "".join(f"micro {k}\n" for k in range(length + 1))
    command = [model, "debug", path, "--vlen", str(question[4]), "--agnostic", question[6]]
    lines = subprocess.run(command, input=session.encode(), capture_output=True).stdout.decode().splitlines()
    if not lines[0].startswith("at "):
        return lines[0].split(" at ")[0]
    return [line.split(maxsplit=2)[2] for line in lines[2:] if line.startswith("micro ")], lines[1]


def answers(path):
    """The answers of plan_listing: a word, or the operations of a program."""
    with open(path) as file:
        lines = iter(file.read().splitlines())
    for line in lines:
        if line.startswith("plan "):
            yield [next(lines) for _ in range(int(line.split()[1]))]
        else:
            yield line


def compare(model, folder, told_path):
    counts = {"programs": 0, "illegal": 0, "no plan": 0, "none": 0, "too long": 0}
    different = []
    for question, told in zip(questions(), answers(told_path), strict=True):
        if isinstance(told, str):
            counts[told] += 1
            if told in ("illegal", "none") and model_answer(model, folder, question, 0) != "cape: trap 2":
                different.append((question, told))
        elif len(told) > MOST_OPERATIONS:
            counts["too long"] += 1
        else:
            counts["programs"] += 1
            theirs = model_answer(model, folder, question, len(told))
            if theirs[0] != told:
                different.append((question, f"{len(told)} operations, and the model: {theirs[1]}"))
    for question, what in different:
        print(f"differs: {question[0]:08x} {question[1:]}: {what}")
    print(f"programs: {', '.join(f'{count} {name}' for name, count in counts.items())}, {len(different)} different")
    sys.exit(1 if different else 0)


if __name__ == "__main__":
    if sys.argv[1] == "ask":
        ask()
    else:
        compare(*sys.argv[2:5])
