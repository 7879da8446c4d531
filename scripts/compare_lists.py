"""Compares the lists of kinds that crates/library_probe tells with the executable model's.

    compare_lists.py ask                           writes the lines that library_probe is asked
    compare_lists.py hashes TOLD HASHES            compares lengths and hashes with a list of them
    compare_lists.py guests MODEL FOLDER TOLD      compares lists with those of one instruction each, some with equal operands
    compare_lists.py ask_fixed                     writes the lines that plan_listing is asked of the kinds in fixed point
    compare_lists.py fixed TOLD HASHES             compares the lists in its programs with the hashes, in each rounding mode
"""

import os
import re
import subprocess
import sys

from guest import image, load

BITWISE = ["and", "or", "xor", "move", "merge", "nand", "nor", "xnor", "andn", "orn"]
SUMS = ["add", "sub", "adc", "sbc"]
TRUTHS = ["madc", "madc_in", "msbc", "msbc_in", "eq", "ne", "ltu", "lt", "leu", "le", "gtu", "gt"]
CHOICES = ["minu", "min", "maxu", "max"]
SHIFTS = ["sll", "srl", "sra"]
# Shifts without a commit, and the shift that each is the list of before its commit.
RAW = {"srl_raw": "srl", "sra_raw": "sra"}
COMMIT_LENGTH = 4
# Extensions by the sign, and the bits of what is extended.
EXTENSIONS = {"sext_8": 8, "sext_16": 16}
PRODUCTS = ["mul", "mulhu", "mulhsu", "mulh"]
# Products with an addend, which is the register of the result; the hashes are of lists with another one.
ADDED = ["macc", "nmsac"]
HASHED_ADDEND = 4
DIVISIONS = ["divu", "remu", "div", "rem"]
KINDS = BITWISE + SUMS + TRUTHS + CHOICES + SHIFTS + list(RAW) + list(EXTENSIONS) + PRODUCTS + ADDED + DIVISIONS
WIDTHS = [8, 16, 32]
# The rows of the operands: two registers, one register twice, and the row of the scalar with a register and the other way
# round. The result goes to another register.
SCALAR_ROW = 34
APART, ALIKE, SCALAR, SCALAR_FIRST = (2, 3), (2, 2), (2, SCALAR_ROW), (SCALAR_ROW, 2)
ROWS = [APART, ALIKE, SCALAR, SCALAR_FIRST]
TO = 5
# FNV-1a of 64 bits: the first value, the factor, and how many values there are.
BASIS = 0xCBF29CE484222325
PRIME = 0x100000001B3
HASHES = 1 << 64

# The funct6 and the vm of the instruction of each kind on elements. Merge and move have one funct6.
ON_ELEMENTS = {
    "and": (9, 1), "or": (10, 1), "xor": (11, 1), "move": (23, 1), "merge": (23, 0), "add": (0, 1), "sub": (2, 1),
    "adc": (16, 0), "sbc": (18, 0), "madc": (17, 1), "madc_in": (17, 0), "msbc": (19, 1), "msbc_in": (19, 0), "eq": (24, 1),
    "ne": (25, 1), "ltu": (26, 1), "lt": (27, 1), "leu": (28, 1), "le": (29, 1), "gtu": (30, 1), "gt": (31, 1), "minu": (4, 1),
    "min": (5, 1), "maxu": (6, 1), "max": (7, 1), "sll": (37, 1), "srl": (40, 1), "sra": (41, 1),
}
# The funct6 of the narrowing shifts, whose lists have a shift without a commit at twice their width.
NARROWING = {"srl_raw": 44, "sra_raw": 45}
# The funct6 of the extensions, and the field that says to how many times as many bits.
EXTENDING = 18
TIMES = {2: 7, 4: 5}
# An extension works in the row of results.
RESULT_ROW = 36
# The funct6 of the kinds that only words on masks have.
ON_MASKS = {"andn": 24, "orn": 28, "nand": 29, "nor": 30, "xnor": 31}
# That of the difference whose first operand is the scalar.
REVERSED = 3
# The funct6 of the products and the divisions.
MULTIPLYING = {
    "mul": 37, "mulhu": 36, "mulhsu": 38, "mulh": 39, "macc": 45, "nmsac": 47, "divu": 32, "div": 33, "remu": 34, "rem": 35,
}
# The f3 of the forms with a register and with a scalar register, and of the words on masks; and of the first two where they
# multiply or divide.
V, X, M = 0, 4, 2
MULTIPLYING_V, MULTIPLYING_X = 2, 6
# The scalar register of the second form.
SCALAR_REGISTER = 6
# No list of an instruction here is longer: of a kind that multiplies or divides, and of another.
MOST_OPERATIONS = 1000
MOST_MULTIPLYING = 23000
# What the frame of an instruction has before the list of its kind, and behind it.
BEFORE = re.compile(rf"window .*|search \w+ 0|update \w+ {SCALAR_ROW} [01]")
BEFORE_EXTENSION = re.compile(r"window .*|spread .*")
AFTER = re.compile(r"packmask .*")
WINDOW = re.compile(r"window .*")
# What follows a shift without a commit, and what follows an extension: the commit of its row.
NARROWED = re.compile(r"narrow .*")
COMMITTED = re.compile(rf"search \w+ 32=1 {RESULT_ROW}=[01] 0|update \w+ {TO} [01]")
# The kinds in fixed point: the name and the sub of the hash, and the funct6 and the f3 of the word with two registers. The
# lists of the first ones depend on the rounding mode, those of the others do not.
ROUNDING = {
    ("ssrl", 0): (42, 0), ("ssra", 0): (43, 0), ("smul", 0): (39, 0), ("avgu", 0): (8, 2), ("avg", 0): (9, 2),
    ("avgu", 1): (10, 2), ("avg", 1): (11, 2),
}
CLIPPING = {("saddu", 0): (32, 0), ("sadd", 0): (33, 0), ("ssubu", 0): (34, 0), ("ssub", 0): (35, 0)}
FIXED = ROUNDING | CLIPPING
MODES = range(4)
# A vector type with one register, whose agnostic elements stay, and the bits of a register.
FIXED_TYPE = 0x00
FIXED_VLEN = 128
# vsetivli with a length of 2, into x1
SET_TYPE = 0xC00170D7


def question(kind, width, rows):
    return f"kind {kind} {width} {rows[0]} {rows[1]} {TO}"


def ask():
    for kind in KINDS:
        for width in WIDTHS:
            for rows in ROWS:
                print(question(kind, width, rows))


def told_lists(path):
    """The lists by their questions: each behind a line of its kind, its width and its length."""
    with open(path) as file:
        lines = iter(file.read().splitlines())
    lists = {}
    for kind in KINDS:
        for width in WIDTHS:
            for rows in ROWS:
                front = f"kind {kind} width {width} operations "
                header = next(lines, "")
                if not header.startswith(front):
                    sys.exit(f"no list of {question(kind, width, rows)}: {header!r}")
                lists[kind, width, rows] = [next(lines, "") for _ in range(int(header[len(front):]))]
    if next(lines, None) is not None:
        sys.exit("more is told than was asked")
    return lists


def hash_of(lines):
    value = BASIS
    for byte in "".join(f"{line}\n" for line in lines).encode():
        value = (value ^ byte) * PRIME % HASHES
    return f"{value:016x}"


def known_hashes(path, mode=0, sub=0):
    """The length and the hash of each list that is known, by the name of its kind in lower case and its width."""
    known = {}
    with open(path) as file:
        for line in file:
            words = line.split()
            if words[2:6] == ["prof1", f"mode{mode}", f"sub{sub}", "ops"]:
                known[words[0].lower(), int(words[1][1:])] = int(words[6]), words[-1]
    return known


def finish(what, same, different):
    for line in different:
        print(f"differs: {line}")
    print(f"{what}: {same} the same, {len(different)} different")
    sys.exit(1 if different else 0)


def with_addend(lines):
    """The list with the addend that the hashes have. The addend stands in searches alone, the result in updates alone."""
    return [line.replace(f" {TO}=", f" {HASHED_ADDEND}=") for line in lines]


def compare_hashes(told_path, hashes_path):
    known = known_hashes(hashes_path)
    different = []
    same = 0
    for (kind, width, rows), lines in told_lists(told_path).items():
        if rows != APART or kind in RAW or kind in EXTENSIONS:
            continue
        ours = len(lines), hash_of(with_addend(lines) if kind in ADDED else lines)
        theirs = known.get((kind.replace("_", ""), width))
        if ours == theirs:
            same += 1
        else:
            different.append(f"{question(kind, width, rows)}: {ours}, and the model: {theirs}")
    finish("hashes of lists", same, different)


def fixed_questions():
    """A kind in fixed point with its sub, a width and a rounding mode, in the order of the lines."""
    return [(kind, width, mode) for kind in FIXED for width in WIDTHS for mode in MODES]


def ask_fixed():
    for kind, width, mode in fixed_questions():
        funct6, f3 = FIXED[kind]
        word = funct6 << 26 | 1 << 25 | APART[0] << 20 | APART[1] << 15 | f3 << 12 | TO << 7 | 0x57
        vtype = FIXED_TYPE | (width.bit_length() - 4) << 3
        print(f"{word:08x} {vtype:x} {FIXED_VLEN // width} 0 {FIXED_VLEN} {mode} keep 0")


def told_programs(path):
    """The operations of each program that is told, without the windows, which are all that the frame adds to two registers."""
    with open(path) as file:
        lines = iter(file.read().splitlines())
    for header in lines:
        if not header.startswith("plan "):
            sys.exit(f"no program: {header!r}")
        program = [next(lines, "") for _ in range(int(header.split()[1]))]
        yield [line for line in program if not WINDOW.fullmatch(line)]


def compare_fixed(told_path, hashes_path):
    different = []
    asked = fixed_questions()
    for ((name, sub), width, mode), lines in zip(asked, told_programs(told_path), strict=True):
        known = known_hashes(hashes_path, mode if (name, sub) in ROUNDING else 0, sub)
        ours = len(lines), hash_of(lines)
        theirs = known.get((name, width))
        if ours != theirs:
            different.append(f"{name} sub {sub} width {width} mode {mode}: {ours}, and the model: {theirs}")
    finish("hashes of lists in fixed point", len(asked) - len(different), different)


def multiplying_word(kind, a, b):
    """The word of a kind that multiplies or divides, or none where the scalar comes first."""
    if a == SCALAR_ROW:
        return None
    form = MULTIPLYING_X if b == SCALAR_ROW else MULTIPLYING_V
    return MULTIPLYING[kind] << 26 | 1 << 25 | a << 20 | (SCALAR_REGISTER if b == SCALAR_ROW else b) << 15 | form << 12 | TO << 7 | 0x57


def word_of(kind, rows):
    """The word of a kind's instruction with these operands, or none where no instruction has them so."""
    a, b = rows
    if kind in ON_MASKS:
        return None if SCALAR_ROW in rows else ON_MASKS[kind] << 26 | 1 << 25 | a << 20 | b << 15 | M << 12 | TO << 7 | 0x57
    if kind in RAW:
        return NARROWING[kind] << 26 | 1 << 25 | a << 20 | SCALAR_REGISTER << 15 | X << 12 | TO << 7 | 0x57 if rows == SCALAR else None
    if kind in MULTIPLYING:
        return multiplying_word(kind, a, b)
    funct6, unmasked = ON_ELEMENTS[kind]
    form = V
    if rows == SCALAR_FIRST:
        if kind != "sub":
            return None
        funct6, a, b = REVERSED, b, a
    if b == SCALAR_ROW:
        form, b = X, SCALAR_REGISTER
    elif kind in ("gtu", "gt"):
        return None
    if kind == "move":
        a = 0
    return funct6 << 26 | unmasked << 25 | a << 20 | b << 15 | form << 12 | TO << 7 | 0x57


def model_list(model, folder, word, width, most=MOST_OPERATIONS):
    """The operations of an instruction: those of the kind stand among those of the frame."""
    path = os.path.join(folder, "image")
    before = load(SCALAR_REGISTER, 0x5A) + [SET_TYPE | (width.bit_length() - 4) << 23]
    with open(path, "wb") as file:
        file.write(image([*before, word, 0x6F]))
    session = f"step {len(before) + 1}\n" + "".join(f"micro {k}\n" for k in range(most))
    run = subprocess.run([model, "debug", path], input=session.encode(), capture_output=True)
    lines = run.stdout.decode().splitlines()
    return [line.split(maxsplit=2)[2] for line in lines if line.startswith("micro ")]


def is_framed(part, whole, before=BEFORE, after=AFTER):
    """The list, behind windows and a splat of the scalar, and before the packing of a mask."""
    return any(
        whole[at:at + len(part)] == part
        and all(before.fullmatch(line) for line in whole[:at])
        and all(after.fullmatch(line) for line in whole[at + len(part):])
        for at in range(len(whole) - len(part) + 1)
    )


def is_narrowed(part, whole):
    """The list, behind windows and a splat of the scalar, and before a narrowing of what it leaves."""
    ends = [at for at, line in enumerate(whole) if NARROWED.fullmatch(line)]
    return bool(ends) and is_framed(part, whole[:ends[0]])


def extended_list(model, folder, kind, width):
    """The operations of an extension from the bits of the kind, or none where no instruction has them."""
    times = width // EXTENSIONS[kind]
    if times not in TIMES:
        return None
    word = EXTENDING << 26 | 1 << 25 | APART[0] << 20 | TIMES[times] << 15 | M << 12 | TO << 7 | 0x57
    return model_list(model, folder, word, width)


def in_result_row(lines):
    """The operations of an extension of a register, as those of the row of results."""
    register = APART[0]
    renamed = (line.replace(f" {register}=", f" {RESULT_ROW}=") for line in lines)
    return [re.sub(rf"^(update \w+) {register} ", rf"\1 {RESULT_ROW} ", line) for line in renamed]


def is_same_list(model, folder, told, question_of):
    """Whether the list of a kind, a width and rows is that of the model, or none where the model has no such list."""
    kind, width, rows = question_of
    lines = told[question_of]
    if kind in EXTENSIONS:
        theirs = extended_list(model, folder, kind, width) if rows == APART else None
        return None if theirs is None else bool(lines) and is_framed(in_result_row(lines), theirs, BEFORE_EXTENSION, COMMITTED)
    if kind in RAW and lines != told[RAW[kind], width, rows][:-COMMIT_LENGTH]:
        return False
    word = word_of(kind, rows)
    narrow = width // 2 if kind in RAW else width
    if word is None or narrow not in WIDTHS:
        return None
    theirs = model_list(model, folder, word, narrow, MOST_MULTIPLYING if kind in MULTIPLYING else MOST_OPERATIONS)
    return bool(lines) and (is_narrowed(lines, theirs) if kind in RAW else is_framed(lines, theirs))


def compare_guests(model, folder, told_path):
    told = told_lists(told_path)
    answers = {asked: is_same_list(model, folder, told, asked) for asked in told}
    different = [f"{question(*asked)} is not the list of the model" for asked, same in answers.items() if same is False]
    finish("lists of instructions", sum(same is True for same in answers.values()), different)


if __name__ == "__main__":
    if sys.argv[1] == "ask":
        ask()
    elif sys.argv[1] == "hashes":
        compare_hashes(*sys.argv[2:4])
    elif sys.argv[1] == "ask_fixed":
        ask_fixed()
    elif sys.argv[1] == "fixed":
        compare_fixed(*sys.argv[2:4])
    else:
        compare_guests(*sys.argv[2:5])
