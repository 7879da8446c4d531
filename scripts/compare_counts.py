"""Compares what random programs of vector instructions take, and the work rows and tags that they leave, with the executable
model: the output of `run --counts --work`. The programs are those of compare_vectors.

    compare_counts.py CAPE MODEL FOLDER FIRST LAST
"""

import multiprocessing
import os
import random
import sys

from compare_vectors import TOLD, WIDE, Program, first_difference, told_by
from guest import image

# The level of the model's grammar that has the options.
LEVEL = {"CAPE_REF_LEVEL": "13"}


def options_of(seed, program):
    """The options of the program with those that show counts and work rows, in any order."""
    rng = random.Random(seed)
    asked = list(program.options)
    if rng.random() < 0.5:
        asked.remove("--state")
    for option in ("--counts", "--work"):
        at = rng.choice([place for place in range(len(asked) + 1) if place == 0 or asked[place - 1] not in ("--vlen", "--agnostic")])
        asked.insert(at, option)
    return asked


def compared(job):
    """In what the reports of the program of a seed differ, if they do; None for the longest registers."""
    cape, model, folder, seed = job
    program = Program(seed)
    if program.vlen == WIDE:
        return None
    path = os.path.join(folder, f"image{os.getpid()}")
    with open(path, "wb") as file:
        file.write(image(program.words))
    asked = options_of(seed, program)
    ours = told_by(cape, path, asked, {})
    theirs = told_by(model, path, asked, LEVEL)
    return "" if ours == theirs else f"differs: seed {seed} with {' '.join(asked)}: {first_difference(ours, theirs)}"


def main(cape, model, folder, first, last):
    jobs = [(cape, model, folder, seed) for seed in range(int(first), int(last) + 1)]
    with multiprocessing.Pool(2) as pool:
        found = [difference for difference in pool.imap(compared, jobs) if difference is not None]
    different = [difference for difference in found if difference]
    for difference in different[:TOLD]:
        print(difference)
    print(f"{len(found) - len(different)} reports the same, {len(different)} different")
    return 1 if different else 0


if __name__ == "__main__":
    sys.exit(main(*sys.argv[1:]))
