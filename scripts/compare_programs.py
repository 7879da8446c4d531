"""Makes random programs of instructions of all kinds, and compares their outputs and last states with the executable model's.

    compare_programs.py compare CAPE MODEL FOLDER FIRST LAST [whole]   compares the programs of the seeds
    compare_programs.py image SEED FILE [whole]                        writes one program, and shows its options

With the word whole the programs have instructions that read whole groups or masks alone; without it, one in three is of these,
one in three a load or a store, and the others compute element by element.
"""

import collections
import multiprocessing
import os
import sys

import compare_memory
import compare_vectors
from compare_vectors import TOLD, first_difference, set_first, told_by
from guest import load
from whole_words import Words

NARROW = [32, 64, 128, 256, 1024]


class Memory(compare_memory.Program):
    """Loads and stores in a program of another kind, which has the words."""

    def __init__(self, program):
        self.program = program
        self.rng = program.rng
        self.vlen = program.vlen
        self.words = program.words

    def add_access(self):
        """A base, a stride and a load or a store."""
        self.vtype, self.vl = self.program.vtype, self.program.vl
        self.words += load(compare_memory.BASE, self.base() & compare_memory.MOST) + load(compare_memory.STRIDE, self.stride())
        self.words.append(self.any_word())


class Program(compare_vectors.Program):
    """The words of a program, its data and its options."""

    def __init__(self, seed, whole):
        self.whole = whole
        self.data = []
        super().__init__(seed)

    def fill(self):
        """Draws the data, and from it all registers."""
        self.vlen = self.rng.choice(NARROW) if self.vlen > NARROW[-1] else self.vlen
        self.options = [str(self.vlen) if word.isdigit() else word for word in self.options]
        self.data = [self.rng.randbytes(compare_memory.DATA_SIZE), self.rng.randbytes(compare_memory.PAGE), self.rng.randbytes(compare_memory.PAGE)]
        self.memory = Memory(self)
        self.memory.fill()
        self.vtype, self.vl = None, 0

    def add_whole(self):
        """Perhaps a setting and a first element, and a word that reads whole groups or masks."""
        rng = self.rng
        if self.vtype is None or rng.random() < 0.5:
            vtype = self.any_type()
            self.configure(vtype, self.any_length(vtype))
        word = Words(self).any_word()
        if rng.random() < 0.12:
            self.start()
        self.words.append(word)

    def round(self, fresh):
        """Some words of one kind after the other."""
        for _ in range(self.rng.randrange(1, 4)):
            way = self.rng.random()
            if self.whole or way < 0.34:
                if self.rng.random() < 0.2:
                    self.mask()
                self.add_whole()
            elif way < 0.67 and self.vtype is not None:
                self.memory.add_access()
            else:
                super().round(fresh or self.vtype is None)


def digits_of(output):
    """The bytes of an output, which are no text, as one line."""
    return [output.hex()]


def compared(job):
    """How the model ended the program of a seed, and in what the runs differ, if they do."""
    cape, model, folder, seed, whole = job
    program = Program(seed, whole)
    path = os.path.join(folder, f"image{os.getpid()}")
    with open(path, "wb") as file:
        file.write(compare_memory.image(program.words, program.data))
    theirs = told_by(model, path, program.options, {"CAPE_REF_FAST": "1"}, digits_of)
    ours = told_by(cape, path, program.options, {}, digits_of)
    report = next((line for line in theirs if line.startswith("cape: ")), "cape: none")
    end = "exited" if report.startswith("cape: exited") else " ".join(report.split()[1:3])
    return seed, end, " ".join(program.options), None if ours == theirs else first_difference(ours, theirs)


def compare(cape, model, folder, first, last, whole):
    ends = collections.Counter()
    different = 0
    jobs = ((cape, model, folder, seed, whole) for seed in range(first, last + 1))
    with multiprocessing.Pool(2) as pool:
        for seed, end, options, difference in pool.imap_unordered(compared, jobs):
            ends[end] += 1
            if difference is not None:
                different += 1
                if different <= TOLD:
                    print(f"seed {seed} ({options}): {difference}")
    print(f"{sum(ends.values())} programs ({', '.join(f'{count} {end}' for end, count in ends.most_common())}), {different} different")
    return different == 0


def main():
    task, *rest = sys.argv[1:]
    whole = rest[-1] == "whole"
    if task == "image":
        program = Program(int(rest[0]), whole)
        with open(rest[1], "wb") as file:
            file.write(compare_memory.image(program.words, program.data))
        print(" ".join(program.options))
        return
    cape, model, folder, first, last = rest[:5]
    sys.exit(0 if compare(cape, model, folder, int(first), int(last), whole) else 1)


if __name__ == "__main__":
    main()
