"""Random lists of micro-operations on random slices: writes them as cases for crates/list_replay, and makes traces of what
it left, which the executable model checks by replaying them itself.

  compare_replays.py cases FIRST COUNT >CASES
  compare_replays.py check MODEL FOLDER FIRST COUNT LEFT
"""
import random
import subprocess
import sys

COLUMNS = [1, 2, 4, 8, 16, 32, 64, 128, 256, 2048]
SUBARRAYS, ROWS, REGISTERS = 32, 64, 32
WIDTHS = [1, 8, 16, 32]
SECTIONS = 4


def digits(columns, bits):
    return bits.to_bytes((columns + 7) // 8, "little").hex()


class Case:
    """One list and the slices that it starts from."""

    def __init__(self, seed):
        self.random = random.Random(seed)
        self.columns = self.random.choice(COLUMNS[:6] if seed % 4 else COLUMNS)
        self.rows = sorted({0, *(self.random.randrange(ROWS) for _ in range(5)), *self.group()})
        self.slices = list(self.start())
        self.ops = [self.operation() for _ in range(self.random.randint(1, 24))]

    def group(self):
        base = self.random.randrange(REGISTERS - 4)
        return range(base, base + 4)

    def start(self):
        for sub in range(SUBARRAYS):
            for row in self.rows:
                bits = self.random.getrandbits(self.columns)
                if self.random.random() < 0.2:
                    bits = self.random.choice([0, (1 << self.columns) - 1])
                if bits:
                    yield f"row {sub} {row} {digits(self.columns, bits)}"

    def row(self):
        return self.random.choice(self.rows) if self.random.random() < 0.9 else self.random.randrange(ROWS)

    def subs(self):
        return f"{self.random.choice([0xFFFFFFFF, 1 << self.random.randrange(32), self.random.getrandbits(32)]):08x}"

    def flag(self):
        return self.random.randrange(2)

    def per_row(self, width):
        return self.columns * (32 // width)

    def bound(self, width):
        top = 8 * self.per_row(width)
        return self.random.choice([0, 1, self.random.randrange(top + 1), self.random.randrange(top + 1), top, 2**32 - 1])

    def first(self, width):
        return self.per_row(width) * self.random.randrange(8) if self.random.random() < 0.7 else self.random.randrange(2**20)

    def masked_first(self, width):
        most = 32 * self.columns - self.per_row(width)
        return min(self.per_row(width) * self.random.randrange(width), most)

    def group_of(self, width):
        base = self.random.choice([r for r in self.rows if r < REGISTERS])
        most = (REGISTERS - base) * self.per_row(width)
        limit = self.random.choice([0, 1, self.per_row(width), self.random.randrange(most + 1), min(most, 4 * self.per_row(width))])
        return base, min(limit, most)

    def operation(self):
        kinds = [
            self.search, self.search, self.search, self.update, self.update, self.update_by, self.pass_, self.window, self.free,
            self.pack, self.spread, self.narrow, self.slide, self.slide, self.pick, self.index, self.set_num, self.count,
            self.count, self.first_tag, self.below,
        ]  # fmt: skip
        return self.random.choice(kinds)()

    def search(self):
        rows = self.random.sample(self.rows, self.random.randrange(min(5, len(self.rows) + 1)))
        keys = "".join(f" {row}={self.flag()}" for row in rows)
        return f"search {self.subs()}{keys} {self.flag()}"

    def update(self):
        return f"update {self.subs()} {self.row()} {self.flag()}"

    def update_by(self):
        return f"updateby {self.row()} {self.random.choice(WIDTHS)}"

    def pass_(self):
        return f"pass {self.flag()} {self.random.randint(1, 31)}"

    def window(self):
        width, masked = self.random.choice(WIDTHS), self.flag()
        first = self.masked_first(width) if masked else self.first(width)
        return f"window {self.row()} {width} {first} {self.bound(width)} {self.bound(width)} {masked}"

    def free(self):
        width, masked, off = self.random.choice(WIDTHS), self.flag(), self.flag()
        first = self.masked_first(width)
        return f"free {self.row()} {width} {first} {self.bound(width)} {self.bound(width)} {masked} {self.flag()} {off}"

    def pack(self):
        width = self.random.choice(WIDTHS)
        return f"packmask {self.row()} {self.row()} {self.row()} {width} {self.masked_first(width)}"

    def spread(self):
        narrow, wide = self.random.choice([(1, 8), (1, 16), (1, 32), (8, 16), (8, 32), (16, 32)])
        return f"spread {self.row()} {self.row()} {narrow} {wide} {self.random.randrange(wide // narrow)}"

    def narrow(self):
        return f"narrow {self.row()} {self.row()} {self.random.choice([16, 32])} {self.flag()}"

    def slide(self):
        width = self.random.choice(WIDTHS)
        base, limit = self.group_of(width)
        by = self.random.choice([0, 1, 2, self.per_row(width), self.random.randrange(4 * self.per_row(width)), 2**32 - 1])
        first = self.per_row(width) * self.random.randrange(4)
        return f"slide {self.row()} {base} {width} {first} {self.flag()} {by} {limit}"

    def pick(self):
        width = self.random.choice(WIDTHS)
        base, limit = self.group_of(width)
        index = self.random.choice([0, limit, max(limit - 1, 0), self.random.randrange(4 * self.per_row(width)), 2**32 - 1])
        return f"pick {self.row()} {base} {width} {index} {limit}"

    def index(self):
        width = self.random.choice(WIDTHS)
        return f"index {self.row()} {width} {self.first(width)}"

    def set_num(self):
        top = 32 * self.columns
        return f"setnum {self.random.choice([0, 1, self.random.randrange(top + 1), self.random.getrandbits(32), self.random.getrandbits(64)])}"

    def count(self):
        how = self.random.choice(["sum", "less", "or", "clear", "xor", "clip"])
        return f"count {self.subs()} {self.random.randrange(32)} {how}"

    def first_tag(self):
        return "first"

    def below(self):
        return f"below {self.row()} {self.random.choice(['before', 'upto', 'at'])}"

    def text(self):
        return "\n".join([f"columns {self.columns}", *self.slices, *self.ops, "end", ""])


def answers(lines):
    """The lines of each case."""
    answer = []
    for line in lines:
        answer.append(line)
        if line == "form" or line.startswith("control "):
            yield answer
            answer = []


def verify(model, folder, cases, left):
    """Whether the model finds each section of the trace right."""
    lines = [f"cape-trace 1 columns {cases[0].columns}"]
    for case, answer in zip(cases, left):
        lines += [f"section 00000000 00000000 {len(case.ops)}", *case.slices, "ops", *case.ops, "end", *answer]
    lines += [f"done {len(cases)}", ""]
    path = f"{folder}/trace"
    with open(path, "w") as file:
        file.write("\n".join(lines))
    found = subprocess.run([model, "verify", path], capture_output=True, text=True)
    return found.stdout == f"ok {len(cases)}\n", found.stdout + found.stderr


def check(model, folder, seeds, left):
    waiting, wrong, done = {}, 0, 0

    def flush(columns):
        nonlocal wrong, done
        pairs = waiting.pop(columns)
        right, said = verify(model, folder, [case for _, case, _ in pairs], [answer for _, _, answer in pairs])
        done += len(pairs)
        if not right:
            wrong += 1
            print(f"seeds {[seed for seed, _, _ in pairs]}: {said.strip()}")

    for seed, answer in zip(seeds, answers(left)):
        case = Case(seed)
        if answer == ["form"]:
            wrong += 1
            print(f"seed {seed}: form")
            continue
        pairs = waiting.setdefault(case.columns, [])
        pairs.append((seed, case, answer))
        if len(pairs) == SECTIONS:
            flush(case.columns)
    for columns in list(waiting):
        flush(columns)
    print(f"{done} lists compared, {wrong} traces differ")
    return done, wrong


def main():
    if sys.argv[1] == "cases":
        for seed in range(int(sys.argv[2]), int(sys.argv[2]) + int(sys.argv[3])):
            sys.stdout.write(Case(seed).text())
        return 0
    model, folder, first, count, left = sys.argv[2:]
    with open(left) as file:
        lines = file.read().splitlines()
    done, wrong = check(model, folder, range(int(first), int(first) + int(count)), lines)
    return 0 if wrong == 0 and done == int(count) else 1


if __name__ == "__main__":
    sys.exit(main())
