"""Random words of the instructions that read whole groups or whole masks: reductions, masks and permutations."""

import typing

from compare_vectors import EITHER, FORMS, I, MOST, PRODUCT, SCALARS, V, X, lmul, sew, vector_word
from guest import load

# funct6 of these instructions (vector extension 1.0, section 18).
GATHER, UP, DOWN, COMPRESS, WHOLE_MOVE = 12, 14, 15, 23, 39
WIDE_SUMS = [48, 49]
NUMBERS, MARKS = 16, 20
# What stands for vs1 where it names the instruction: vmv.x.s, vcpop, vfirst; vmsbf, vmsof, vmsif, viota, vid.
ELEMENT, COUNT, FIRST = 0, 16, 17
BEFORE, ONLY, UP_TO, IOTA, VID = 1, 2, 3, 16, 17


class Group(typing.NamedTuple):
    """Registers of a group: the first, and how many."""

    first: int
    count: int

    def meets(self, other):
        return self.first < other.first + other.count and other.first < self.first + self.count


class Words:
    """Words of a program under its present setting."""

    def __init__(self, program):
        self.program = program
        self.rng = program.rng

    # ---- registers

    def group(self, sixteenths, spares=(), spares_mask=False):
        """A group of so many sixteenths of LMUL 1, apart from others, and from v0 where that is the mask."""
        count = max(16, sixteenths) // 16
        groups = [Group(first, count) for first in range(0, 32, count)]
        apart = [group for group in groups if not any(group.meets(other) for other in spares) and not (spares_mask and group.first == 0)]
        return self.rng.choice(apart or groups)

    def own(self, spares=(), spares_mask=False):
        """A group of elements of the present setting."""
        return self.group(4 * lmul(self.program.vtype), spares, spares_mask)

    def one(self, spares=(), spares_mask=False):
        """One register."""
        return self.group(16, spares, spares_mask)

    def masked(self):
        return self.rng.choice(EITHER)

    # ---- scalars

    def offset(self):
        """How far a slide goes, or which element is gathered: near the ends of a group, near the length, or anything."""
        program, rng = self.program, self.rng
        most = program.vlmax(program.vtype)
        near = [0, 1, 2, program.vl - 1, program.vl, program.vl + 1, most - 1, most, most + 1, MOST, 1 << 31, program.vlen // sew(program.vtype)]
        value = rng.choice(near) if rng.random() < 0.6 else rng.randrange(2 * most + 2)
        return max(value, 0)

    def scalar(self):
        """A register that holds such a number, or any number."""
        register = self.rng.choice(SCALARS[1:])
        if self.rng.random() < 0.8:
            self.program.words += load(register, self.offset())
        return register

    # ---- words

    def reduction(self):
        """A reduction, into any register."""
        rng, program = self.rng, self.program
        funct6, f3 = rng.randrange(8), PRODUCT
        if sew(program.vtype) < 32 and rng.random() < 0.3:
            funct6, f3 = rng.choice(WIDE_SUMS), V
        return vector_word(funct6, self.masked(), self.own().first, rng.randrange(32), f3, rng.randrange(32))

    def number(self):
        """A number of a mask, or the first element, into a scalar register; or a scalar into the first element."""
        rng = self.rng
        if rng.random() < 0.25:
            return vector_word(NUMBERS, 1, 0, rng.choice(SCALARS), X | PRODUCT, rng.randrange(32))
        which = rng.choice([ELEMENT, COUNT, COUNT, FIRST, FIRST])
        return vector_word(NUMBERS, 1 if which == ELEMENT else self.masked(), rng.randrange(32), which, V | PRODUCT, rng.choice([0, *range(18, 32)]))

    def logic(self):
        """A truth of two masks."""
        rng = self.rng
        return vector_word(rng.randrange(24, 32), 1, rng.randrange(32), rng.randrange(32), V | PRODUCT, rng.randrange(32))

    def marks(self):
        """The places before, up to or at the first set one; how many are set below each; or the numbers of elements."""
        rng, unmasked = self.rng, self.masked()
        which = rng.choice([BEFORE, ONLY, UP_TO, IOTA, VID])
        vs2 = self.one()
        if which == VID:
            return vector_word(MARKS, unmasked, 0, which, V | PRODUCT, self.own((), not unmasked).first)
        vd = self.own([vs2], not unmasked) if which == IOTA else self.one([vs2], not unmasked)
        return vector_word(MARKS, unmasked, vs2.first, which, V | PRODUCT, vd.first)

    def slide(self):
        """A slide by an offset, or by one with a scalar in the place that is free."""
        rng, unmasked = self.rng, self.masked()
        up = rng.random() < 0.5
        vs2 = self.own()
        vd = self.own([vs2] if up else [], not unmasked)
        if not up and rng.random() < 0.3 and (unmasked or vs2.first):
            vd = vs2
        if rng.random() < 0.4:
            return vector_word(UP if up else DOWN, unmasked, vs2.first, rng.choice(SCALARS), X | PRODUCT, vd.first)
        form = rng.choice([X, I])
        second = self.scalar() if form == X else rng.getrandbits(5)
        return vector_word(UP if up else DOWN, unmasked, vs2.first, second, form, vd.first)

    def small_indices(self, group):
        """Makes the elements of a group small, so that they name elements: vand.vx with a scalar."""
        register = self.rng.choice(SCALARS[1:])
        self.program.words += load(register, self.rng.choice([3, 7, 31, 255]))
        self.program.words.append(vector_word(9, 1, group.first, register, X, group.first))

    def gather(self):
        """Elements by an index for each, by one for all, or by indices of sixteen bits."""
        rng, unmasked = self.rng, self.masked()
        vs2 = self.own()
        form = rng.choice(FORMS)
        if form != V:
            second = self.scalar() if form == X else rng.getrandbits(5)
            return vector_word(GATHER, unmasked, vs2.first, second, form, self.own([vs2], not unmasked).first)
        eighths = 2 * lmul(self.program.vtype) * 16 // sew(self.program.vtype)
        sixteen = rng.random() < 0.4 and 1 <= eighths <= 64
        vs1 = self.group(2 * eighths if sixteen else 4 * lmul(self.program.vtype))
        if rng.random() < 0.7 and not sixteen:
            self.small_indices(vs1)
        vd = self.own([vs2, vs1], not unmasked)
        return vector_word(UP if sixteen else GATHER, unmasked, vs2.first, vs1.first, V, vd.first)

    def compress(self):
        """The elements whose bit of a mask is 1, one after the other."""
        vs2, vs1 = self.own(), self.one()
        return vector_word(COMPRESS, 1, vs2.first, vs1.first, V | PRODUCT, self.own([vs2, vs1]).first)

    def whole_move(self):
        """One, two, four or eight whole registers."""
        count = self.rng.choice([1, 2, 4, 8])
        vd, vs2 = (self.rng.randrange(0, 32, count) for _ in range(2))
        return vector_word(WHOLE_MOVE, 1, vs2, count - 1, I, vd)

    def any_word(self):
        """A word of one of these kinds, which is mostly legal; some must begin at element 0."""
        return self.rng.choice([self.reduction, self.reduction, self.number, self.logic, self.marks, self.slide, self.slide, self.gather, self.compress, self.whole_move])()
