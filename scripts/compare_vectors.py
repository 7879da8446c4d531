"""Makes random programs of vector instructions on integers and in fixed point, and compares their last states with the executable model's.

    compare_vectors.py compare CAPE MODEL FOLDER FIRST LAST   compares the programs of the seeds
    compare_vectors.py image SEED FILE                        writes one program, and shows its options
"""

import collections
import multiprocessing
import os
import random
import subprocess
import sys
import typing

from guest import CODE, SETTINGS, image, load

# The f3 of the forms with a register, a scalar register and an immediate.
V, X, I = 0, 4, 3
FORMS = [V, X, I]
# What the f3 of a product or a division has besides.
PRODUCT = 2


class Kind(typing.NamedTuple):
    """The funct6 of an instruction, its forms, the values of vm that it has, whether it writes a mask, and f3 beside the form."""

    funct6: int
    forms: list
    unmasked: list
    writes_mask: bool = False
    f3: int = 0

    def word(self, unmasked, vs2, vs1, form, vd):
        return vector_word(self.funct6, unmasked, vs2, vs1, form | self.f3, vd)


EITHER, ALWAYS, NEVER = [0, 0, 0, 1, 1], [0], [1]
MOVE, MERGE = Kind(23, FORMS, NEVER), Kind(23, FORMS, ALWAYS)
# The operations in fixed point. Where a product of fractions lacks a form, the word moves whole registers.
FRACTIONS = Kind(39, [V, X], EITHER)  # vsmul
FIXED = [
    *(Kind(funct6, FORMS, EITHER) for funct6 in (32, 33)),  # vsaddu, vsadd
    *(Kind(funct6, [V, X], EITHER) for funct6 in (34, 35)),  # vssubu, vssub
    *(Kind(funct6, FORMS, EITHER) for funct6 in (42, 43)),  # vssrl, vssra
    *(Kind(funct6, [V, X], EITHER, f3=PRODUCT) for funct6 in (8, 9, 10, 11)),  # vaaddu, vaadd, vasubu, vasub
    FRACTIONS,
]
KINDS = [
    *FIXED,
    *(Kind(funct6, FORMS, EITHER) for funct6 in (0, 9, 10, 11)),  # vadd, vand, vor, vxor
    *(Kind(funct6, [V, X], EITHER) for funct6 in (2, 4, 5, 6, 7)),  # vsub, vminu, vmin, vmaxu, vmax
    Kind(3, [X, I], EITHER),  # vrsub
    *(Kind(funct6, FORMS, EITHER) for funct6 in (37, 40, 41)),  # vsll, vsrl, vsra
    Kind(16, FORMS, ALWAYS),  # vadc
    Kind(18, [V, X], ALWAYS),  # vsbc
    MERGE,
    MOVE,
    Kind(17, FORMS, EITHER, True),  # vmadc
    Kind(19, [V, X], EITHER, True),  # vmsbc
    *(Kind(funct6, FORMS, EITHER, True) for funct6 in (24, 25, 28, 29)),  # vmseq, vmsne, vmsleu, vmsle
    *(Kind(funct6, [V, X], EITHER, True) for funct6 in (26, 27)),  # vmsltu, vmslt
    *(Kind(funct6, [X, I], EITHER, True) for funct6 in (30, 31)),  # vmsgtu, vmsgt
    *(Kind(funct6, [V, X], EITHER, f3=PRODUCT) for funct6 in (32, 33, 34, 35)),  # vdivu, vdiv, vremu, vrem
    *(Kind(funct6, [V, X], EITHER, f3=PRODUCT) for funct6 in (36, 37, 38, 39)),  # vmulhu, vmul, vmulhsu, vmulh
    *(Kind(funct6, [V, X], EITHER, f3=PRODUCT) for funct6 in (41, 43, 45, 47)),  # vmadd, vnmsub, vmacc, vnmsac
]


class Resized(typing.NamedTuple):
    """The funct6 of an instruction whose operands have several widths, its forms, f3 beside the form, the widths of vd and
    vs2 in quarters of the present one, and what stands for vs1 where that names the instruction."""

    funct6: int
    forms: list
    f3: int
    vd: int
    vs2: int
    code: int | None = None


QUARTER, HALF, SAME, TWICE = 1, 2, 4, 8
CLIPS = [Resized(funct6, FORMS, 0, SAME, TWICE) for funct6 in (46, 47)]  # vnclipu, vnclip
RESIZED = [
    *CLIPS,
    *(Resized(funct6, FORMS, 0, SAME, TWICE) for funct6 in (44, 45)),  # vnsrl, vnsra
    *(Resized(funct6, [V, X], PRODUCT, TWICE, SAME) for funct6 in (48, 49, 50, 51)),  # vwaddu, vwadd, vwsubu, vwsub
    *(Resized(funct6, [V, X], PRODUCT, TWICE, TWICE) for funct6 in (52, 53, 54, 55)),  # the same with a wide vs2
    *(Resized(funct6, [V, X], PRODUCT, TWICE, SAME) for funct6 in (56, 58, 59)),  # vwmulu, vwmulsu, vwmul
    *(Resized(funct6, [V, X], PRODUCT, TWICE, SAME) for funct6 in (60, 61, 63)),  # vwmaccu, vwmacc, vwmaccsu
    Resized(62, [X], PRODUCT, TWICE, SAME),  # vwmaccus
    *(Resized(18, [V], PRODUCT, SAME, HALF, code) for code in (6, 7)),  # vzext.vf2, vsext.vf2
    *(Resized(18, [V], PRODUCT, SAME, QUARTER, code) for code in (4, 5)),  # vzext.vf4, vsext.vf4
]
MASK_KINDS = [kind for kind in KINDS if kind.writes_mask]
# The kinds that have a masked word and do not write a mask, and those that lack a form or a value of vm.
MASKED_KINDS = [kind for kind in KINDS if 0 in kind.unmasked and not kind.writes_mask]
FORM_LESS = [kind for kind in KINDS if len(kind.forms) < len(FORMS) and kind.f3 != PRODUCT and kind != FRACTIONS]
MASK_LESS = [kind for kind in KINDS if kind.unmasked == ALWAYS and kind != MERGE]
# The funct6 that no OPI word has, and the f3 of the forms on floating-point numbers, which do not exist here.
NO_ROW = [8, 13, 20, 21, 22, 36, 38]
FLOATING = [1, 5]
VSETVLI, VSETIVLI, VSETVL = 0x00007057, 0xC0007057, 0x80007057
E32_M1, E8_M8 = 0x10, 0x03
# Vector types that are not supported: SEW 32 with LMUL 1/2, 1/4 and 1/8, SEW 16 with LMUL 1/4, SEW 64, the reserved
# LMUL, and bits above the lowest eight, of which a register can name more.
UNSUPPORTED = [0x17, 0x16, 0x15, 0x0E, 0x18, 0x04, 0x100, 0x400, 0x80000010]
VSTART, VXSAT, VXRM, VCSR = 0x008, 0x009, 0x00A, 0x00F
# The funct6 of the move of the first element into a scalar register.
TO_SCALAR = 16
MOST = 0xFFFFFFFF
EXIT = 93
ECALL = 0x00000073
# The longest VLEN takes long: one program in WIDE_APART has it.
WIDE = 65536
WIDE_APART = 40
NARROW = [32, 64, 128, 1024]
# Seconds after which a run has failed.
LONGEST = 300
# How many differing programs are told.
TOLD = 10
# The scalar registers that hold AVL, a vector type, a first element; operands, and before them the state of the fill;
# new lengths.
AVL, TYPE, FROM = 5, 6, 7
SCALARS = [0, *range(11, 17)]
DRAWN, FACTOR, ADDED, SHIFTED, ELEMENT = SCALARS[1:6]
LENGTHS = [0, *range(18, 32)]


def any_value(rng):
    """A value of 32 bits, the corners preferred."""
    corners = [0, 1, MOST, 0x80000000, 0x7FFFFFFF, 0x80, 0xFF, 0x8000, 0xFFFF, rng.getrandbits(8)]
    return rng.choice(corners) if rng.random() < 0.3 else rng.getrandbits(32)


def register_word(f7, rs2, rs1, f3, rd):
    return f7 << 25 | rs2 << 20 | rs1 << 15 | f3 << 12 | rd << 7 | 0x33


def immediate_word(value, rs1, f3, rd):
    return (value & 0xFFF) << 20 | rs1 << 15 | f3 << 12 | rd << 7 | 0x13


def branch_below(rs1, rs2, offset):
    """bltu, with a negative offset of at least -4,096."""
    high = 1 << 31 | (offset >> 5 & 0x3F) << 25 | (offset >> 11 & 1) << 7
    return high | rs2 << 20 | rs1 << 15 | 6 << 12 | (offset >> 1 & 0xF) << 8 | 0x63


def csr_word(csr, source, f3, rd=0):
    return csr << 20 | source << 15 | f3 << 12 | rd << 7 | 0x73


def set_first(register):
    """csrrw x0, vstart, register"""
    return csr_word(VSTART, register, 1)


def vector_word(funct6, unmasked, vs2, vs1, f3, vd):
    return funct6 << 26 | unmasked << 25 | vs2 << 20 | vs1 << 15 | f3 << 12 | vd << 7 | 0x57


def lmul(vtype):
    """LMUL in quarters."""
    return 1 << ((vtype & 7) + 2) % 8


def sew(vtype):
    return 8 << (vtype >> 3 & 7)


class Program:
    """The words of a program, its options, and how it ends: the status and the front of the report."""

    def __init__(self, seed):
        self.rng = rng = random.Random(seed)
        self.vlen = WIDE if seed % WIDE_APART == 0 else rng.choice(NARROW)
        self.words = []
        self.vtype = None
        self.vl = 0
        self.pair = None
        self.options = self.any_options()
        self.fill()
        for register in SCALARS[1:]:
            self.words += load(register, any_value(rng))
        for number in range(rng.randrange(4, 9)):
            self.round(fresh=number == 0)
        illegal = self.illegal() if rng.random() < 0.1 else None
        code = rng.getrandbits(32)
        if illegal is None:
            self.end = code & 0xFF, f"cape: exited {code & 0xFF} after "
        else:
            pc = CODE + 4 * len(self.words)
            self.end = 121, f"cape: trap 2 at {pc:08x} value {illegal:08x} after "
            self.words.append(illegal)
        self.words += load(10, code) + load(17, EXIT) + [ECALL]

    def any_options(self):
        """The options of the run, in any order; what is the default may be left out."""
        rng = self.rng
        policy = rng.choice(["keep", "ones"])
        options = [["--state"]]
        if self.vlen != 1024 or rng.random() < 0.5:
            options.append(["--vlen", str(self.vlen)])
        if policy != "keep" or rng.random() < 0.5:
            options.append(["--agnostic", policy])
        rng.shuffle(options)
        return [word for option in options for word in option]

    def fill(self):
        """A loop that puts drawn words into every register: from an element on, then from one behind it, and so on."""
        rng = self.rng
        elements = self.vlen // 32
        apart = rng.randint(elements // 24 or 1, elements // 8 or 1)
        self.words += load(DRAWN, rng.getrandbits(32)) + load(FACTOR, rng.getrandbits(32) & ~7 | 5)
        self.words += load(ADDED, rng.getrandbits(32) | 1) + load(ELEMENT, 0)
        self.request(LENGTHS[1], 0, E32_M1)
        self.vtype, self.vl = E32_M1, elements
        again = len(self.words)
        for register in range(32):
            self.words += [
                register_word(1, FACTOR, DRAWN, 0, DRAWN),
                register_word(0, ADDED, DRAWN, 0, DRAWN),
                immediate_word(16, DRAWN, 5, SHIFTED),
                register_word(0, DRAWN, SHIFTED, 4, SHIFTED),
                set_first(ELEMENT),
                MOVE.word(1, 0, SHIFTED, X, register),
            ]
        self.words.append(immediate_word(apart, ELEMENT, 0, ELEMENT))
        self.words.append(branch_below(ELEMENT, LENGTHS[1], 4 * (again - len(self.words))))

    def vlmax(self, vtype):
        return lmul(vtype) * self.vlen // (4 * sew(vtype))

    def keeps_vlmax(self, vtype):
        return self.vtype is not None and self.vlmax(vtype) == self.vlmax(self.vtype)

    def border(self, vtype):
        """The number of an element near the first of a register."""
        return max(0, self.rng.randrange(9) * self.vlen // sew(vtype) + self.rng.randint(-1, 1))

    def any_type(self):
        return self.rng.choice(SETTINGS) | self.rng.getrandbits(2) << 6

    def any_length(self, vtype):
        """A vector length, from 0 to the greatest, the corners preferred."""
        most = self.vlmax(vtype)
        corners = [0, 0, 1, most - 1, most, most, most, most, self.border(vtype), self.border(vtype)]
        return min(self.rng.choice(corners), most) if self.rng.random() < 0.6 else self.rng.randint(0, most)

    def request(self, rd, rs1, vtype):
        """vsetvli, or vsetvl where the vector type is long, and sometimes where it is not."""
        if vtype < 1 << 11 and self.rng.random() < 0.7:
            self.words.append(VSETVLI | vtype << 20 | rs1 << 15 | rd << 7)
        else:
            self.words += load(TYPE, vtype) + [VSETVL | TYPE << 20 | rs1 << 15 | rd << 7]

    def configure(self, vtype, length):
        """Sets a vector type and a length by one of the forms that do it."""
        rng = self.rng
        most = self.vlmax(vtype)
        rd = rng.choice(LENGTHS)
        forms = ["register"] + ["greatest"] * (length == most) + ["immediate"] * (length < 32)
        forms += ["kept"] * (3 * (length == self.vl and self.keeps_vlmax(vtype)))
        form = rng.choice(forms)
        # A number of elements above the greatest length gives the greatest.
        above = 31 if form == "immediate" else MOST
        avl = rng.randint(most, above) if length == most and rng.random() < 0.5 else length
        if form == "register":
            self.words += load(AVL, avl)
            self.request(rd, AVL, vtype)
        elif form == "greatest":
            self.request(rd or LENGTHS[1], 0, vtype)
        elif form == "kept":
            self.request(0, 0, vtype)
        else:
            self.words.append(VSETIVLI | vtype << 20 | avl << 15 | rd << 7)
        self.vtype, self.vl, self.pair = vtype, length, None

    def refuse(self):
        """Asks for a vector type that is not supported, or to keep the length under one with another greatest length."""
        rng = self.rng
        others = [vtype for vtype in SETTINGS if self.vtype is not None and not self.keeps_vlmax(vtype)]
        if others and rng.random() < 0.2:
            self.request(0, 0, rng.choice(others))
        else:
            self.request(rng.choice(LENGTHS), rng.choice(SCALARS), rng.choice(UNSUPPORTED))
        self.vtype, self.vl, self.pair = None, 0, None

    def start(self):
        """Sets the first element of the next instruction: below the length, at it, or behind it."""
        rng = self.rng
        most = self.vlmax(self.vtype)
        corners = [self.vl - 1, self.vl, self.vl, self.vl + 1, most - 1, self.vlen - 1, self.border(self.vtype)]
        first = rng.choice(corners) if rng.random() < 0.4 else rng.randrange(max(1, self.vl))
        self.words += load(FROM, min(max(first, 0), self.vlen - 1)) + [set_first(FROM)]

    def registers(self):
        """How many registers a group takes under the present setting."""
        return max(4, lmul(self.vtype)) // 4

    def group(self):
        """The first register of a group under the present setting, v0 preferred."""
        return 0 if self.rng.random() < 0.15 else self.rng.randrange(0, 32, self.registers())

    def spared_group(self):
        """The first register of a group that does not hold the mask."""
        return self.rng.randrange(self.registers(), 32, self.registers())

    def second(self, form, vs2):
        """What stands for vs1: a register is often vs2."""
        rng = self.rng
        if form == V:
            return vs2 if rng.random() < 0.2 else self.group()
        return rng.choice(SCALARS) if form == X else rng.getrandbits(5)

    def sources(self, kind):
        """A form of the kind, vs2 and what stands for vs1; those that were made alike are preferred."""
        rng = self.rng
        if self.pair is not None and self.pair[0] in kind.forms and rng.random() < 0.8:
            return self.pair
        form = rng.choice([*kind.forms[:1], *kind.forms])
        vs2 = self.group()
        return form, vs2, self.second(form, vs2)

    def destination(self, kind, unmasked, form, vs2, vs1):
        """A legal vd: often a source. A mask is the first register of a source or in none."""
        rng = self.rng
        sources = [vs2, vs1] if form == V else [vs2]
        if not kind.writes_mask:
            vd = rng.choice([*sources, vs2] + [self.group()] * 7)
            return vd if vd != 0 or unmasked else self.spared_group()
        vd = rng.choice([*sources, 0, 0] + [rng.randrange(32)] * 6)
        while any(source < vd < source + self.registers() for source in sources):
            vd = rng.randrange(32)
        return vd

    def any_word(self):
        """A legal word of one of the kinds under the present setting."""
        rng = self.rng
        kind = rng.choice(KINDS)
        form, vs2, vs1 = self.sources(kind)
        unmasked = rng.choice(kind.unmasked)
        vd = self.destination(kind, unmasked, form, vs2, vs1)
        return kind.word(unmasked, 0 if kind == MOVE else vs2, vs1, form, vd)

    def fixed_word(self):
        """A legal word of one of the kinds in fixed point, often under a rounding mode and a flag that are written before."""
        rng = self.rng
        self.fixed_state()
        kind = rng.choice(FIXED)
        form, vs2, vs1 = self.sources(kind)
        unmasked = rng.choice(kind.unmasked)
        return kind.word(unmasked, vs2, vs1, form, self.destination(kind, unmasked, form, vs2, vs1))

    def fixed_state(self):
        """Often writes a rounding mode, and a flag."""
        if self.rng.random() < 0.6:
            self.rounding()
        if self.rng.random() < 0.4:
            self.words.append(csr_word(VXSAT, self.rng.choice([0, 0, 0, 1]), 5))

    def rounding(self):
        """Writes the rounding mode: by an immediate, or by the low bits of a register, and sometimes together with the flag."""
        rng = self.rng
        mode = rng.getrandbits(2)
        way = rng.random()
        if way < 0.5:
            self.words.append(csr_word(VXRM, mode, 5))
        elif way < 0.8:
            self.words += load(FROM, rng.choice([mode, rng.getrandbits(30) << 2 | mode])) + [csr_word(VXRM, FROM, 1)]
        else:
            self.words.append(csr_word(VCSR, mode << 1 | rng.getrandbits(1), 5, rng.choice(LENGTHS)))

    def number_word(self):
        """The first element of any register into a scalar register, under any length and first element."""
        rng = self.rng
        return vector_word(TO_SCALAR, 1, rng.randrange(32), 0, V | PRODUCT, rng.choice([*LENGTHS, *SCALARS[1:]]))

    def has_width(self, quarters):
        """Whether elements of so many quarters of the present width exist, and their groups."""
        return 32 <= sew(self.vtype) * quarters <= 128 and 2 <= lmul(self.vtype) * quarters <= 128

    def resized_group(self, quarters, near):
        """The first register of a group of elements of that width, often one of those near a group."""
        rng = self.rng
        count = max(16, lmul(self.vtype) * quarters) // 16
        drawn = rng.choice([near, near + count, near + 2 * count]) if rng.random() < 0.5 else rng.randrange(32)
        first = drawn % 32 // count * count
        return range(first, first + count)

    def may_share(self, vd, wide, source, quarters):
        """Whether a destination may share registers with a source of another width, both given with their widths."""
        if wide == quarters or not set(vd) & set(source):
            return True
        if wide < quarters:
            return vd.start == source.start and vd.stop <= source.stop
        return source.stop == vd.stop and source.start >= vd.start and lmul(self.vtype) * quarters >= 16

    def resized_kinds(self):
        """The kinds whose widths exist under the present setting."""
        return [kind for kind in RESIZED if self.has_width(kind.vd) and self.has_width(kind.vs2)]

    def resized_kind(self, legal):
        """One of these; before a legal clip a rounding mode and a flag are often written."""
        kinds = self.resized_kinds()
        clips = [kind for kind in kinds if kind in CLIPS]
        kind = self.rng.choice(clips if clips and self.rng.random() < 0.3 else kinds)
        if legal and kind in CLIPS:
            self.fixed_state()
        return kind

    def resized_word(self, legal):
        """A word with operands of several widths; one that is not legal shares registers as it must not, or is its mask."""
        rng = self.rng
        kind = self.resized_kind(legal)
        while True:
            form, unmasked = rng.choice(kind.forms), rng.choice(EITHER)
            vd = self.resized_group(kind.vd, 0)
            vs2 = self.resized_group(kind.vs2, vd.start)
            vs1 = self.resized_group(SAME, vd.start)
            shares = self.may_share(vd, kind.vd, vs2, kind.vs2)
            if form == V and kind.code is None:
                shares = shares and self.may_share(vd, kind.vd, vs1, SAME)
                second = vs1.start
            else:
                second = rng.choice(SCALARS) if form == X else rng.getrandbits(5)
            if legal == (shares and (unmasked or vd.start != 0)):
                second = second if kind.code is None else kind.code
                return vector_word(kind.funct6, unmasked, vs2.start, second, form | kind.f3, vd.start)

    def alike(self):
        """Makes elements of a group equal to another operand where the mask is 1, for the next word."""
        form = self.rng.choice(FORMS)
        vs2 = self.spared_group()
        vs1 = self.second(form, vs2)
        self.words.append(MERGE.word(0, vs2, vs1, form, vs2))
        self.pair = form, vs2, vs1

    def corner(self, register):
        """Puts 0, 1, all ones, the least or the greatest number of the present width into a scalar register."""
        least = 1 << sew(self.vtype) - 1
        self.words += load(register, self.rng.choice([0, 1, MOST, least, least - 1]))

    def put_corner(self, group):
        """Makes elements of a group a corner: where the mask is 1, or from an element on."""
        self.corner(FROM)
        if self.rng.random() < 0.5:
            self.words.append(MERGE.word(0, group, FROM, X, group))
        else:
            self.words += load(AVL, self.rng.randrange(max(1, self.vl))) + [set_first(AVL)]
            self.words.append(MOVE.word(1, 0, FROM, X, group))

    def corners(self):
        """Makes elements of both operands corners, for the next word."""
        form = self.rng.choice([V, V, X])
        vs2 = self.spared_group()
        self.put_corner(vs2)
        if form == V:
            vs1 = self.spared_group()
            self.put_corner(vs1)
        else:
            vs1 = self.rng.choice(SCALARS[1:])
            self.corner(vs1)
        self.pair = form, vs2, vs1

    def mask(self):
        """Puts a mask into v0: none, all, or a drawn word again and again."""
        self.configure(E32_M1, self.vlen // 32)
        drawn = self.rng.getrandbits(32)
        self.words += load(FROM, self.rng.choice([0, MOST, drawn, drawn]))
        self.words.append(MOVE.word(1, 0, FROM, X, 0))

    def round(self, fresh):
        """Perhaps a mask, a setting and a first element, and one word of the kinds."""
        rng = self.rng
        if not fresh and rng.random() < 0.12:
            self.mask()
        if rng.random() < 0.04:
            self.refuse()
        if fresh or self.vtype is None or rng.random() < 0.7:
            vtype = self.any_type()
            kept = self.keeps_vlmax(vtype) and rng.random() < 0.4
            self.configure(vtype, self.vl if kept else self.any_length(vtype))
        made = rng.random()
        if made < 0.2:
            self.alike()
        elif made < 0.5:
            self.corners()
        if rng.random() < 0.5:
            self.start()
        way = rng.random()
        if way < 0.2 and self.resized_kinds():
            word = self.resized_word(True)
        elif way < 0.5:
            word = self.fixed_word()
        elif way < 0.56:
            word = self.number_word()
        else:
            word = self.any_word()
        self.words.append(word)

    def illegal(self):
        """An illegal word, with what makes it illegal before it."""
        rng = self.rng
        vtype = self.any_type()
        ways = [self.masks_itself, self.no_type, self.two_sources, self.no_row, self.no_form]
        if lmul(vtype) > 4:
            ways += [self.misaligned, self.in_source] * 2
        self.configure(vtype, self.any_length(vtype))
        if self.resized_kinds():
            ways.append(self.shares_badly)
        if rng.random() < 0.5:
            self.start()
        return rng.choice(ways)()

    def misaligned(self):
        """One of the registers is not the first of a group."""
        rng = self.rng
        kind = rng.choice(KINDS)
        form, vs2, vs1 = self.sources(kind)
        unmasked = rng.choice(kind.unmasked)
        registers = [self.destination(kind, unmasked, form, vs2, vs1), 0 if kind == MOVE else vs2, vs1]
        places = [0] * (not kind.writes_mask) + [1] * (kind != MOVE) + [2] * (form == V)
        registers[rng.choice(places)] |= rng.randrange(1, self.registers())
        vd, vs2, vs1 = registers
        return kind.word(unmasked, vs2, vs1, form, vd)

    def in_source(self):
        """A mask is written into a source, but not into its first register."""
        rng = self.rng
        kind = rng.choice(MASK_KINDS)
        form, vs2, vs1 = self.sources(kind)
        source = rng.choice([vs2, vs1] if form == V else [vs2])
        vd = source + rng.randrange(1, self.registers())
        return kind.word(rng.choice(kind.unmasked), vs2, vs1, form, vd)

    def masks_itself(self):
        """A masked word whose destination is the mask."""
        kind = self.rng.choice(MASKED_KINDS)
        form, vs2, vs1 = self.sources(kind)
        return kind.word(0, vs2, vs1, form, 0)

    def shares_badly(self):
        """A word with operands of several widths that share registers as they must not."""
        return self.resized_word(False)

    def no_type(self):
        """A word that is legal under every vector type, and no vector type."""
        self.refuse()
        if self.rng.random() < 0.5:
            self.words += load(FROM, self.rng.randrange(self.vlen)) + [set_first(FROM)]
        self.vtype = E8_M8
        return self.number_word() if self.rng.random() < 0.1 else self.any_word()

    def two_sources(self):
        """A move that names a second source."""
        form, vs2, vs1 = self.sources(MOVE)
        vd = self.destination(MOVE, 1, form, vs2, vs1)
        return MOVE.word(1, self.rng.randrange(1, 32), vs1, form, vd)

    def no_row(self):
        """A word near the kinds that no instruction has."""
        rng = self.rng
        near = [(rng.choice(NO_ROW), rng.choice(FORMS)), (rng.choice(KINDS).funct6, rng.choice(FLOATING))]
        funct6, form = rng.choice(near)
        return vector_word(funct6, rng.getrandbits(1), self.group(), self.group(), form, self.group())

    def no_form(self):
        """A word of a kind in a form that it lacks, or without the mask that it always reads."""
        rng = self.rng
        if rng.random() < 0.3:
            kind = rng.choice(MASK_LESS)
            form, vs2, vs1 = self.sources(kind)
            return kind.word(1, vs2, vs1, form, self.spared_group())
        kind = rng.choice(FORM_LESS)
        form = rng.choice([form for form in FORMS if form not in kind.forms])
        return kind.word(rng.choice(kind.unmasked), self.group(), self.group(), form, self.spared_group())


def lines_of(output):
    return output.decode().split("\n")


def told_by(program, path, options, environment, shown_output=lines_of):
    """Status, output and error output of a run, as lines; none where the run takes too long."""
    command = [program, "run", path, *options]
    try:
        run = subprocess.run(command, stdin=subprocess.DEVNULL, capture_output=True, env=environment, timeout=LONGEST)
    except subprocess.TimeoutExpired:
        return ["status none"]
    return [f"status {run.returncode}", *shown_output(run.stdout), *lines_of(run.stderr)]


def shown(line, at):
    """A line, or where it is long its name and what stands from a character on."""
    return line if len(line) < 80 else f"{line.split()[0]} from character {at} on {line[at:at + 16]}"


def first_difference(ours, theirs):
    for our, their in zip(ours, theirs):
        if our != their:
            at = len(os.path.commonprefix([our, their]))
            return f"{shown(our, at)}, and the model: {shown(their, at)}"
    return f"{len(ours)} lines, and the model: {len(theirs)}"


def compared(job):
    """How the model ended the program of a seed, and in what the states differ, if they do."""
    cape, model, folder, seed = job
    program = Program(seed)
    path = os.path.join(folder, f"image{os.getpid()}")
    with open(path, "wb") as file:
        file.write(image(program.words))
    # The level of the model's grammar that has these options; it need not carry out the operations.
    theirs = told_by(model, path, program.options, {"CAPE_REF_LEVEL": "5", "CAPE_REF_FAST": "1"})
    ours = told_by(cape, path, program.options, {})
    status, report = program.end
    planned = theirs[0] == f"status {status}" and any(line.startswith(report) for line in theirs)
    end = "trapped" if planned and status == 121 and "trap" in report else "exited" if planned else "ended otherwise"
    difference = None if ours == theirs else first_difference(ours, theirs)
    return seed, end, " ".join(program.options), difference


def compare(cape, model, folder, first, last):
    ends = collections.Counter()
    different = []
    unplanned = []
    with multiprocessing.Pool(2) as pool:
        jobs = ((cape, model, folder, seed) for seed in range(first, last + 1))
        for seed, end, options, difference in pool.imap(compared, jobs):
            ends[end] += 1
            if difference is not None:
                different.append(f"differs: seed {seed} with {options}: {difference}")
            if end == "ended otherwise":
                unplanned.append(f"the model ends the program of seed {seed} otherwise than it was made to end")
    for line in different[:TOLD] + unplanned[:TOLD]:
        print(line)
    same = sum(ends.values()) - len(different)
    print(f"{same} the same, {len(different)} different; {ends['exited']} exited, {ends['trapped']} trapped")
    sys.exit(1 if different or unplanned else 0)


def write_image(seed, path):
    program = Program(seed)
    with open(path, "wb") as file:
        file.write(image(program.words))
    print(" ".join(program.options))


if __name__ == "__main__":
    if sys.argv[1] == "image":
        write_image(int(sys.argv[2]), sys.argv[3])
    else:
        compare(*sys.argv[2:5], int(sys.argv[5]), int(sys.argv[6]))
