"""Programs that are drawn at random: sequences of all instructions, after which all registers and some memory are put; memories of wild words; and words that
are no instructions, each after an instruction that puts."""

from .encoding import (
    BRANCH_FORMS, IMMEDIATE_FORMS, LOAD_FORMS, REGISTER_FORMS, SHIFT_FORMS, SIZES, STORE_FORMS,
    branch_form, constant, immediate_form, jal, jalr, load_form, register_form, shift_form, store_form, upper_form,
)  # fmt: skip
from .model import PUT

CORNERS = (0, 1, 2, 0x7F, 0x80, 0xFF, 0x7FFF, 0x8000, 0xFFFF, 0x10000, 0x7FFFFFFF, 0x80000000, 0x80000001, 0xFFFFFFFE, 0xFFFFFFFF, 0x55555555, 0xAAAAAAAA)
# The bytes that sequences load and store.
DATA, DATA_SIZE = 0x3000, 64
FENCES = (0x0FF0000F, 0x0000100F, 0x00000073, 0x00100073, 0x30529073, 0xC00025F3)


def number(draw):
    return draw.choice(CORNERS) if draw.random() < 0.5 else draw.getrandbits(32)


def register(draw):
    # Few registers are much used, so that what one instruction writes is read by the next.
    return draw.randrange(32) if draw.random() < 0.4 else draw.choice((0, 5, 6, 7, 10))


def short(draw):
    return draw.choice((0, 1, -1, 2047, -2048, draw.randrange(-2048, 2048)))


def access(draw):
    """A load or a store of the data, with the instructions that make its address."""
    name = draw.choice(sorted(SIZES))
    base, offset = draw.randrange(1, 32), short(draw)
    address = DATA + draw.randrange(0, DATA_SIZE, SIZES[name])
    words = constant(base, address - offset)
    if name in LOAD_FORMS:
        return [*words, load_form(name, register(draw), base, offset)]
    return [*words, store_form(name, register(draw), base, offset)]


def jump(draw):
    """A jump or a branch over up to three instructions, which may be jumped over."""
    between = [immediate_form("addi", register(draw), register(draw), short(draw)) for _ in range(draw.randrange(4))]
    over = 4 * len(between) + 4
    kind = draw.randrange(4)
    if kind == 0:
        return [jal(register(draw), over), *between]
    if kind == 1:
        base, rd, offset = draw.randrange(1, 32), register(draw), short(draw)
        # (the last bit of the sum is cleared)
        more = [upper_form("auipc", base, 0), *constant(31 if base != 31 else 30, 12 + 4 + over - offset + draw.randrange(2))]
        return [*more, register_form("add", base, base, 31 if base != 31 else 30), jalr(rd, base, offset), *between]
    return [branch_form(draw.choice(sorted(BRANCH_FORMS)), register(draw), register(draw), over), *between]


def loop(draw):
    """A few turns around instructions that leave the counter alone."""
    counter = draw.randrange(1, 32)
    inside = [word for word in (plain(draw) for _ in range(draw.randrange(1, 5))) if (word >> 7 & 31) != counter]
    turns = draw.randrange(1, 9)
    return [immediate_form("addi", counter, 0, turns), *inside, immediate_form("addi", counter, counter, -1), branch_form("bne", counter, 0, -4 * (len(inside) + 1))]


def plain(draw):
    """An instruction that works on registers alone."""
    kind = draw.randrange(4)
    if kind == 0:
        return register_form(draw.choice(sorted(REGISTER_FORMS)), register(draw), register(draw), register(draw))
    if kind == 1:
        return immediate_form(draw.choice(sorted(IMMEDIATE_FORMS)), register(draw), register(draw), short(draw))
    if kind == 2:
        return shift_form(draw.choice(sorted(SHIFT_FORMS)), register(draw), register(draw), draw.choice((0, 1, 31, draw.randrange(32))))
    return upper_form(draw.choice(("lui", "auipc")), register(draw), draw.getrandbits(20))


def changing(draw):
    """A store over an instruction soon after it."""
    base, word = draw.sample(range(1, 32), 2)
    distance = draw.randrange(3)
    new = plain(draw)
    name = draw.choice(("sw", "sw", "sb", "sh"))
    between = [plain(draw) for _ in range(distance)]
    store = [upper_form("auipc", base, 0), store_form(name, word, base, 4 * (2 + distance))]
    # (of a part of a word the lowest bits are written, which keep the opcode or make one of plain instructions)
    old = new & 0xFFFFFF00 | 0x13 if name == "sb" else new ^ 0x00F00000
    old = old & 0xFFFF0000 | new & 0xFFFF if name == "sh" else old
    return [*constant(word, new), *store, *between, old]


def sequence(draw):
    """A program of all instructions in random order, which ends by putting all registers and the data, and halts."""
    words = [upper_form("lui", 1, DATA >> 12)]
    for at in range(0, DATA_SIZE, 4):
        words += [*constant(2, number(draw)), store_form("sw", 2, 1, at)]
    words += [word for one in range(1, 32) for word in constant(one, number(draw))]
    for _ in range(draw.randrange(60, 160)):
        kind = draw.random()
        if kind < 0.55:
            words.append(plain(draw))
        elif kind < 0.75:
            words += access(draw)
        elif kind < 0.9:
            words += jump(draw)
        elif kind < 0.94:
            words += loop(draw)
        elif kind < 0.97:
            words += changing(draw)
        else:
            words.append(draw.choice(FENCES))
    words += [store_form("sw", one, 0, 4 * one) for one in range(1, 32)]
    words.append(upper_form("lui", 1, PUT >> 12))
    for one in range(1, 32):
        words += [load_form("lw", 2, 0, 4 * one), store_form("sw", 2, 1, 0)]
    words.append(upper_form("lui", 3, DATA >> 12))
    for at in range(0, DATA_SIZE, 4):
        words += [load_form("lw", 2, 3, at), store_form("sw", 2, 1, 0)]
    # (the registers are kept at the front, where register 0 is address enough)
    return [jal(0, 128), *[0] * 31, *words, store_form("sw", 0, 1, 4)]


def wild_word(draw, room):
    """A word of a wild program: mostly an instruction that can be carried out, by registers of which the first fifteen hold addresses."""
    pointer, rd = draw.randrange(1, 16), draw.randrange(16, 32) if draw.random() < 0.97 else draw.randrange(32)
    kind = draw.random()
    near = 4 * draw.randrange(-room, room) if draw.random() < 0.99 else 2 * draw.randrange(-2048, 2048)
    if kind < 0.35:
        return plain(draw) & ~0xF80 | rd << 7
    if kind < 0.5:
        name = draw.choice(sorted(LOAD_FORMS))
        return load_form(name, rd, pointer, SIZES[name] * draw.randrange(-8, 8))
    if kind < 0.62:
        name = draw.choice(sorted(STORE_FORMS))
        return store_form(name, draw.randrange(32), pointer, SIZES[name] * draw.randrange(-8, 8))
    if kind < 0.72:
        return store_form("sw", draw.randrange(32), 15, 0)
    if kind < 0.9:
        return branch_form(draw.choice(sorted(BRANCH_FORMS)), draw.randrange(32), draw.randrange(32), near)
    if kind < 0.96:
        return jal(rd, near)
    if kind < 0.98:
        return jalr(rd, pointer, 4 * draw.randrange(-4, 4))
    return draw.choice(FENCES) if draw.random() < 0.7 else draw.getrandbits(32)


def wild(draw):
    """A memory of wild words, which jump to and fro in it and store over one another, after instructions that give the registers numbers."""
    room = draw.choice((8, 40, 400))
    words = [word for one in range(1, 15) for word in constant(one, 4 * draw.randrange(44, 62 + room))]
    words += constant(15, PUT)
    words += [word for one in range(16, 32) for word in constant(one, number(draw))]
    return words + [wild_word(draw, min(room, 100)) for _ in range(room)] + [jal(0, -4 * draw.randrange(1, room))]


def undefined(words):
    """A program that puts a one, meets words, and puts a two and a register where these don't halt it."""
    before = [*constant(1, PUT), immediate_form("addi", 2, 0, 1), store_form("sw", 2, 1, 0)]
    return [*before, *words, immediate_form("addi", 3, 0, 2), store_form("sw", 3, 1, 0), store_form("sw", 5, 1, 0), store_form("sw", 0, 1, 4)]


def last_word():
    """A program that puts a word by the last instruction of memory, and halts because there is no next one."""
    jump = 16380 - 12
    before = [*constant(1, PUT), immediate_form("addi", 2, 0, 1), jal(0, jump)]
    return [*before, *[0] * (4095 - len(before)), store_form("sw", 2, 1, 0)]
