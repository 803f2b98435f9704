"""The base instruction set of RISC-V, RV32I at user level, as the core of examples/riscv has it, written after the published manual: what an instruction does
to an owner's registers and memory, and in which cycle what an owner shows comes. Nothing here is taken from the core's text."""

MEMORY = 16384
PUT = 0x10000
# The core's cycles: those of boot, of a slice with the two of the kernel, and of a slice in which its owner works. A slice begins with a fetch and a read.
BOOT, SLICE, WORKING, BEGINNING = 4096, 64, 62, 2


class Halted(Exception):
    """What an instruction that isn't defined comes to."""


def signed(value, width=32):
    return value - (1 << width) if value >> (width - 1) & 1 else value


def bits(word, high, low):
    return word >> low & ((1 << (high - low + 1)) - 1)


def immediate_i(word):
    return signed(bits(word, 31, 20), 12)


def immediate_s(word):
    return signed(bits(word, 31, 25) << 5 | bits(word, 11, 7), 12)


def immediate_b(word):
    return signed(bits(word, 31, 31) << 12 | bits(word, 7, 7) << 11 | bits(word, 30, 25) << 5 | bits(word, 11, 8) << 1, 13)


def immediate_j(word):
    return signed(bits(word, 31, 31) << 20 | bits(word, 19, 12) << 12 | bits(word, 20, 20) << 11 | bits(word, 30, 21) << 1, 21)


def arithmetic(name, one, other):
    """What an instruction of the names add to and gives of two numbers below 2 to the 32."""
    count = other % 32
    return {
        "add": one + other,
        "sub": one - other,
        "sll": one << count,
        "slt": int(signed(one) < signed(other)),
        "sltu": int(one < other),
        "xor": one ^ other,
        "srl": one >> count,
        "sra": signed(one) >> count,
        "or": one | other,
        "and": one & other,
    }[name] % (1 << 32)


REGISTER_NAMES = {
    (0, 0): "add", (0, 32): "sub", (1, 0): "sll", (2, 0): "slt", (3, 0): "sltu", (4, 0): "xor", (5, 0): "srl", (5, 32): "sra", (6, 0): "or", (7, 0): "and",
}  # fmt: skip
IMMEDIATE_NAMES = {0: "add", 2: "slt", 3: "sltu", 4: "xor", 6: "or", 7: "and"}
SHIFT_NAMES = {(1, 0): "sll", (5, 0): "srl", (5, 32): "sra"}
BRANCHES = {
    0: lambda one, other: one == other,
    1: lambda one, other: one != other,
    4: lambda one, other: signed(one) < signed(other),
    5: lambda one, other: signed(one) >= signed(other),
    6: lambda one, other: one < other,
    7: lambda one, other: one >= other,
}
# How many bytes a load takes, and whether they are a signed number.
LOADS = {0: (1, True), 1: (2, True), 2: (4, False), 4: (1, False), 5: (2, False)}
STORES = {0: 1, 1: 2, 2: 4}


class Owner:
    """An owner's memory, registers and pc. `step` is one instruction: it gives how many cycles pass until it has ended and until the next one begins."""

    def __init__(self, words):
        self.memory = bytearray(b"".join(word.to_bytes(4, "little") for word in words).ljust(MEMORY, b"\0"))
        self.registers = [0] * 32
        self.pc = 0
        self.shows = None

    def place(self, address, size):
        if address % size or address + size > MEMORY:
            raise Halted
        return slice(address, address + size)

    def load(self, address, size, is_signed):
        return int.from_bytes(self.memory[self.place(address, size)], "little", signed=is_signed)

    def write(self, number, value):
        if number:
            self.registers[number] = value % (1 << 32)

    def step(self):
        """(cycles until its end, cycles until the next begins). What it puts is in `shows`. Nothing is changed where it halts its owner."""
        self.shows = None
        word = self.load(self.pc, 4, False)
        opcode, rd, kind, high = bits(word, 6, 0), bits(word, 11, 7), bits(word, 14, 12), bits(word, 31, 25)
        one, other = self.registers[bits(word, 19, 15)], self.registers[bits(word, 24, 20)]
        after, took = self.pc + 4, (1, 1)
        if opcode == 0b0110111:
            self.write(rd, word & 0xFFFFF000)
        elif opcode == 0b0010111:
            self.write(rd, self.pc + (word & 0xFFFFF000))
        elif opcode == 0b1101111:
            self.write(rd, after)
            after, took = self.pc + immediate_j(word), (1, 2)
        elif opcode == 0b1100111 and kind == 0:
            self.write(rd, after)
            after, took = one + immediate_i(word) & ~1, (1, 2)
        elif opcode == 0b1100011 and kind in BRANCHES:
            if BRANCHES[kind](one, other):
                after, took = self.pc + immediate_b(word), (1, 2)
        elif opcode == 0b0000011 and kind in LOADS:
            self.write(rd, self.load((one + immediate_i(word)) % (1 << 32), *LOADS[kind]))
            took = (2, 3)
        elif opcode == 0b0100011 and kind in STORES:
            took = self.store((one + immediate_s(word)) % (1 << 32), STORES[kind], other)
        elif opcode == 0b0010011 and kind in IMMEDIATE_NAMES:
            self.write(rd, arithmetic(IMMEDIATE_NAMES[kind], one, immediate_i(word) % (1 << 32)))
        elif opcode == 0b0010011 and (kind, high) in SHIFT_NAMES:
            self.write(rd, arithmetic(SHIFT_NAMES[kind, high], one, bits(word, 24, 20)))
        elif opcode == 0b0110011 and (kind, high) in REGISTER_NAMES:
            self.write(rd, arithmetic(REGISTER_NAMES[kind, high], one, other))
        elif opcode not in (0b0001111, 0b1110011):
            raise Halted
        self.pc = after % (1 << 32)
        return took

    def store(self, address, size, value):
        if (address, size) == (PUT, 4):
            self.shows = value
            return 1, 3
        self.memory[self.place(address, size)] = (value % (1 << 8 * size)).to_bytes(size, "little")
        return (1, 3) if size == 4 else (2, 4)


def slice_of(owner, before):
    """What an owner shows in the slice after the cycle `before`: cycle and word, or None where it halts, which is the last."""
    cycle = BEGINNING
    while cycle < WORKING:
        saved = (owner.pc, owner.registers[:], owner.memory[:]) if cycle == WORKING - 1 else None
        try:
            ending, going_on = owner.step()
        except Halted:
            yield before + cycle + 1, None
            return
        if cycle + ending > WORKING:
            # An instruction that doesn't end in its slice is begun anew in the next one.
            owner.pc, owner.registers, owner.memory = saved
            return
        if owner.shows is not None:
            yield before + cycle + ending, owner.shows
        cycle += going_on


def lines(words_a, words_b, cycles):
    """What two owners show in so many cycles, boot included: cycle, owner and text of each line."""
    owners = {"a": Owner(words_a), "b": Owner(words_b)}
    shown, before, turn = [], BOOT + 1, 0
    while owners and before < cycles:
        name = "ab"[turn % 2]
        if name in owners:
            for cycle, word in slice_of(owners[name], before):
                shown.append((cycle, name, "halted" if word is None else f"{word:08x}"))
                if word is None:
                    del owners[name]
        before, turn = before + SLICE, turn + 1
    return [line for line in shown if line[0] <= cycles]
