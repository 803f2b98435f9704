"""Words of instructions, by their names and numbers."""

REGISTER_FORMS = {
    "add": (0, 0), "sub": (0, 32), "sll": (1, 0), "slt": (2, 0), "sltu": (3, 0), "xor": (4, 0), "srl": (5, 0), "sra": (5, 32), "or": (6, 0), "and": (7, 0),
}  # fmt: skip
IMMEDIATE_FORMS = {"addi": 0, "slti": 2, "sltiu": 3, "xori": 4, "ori": 6, "andi": 7}
SHIFT_FORMS = {"slli": (1, 0), "srli": (5, 0), "srai": (5, 32)}
LOAD_FORMS = {"lb": 0, "lh": 1, "lw": 2, "lbu": 4, "lhu": 5}
STORE_FORMS = {"sb": 0, "sh": 1, "sw": 2}
BRANCH_FORMS = {"beq": 0, "bne": 1, "blt": 4, "bge": 5, "bltu": 6, "bgeu": 7}
SIZES = {"lb": 1, "lh": 2, "lw": 4, "lbu": 1, "lhu": 2, "sb": 1, "sh": 2, "sw": 4}


def register_form(name, rd, rs1, rs2):
    kind, high = REGISTER_FORMS[name]
    return high << 25 | rs2 << 20 | rs1 << 15 | kind << 12 | rd << 7 | 0x33


def immediate_form(name, rd, rs1, number):
    return (number & 0xFFF) << 20 | rs1 << 15 | IMMEDIATE_FORMS[name] << 12 | rd << 7 | 0x13


def shift_form(name, rd, rs1, count):
    kind, high = SHIFT_FORMS[name]
    return high << 25 | count << 20 | rs1 << 15 | kind << 12 | rd << 7 | 0x13


def upper_form(name, rd, number):
    return (number & 0xFFFFF) << 12 | rd << 7 | (0x37 if name == "lui" else 0x17)


def load_form(name, rd, rs1, offset):
    return (offset & 0xFFF) << 20 | rs1 << 15 | LOAD_FORMS[name] << 12 | rd << 7 | 0x03


def store_form(name, rs2, rs1, offset):
    return (offset >> 5 & 0x7F) << 25 | rs2 << 20 | rs1 << 15 | STORE_FORMS[name] << 12 | (offset & 0x1F) << 7 | 0x23


def branch_form(name, rs1, rs2, offset):
    high = (offset >> 12 & 1) << 6 | offset >> 5 & 0x3F
    return high << 25 | rs2 << 20 | rs1 << 15 | BRANCH_FORMS[name] << 12 | ((offset >> 1 & 0xF) << 1 | offset >> 11 & 1) << 7 | 0x63


def jal(rd, offset):
    return (offset >> 20 & 1) << 31 | (offset >> 1 & 0x3FF) << 21 | (offset >> 11 & 1) << 20 | (offset >> 12 & 0xFF) << 12 | rd << 7 | 0x6F


def jalr(rd, rs1, offset):
    return (offset & 0xFFF) << 20 | rs1 << 15 | rd << 7 | 0x67


def constant(rd, value):
    """Two instructions that give a register a number."""
    low = (value & 0xFFF) - (value & 0x800) * 2
    return [upper_form("lui", rd, (value - low) >> 12), immediate_form("addi", rd, rd, low)]
