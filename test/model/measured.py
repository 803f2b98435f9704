"""The six designs whose modules are measured, and their stimuli."""

import random

LATTICE = 'levels = ["low", "high"]\nbelow = [["low", "high"]]\n'
# registers, commands, cycles
SIZES = {
    "tiny": (2, 3, 200_000),
    "small": (3, 4, 200_000),
    "middling": (24, 22, 50_000),
    "broad": (104, 176, 8_000),
    "large": (200, 360, 4_000),
    "huge": (256, 2900, 1_000),
}


def design(registers, commands):
    lines = ["input a : 16;", "input b : 16;"]
    lines += [f"reg x{i} : 16 {'enforced high' if i % 4 == 3 else 'dynamic'};" for i in range(registers)]
    lines += ["state S enforced low {"]
    for k in range(commands):
        i, j = k % registers, (k * 7 + 3) % registers
        right = ["x{j} + a", "x{j} ^ b", "a < b ? x{j} : x{i}", "{{x{j}[7:0], a[15:8]}}"][k % 4].format(i=i, j=j)
        lines.append(f"  x{i} := {right};")
    lines += ["  goto S;", "}"]
    return "\n".join(lines) + "\n"


def stimulus(cycles):
    """For each cycle the value and the tag of each input."""
    draw = random.Random(7)
    return [[(draw.randrange(1 << 16), int(draw.random() < 0.2)) for _ in range(2)] for _ in range(cycles)]


def stimulus_text(lines):
    return "".join(" ".join(f"{v}@{('low', 'high')[t]}" for v, t in line) + "\n" for line in lines)


# Designs near limits.

DEPTH = 16


def kind(i):
    return "dynamic" if i % 2 else "enforced high"


def chains(states, commands, registers):
    """Chains of states, each inside the one before, down to the deepest that is allowed. All but the last of a chain fall."""
    lines, made = [], 0
    while made < states:
        length = min(DEPTH, states - made)
        for i in range(length):
            number = made + i
            mine = commands * (number + 1) // states - commands * number // states
            lines += [f"state S{number} enforced low {{"]
            lines += [f"  x{(number + j) % registers} := x{(number + j + 7) % registers} + a;" for j in range(mine - 1)]
            lines += ["  fall;" if i + 1 < length else f"  goto S{number};"]
        lines += ["}"] * length
        made += length
    return lines


def near_limits():
    """Lines of a design near all limits at once."""
    lines = ["input a : 8;"] + [f"input i{n} : 8;" for n in range(63)]
    lines += [f"reg x{i} : 8 {kind(i)};" for i in range(256)]
    lines += [f"mem m{i} : 8[16] {kind(i)};" for i in range(16)]
    return lines + chains(256, 4096, 256)
