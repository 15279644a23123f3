#!/usr/bin/env python3
"""Writes the designs and stimuli of the yardsticks into a folder. The same call always writes the same bytes."""
import random
import sys
from pathlib import Path


def design(inputs, latches, gates, order="forward", seed=1):
    """A random and-inverter graph: each gate reads two earlier variables, each latch the last gates."""
    chance = random.Random(seed)
    first_gate = 1 + inputs + latches
    top = inputs + latches + gates
    lines = [f"aag {top} {inputs} {latches} 0 {gates} 2"]
    lines += [str(2 * (1 + at)) for at in range(inputs)]
    for at in range(latches):
        lines.append(f"{2 * (1 + inputs + at)} {2 * (top - at % max(gates, 1)) + at % 2}")
    lines += [str(2 * top), str(2 * (top - 1) + 1)]
    body = []
    for at in range(gates):
        var = first_gate + at
        left, right = (2 * chance.randrange(1, var) + chance.randrange(2) for _ in range(2))
        body.append(f"{2 * var} {left} {right}")
    if order == "shuffled":
        chance.shuffle(body)
    return "\n".join(lines + body) + "\n"


def delta(number):
    """Groups of seven bits, the least significant first; each byte but the last has its top bit set."""
    groups = []
    while number > 127:
        groups.append(number % 128 + 128)
        number //= 128
    return bytes(groups + [number])


def binary(inputs, latches, gates, seed=3):
    """The binary form of a graph as `design` makes it."""
    chance = random.Random(seed)
    first_gate = 1 + inputs + latches
    top = inputs + latches + gates
    lines = [f"aig {top} {inputs} {latches} 0 {gates} 2"]
    lines += [str(2 * (top - at % max(gates, 1)) + at % 2) for at in range(latches)]
    lines += [str(2 * top), str(2 * (top - 1) + 1)]
    body = []
    for var in range(first_gate, first_gate + gates):
        right, left = sorted(2 * chance.randrange(1, var) + chance.randrange(2) for _ in range(2))
        body += [delta(2 * var - left), delta(left - right)]
    return "\n".join(lines).encode() + b"\n" + b"".join(body)


def chain(gates, cycle=False):
    """One input and a chain of gates, the last one first; with a cycle the first gate reads the last one."""
    top = gates + 1
    lines = [f"aag {top} 1 0 0 {gates} 1", "2", str(2 * top)]
    for at in reversed(range(gates)):
        right = 2 * top if cycle and at == 0 else 2 * (at + 1)
        lines.append(f"{2 * (at + 2)} {right} {right}")
    return "\n".join(lines) + "\n"


def stimulus(inputs, latches, rows, seed=2):
    """A stimulus of b0 from the state of zeros."""
    chance = random.Random(seed)
    lines = ["1", "b0", "0" * latches]
    lines += ["".join(chance.choice("01") for _ in range(inputs)) for _ in range(rows)]
    return "\n".join(lines + ["."]) + "\n"


def refutations(variables, lines, seed=4):
    """Clauses that say that each variable follows from the one before it, and a log of lines that follow from these."""
    chance = random.Random(seed)
    clauses = [f" {2 * var + 1} {2 * var + 2} ;\n" for var in range(variables - 1)]
    latest = [(var, var + 1) for var in range(variables - 1)]
    log = []
    for number in range(len(clauses), len(clauses) + lines):
        first = chance.randrange(variables - 50)
        hints, var = [], first
        for _ in range(chance.randrange(2, 7)):
            if var >= variables - 1:
                break
            clause, var = latest[var]
            hints.append(clause)
        log.append(f" {2 * first + 1} {2 * var} ;" + "".join(f" {hint}" for hint in hints) + "\n")
        if var - first < 40:
            latest[first] = (number, var)
    return "".join(clauses), "".join(log)


def ring(latches):
    """A one-hot ring with a property for each two neighbours, and one that fails: the design, the clauses that forbid two
    neighbours at once, and a line for each that shows that it is kept from step to step under the properties."""
    n = latches
    lines = [f"aag {2 * n} 0 {n} 0 {n} {n + 1}", f"2 {2 * n} 1"]
    lines += [f"{2 * (at + 1)} {2 * at}" for at in range(1, n)]
    lines += [str(2 * (n + 1 + at)) for at in range(n)] + [str(2 * n)]
    lines += [f"{2 * (n + 1 + at)} {2 * (at + 2)} {2 * (at + 1)}" for at in range(n - 1)] + [f"{4 * n} {2 * n} 2"]
    pairs = [sorted([at, (at + 1) % n]) for at in range(n)]
    clauses, proofs = [], []
    for at in range(n):
        before = (at - 1) % n
        clauses.append("".join(f" {2 * latch + 3}" for latch in pairs[at]) + " ;\n")
        hints = f" {1 + 3 * before + 2} {1 + 3 * n + before}"
        proofs.append("".join(f" {2 * latch + 3}" for latch in pairs[before]) + " ;" + hints + "\n")
    return "\n".join(lines) + "\n", "".join(clauses), "".join(proofs)


def shallow(latches, props):
    """A one-hot ring, and for each two of its latches and an input the property that these three are never 1 at once."""
    n = latches
    own = lambda at: 2 * (n + 1 + at)
    pairs = [(a, b) for a in range(n) for b in range(a)]
    both = {pair: 2 * (2 * n + 1 + at) for at, pair in enumerate(pairs)}
    asked = [(pair, at) for at in range(n) for pair in pairs][:props]
    bads = [2 * (2 * n + len(pairs) + 1 + at) for at in range(props)]
    lines = [f"aag {2 * n + len(pairs) + props} {n} {n} 0 {len(pairs) + props} {props}"]
    lines += [str(2 * (at + 1)) for at in range(n)]
    lines += [f"{own(at)} {own((at - 1) % n)} {1 if at == 0 else 0}" for at in range(n)] + [str(bad) for bad in bads]
    lines += [f"{both[a, b]} {own(a)} {own(b)}" for a, b in pairs]
    lines += [f"{bad} {both[pair]} {2 * (at + 1)}" for bad, (pair, at) in zip(bads, asked)]
    return "\n".join(lines) + "\n"


def counters(count, bits):
    """So many pairs of counters, each pair with an enable of its own; a property for each, that the top bits never differ one way."""
    inputs = [2 * (at + 1) for at in range(count)]
    first = count + 1
    latch = lambda pair, side, bit: 2 * (first + (pair * 2 + side) * bits + bit)
    top, latches, gates, bads = count + count * 2 * bits, [], [], []
    for pair in range(count):
        for side in range(2):
            carry = inputs[pair]
            for bit in range(bits):
                here = latch(pair, side, bit)
                both, neither, next_bit = 2 * (top + 1), 2 * (top + 2), 2 * (top + 3)
                top += 3
                gates += [(both, here, carry), (neither, here ^ 1, carry ^ 1), (next_bit, both ^ 1, neither ^ 1)]
                latches.append(f"{here} {next_bit}")
                carry = both
        top += 1
        gates.append((2 * top, latch(pair, 0, bits - 1), latch(pair, 1, bits - 1) ^ 1))
        bads.append(str(2 * top))
    lines = [f"aag {top} {count} {len(latches)} 0 {len(gates)} {count}", *map(str, inputs), *latches, *bads]
    return "\n".join(lines + [" ".join(map(str, gate)) for gate in gates]) + "\n"


def delays(count, length):
    """So many pairs of shift registers that take the same input; a property for each place of each pair, that the two never differ one
    way there."""
    inputs = [2 * (at + 1) for at in range(count)]
    latch = lambda pair, side, place: 2 * (count + 1 + (pair * 2 + side) * length + place)
    top, latches, gates, bads = count + count * 2 * length, [], [], []
    for pair in range(count):
        for side in range(2):
            rows = [inputs[pair]] + [latch(pair, side, place) for place in range(length - 1)]
            latches += [f"{latch(pair, side, place)} {row}" for place, row in enumerate(rows)]
        for place in range(length):
            top += 1
            gates.append(f"{2 * top} {latch(pair, 0, place)} {latch(pair, 1, place) ^ 1}")
            bads.append(str(2 * top))
    lines = [f"aag {top} {count} {len(latches)} 0 {len(gates)} {len(bads)}", *map(str, inputs), *latches, *bads, *gates]
    return "\n".join(lines) + "\n"


def report(clauses, props, seed=5):
    """The report of a design of 20,000 latches: every fortieth property fails, and the journal is shown."""
    chance = random.Random(seed)
    inputs, latches = 200, 20_000
    rows = lambda width: "".join(chance.choice("01") for _ in range(width)) + "\n"
    lines = [f"jasign 1\ndesign {inputs + latches} {inputs} {latches} 0 {props} 0\n"]
    marks = ["fails" if prop % 40 == 39 else "proved" for prop in range(props)]
    lines += [f"b{prop} hold {mark}\n" for prop, mark in enumerate(marks)]
    lines.append(f"clauses {clauses}\n")
    for _ in range(clauses):
        variables = chance.sample(range(inputs + 1, inputs + latches + 1), chance.randrange(2, 9))
        lines.append(" ".join(str(2 * variable + chance.randrange(2)) for variable in sorted(variables)) + "\n")
    for prop in range(39, props, 40):
        lines.append(f"stimulus b{prop}\n1\nb{prop}\n" + rows(latches))
        lines += [rows(inputs) for _ in range(20)] + [".\n"]
    lines.append("joined no\nset" + "".join(f" b{prop}" for prop in range(39, props, 40)) + f"\njournal {2 * props}\n")
    proofs, proved = marks.count("proved"), 0
    for prop, mark in enumerate(marks):
        lines.append(f"0 draw b{prop} at {clauses * proved // proofs}\n")
        proved += mark == "proved"
        lines.append(f"0 settle b{prop} {mark} at {clauses * proved // proofs}\n")
    return "".join(lines) + "end\n"


def main(folder):
    folder.mkdir(parents=True, exist_ok=True)
    texts = {
        "gates.aag": design(64, 64, 300_000),
        "gates.stim": stimulus(64, 64, 1),
        "shuffled.aag": design(50_000, 50_000, 400_000, "shuffled"),
        "shuffled.stim": stimulus(50_000, 50_000, 1),
        "rows.aag": design(32, 32, 1_000),
        "rows.stim": stimulus(32, 32, 100_000),
        "chain.aag": chain(400_000),
        "chain.stim": stimulus(1, 0, 1),
        "cycle.aag": chain(400_000, cycle=True),
        "cycle.stim": stimulus(1, 0, 1),
        "wide.aag": "aag 500000 0 0 0 0 1\n0\n",
        "wide.stim": stimulus(0, 0, 1),
    }
    for name, text in texts.items():
        (folder / name).write_text(text)
    (folder / "shallow.aag").write_text(shallow(8, 200))
    for latches in (10, 20):
        (folder / f"ring_{latches}.aag").write_text(ring(latches)[0])
    (folder / "counters.aag").write_text(counters(200, 2))
    for name, text in zip(["ring.aag", "ring.clauses", "ring.proofs"], ring(3_000)):
        (folder / name).write_text(text)
    clauses, log = refutations(100_000, 1_000_000)
    (folder / "clauses").write_text(clauses)
    (folder / "log").write_text(log)
    (folder / "nothing").write_text("")
    (folder / "report").write_text(report(100_000, 20_000))
    (folder / "binary.aag").write_bytes(binary(50_000, 50_000, 400_000))
    (folder / "binary.stim").write_text(stimulus(50_000, 50_000, 1))


if __name__ == "__main__":
    main(Path(sys.argv[1]))
