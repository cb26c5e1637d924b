"""Makes the tables that the bench times: the sample games, random tables of growing size, hostile tables.

    bench/tables.py FOLDER      writes the tables, and a file `tables.txt` with a line for each: group, name, literals

The tables are the same in every run: all that is random comes from fixed seeds.
"""

import random
import sys
from pathlib import Path

ROOT = Path(__file__).resolve().parent.parent
sys.path[:0] = [str(ROOT / "tests"), str(ROOT / "tests" / "games")]

import second_referee as referee  # noqa: E402  (the path above must be set first)
from builder import TableBuilder, encode  # noqa: E402
from case_tables import OF_MOVES, OF_POSITION, STATIC  # noqa: E402
from hostile_tables import dense_graph, full_message, long_memory  # noqa: E402

SIZES = (100, 200, 400, 800, 1_600, 3_200, 6_400, 8_192)
MOST_LITERALS = 8_192
MOST_ATOMS = 1_024
MOST_BYTES = 65_535


# ------------------------------------------------------- random tables

class RandomGame:
    """A random game of two seats with a given number of literals, which keeps all rules and is never over.

    Everything grows with the literals, up to near the limits at 8,192: so the cost of a call can be drawn against the
    size of the table. Bodies look at atoms of no later stage and no higher level, and negate lower ones only.
    """

    def __init__(self, literals, rng):
        self.rng, self.left = rng, literals
        grown = literals / MOST_LITERALS
        self.fluents = max(4, round(200 * grown))
        self.moves = max(2, round(40 * grown))
        self.percepts = max(1, round(20 * grown))
        self.top = 4
        self.table = TableBuilder(seats=2, moves=self.moves, fluents=self.fluents, percepts=self.percepts, claim=literals)
        self.usable, self.heads = {}, []
        self.choose_atoms(max(4, round(300 * grown)))

    def choose_atoms(self, plain_atoms):
        levels = range(self.top + 1)
        for number in range(plain_atoms):
            self.add(("plain", number // 10, number % 10), self.rng.randrange(3), self.rng.choice(levels))
        for seat in (0, 1):
            self.usable["role", seat] = (STATIC, 0)
            for move in range(self.moves):
                self.usable["does", seat, move] = (OF_MOVES, 0)
                self.add(("legal", seat, move), OF_POSITION, self.rng.choice(levels))
            for value in (0, 100):
                self.add(("goal", seat, value), OF_POSITION, self.rng.choice(levels))
            for percept in range(self.percepts):
                self.heads.append((("sees", seat, percept), OF_MOVES, self.top + 1))
        for fluent in range(self.fluents):
            self.usable["true", fluent] = (OF_POSITION, 0)
        # The last fluent ends the game, and nothing makes it true.
        for fluent in range(self.fluents - 1):
            self.heads.append((("next", fluent), OF_MOVES, self.top + 1))

    def add(self, atom, stage, level):
        self.usable[atom] = (stage, level)
        self.heads.append((atom, stage, level))

    def body(self, stage, level, size):
        literals = []
        while len(literals) < size:
            negated = level > 0 and self.rng.random() < 0.3
            atom = self.rng.choice(self.names)
            its_stage, its_level = self.usable[atom]
            if its_stage <= stage and its_level + negated <= level:
                literals.append(("not", atom) if negated else atom)
        return literals

    def finish(self):
        self.names = list(self.usable)
        for seat in (0, 1):
            self.table.clause(("role", seat))
            self.table.clause(("legal", seat, 0))
        for fluent in range(0, self.fluents - 1, 3):
            self.table.clause(("init", fluent))
        self.table.clause(("terminal",), ("true", self.fluents - 1))
        self.left -= 1
        while self.left:
            head, stage, level = self.rng.choice(self.heads)
            size = min(self.left, self.rng.randint(1, 8))
            self.table.clause(head, *self.body(stage, level, size))
            self.left -= size
        self.rng.shuffle(self.table.clauses)
        return self.table.to_bytes()


def random_table(literals):
    return RandomGame(literals, random.Random(literals)).finish()


# ------------------------------------------------------ hostile tables
# Each has one seat whose role atom takes one of the 1,024 places for atoms; 1,023 are left.

CHAIN = MOST_ATOMS - 1


def plain(number):
    """Plain atoms stand before all others, so this is also the atom's number."""
    return ("plain", number // 32, number % 32)


def one_seat():
    table = TableBuilder(seats=1, moves=1)
    table.clause(("role", 0))
    return table


def chain():
    """Each atom if the one before it, the last clause first: a pass over the clauses settles one atom.

    The second atom has a negated literal, so the rise of a level walks the same long way.
    """
    table = one_seat()
    for number in range(CHAIN - 1, 1, -1):
        table.clause(plain(number), plain(number - 1))
    table.clause(plain(1), ("not", plain(0)))
    return table.to_bytes()


def full_chain():
    """The same with two clauses of four literals for each atom, and the literal that is not met yet in the last place."""
    table = one_seat()
    for number in range(CHAIN - 1, 1, -1):
        for _ in range(2):
            table.clause(plain(number), *[("role", 0)] * 3, plain(number - 1))
    table.clause(plain(1), ("not", plain(0)))
    return table.to_bytes()


def levels():
    """Each atom if not the one before it, the last clause first: as many levels as atoms."""
    table = one_seat()
    for number in range(CHAIN - 1, 0, -1):
        table.clause(plain(number), ("not", plain(number - 1)))
    table.clause(plain(0), ("not", ("role", 0)))
    return table.to_bytes()


def full_levels():
    """The same with two clauses of four literals for each atom."""
    table = one_seat()
    for number in range(CHAIN - 1, 0, -1):
        for _ in range(2):
            table.clause(plain(number), *[("role", 0)] * 3, ("not", plain(number - 1)))
    table.clause(plain(0), ("not", ("role", 0)))
    return table.to_bytes()


def ring():
    """One group of nearly all atoms, each if the one after it, twice over: a level that rises in it walks all the way round."""
    table = one_seat()
    last = CHAIN - 2
    for number in range(1, last + 1):
        after = plain(number % last + 1)
        table.clause(plain(number), *[("role", 0)] * 3, after)
        table.clause(plain(number), after, *[plain(1 + (number * 7 + step * 131) % last) for step in range(3)])
    table.clause(plain(last), ("not", plain(0)))
    return table.to_bytes()


def tower_of_rings():
    """Rings of six atoms, each of which negates one of the ring below: 170 levels of groups, the last clause first."""
    table = one_seat()
    size, rings = 6, CHAIN // 6
    for ring_number in range(rings - 1, -1, -1):
        first = ring_number * size
        for number in range(size):
            table.clause(plain(first + number), plain(first + (number + 1) % size), *[("role", 0)] * 4)
        if ring_number:
            table.clause(plain(first), ("not", plain(first - 1)))
    return table.to_bytes()


def negative_cycle():
    """One cycle through all atoms with a single negative edge, which starts at the highest atom."""
    table = one_seat()
    for number in range(CHAIN - 1):
        table.clause(plain(number), plain(number + 1))
    table.clause(plain(CHAIN - 1), ("not", plain(0)))
    return table.to_bytes()


def late_negative_cycle():
    """A dense knot of unnegated edges whose atoms all negate one outside it; the highest atom alone negates itself.

    A search that asks atom after atom must look through the whole knot for nearly every one.
    """
    table = one_seat()
    knot = CHAIN - 2
    for number in range(1, knot + 1):
        places = [1 + (number * 7 + step * 131) % knot for step in range(7)]
        table.clause(plain(number), ("not", plain(0)), *map(plain, places))
    table.clause(plain(CHAIN - 1), ("not", plain(CHAIN - 1)))
    return table.to_bytes()


def one_head():
    """2,048 clauses, all but the role fact for one head; the one clause that holds is the last."""
    table = one_seat()
    for number in range(2_046):
        table.clause(plain(0), *(plain(1 + (4 * number + step) % 1_000) for step in range(4)))
    table.clause(plain(0), ("not", plain(1)))
    return table.to_bytes()


def full_bodies():
    """128 bodies of 64 literals, all of which hold but for the last of each."""
    table = one_seat()
    for number in range(128):
        table.clause(plain(number), *(plain(128 + step) for step in range(63)), plain(number + 400))
    for number in range(128, 128 + 63):
        table.clause(plain(number))
    return table.to_bytes()


def largest():
    """The longest table that is accepted: 27,661 bytes."""
    rng = random.Random(27_661)
    table = TableBuilder(seats=1, moves=256, fluents=512, percepts=256, claim=65_535)
    pairs = [(first, second) for first in range(128, 1_024) for second in range(128, 1_024)]
    atoms = [("plain", *pair) for pair in sorted(rng.sample(pairs, MOST_ATOMS - 1))]
    table.mention(*atoms)
    high = atoms[128:]
    for number in range(2_047):
        size = 8_192 // 2_047 + (number < 8_192 % 2_047)
        head = rng.randrange(8, len(high))
        table.clause(high[head], *(rng.choice(high[:head]) for _ in range(size)))
    table.clause(("role", 0))
    return table.to_bytes()


def bands():
    """2,048 clauses on bands of atoms that feed each other; accepted."""
    return dense_graph(random.Random(5))


def every_move():
    """256 legal moves, 256 percepts and 101 goals: the longest messages."""
    return full_message(random.Random(1))


def memory():
    """A move that reaches the first seat after 508 rounds, from fluent to fluent."""
    return long_memory(random.Random(5))


def rubbish():
    return random.Random(65_535).randbytes(MOST_BYTES)


def table_and_rubbish():
    """A full table that is read to its end, and then bytes that do not belong to it."""
    data = random_table(MOST_LITERALS)
    return data + bytes([0x80]) * (MOST_BYTES - len(data))


def promise_of_atoms():
    """A good header and atoms without end: 1,024 records, then a clause count that is not there."""
    atoms = [[0, number // 32, number % 32] for number in range(MOST_ATOMS)]
    return encode([1, 0, 1, 0, 0, 1, 0, MOST_ATOMS] + [number for atom in atoms for number in atom])


HOSTILE = (
    chain, full_chain, levels, full_levels, ring, tower_of_rings, negative_cycle, late_negative_cycle, one_head, full_bodies, largest,
    bands, every_move, memory, promise_of_atoms, table_and_rubbish, rubbish,
)


# --------------------------------------------------------------- files

def literals_of(data):
    """How many literals a table has; bytes behind it (5) are left out, and rubbish has none."""
    try:
        return sum(len(clause.body) for clause in referee.read_table(data).clauses)
    except referee.Refused as refusal:
        return literals_of(data[:refusal.place]) if refusal.number == 5 else 0


def all_tables():
    for path in sorted((ROOT / "games").glob("*.table"), key=lambda path: path.stat().st_size):
        yield "sample", path.stem, path.read_bytes()
    for literals in SIZES:
        yield "random", f"random_{literals}", random_table(literals)
    for make in HOSTILE:
        yield "hostile", make.__name__, make()


def main():
    if len(sys.argv) != 2:
        print(__doc__, file=sys.stderr)
        return 2
    folder = Path(sys.argv[1])
    folder.mkdir(parents=True, exist_ok=True)
    lines = []
    for group, name, data in all_tables():
        (folder / f"{name}.table").write_bytes(data)
        lines.append(f"{group} {name} {literals_of(data)}\n")
    (folder / "tables.txt").write_text("".join(lines))
    return 0


if __name__ == "__main__":
    sys.exit(main())
