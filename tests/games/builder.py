"""A builder of tables: atoms are written by name, numbers and bytes follow.

An atom is a tuple: ('plain', relation, serial), ('role', seat), ('init', fluent),
('true', fluent), ('does', seat, move), ('legal', seat, move), ('next', fluent),
('sees', seat, percept), ('terminal',) or ('goal', seat, value). A literal is an
atom or ('not', atom). Seats, fluents and so on are given by their numbers.
"""

import sys

KINDS = {"plain": (0, 2), "role": (1, 1), "init": (2, 1), "true": (3, 1),
         "does": (4, 2), "legal": (5, 2), "next": (6, 1), "sees": (7, 2),
         "terminal": (8, 0), "goal": (9, 2)}


def house_number(value):
    """The shortest run of seven-bit groups, lowest first."""
    run = []
    while value >= 0x80:
        run.append(0x80 | value & 0x7F)
        value >>= 7
    return bytes(run + [value])


def encode(numbers):
    return b"".join(house_number(number) for number in numbers)


def atom_record(atom):
    """The kind and the fields of an atom as numbers."""
    name, *fields = atom
    if name not in KINDS:
        raise ValueError(f"no kind of atom is called {name!r}")
    kind, field_count = KINDS[name]
    if len(fields) != field_count:
        raise ValueError(f"{name} takes {field_count} fields: {atom!r}")
    return [kind, *fields]


def split_literal(literal):
    """The atom of a literal, and 1 if it is negated, else 0."""
    if literal[0] == "not":
        return literal[1], 1
    return literal, 0


def numbering(names):
    """Numbers from 0 for names in the order given."""
    return {name: number for number, name in enumerate(names)}


class TableBuilder:
    """Collects the clauses of a game and writes its table."""

    def __init__(self, *, seats, moves, fluents=0, percepts=0, chance=None, claim=0):
        self.header = [1, claim, seats, 0 if chance is None else chance + 1,
                       fluents, moves, percepts]
        self.atoms = set()
        self.clauses = []

    def mention(self, *atoms):
        """Put atoms into the table that perhaps no clause uses."""
        self.atoms.update(atoms)

    def clause(self, head, *body):
        self.mention(head, *(split_literal(literal)[0] for literal in body))
        self.clauses.append((head, body))

    def sorted_atoms(self):
        return sorted(self.atoms, key=atom_record)

    def atom_records(self):
        return [atom_record(atom) for atom in self.sorted_atoms()]

    def clause_records(self):
        number_of = numbering(self.sorted_atoms())
        records = []
        for head, body in self.clauses:
            literals = [2 * number_of[atom] + negated
                        for atom, negated in map(split_literal, body)]
            records.append([number_of[head], len(literals), *literals])
        return records

    def numbers(self):
        """All numbers of the table in reading order."""
        return flatten(self.header, self.atom_records(), self.clause_records())

    def to_bytes(self):
        return encode(self.numbers())


def flatten(header, atom_records, clause_records):
    """Put the parts of a table in reading order, with their counts."""
    numbers = [*header, len(atom_records)]
    for record in atom_records:
        numbers.extend(record)
    numbers.append(len(clause_records))
    for record in clause_records:
        numbers.extend(record)
    return numbers


def run_as_script(table):
    """What a game's script does when it is started: write the table to a file."""
    if len(sys.argv) != 2:
        print(f"usage: {sys.argv[0]} FILE   (writes the table to FILE)", file=sys.stderr)
        sys.exit(2)
    data = table.to_bytes()
    try:
        with open(sys.argv[1], "wb") as file:
            file.write(data)
    except OSError as fault:
        print(f"cannot write {sys.argv[1]}: {fault.strerror}", file=sys.stderr)
        sys.exit(2)
