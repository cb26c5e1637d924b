"""Random tables for the comparison: sound ones, ones that break a rule, damaged ones.

Every function takes the case's own random source and uses nothing else, so that
a case can be made again from its seed and number.
"""

from builder import TableBuilder, encode, flatten, house_number

STATIC, OF_POSITION, OF_MOVES = range(3)

CLAIMS = (0, 1, 127, 128, 16_383, 16_384, 65_535)
SEAT_COUNTS = (1, 1, 2, 2, 2, 2, 3, 3, 4, 5, 8)
FLUENT_COUNTS = (0, 1, 2, 3, 4, 5, 6, 8, 12, 130, 512)
MOVE_COUNTS = (1, 2, 2, 3, 3, 4, 5, 130, 256)
PERCEPT_COUNTS = (0, 1, 1, 2, 2, 3, 5, 130, 256)
BODY_SIZES = (0, 1, 1, 1, 1, 2, 2, 2, 3, 5)
GOAL_VALUES = (0, 25, 50, 75, 99, 100)

FRESH_RELATION = 900


def some_below(rng, limit, most):
    """A few numbers below a limit, the highest one often among them."""
    chosen = set(rng.sample(range(limit), min(limit, most)))
    if limit and rng.random() < 0.5:
        chosen.add(limit - 1)
    return sorted(chosen)


class SoundGame:
    """A random game that keeps all rules.

    Each atom that may stand in a body has a stage, which says what it may look
    at, and a level. A body takes atoms of no later stage and no higher level,
    and negates only those of a lower level.
    """

    def __init__(self, rng):
        self.rng = rng
        self.seats = rng.choice(SEAT_COUNTS)
        self.fluents = rng.choice(FLUENT_COUNTS)
        self.moves = rng.choice(MOVE_COUNTS)
        self.percepts = rng.choice(PERCEPT_COUNTS)
        self.table = TableBuilder(
            seats=self.seats, moves=self.moves, fluents=self.fluents,
            percepts=self.percepts, chance=rng.choice([None, rng.randrange(self.seats)]),
            claim=rng.choice([*CLAIMS, rng.randrange(65_536)]))
        self.top = rng.choice((0, 1, 1, 2, 3, 6))
        self.used_fluents = some_below(rng, self.fluents, rng.choice((2, 4, 6, 9)))
        self.used_moves = {seat: some_below(rng, self.moves, rng.choice((1, 2, 3)))
                           for seat in range(self.seats)}
        self.places = {}
        self.choose_atoms()

    def choose_atoms(self):
        """Give stage and level to every atom that a body may use."""
        rng = self.rng
        for seat in range(self.seats):
            self.places["role", seat] = (STATIC, 0)
            for move in self.used_moves[seat]:
                self.places["does", seat, move] = (OF_MOVES, 0)
                self.places["legal", seat, move] = (OF_POSITION, self.any_level())
            for value in rng.sample(GOAL_VALUES, rng.choice((0, 1, 2, 3))):
                self.places["goal", seat, value] = (OF_POSITION, self.any_level())
        for fluent in self.used_fluents:
            self.places["true", fluent] = (OF_POSITION, 0)
        if rng.random() < 0.8:
            self.places["terminal",] = (OF_POSITION, self.any_level())
        for _ in range(rng.choice((0, 2, 4, 8))):
            relation, serial = rng.choice((0, 1, 130, 1_023)), rng.randrange(4)
            self.places["plain", relation, serial] = (rng.randrange(3), self.any_level())

    def any_level(self):
        return self.rng.randint(0, self.top)

    def body(self, stage, level):
        """A random body for a head of this stage and level."""
        rng = self.rng
        literals = []
        for _ in range(rng.choice(BODY_SIZES)):
            negated = rng.random() < 0.4
            usable = [atom for atom, (its_stage, its_level) in self.places.items()
                      if its_stage <= stage and its_level + negated <= level]
            if usable:
                atom = rng.choice(usable)
                literals.append(("not", atom) if negated else atom)
        return literals

    def add_clauses(self, head, stage, level, most=3):
        for _ in range(self.rng.randint(0, most)):
            self.table.clause(head, *self.body(stage, level))

    def add_heads(self):
        heads_only = self.top + 1
        for atom, (stage, level) in list(self.places.items()):
            if atom[0] not in ("role", "true", "does", "terminal"):
                self.add_clauses(atom, stage, level)
        for fluent in self.used_fluents:
            self.add_clauses(("init", fluent), STATIC, heads_only, most=1)
            self.add_clauses(("next", fluent), OF_MOVES, heads_only)
        for seat in range(self.seats):
            for percept in some_below(self.rng, self.percepts, 3):
                self.add_clauses(("sees", seat, percept), OF_MOVES, heads_only, most=2)

    def add_clock(self):
        """Let some games run for a number of rounds and then end."""
        if ("terminal",) not in self.places:
            return
        if len(self.used_fluents) < 2 or self.rng.random() < 0.3:
            self.add_clauses(("terminal",), *self.places["terminal",], most=1)
            return
        steps = self.used_fluents[:self.rng.randint(2, len(self.used_fluents))]
        self.table.clause(("init", steps[0]))
        for now, later in zip(steps, steps[1:]):
            self.table.clause(("next", later), ("true", now))
        self.table.clause(("terminal",), ("true", steps[-1]))

    def add_free_moves(self):
        """Without these, most random games would be stuck at once."""
        for seat in range(self.seats):
            always_one = self.rng.random() < 0.9
            for index, move in enumerate(self.used_moves[seat]):
                if (always_one and index == 0) or self.rng.random() < 0.5:
                    self.table.clause(("legal", seat, move))

    def finish(self):
        for seat in range(self.seats):
            for _ in range(self.rng.choice((1, 1, 1, 2))):
                self.table.clause(("role", seat))
        self.add_heads()
        self.add_clock()
        self.add_free_moves()
        if self.rng.random() < 0.3:
            self.table.mention(self.rng.choice(list(self.places)))
        self.rng.shuffle(self.table.clauses)
        return self.table


def sound_table(rng):
    """A builder with a table that is accepted."""
    return SoundGame(rng).finish()


# ------------------------------------------------------- one rule broken

def insert_clause(table, rng, head, *body):
    table.clause(head, *body)
    table.clauses.insert(rng.randint(0, len(table.clauses) - 1), table.clauses.pop())


def literal(rng, atom):
    return ("not", atom) if rng.random() < 0.4 else atom


def header_counts(table):
    _, _, seats, _, fluents, moves, percepts = table.header
    return seats, fluents, moves, percepts


def atom_of_kind(table, rng, kind):
    """A random atom of a kind, or none if the counts leave no room for one."""
    seats, fluents, moves, percepts = header_counts(table)
    limits = {"plain": (1_024, 1_024), "role": (seats,), "init": (fluents,),
              "true": (fluents,), "does": (seats, moves), "legal": (seats, moves),
              "next": (fluents,), "sees": (seats, percepts), "terminal": (),
              "goal": (seats, 101)}[kind]
    if 0 in limits:
        return None
    return (kind, *(rng.randrange(limit) for limit in limits))


def atom_of_kinds(table, rng, *kinds):
    found = [atom_of_kind(table, rng, kind) for kind in kinds]
    found = [atom for atom in found if atom]
    return rng.choice(found) if found else None


def add_path(table, rng, start, end):
    """Clauses that make `start` depend on `end`, at once or over fresh atoms."""
    relation = rng.randrange(FRESH_RELATION, 1_024)
    fresh = [("plain", relation, serial) for serial in range(rng.randint(0, 4))]
    stops = [start, *fresh, end]
    for head, body_atom in zip(stops, stops[1:]):
        insert_clause(table, rng, head, literal(rng, body_atom))


def break_role_clause(table, rng):
    body_atom = atom_of_kinds(table, rng, "plain", "true", "role", "does")
    insert_clause(table, rng, atom_of_kind(table, rng, "role"), literal(rng, body_atom))


def break_head(table, rng):
    body_atom = atom_of_kind(table, rng, "plain")
    body = [literal(rng, body_atom)] if rng.random() < 0.5 else []
    insert_clause(table, rng, atom_of_kinds(table, rng, "true", "does"), *body)


def break_body(table, rng):
    body_atom = atom_of_kinds(table, rng, "init", "next", "sees")
    head = atom_of_kinds(table, rng, "plain", "next", "legal", "init")
    if body_atom:
        insert_clause(table, rng, head, literal(rng, body_atom))


def break_init_rule(table, rng):
    head = atom_of_kind(table, rng, "init")
    if head:
        add_path(table, rng, head,
                 atom_of_kinds(table, rng, "true", "does", "legal", "terminal", "goal"))


def break_does_rule(table, rng):
    add_path(table, rng, atom_of_kinds(table, rng, "legal", "terminal", "goal"),
             atom_of_kind(table, rng, "does"))


def break_levels(table, rng):
    """A cycle with a negative edge, over plain atoms or through legal and goal ones."""
    relation = rng.randrange(FRESH_RELATION, 1_024)
    stops = [("plain", relation, serial) for serial in range(rng.randint(1, 5))]
    if rng.random() < 0.3:
        stops.append(atom_of_kinds(table, rng, "legal", "goal", "terminal"))
    rng.shuffle(stops)
    negative = rng.randrange(len(stops))
    for index, atom in enumerate(stops):
        body_atom = stops[(index + 1) % len(stops)]
        wanted = ("not", body_atom) if index == negative else literal(rng, body_atom)
        insert_clause(table, rng, atom, wanted)


def break_roles(table, rng):
    """Take a seat's role fact away; its atom stays or goes with it."""
    role = atom_of_kind(table, rng, "role")
    table.clauses = [clause for clause in table.clauses if clause[0] != role]
    in_a_body = any(role in (part, part[-1]) for _, body in table.clauses for part in body)
    if not in_a_body and rng.random() < 0.5:
        table.atoms.discard(role)


BREAKS = (break_role_clause, break_head, break_body, break_init_rule, break_does_rule,
          break_levels, break_roles)


def broken_table(rng):
    """The bytes of a table that breaks one rule, at times several.

    With several broken, the order of the tests decides.
    """
    table = sound_table(rng)
    for _ in range(rng.choice((1, 1, 1, 2, 2, 3, 4))):
        rng.choice(BREAKS)(table, rng)
    return table.to_bytes()


def misordered_table(rng):
    """The bytes of a table with two atom records exchanged, or one doubled.

    Some of these records have a faulty field as well, which is met first.
    """
    table = sound_table(rng)
    records = table.atom_records()
    first, second = sorted(rng.randrange(len(records)) for _ in range(2))
    way = rng.choice(("exchange", "double", "double at once"))
    if way == "exchange":
        records[first], records[second] = records[second], records[first]
    else:
        second = first if way == "double at once" else second
        records.insert(second, records[first])
    if rng.random() < 0.4:
        wrong = rng.choice((first, second))
        records[wrong] = [*records[wrong][:-1], rng.choice((10, 257, 1_024, 65_535))]
    return encode(flatten(table.header, records, table.clause_records()))


def out_of_range_table(rng):
    """The bytes of a table with one number replaced by one near some limit."""
    numbers = sound_table(rng).numbers()
    near_the_front = rng.random() < 0.5
    index = rng.randrange(min(8, len(numbers)) if near_the_front else len(numbers))
    edges = (0, 1, 2, 8, 9, 10, 64, 65, 100, 101, 256, 257, 512, 513, 1_023, 1_024,
             1_025, 2_047, 2_048, 2_049, 65_535)
    step = numbers[index] + rng.choice((-1, 1))
    numbers[index] = max(0, rng.choice((*edges, step, step, step)))
    return encode(numbers)


# --------------------------------------------------------- damaged bytes

def flip_bits(data, rng):
    damaged = bytearray(data)
    for _ in range(rng.choice((1, 1, 2, 5))):
        damaged[rng.randrange(len(data))] ^= 1 << rng.randrange(8)
    return bytes(damaged)


def cut_off(data, rng):
    return data[:rng.randrange(len(data))]


def add_bytes(data, rng):
    return data + rng.randbytes(rng.choice((1, 1, 2, 10)))


def drop_byte(data, rng):
    place = rng.randrange(len(data))
    return data[:place] + data[place + 1:]


def insert_byte(data, rng):
    place = rng.randint(0, len(data))
    return data[:place] + rng.randbytes(1) + data[place:]


def replace_byte(data, rng):
    place = rng.randrange(len(data))
    return data[:place] + bytes([rng.choice((0, 1, 0x7F, 0x80, 0xFF))]) + data[place + 1:]


BYTE_DAMAGES = (flip_bits, cut_off, cut_off, add_bytes, drop_byte, insert_byte,
                replace_byte)


def faulty_number(value, rng):
    """A run that spells a number in a way that is not allowed."""
    padded = bytearray(house_number(value))
    padded[-1] |= 0x80
    padded.append(0)
    too_large = house_number(rng.choice((65_536, 65_537, 131_072, 2_097_151)))
    unending = bytes(rng.randrange(0x80, 0x100) for _ in range(3)) + rng.randbytes(1)
    return rng.choice((bytes(padded), too_large, unending))


def damaged_table(rng):
    """The bytes of a sound table after some damage."""
    table = sound_table(rng)
    if rng.random() < 0.3:
        runs = [house_number(number) for number in table.numbers()]
        index = rng.randrange(len(runs))
        runs[index] = faulty_number(table.numbers()[index], rng)
        data = b"".join(runs)
        return cut_off(data, rng) if rng.random() < 0.1 else data
    return rng.choice(BYTE_DAMAGES)(table.to_bytes(), rng)
