"""Tables made to be hard: bad orders, many levels, long cycles, full limits, rubbish.

Like all tables of the comparison they come from the case's random source alone.
"""

from builder import TableBuilder, encode
from case_tables import sound_table

LENGTHS = (40, 120, 300, 1_000)


def plain(number):
    """One of a thousand plain atoms."""
    return ("plain", number // 100, number % 100)


def one_seat_game():
    """A seat with two moves that sees something if plain(0) holds."""
    game = TableBuilder(seats=1, moves=2, fluents=2, percepts=1, claim=7)
    game.clause(("role", 0))
    game.clause(("legal", 0, 0))
    game.clause(("legal", 0, 1), ("not", ("true", 1)))
    game.clause(("next", 1), ("does", 0, 1))
    game.clause(("sees", 0, 0), plain(0))
    return game


def arrange(game, rng):
    """Put the clauses into an order that a pass over them may dislike."""
    order = rng.choice(("as they are", "reversed", "shuffled"))
    if order == "reversed":
        game.clauses.reverse()
    elif order == "shuffled":
        rng.shuffle(game.clauses)


def long_chain(rng):
    """plain(0) if plain(1), plain(1) if plain(2) and so on, down to a move."""
    game = one_seat_game()
    length = rng.choice(LENGTHS)
    for number in range(length):
        game.clause(plain(number), plain(number + 1))
    game.clause(plain(length), rng.choice((("does", 0, 1), ("not", ("does", 0, 0)))))
    arrange(game, rng)
    return game.to_bytes()


def tower_of_levels(rng):
    """Each atom if not the one before it: as many levels as atoms."""
    game = one_seat_game()
    length = rng.choice(LENGTHS)
    game.clause(plain(length), ("does", 0, 1))
    for number in range(length):
        game.clause(plain(number), ("not", plain(number + 1)))
        if rng.random() < 0.2:
            game.clause(plain(number), plain(number + 1), ("not", plain(number + 1)))
    arrange(game, rng)
    return game.to_bytes()


def long_cycle(rng):
    """A long cycle with one negative edge somewhere, or with none."""
    game = one_seat_game()
    length = rng.choice(LENGTHS)
    negative = rng.choice((None, rng.randrange(length)))
    for number in range(length):
        body_atom = plain((number + 1) % length)
        game.clause(plain(number), ("not", body_atom) if number == negative else body_atom)
    arrange(game, rng)
    return game.to_bytes()


def knot(rng):
    """One cycle through all atoms and negative edges across it: 11 at many places."""
    game = one_seat_game()
    length = rng.choice((30, 200, 1_000))
    for number in range(length):
        game.clause(plain(number), plain((number + 7) % length))
    for _ in range(rng.choice((1, 3, 1_000))):
        game.clause(plain(rng.randrange(length)),
                    *(("not", plain(rng.randrange(length))) for _ in range(5)))
    arrange(game, rng)
    return game.to_bytes()


def full_bodies(rng):
    """Bodies of 64 literals up to the total of 8,192, or one over it."""
    game = one_seat_game()
    others = sum(len(body) for _, body in game.clauses)
    atoms = [plain(number) for number in range(1, 200)]
    wanted = 8_192 + rng.choice((-1, 0, 0, 1)) - others
    while wanted:
        size = min(wanted, 64)
        wanted -= size
        body = [("not", rng.choice(atoms)) if rng.random() < 0.02 else rng.choice(atoms)
                for _ in range(size)]
        game.clause(plain(0), *body)
    for atom in atoms:
        if rng.random() < 0.98:
            game.clause(atom)
    if rng.random() < 0.5:
        game.clause(plain(0))
    return game.to_bytes()


def body_of_65(rng):
    game = one_seat_game()
    game.clause(plain(0), *[plain(rng.randrange(1, 9)) for _ in range(65)])
    arrange(game, rng)
    return game.to_bytes()


def long_memory(rng):
    """A move that reaches the seat only after many rounds, from fluent to fluent."""
    fluents = rng.choice((20, 120, 508))
    game = TableBuilder(seats=2, moves=2, fluents=fluents, percepts=1, chance=1)
    for seat in (0, 1):
        game.clause(("role", seat))
        game.clause(("legal", seat, 0))
        game.clause(("legal", seat, 1))
    game.clause(("sees", 0, 0), ("true", 0))
    for fluent in range(fluents - 1):
        game.clause(("next", fluent), ("true", fluent + 1))
    game.clause(("next", fluents - 1), literal_of_last_move(rng))
    arrange(game, rng)
    return game.to_bytes()


def literal_of_last_move(rng):
    return rng.choice((("does", 1, 1), ("not", ("does", 1, 1)), ("does", 0, 1)))


def dense_graph(rng):
    """Nearly as many clauses as allowed, on bands of atoms that feed each other.

    A body looks into its own band or lower ones and negates lower ones; some
    tables have a few slips, where an atom of the own band is negated.
    """
    game = one_seat_game()
    band, bands = 20, rng.choice((3, 12, 45))
    slip = rng.choice((0, 0, 0.001))
    for number in rng.sample(range(band * bands), band):
        game.clause(plain(number))
    while len(game.clauses) < 2_048:
        own_band = rng.randrange(bands)
        body = []
        for _ in range(rng.choice((1, 2, 3, 4, 5))):
            other_band = rng.randint(0, own_band)
            atom = plain(other_band * band + rng.randrange(band))
            lower = other_band < own_band and rng.random() < 0.4
            body.append(("not", atom) if lower or rng.random() < slip else atom)
        game.clause(plain(own_band * band + rng.randrange(band)), *body)
    return game.to_bytes()


def full_message(rng):
    """Every move legal and every percept seen: the longest messages."""
    game = TableBuilder(seats=1, moves=256, fluents=1, percepts=256)
    game.clause(("role", 0))
    for number in range(256):
        game.clause(("legal", 0, number))
        game.clause(("sees", 0, number))
    for value in range(101):
        game.clause(("goal", 0, value))
    if rng.random() < 0.5:
        game.clause(("terminal",), ("true", 0))
        game.clause(("next", 0), ("does", 0, 255))
    arrange(game, rng)
    return game.to_bytes()


def over_long(rng):
    """A sound table with bytes after it, around the length of 65,535."""
    data = sound_table(rng).to_bytes()
    length = rng.choice((65_534, 65_535, 65_536, 65_537, 70_000))
    return data + rng.choice((b"\x00", b"\x80", b"\xff")) * (length - len(data))


def rubbish(rng):
    length = rng.choice((1, 2, 3, 10, 100, 3_000))
    return rng.choice((rng.randbytes(length), b"\x80" * length, b"\xff" * length,
                       b"\x01" * length, b"\x00" * length))


def promised_but_missing(rng):
    """Large counts in a good header, and nothing or little behind them."""
    header = [1, 65_535, 8, 8, 512, 256, 256, rng.choice((1, 1_024))]
    data = encode(header)
    return data + rng.choice((b"", b"\x00", b"\x00\x80", encode([8]), rng.randbytes(20)))


def most_atoms(rng):
    """1,024 atoms with the longest fields, and 2,048 clauses."""
    game = TableBuilder(seats=1, moves=1, claim=65_535)
    game.clause(("role", 0))
    while len(game.atoms) < 1_024:
        game.mention(("plain", rng.randrange(900, 1_024), rng.randrange(900, 1_024)))
    atoms = game.sorted_atoms()
    for _ in range(rng.choice((2_047, 2_047, 2_048))):
        game.clause(rng.choice(atoms[:-1]))
    return game.to_bytes()


HOSTILE = (long_chain, tower_of_levels, long_cycle, knot, full_bodies, body_of_65,
           long_memory, dense_graph, full_message, over_long, rubbish, rubbish,
           promised_but_missing, most_atoms)
