"""Refusals and messages in words, for people who read reports and matches."""

from second_referee import read_number

BYTE, CLAUSE, ATOM, SEAT, NOWHERE = "byte", "clause", "atom", "seat", ""

# For each number: what was found, what the place counts, what to do about it.
REFUSALS = {
    1: ("the input ends inside or before a number", BYTE,
        "send the table whole, or correct the count that promises more than follows"),
    2: ("a number is not in its shortest form, or is over 65,535", BYTE,
        "write the number in as few bytes as it needs; 65,535 is the largest"),
    3: ("a number is outside its range, or the literals are more than 8,192 together", BYTE,
        "bring the field at this byte within its limits; a clause may have 64 literals "
        "and a table 8,192"),
    4: ("an atom record is not above the one before it", BYTE,
        "sort the atom records by kind, first and second field, keep each once, and "
        "number the literals anew"),
    5: ("bytes follow after the last clause", BYTE,
        "remove them, or correct the count of clauses"),
    6: ("a clause for a role atom has literals", CLAUSE,
        "make the role a bare fact"),
    7: ("a true or does atom is the head of a clause", CLAUSE,
        "give the clause a next atom or a plain atom as its head; positions and moves "
        "come from the session"),
    8: ("an init, next or sees atom stands in a body", CLAUSE,
        "put a plain atom in its place and derive both from the same body"),
    9: ("this init atom depends on a true, does, legal, terminal or goal atom", ATOM,
        "let the opening depend on plain and role atoms only"),
    10: ("this legal, terminal or goal atom depends on a does atom", ATOM,
         "keep the move's effect in a fluent by a next clause, and look at the fluent"),
    11: ("this atom negates an atom that depends on it, or itself", ATOM,
         "break the cycle, for instance with a fluent that carries it to the next round"),
    12: ("this seat has no role fact", SEAT,
         "put the seat's role atom into the table, with a clause without literals"),
    13: ("the table has more than 65,535 bytes", NOWHERE,
         "make it smaller; no accepted table is longer than 27,661 bytes"),
    14: ("the room lent is too small", NOWHERE,
         "lend 1,024 bytes for a message, and a place for each atom for a model"),
    15: ("there is no such seat", NOWHERE, "name a seat of the table"),
    16: ("there is no such move", NOWHERE, "name a move of the table"),
    17: ("the seat has already chosen in this round", NOWHERE, "wait for the next round"),
    18: ("the move is not legal (a play names the seat as the place)", NOWHERE,
         "choose one of the moves in the seat's message"),
    19: ("the game is over", NOWHERE, "open a new session"),
    20: ("a seat has not chosen", SEAT, "offer a move for this seat first"),
    21: ("the session record or the position is badly shaped", NOWHERE,
         "use a record that this table's calls have handed back"),
    22: ("round 65,535 is the last", NOWHERE, "open a new session"),
}


def refusal_in_words(number, place):
    """One line that says what was refused, where, and what to do."""
    found, unit, advice = REFUSALS[number]
    where = f" ({unit} {place})" if unit else ""
    return f"refused with number {number}, place {place}{where}: {found}; {advice}"


def read_message(data):
    """The parts of a message: seat, round, over, percepts, moves, goals."""
    numbers, place = [], 0
    while place < len(data):
        number, place = read_number(data, place)
        numbers.append(number)
    seat, round_number, over, *rest = numbers
    lists = []
    while rest:
        count, rest = rest[0], rest[1:]
        lists.append(rest[:count])
        rest = rest[count:]
    percepts, moves, goals = lists
    return seat, round_number, over == 1, percepts, moves, goals


def name_alone(names, number):
    """The name of a number, or the number itself where it has none."""
    for name, its_number in names.items():
        if its_number == number:
            return name
    return str(number)


def name_of(names, number):
    """A number, with its name behind it where there is one."""
    name = name_alone(names, number)
    return name if name == str(number) else f"{number} ({name})"


def list_in_words(what, numbers, names):
    if not numbers:
        return f"no {what}s"
    plural = "s" if len(numbers) > 1 else ""
    return f"{what}{plural} " + ", ".join(name_of(names, number) for number in numbers)


def message_in_words(data, seats, moves, percepts):
    """A message as a sentence; the three dictionaries give names to numbers."""
    seat, round_number, over, seen, legal, goals = read_message(data)
    parts = [f"round {round_number}",
             "the game is over" if over else "the game goes on",
             "sees " + list_in_words("percept", seen, percepts) if seen else "sees nothing"]
    if over:
        parts.append(list_in_words("goal", goals, {}))
    else:
        parts.append("may choose " + list_in_words("move", legal, moves))
    return f"seat {name_of(seats, seat)} reads: " + ", ".join(parts)
