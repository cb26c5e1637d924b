"""Examples with answers typed in by hand: document 01's fourteen, and close readings.

Each example is a name and steps; a step is a line of the protocol and the answer
to it. No answer here is computed by a referee. The letters A1, B7 and so on name
the points of the close reading of document 01.
"""

HEAD = "01 00 01 00 00 01 00"   # one seat, no chance seat, no fluents, one move
SMALLEST = f"{HEAD} 01 01 00 01 00 00"

PENNY = """
01 00 02 00 02 02 01
13 01 00  01 01  02 00  03 00  03 01  04 00 00  04 00 01  04 01 00  04 01 01
   05 00 00  05 00 01  05 01 00  05 01 01  06 01  07 00 00  08  09 00 00  09 00 64
   09 01 32
0E 00 00  01 00  02 00  09 01 06  0A 01 06  0B 01 06  0C 01 06  0D 02 0A 0E
   0D 02 0C 10  0E 01 0E  0F 01 07  10 01 09  11 01 08  12 00
"""

# Fluents 0 to 2, moves 0 to 2, percepts 0 to 1, two seats. Atoms by number:
# 0 role(0), 1 role(1), 2 true(0), 3 does(0,0), 4 does(1,1), 5 legal(0,0), 6 legal(1,1),
# 7 next(0), 8 sees(0,1), 9 terminal, 10 goal(1,7), 11 goal(1,9).
# next(0) if does(0,0); sees(0,1) if true(0); terminal if true(0); both goals always.
RELAY = """
01 05 02 02 03 03 02
0C 01 00  01 01  03 00  04 00 00  04 01 01  05 00 00  05 01 01  06 00  07 00 01  08
   09 01 07  09 01 09
09 00 00  01 00  05 00  06 00  07 01 06  08 01 04  09 01 04  0A 00  0B 00
"""


def hexes(text):
    return "".join(text.split()).lower()


def record(position=(), choices=(), percepts=(), round=0):
    """The hex of a record: dictionaries or lists of set places, choices by seat."""
    row = bytearray(2_580)
    for fluent, flag in dict(position).items():
        row[fluent] = flag
    for seat, choice in dict(choices).items():
        row[512 + 2 * seat:514 + 2 * seat] = choice.to_bytes(2, "little")
    for (seat, percept), flag in dict(percepts).items():
        row[528 + 256 * seat + percept] = flag
    row[2576:2580] = round.to_bytes(4, "little")
    return bytes(row).hex()


def model_words(position=(), choices=()):
    whole = record(position, choices)
    return f"{whole[:1024]} {whole[1024:1056]}"


def checked(name, table, answer):
    """An example that only checks a table."""
    data = hexes(table)
    return (name, [(f"table {data or '-'}", f"ok {len(data) // 2}"), ("check", answer)])


def laid(table, *steps):
    """Steps on a table that is current and accepted."""
    data = hexes(table)
    return [(f"table {data}", f"ok {len(data) // 2}"), ("check", "0 0"), *steps]


DOCUMENT = [
    checked("example 1", "", "1 0"),
    checked("example 2", "80 00", "2 0"),
    checked("example 3", "FF FF", "1 0"),
    checked("example 4", "80 80 04", "2 0"),
    checked("example 5", "02", "3 0"),
    ("example 6", laid(
        SMALLEST, ("claim", "0 0 0"), ("open", "0 0"), ("message 0", "0 0 6 000000000000"),
        ("offer 0 0", "18 0"), ("play", "20 0"))),
    checked("example 6, one byte more", SMALLEST + "00", "5 13"),
    checked("example 7", f"{HEAD} 02 00 00 00 01 00 02 00 01 01 01 00", "11 0"),
    checked("example 7 without a role fact (B21)",
            f"{HEAD} 01 00 00 00 01 00 01 01", "11 0"),
    ("example 8", laid(
        f"{HEAD} 02 00 00 00 01 00 02 00 01 00 01 00",
        (f"model {model_words()}", "0 0 0001"))),
    ("example 9", laid(
        f"{HEAD} 03 00 00 00 00 01 00 01 00 03 01 01 02 00 01 03 02 00",
        (f"model {model_words()}", "0 0 010001"))),
    checked("example 10",
            f"{HEAD} 04 00 00 00 01 00 04 00 00 05 00 00 03 03 01 01 00 01 04 01 00",
            "10 3"),
    ("example 11", laid(PENNY, ("open", "0 0"), ("message 0", "0 0 8 0000000002000100"))),
    ("example 12", laid(
        PENNY, ("open", "0 0"), ("offer 0 0", "0 0"), ("offer 1 0", "0 0"), ("play", "0 0"),
        ("message 0", "0 0 8 0001010100000164"), ("message 1", "0 0 7 01010100000132"))),
    ("example 13", laid(
        PENNY, ("open", "0 0"), ("offer 0 1", "0 0"), ("offer 1 0", "0 0"), ("play", "0 0"),
        ("message 0", "0 0 8 0001010100000100"), ("message 1", "0 0 7 01010100000132"))),
    ("example 14", laid(
        PENNY, ("hidden 1 0 0", "0 0 1"), ("hidden 1 0 1", "0 0 1"),
        ("hidden 0 1 0", "0 0 0"), ("hidden 0 1 1", "0 0 0"))),
]

NUMBERS = [
    checked("B1 cut off after two bytes", "80 80", "1 0"),
    checked("B1 top bit on a third byte", "80 80 80", "2 0"),
    checked("B1 a fourth byte is not looked at", "80 80 80 01", "2 0"),
    checked("B1 padded to three", "81 80 00", "2 0"),
    checked("B1 65,536 and more", "FF FF 04", "2 0"),
    checked("B2 before a number", "01", "1 1"),
    checked("B3 faulty number, no range test", "82 00", "2 0"),
    checked("B4 version 0", "00", "3 0"),
    checked("B4 version 65,535", "FF FF 03", "3 0"),
    checked("B5 chance seat R", f"01 00 01 01{SMALLEST[11:]}", "0 0"),
    checked("B5 chance seat R + 1", f"01 00 01 02{SMALLEST[11:]}", "3 3"),
    checked("B15 the claim must be a sound number", "01 80 00", "2 1"),
    checked("B15 the claim cut off", "01 FF FF", "1 1"),
    checked("seats 0", "01 00 00", "3 2"),
    checked("seats 9", "01 00 09", "3 2"),
    checked("fluents 513", "01 00 01 00 81 04", "3 4"),
    checked("moves 0", "01 00 01 00 00 00", "3 5"),
    checked("moves 257", "01 00 01 00 00 81 02", "3 5"),
    checked("percepts 257", "01 00 01 00 00 01 81 02", "3 6"),
    checked("atoms 0", f"{HEAD} 00", "3 7"),
    checked("atoms 1,025", f"{HEAD} 81 08", "3 7"),
    checked("clauses 2,049", f"{HEAD} 01 01 00 81 10", "3 10"),
]

READING = [
    checked("B6 no fluents, init", f"{HEAD} 02 01 00 02 00", "3 11"),
    checked("B6 no percepts, sees: the seat is read first", f"{HEAD} 02 01 00 07 00 00",
            "3 12"),
    checked("B6 sees of no seat", f"{HEAD} 02 01 00 07 01 00", "3 11"),
    checked("B7 kind 10", f"{HEAD} 01 0A", "3 8"),
    checked("B8 out of order, field missing", f"{HEAD} 02 01 00 00 00", "1 12"),
    checked("B8 out of order, field not shortest", f"{HEAD} 02 01 00 00 80 00", "2 11"),
    checked("B8 out of order, field out of range", f"{HEAD} 02 01 00 00 80 08 00", "3 11"),
    checked("B8 out of order", f"{HEAD} 02 01 00 00 00 00", "4 10"),
    checked("B8 equal records", f"{HEAD} 02 01 00 01 00", "4 10"),
    checked("B8 terminal twice", f"{HEAD} 02 08 08", "4 9"),
    checked("order by the second field", f"{HEAD} 02 00 05 06 00 05 05", "4 11"),
    checked("goal value 101", f"{HEAD} 01 09 00 65", "3 10"),
    checked("relation 1,023", f"{HEAD} 02 00 FF 07 FF 07 01 00 01 01 00", "0 0"),
    checked("relation 1,024", f"{HEAD} 01 00 80 08 00", "3 9"),
    checked("B10 count 65", f"{HEAD} 01 01 00 01 00 41", "3 12"),
    checked("B10 count past the total, nothing behind it",
            f"{HEAD} 02 00 00 00 01 00 82 01 {('00 40' + '00' * 64) * 128} 00 01", "3 8464"),
    checked("B10 count 0 at the total",
            f"{HEAD} 02 00 00 00 01 00 82 01 {('00 40' + '00' * 64) * 128} 00 00 01 00",
            "0 0"),
    checked("B11 literal 2A", f"{HEAD} 01 01 00 01 00 01 02", "3 13"),
    checked("B11 head A", f"{HEAD} 01 01 00 01 01 00", "3 11"),
    checked("B12 no clauses", f"{HEAD} 01 01 00 00", "12 0"),
    checked("B13 65,536 bytes", "00" * 65_536, "13 0"),
    checked("B13 65,535 bytes", "00" * 65_535, "3 0"),
    checked("C6 sound, then filled up to 65,535 bytes", SMALLEST + "00" * 65_522, "5 13"),
]

RULES = [
    checked("B14 6 in a later clause beats 7",
            f"{HEAD} 02 01 00 04 00 00 02 01 00 00 01 02", "6 1"),
    checked("B14 5 beats 6",
            f"{HEAD} 02 01 00 04 00 00 02 01 00 00 01 02 FF", "5 19"),
    checked("does as head", f"{HEAD} 02 01 00 04 00 00 02 00 00 01 00", "7 1"),
    checked("sees in a body",
            "01 00 01 00 00 01 01 03 00 00 00 01 00 07 00 00 02 01 00 00 01 05", "8 1"),
    checked("9, over two steps and negated",
            "01 00 01 00 01 01 00 05 00 00 00 00 01 00 01 00 02 00 03 00"
            "04 02 00 03 01 00 00 01 03 01 01 08", "9 3"),
    checked("B16 role in a body, negated",
            f"{HEAD} 02 00 00 00 01 00 02 01 00 00 01 03", "0 0"),
    checked("B17 a role fact and a role clause with literals",
            f"{HEAD} 02 00 00 00 01 00 02 01 00 01 01 00", "6 1"),
    checked("B17 the role fact twice", f"{HEAD} 01 01 00 02 00 00 00 00", "0 0"),
    checked("B20 p if q; q if not r; r if p: the place is q",
            f"{HEAD} 04 00 00 00 00 01 00 00 02 00 01 00"
            "04 00 01 02 01 01 05 02 01 00 03 00", "11 1"),
    ("B22 q, not q in one body", laid(
        f"{HEAD} 03 00 00 00 00 01 00 01 00 03 02 00 01 00 00 02 02 03",
        (f"model {model_words()}", "0 0 000101"))),
    checked("B23 p(0) if not p(1), one relation",
            f"{HEAD} 03 00 00 00 00 00 01 01 00 02 02 00 00 01 03", "0 0"),
    checked("12 at the second seat",
            "01 00 02 00 00 01 00 02 01 00 01 01 01 00 00", "12 1"),
    checked("12 where the role atom is missing",
            "01 00 02 00 00 01 00 01 01 01 01 00 00", "12 0"),
]

TRUTH = [
    ("a negated literal waits for its level", laid(
        f"{HEAD} 04 00 00 00 00 01 00 00 02 00 01 00"
        "04 00 01 03 01 01 04 02 00 03 00",
        (f"model {model_words()}", "0 0 00010101"))),
    ("B25 and B26 facts as far as in the table; any choice", laid(
        RELAY,
        (f"model {model_words({1: 1, 2: 1})}", "0 0 010100000001010000000101"),
        (f"model {model_words({0: 1}, {0: 1, 1: 3})}", "0 0 010101010001010101010101"))),
    ("B26 room", laid(
        RELAY,
        (f"model {model_words()} 11", "14 0 -"),
        (f"model {model_words()} 12", "0 0 010100000001010000000101"),
        (f"model {model_words()} 13", "0 0 010100000001010000000101"),
        (f"model {model_words({3: 1})} 0", "21 0 -"),
        (f"model {model_words({0: 2})}", "21 0 -"),
        (f"model {model_words((), {0: 4})}", "21 0 -"),
        (f"model {model_words((), {2: 1})}", "21 0 -"))),
]

SESSIONS = [
    ("B29 nothing is carried over", laid(
        PENNY, ("open", "0 0"), ("record", record({0: 1})),
        ("offer 0 0", "0 0"), ("offer 1 1", "0 0"), ("record", record({0: 1}, {0: 1, 1: 2})),
        ("play", "0 0"), ("record", record(round=1)))),
    ("B30 and B31 shape", [
        *laid(RELAY),
        *[step for bad in (
            record({3: 1}), record({511: 1}), record({0: 2}), record({2: 255}),
            record(choices={0: 4}), record(choices={2: 1}), record(choices={7: 65_535}),
            record(percepts={(0, 2): 1}), record(percepts={(1, 255): 1}),
            record(percepts={(2, 0): 1}), record(percepts={(0, 0): 2}),
            record(round=65_536), record(round=(1 << 32) - 1))
          for step in ((f"record {bad}", "ok 2580"), ("message 9 0", "21 0 0 -"),
                       ("offer 9 9", "21 0"), ("play", "21 0"), ("record", bad))]]),
    ("B32 well shaped though odd", laid(
        RELAY,
        (f"record {record({1: 1, 2: 1}, {0: 3, 1: 1}, {(0, 0): 1, (1, 1): 1}, 0)}", "ok 2580"),
        ("message 0", "0 0 8 0000000100010000"), ("message 1", "0 0 8 0100000101010100"),
        ("play", "18 0"))),
    ("B33 order of an offer's tests", laid(
        RELAY, ("open", "0 0"), ("offer 2 3", "15 0"), ("offer 0 3", "16 0"),
        ("offer 0 1", "18 0"), ("offer 0 0", "0 0"), ("offer 0 0", "17 0"),
        ("offer 0 1", "17 0"), (f"record {record({0: 1}, {0: 1})}", "ok 2580"),
        ("offer 2 3", "19 0"), ("offer 0 0", "19 0"), ("play", "19 0"))),
    ("A4 any number for a seat or a move", laid(
        RELAY, ("open", "0 0"), ("offer 65535 0", "15 0"), ("offer 256 0", "15 0"),
        ("offer 8 0", "15 0"), ("offer 1 256", "16 0"), ("offer 1 65535", "16 0"),
        ("hidden 2 9 9", "15 0 0"), ("hidden 0 2 9", "15 0 0"), ("hidden 0 1 3", "16 0 0"))),
    ("B35 a missing choice beats an illegal one", laid(
        RELAY, (f"record {record(choices={0: 2})}", "ok 2580"), ("play", "20 1"),
        (f"record {record(choices={0: 1, 1: 1})}", "ok 2580"), ("play", "18 1"),
        (f"record {record(choices={0: 3, 1: 1})}", "ok 2580"), ("play", "18 0"))),
    ("B33 the last round", laid(
        RELAY, (f"record {record(round=65_535)}", "ok 2580"),
        ("message 0", "0 0 9 00ffff030000010000"), ("offer 0 0", "0 0"), ("play", "20 1"),
        ("offer 1 1", "0 0"), ("play", "22 0"),
        ("record", record((), {0: 1, 1: 2}, (), 65_535)),
        (f"record {record((), {0: 1, 1: 2}, (), 65_534)}", "ok 2580"), ("play", "0 0"),
        ("record", record({0: 1}, (), (), 65_535)), ("play", "19 0"))),
    ("B37 15 before 14, and 1,023 is too little", laid(
        RELAY, ("open", "0 0"), ("message 2 0", "15 0 0 -"), ("message 0 1023", "14 0 0 -"),
        ("message 0 1024", "0 0 7 00000000010000"))),
    ("B38 legal moves stay listed; several goals, and only when over", laid(
        RELAY, ("open", "0 0"), ("offer 1 1", "0 0"), ("message 1", "0 0 7 01000000010100"),
        (f"record {record({0: 1}, {1: 3}, {(1, 0): 1}, 300)}", "ok 2580"),
        ("message 1", "0 0 10 01ac0201010000020709"),
        ("message 0", "0 0 7 00ac0201000000"))),
    ("B41 what a refused call hands back", [
        ("table 02", "ok 1"), ("open", "3 0"), ("record", record()),
        (f"record {'a7' * 2_580}", "ok 2580"), ("offer 0 0", "3 0"), ("play", "3 0"),
        ("message 0", "3 0 0 -"), ("claim", "3 0 0"), ("hidden 0 0 0", "3 0 0"),
        (f"model {'ff' * 512} {'ff' * 16} 0", "3 0 -"), ("record", "a7" * 2_580),
        ("open", "3 0"), ("record", record())]),
    ("the claim on request", laid(
        RELAY, ("claim", "0 0 5"), (f"table {hexes('01 FF FF 03' + SMALLEST[5:])}", "ok 15"),
        ("claim", "0 0 65535"))),
]

REACH = [
    ("B39 and B43 from true to next, and moves without an atom", laid(
        RELAY, ("hidden 0 0 0", "0 0 0"), ("hidden 1 0 0", "0 0 0"),
        ("hidden 0 0 1", "0 0 1"), ("hidden 0 1 1", "0 0 1"), ("hidden 1 1 1", "0 0 1"),
        ("hidden 1 1 0", "0 0 1"))),
    ("B43 negated body atoms reach too", laid(
        "01 00 02 00 00 01 01 04 01 00 01 01 04 01 00 07 00 00 03 00 00 01 00 03 01 05",
        ("hidden 0 1 0", "0 0 0"), ("hidden 1 1 0", "0 0 1"))),
]

EXAMPLES = [*DOCUMENT, *NUMBERS, *READING, *RULES, *TRUTH, *SESSIONS, *REACH]
