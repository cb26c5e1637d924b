"""The cases of the comparison: lines for a referee, with the answers expected.

`build_case(seed, number)` makes a case again from these two numbers alone. The
expected answers come from the second referee, which is asked as the case grows.
"""

import importlib
import random
from dataclasses import dataclass, field, replace

import second_referee as referee
from case_tables import (broken_table, damaged_table, misordered_table,
                         out_of_range_table, sound_table)
from hostile_tables import HOSTILE
from second_cli import Desk

SAMPLE_GAMES = ("penny", "buttons_and_lights", "tic_tac_toe", "card_game",
                "sealed_tender", "sealed_auction")
LARGE_NUMBERS = (7, 8, 9, 127, 128, 255, 256, 257, 511, 512, 32_768, 65_535)
ROUNDS = (0, 1, 2, 127, 128, 16_383, 16_384, 65_534, 65_535)
TOO_LATE = (65_536, 65_537, 1 << 20, (1 << 32) - 1)
ROOMS = (0, 1, 1_022, 1_023, 1_024, 1_025, 65_535)


@dataclass
class Case:
    """The steps of one case: pairs of a line and the answer expected."""

    rng: random.Random
    kind: str = ""
    steps: list = field(default_factory=list)
    desk: Desk = field(default_factory=Desk)

    def say(self, *words):
        line = " ".join(str(word) for word in words)
        answer = self.desk.answer(line)
        self.steps.append((line, answer))
        return answer

    @property
    def table(self):
        """The accepted table, or none."""
        return referee.verdict(self.desk.table)[2]

    @property
    def record(self):
        return self.desk.record

    def chance(self, share):
        return self.rng.random() < share

    def lay(self, data):
        """Make a table current, and begin its case on a record of its own."""
        self.say("table", data.hex() or "-")
        self.say("check")
        self.say("open")

    def set_record(self, record):
        self.say("record", record.to_bytes().hex())

    def any_seat(self):
        """Mostly a seat of the table; at times a number that is none."""
        seats = self.table.seats if self.table else 2
        if self.chance(0.07):
            return self.rng.choice((seats, *LARGE_NUMBERS))
        return self.rng.randrange(seats)

    def any_move(self):
        moves = self.table.moves if self.table else 2
        if self.chance(0.07):
            return self.rng.choice((moves, *LARGE_NUMBERS))
        return self.rng.randrange(moves)


# --------------------------------------------------------- questions

def ask_messages(case, share=0.6):
    for seat in range(case.table.seats):
        if case.chance(share):
            case.say("message", seat)
    if case.chance(0.1):
        case.say("message", case.any_seat(), case.rng.choice(ROOMS))
    if case.chance(0.1):
        case.say("message", case.any_seat())


def ask_hidden(case, count):
    for _ in range(count):
        move = case.any_move()
        does = case.table.numbers_of_kind(referee.DOES) if case.table else []
        moving = case.any_seat()
        if does and case.chance(0.7):
            _, moving, move = case.table.atoms[case.rng.choice(does)]
        case.say("hidden", case.any_seat(), moving, move)


def ask_model(case, position, choices):
    packed = b"".join(choice.to_bytes(2, "little") for choice in choices)
    words = ["model", position.hex(), packed.hex()]
    if case.chance(0.4):
        atoms = len(case.table.atoms) if case.table else 5
        words.append(case.rng.choice((0, atoms - 1, atoms, atoms + 1, 1_024, 65_535)))
    case.say(*words)


def look_around(case):
    """A few questions that a host may ask between two offers."""
    if case.chance(0.5):
        ask_messages(case)
    if case.chance(0.3):
        ask_hidden(case, 2)
    if case.chance(0.1):
        case.say("record")
    if case.chance(0.1):
        ask_model(case, case.record.position, case.record.choices)


# ------------------------------------------------------------ sessions

def offer_for(case, seat):
    """Offers for one seat: a legal move in the end, if it has any."""
    legal = referee.legal_moves(case.table, case.record.position, seat)
    if case.chance(0.12):
        case.say("offer", seat, case.any_move())
    if case.chance(0.05):
        case.say("offer", case.any_seat(), case.any_move())
    if legal and case.record.choices[seat] == 0:
        case.say("offer", seat, case.rng.choice(legal))
        if case.chance(0.08):
            case.say("offer", seat, case.rng.choice(legal))


def play_round(case):
    seats = list(range(case.table.seats))
    case.rng.shuffle(seats)
    for seat in seats:
        if case.chance(0.05):
            case.say("play")
        if case.chance(0.96):
            offer_for(case, seat)
    case.say("play")


def play_session(case, rounds):
    """Play some rounds; go on a little after the end, as a careless host would."""
    for _ in range(rounds):
        look_around(case)
        before = case.record.round
        play_round(case)
        if case.record.round == before and case.chance(0.7):
            break
    ask_messages(case, share=0.9)
    if case.chance(0.2):
        case.say("record")


def session_case(case):
    case.lay(sound_table(case.rng).to_bytes())
    if case.chance(0.5):
        case.say("claim")
    play_session(case, case.rng.choice((2, 3, 4, 6, 9)))
    ask_hidden(case, 3)


def sample_game_case(case):
    game = case.rng.choice(SAMPLE_GAMES)
    case.kind += ", " + game.replace("_", " ")
    case.lay(importlib.import_module(game).table().to_bytes())
    play_session(case, case.rng.choice((2, 5, 9)))
    ask_hidden(case, 6)


def last_round_case(case):
    """A session that stands in one of the last rounds there are."""
    case.lay(sound_table(case.rng).to_bytes())
    late = case.rng.choice((65_534, 65_535, 65_535))
    case.set_record(replace(case.record, round=late))
    play_session(case, 3)


# ------------------------------------------------------------- records

def sprinkle(case, count, limit):
    """Flags below a limit, set with a random frequency."""
    share = case.rng.choice((0, 0.1, 0.5, 0.9))
    return referee.flags(count, [at for at in range(limit) if case.chance(share)])


def random_choices(case):
    table = case.table
    empty = case.chance(0.3)
    chosen = [0 if empty or case.chance(0.1) else case.rng.randint(1, table.moves)
              for _ in range(table.seats)]
    return tuple(chosen + [0] * (8 - table.seats))


def legal_choices(case, position):
    """For each seat a legal move, if there is one."""
    chosen = []
    for seat in range(case.table.seats):
        legal = referee.legal_moves(case.table, position, seat)
        chosen.append(case.rng.choice(legal) + 1 if legal else 0)
    return tuple(chosen + [0] * (8 - case.table.seats))


def shaped_record(case):
    """A well-shaped record of the current table, from anywhere."""
    position = sprinkle(case, 512, case.table.fluents)
    choices = (legal_choices(case, position) if case.chance(0.5)
               else random_choices(case))
    rows = [sprinkle(case, 256, case.table.percepts if seat < case.table.seats else 0)
            for seat in range(8)]
    late = case.rng.choice((*ROUNDS, case.rng.randrange(65_536)))
    return referee.Record(position, choices, b"".join(rows), late)


def with_byte(row, place, value):
    return row[:place] + bytes([value]) + row[place + 1:]


def misshapen(case, record):
    """The record with one thing wrong, or nearly wrong."""
    rng, table = case.rng, case.table
    value = rng.choice((1, 1, 2, 255))
    seat = rng.randrange(8)
    percept = min(255, rng.choice((0, table.percepts, rng.randrange(256))))
    fluent = min(511, rng.choice((0, table.fluents, rng.randrange(512))))
    choices = list(record.choices)
    choices[seat] = rng.choice((1, table.moves, table.moves + 1, 257, 65_535))
    return rng.choice((
        replace(record, position=with_byte(record.position, fluent, value)),
        replace(record, choices=tuple(choices)),
        replace(record, percepts=with_byte(record.percepts,
                                                   256 * seat + percept, value)),
        replace(record, round=rng.choice(TOO_LATE)),
    ))


def record_case(case):
    """Records from elsewhere, well shaped and not."""
    case.lay(sound_table(case.rng).to_bytes())
    for _ in range(case.rng.choice((1, 2, 3))):
        record = shaped_record(case)
        case.set_record(misshapen(case, record) if case.chance(0.4) else record)
        ask_messages(case)
        for _ in range(case.rng.choice((0, 1, 2))):
            case.say("offer", case.any_seat(), case.any_move())
        case.say("play")
        ask_messages(case)
        if case.chance(0.5):
            case.say("record")


def model_case(case):
    """Truth in any position with any choice of moves."""
    case.lay(sound_table(case.rng).to_bytes())
    for _ in range(4):
        record = shaped_record(case)
        if case.chance(0.25):
            record = misshapen(case, record)
        ask_model(case, record.position, record.choices)


def hidden_case(case):
    case.lay(sound_table(case.rng).to_bytes())
    ask_hidden(case, 20)


# ----------------------------------------------- tables that are refused

def ask_all_calls(case):
    """Every call once: most of these tables are refused, some are not."""
    if case.chance(0.2):
        case.set_record(referee.Record.from_bytes(case.rng.randbytes(2_580)))
    for words in (("claim",), ("offer", 0, 0), ("play",), ("message", 0),
                  ("message", 9, 3), ("hidden", 0, 0, 0), ("hidden", 9, 9, 999)):
        if case.chance(0.4):
            case.say(*words)
    if case.chance(0.1):
        ask_model(case, bytes(512), (0,) * 8)
    if case.chance(0.1):
        case.say("record")
    if case.chance(0.2):
        case.say("open")


def table_case(make_table):
    """A kind of case: a table of one sort, and all calls on it."""
    def ask_about_table(case):
        case.lay(make_table(case.rng))
        ask_all_calls(case)
        if case.table and case.chance(0.5):
            case.say("open")
            play_session(case, 2)
    return ask_about_table


def hostile_case(case):
    make_table = case.rng.choice(HOSTILE)
    case.kind += ", " + make_table.__name__.replace("_", " ")
    case.lay(make_table(case.rng))
    ask_all_calls(case)
    if case.table:
        case.say("open")
        play_session(case, 2)
        ask_hidden(case, 3)


# ------------------------------------------------------- protocol errors

BAD_LINES = (
    "", " ", "check ", " check", "check 1", "CHECK", "checks", "offer", "offer 0",
    "offer 0 0 0", "offer  0 0", "offer 0 0 ", "offer 65536 0", "offer 0 65536",
    "offer 4294967296 0", "offer 18446744073709551616 0", "offer -1 0", "offer +1 0",
    "offer a 0", "offer 0x1 0", "offer 1.0 0", "offer 0\t0", "play 0", "open 1",
    "claim 0", "message", "message 0 1024 0", "message 0 65536", "message x",
    "hidden 0 0", "hidden 0 0 0 0", "hidden 0 0 65536", "table", "table 0", "table 0g",
    "table 00 00", "table 0x00", "table 000", "table --", "load", "record 00",
    "record -", "record 0", "model 00 00", "model - -", "model", "help me", "\x00", "\xff\xfe",
    "table " + "00" * 70_001, "table " + "0" * 140_001, "x" * 200_000,
    "record " + "00" * 2_579, "record " + "00" * 2_581,
    "model " + "00" * 512, "model " + "00" * 511 + " " + "00" * 16,
    "model " + "00" * 512 + " " + "00" * 15, "load no/such/file.table",
    "model " + "00" * 512 + " " + "00" * 16 + " 65536",
)


def protocol_case(case):
    """Lines that are no commands: each gives an error and changes nothing."""
    case.lay(sound_table(case.rng).to_bytes())
    case.set_record(shaped_record(case))
    for line in case.rng.sample(BAD_LINES, 12):
        case.say(line)
    case.say("help")
    case.say("check")
    case.say("record")
    case.say("table", "-")
    case.say("check")


# Each kind of case with its weight.
KINDS = (
    (30, "session", session_case),
    (5, "sample game", sample_game_case),
    (4, "last round", last_round_case),
    (12, "record", record_case),
    (6, "model", model_case),
    (6, "hidden", hidden_case),
    (14, "broken rule", table_case(broken_table)),
    (4, "misordered", table_case(misordered_table)),
    (6, "out of range", table_case(out_of_range_table)),
    (9, "damaged", table_case(damaged_table)),
    (4, "hostile", hostile_case),
    (1, "protocol", protocol_case),
)


def build_case(seed, number):
    """The case of this seed and number."""
    rng = random.Random(f"{seed}/{number}")
    weights = [weight for weight, _, _ in KINDS]
    _, name, fill = rng.choices(KINDS, weights)[0]
    case = Case(rng, name)
    fill(case)
    return case
