"""Tests of the second referee itself: typed examples, and laws that must hold."""

import importlib
import random

import second_referee as referee
from case_tables import sound_table
from examples import EXAMPLES, PENNY, hexes
from second_cli import Desk


def run_example(name, steps):
    """Faults of one example, as text lines."""
    desk = Desk()
    faults = []
    for line, expected in steps:
        answer = desk.answer(line)
        if answer != expected:
            faults.append(f"{name}: {line[:60]}: {answer[:60]}, expected {expected[:60]}")
    return faults


def example_faults():
    return [fault for name, steps in EXAMPLES for fault in run_example(name, steps)]


def table_of(game):
    return importlib.import_module(game).table().to_bytes()


def penny_faults():
    if table_of("penny").hex() != hexes(PENNY):
        return ["penny: the builder's bytes are not the typed ones"]
    return []


def card_game_faults():
    data = table_of("card_game")
    table = referee.read_table(data)
    sizes = (table.moves, len(table.atoms), len(table.clauses),
             sum(len(clause.body) for clause in table.clauses), len(data))
    if sizes != (59, 355, 1_506, 3_261, 11_381):
        return [f"card game: sizes {sizes}"]
    return []


def hidden_bids(game):
    """For each pair of bidders: is every bid of the second hidden from the first?"""
    module = importlib.import_module(game)
    data = table_of(game)
    bids = [number for name, number in module.MOVES.items() if name.startswith("bid")]
    seats = [module.SEATS[bidder] for bidder in module.BIDDERS]
    return {referee.hidden(data, asking, moving, bid)
            for asking in seats for moving in seats if asking != moving for bid in bids}


def sealed_faults():
    faults = []
    if hidden_bids("sealed_tender") != {(0, 0, 1)}:
        faults.append("sealed tender: a bid reaches another bidder")
    if hidden_bids("sealed_auction") != {(0, 0, 0)}:
        faults.append("sealed auction: a bid counts as hidden")
    return faults


def counted_levels(table):
    """Another allowed numbering: how many atoms an atom rests on, itself included."""
    return [len(table.depends(p) | {p}) for p in range(len(table.atoms))]


def numbering_faults(tables=60):
    """Any allowed numbering gives the same set, and sound tables are accepted."""
    faults = []
    for number in range(tables):
        rng = random.Random(f"numberings/{number}")
        data = sound_table(rng).to_bytes()
        refusal, place, table = referee.verdict(data)
        if refusal:
            faults.append(f"sound table {number} is refused: {refusal} {place}")
            continue
        facts = {atom for atom in table.numbers_of_kind(referee.TRUE, referee.DOES)
                 if rng.random() < 0.5}
        least = referee.standard_model(table, facts, table.levels)
        if least != referee.standard_model(table, facts, counted_levels(table)):
            faults.append(f"sound table {number}: the model hangs on the numbering")
    return faults


def other_hidden_move(table, record, rng, asking, moving, move):
    """Another legal move of a seat in this record, where both are hidden."""
    legal = referee.legal_moves(table, record.position, moving)
    if moving != asking and referee.is_hidden(table, asking, moving, move):
        others = [other for other in legal
                  if referee.is_hidden(table, asking, moving, other)]
        if others:
            return rng.choice(others)
    return move if move in legal else None


def play_two_sessions(data, rng, asking, rounds=4):
    """Two sessions that differ for the asking seat in hidden moves only.

    Gives pairs of messages for that seat, which have to be equal.
    """
    table = referee.accepted(data)
    one = two = referee.open_session(data)[2]
    for _ in range(rounds):
        for seat in range(table.seats):
            legal = referee.legal_moves(table, one.position, seat)
            move = rng.choice(legal) if legal else None
            other = other_hidden_move(table, two, rng, asking, seat, move)
            if move is None or other is None:
                return
            one = referee.offer(data, one, seat, move)[2]
            two = referee.offer(data, two, seat, other)[2]
        first, one = referee.play(data, one)[0], referee.play(data, one)[2]
        second, two = referee.play(data, two)[0], referee.play(data, two)[2]
        if first or second:
            return
        yield (referee.message_numbers(table, one, asking),
               referee.message_numbers(table, two, asking))


def secrecy_faults(tables=60):
    """What is hidden by reach changes no message."""
    faults = []
    games = ("sealed_tender", "sealed_auction", "card_game", "penny")
    for number in range(tables):
        rng = random.Random(f"secrecy/{number}")
        data = (table_of(games[number]) if number < len(games)
                else sound_table(rng).to_bytes())
        for asking in range(referee.accepted(data).seats):
            if any(one != two for one, two in play_two_sessions(data, rng, asking)):
                faults.append(f"table {number}: seat {asking} reads what is hidden")
    return faults


def self_test():
    """Print what is wrong; the exit status is 1 if anything is."""
    faults = [*example_faults(), *penny_faults(), *card_game_faults(), *sealed_faults(),
              *numbering_faults(), *secrecy_faults()]
    for fault in faults:
        print(fault)
    answers = sum(len(steps) for _, steps in EXAMPLES)
    print(f"{len(EXAMPLES)} typed examples with {answers} answers, "
          f"{len(faults)} faults")
    return 1 if faults else 0
