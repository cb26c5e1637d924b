"""The penny table of document 01: two seats show a coin at the same time."""

from builder import TableBuilder, run_as_script

SEATS = {"matcher": 0, "shower": 1}
FLUENTS = {"playing": 0, "matched": 1}
MOVES = {"heads": 0, "tails": 1}
PERCEPTS = {"shower showed heads": 0}
RELATIONS = {}


def table():
    game = TableBuilder(seats=2, fluents=2, moves=2, percepts=1)
    playing, matched = ("true", 0), ("true", 1)
    for seat in SEATS.values():
        game.clause(("role", seat))
    game.clause(("init", 0))
    for seat in SEATS.values():
        for move in MOVES.values():
            game.clause(("legal", seat, move), playing)
    for move in MOVES.values():
        game.clause(("next", 1), ("does", 0, move), ("does", 1, move))
    game.clause(("sees", 0, 0), ("does", 1, 0))
    game.clause(("terminal",), ("not", playing))
    game.clause(("goal", 0, 0), ("not", matched))
    game.clause(("goal", 0, 100), matched)
    game.clause(("goal", 1, 50))
    return game


if __name__ == "__main__":
    run_as_script(table())
