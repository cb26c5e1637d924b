"""Tic-tac-toe of source 002, with all variables filled in.

Role facts are added. Rows, columns, diagonals and lines are written for x and o
only, since a line of blanks is asked for nowhere. The source is plain GDL and
has no percepts; a player follows the game by its legal moves.
"""

from itertools import product

from builder import TableBuilder, numbering, run_as_script

SIZE = (1, 2, 3)
CELLS = list(product(SIZE, SIZE))
MARKS = ("x", "o", "b")
PLAYERS = {"xplayer": "x", "oplayer": "o"}

SEATS = numbering(PLAYERS)
FLUENTS = numbering([f"cell({m},{n},{w})" for m, n in CELLS for w in MARKS]
                    + [f"control({player})" for player in PLAYERS])
MOVES = numbering([f"mark({m},{n})" for m, n in CELLS] + ["noop"])
PERCEPTS = {}
RELATIONS = {"row": 0, "column": 1, "diagonal": 2, "line": 3, "open": 4}

OPEN = ("plain", RELATIONS["open"], 0)
TERMINAL = ("terminal",)


def fluent(kind, name):
    return (kind, FLUENTS[name])


def cell(kind, m, n, w):
    return fluent(kind, f"cell({m},{n},{w})")


def mark(kind, player, m, n):
    return (kind, SEATS[player], MOVES[f"mark({m},{n})"])


def plain(relation, w, number=0):
    """row(number, w) and the like; the serial tells number and mark apart."""
    return ("plain", RELATIONS[relation], 2 * number + MARKS.index(w))


def opponent(player):
    return "oplayer" if player == "xplayer" else "xplayer"


def add_opening(game):
    for seat in SEATS.values():
        game.clause(("role", seat))
    for m, n in CELLS:
        game.clause(cell("init", m, n, "b"))
    game.clause(fluent("init", "control(xplayer)"))


def add_legality(game):
    for player, (m, n) in product(PLAYERS, CELLS):
        blank = cell("true", m, n, "b")
        game.clause(mark("legal", player, m, n), blank,
                    fluent("true", f"control({player})"))
        game.clause(("legal", SEATS[player], MOVES["noop"]), blank,
                    fluent("true", f"control({opponent(player)})"))


def add_update(game):
    for player, (m, n) in product(PLAYERS, CELLS):
        w = PLAYERS[player]
        game.clause(cell("next", m, n, w), mark("does", player, m, n))
        game.clause(cell("next", m, n, w), cell("true", m, n, w))
    for (m, n), player, (j, k) in product(CELLS, PLAYERS, CELLS):
        if (m, n) != (j, k):
            game.clause(cell("next", m, n, "b"), cell("true", m, n, "b"),
                        mark("does", player, j, k))
    for player in PLAYERS:
        game.clause(fluent("next", f"control({player})"),
                    fluent("true", f"control({opponent(player)})"))


def add_lines(game):
    for w in PLAYERS.values():
        for number in SIZE:
            game.clause(plain("row", w, number),
                        *(cell("true", number, n, w) for n in SIZE))
            game.clause(plain("column", w, number),
                        *(cell("true", m, number, w) for m in SIZE))
            game.clause(plain("line", w), plain("row", w, number))
            game.clause(plain("line", w), plain("column", w, number))
        game.clause(plain("diagonal", w), *(cell("true", m, m, w) for m in SIZE))
        game.clause(plain("diagonal", w), *(cell("true", m, 4 - m, w) for m in SIZE))
        game.clause(plain("line", w), plain("diagonal", w))
    for m, n in CELLS:
        game.clause(OPEN, cell("true", m, n, "b"))


def add_end(game):
    game.clause(TERMINAL, plain("line", "x"))
    game.clause(TERMINAL, plain("line", "o"))
    game.clause(TERMINAL, ("not", OPEN))
    for player, w in PLAYERS.items():
        seat, other = SEATS[player], PLAYERS[opponent(player)]
        game.clause(("goal", seat, 100), plain("line", w))
        game.clause(("goal", seat, 50), ("not", plain("line", "x")),
                    ("not", plain("line", "o")), ("not", OPEN))
        game.clause(("goal", seat, 0), plain("line", other))


def table():
    game = TableBuilder(seats=len(SEATS), fluents=len(FLUENTS), moves=len(MOVES))
    add_opening(game)
    add_legality(game)
    add_update(game)
    add_lines(game)
    add_end(game)
    return game


if __name__ == "__main__":
    run_as_script(table())
