"""Buttons and lights of source 002: button a toggles p, button b swaps p and q.

The source names no role fact; one is added for its only seat.
"""

from builder import TableBuilder, run_as_script

SEATS = {"robot": 0}
FLUENTS = {"p": 0, "q": 1}
MOVES = {"a": 0, "b": 1}
PERCEPTS = {}
RELATIONS = {}


def table():
    game = TableBuilder(seats=1, fluents=2, moves=2)
    robot = SEATS["robot"]
    p, q = ("true", FLUENTS["p"]), ("true", FLUENTS["q"])
    next_p, next_q = ("next", FLUENTS["p"]), ("next", FLUENTS["q"])
    press_a, press_b = ("does", robot, MOVES["a"]), ("does", robot, MOVES["b"])
    game.clause(("role", robot))
    game.clause(("legal", robot, MOVES["a"]))
    game.clause(("legal", robot, MOVES["b"]))
    game.clause(next_p, press_a, ("not", p))
    game.clause(next_p, press_b, q)
    game.clause(next_q, press_a, q)
    game.clause(next_q, press_b, p)
    game.clause(("terminal",), p, q)
    game.clause(("goal", robot, 100), p, q)
    return game


if __name__ == "__main__":
    run_as_script(table())
