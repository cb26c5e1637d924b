"""The card game of source 003, Figure 1, with all variables filled in.

The last goal rule of the figure has bet(S, C, allIn) with beats(D, C), an
evident slip: here it is bet(S, D, allIn). Instances that ask for a succ that is
no fact, or for a card that beats itself, are left out; they could never fire.
"""

from itertools import product

from builder import TableBuilder, numbering, run_as_script

CARDS = ("7", "8", "9", "10", "jack", "queen", "king", "ace")
PLAYERS = ("jane", "rick")
BETS = ("allIn", "fold")
DEALS = [(c, d) for c, d in product(CARDS, CARDS) if c != d]

SEATS = numbering([*PLAYERS, "random"])
FLUENTS = numbering(
    ["dealingRound", "bettingRound"]
    + [f"hasCard({player},{card})" for player in PLAYERS for card in CARDS]
    + [f"bet({player},{card},{bet})"
       for player in PLAYERS for card in CARDS for bet in BETS])
MOVES = numbering(["noop", *BETS] + [f"deal({c},{d})" for c, d in DEALS])
PERCEPTS = numbering(
    [f"yourCard({card})" for card in CARDS]
    + [f"{player}sBid({bet})" for player in PLAYERS for bet in ("noop", *BETS)]
    + [f"{player}sCard({card})" for player in PLAYERS for card in CARDS])
RELATIONS = {"card": 0, "beats": 1, "succ": 2}

RANDOM = SEATS["random"]
SUCCESSIONS = list(zip(CARDS, CARDS[1:]))


def fluent(kind, name):
    return (kind, FLUENTS[name])


def act(kind, player, move):
    return (kind, SEATS[player], MOVES[move])


def sees(player, percept):
    return ("sees", SEATS[player], PERCEPTS[percept])


def card(c):
    return ("plain", RELATIONS["card"], CARDS.index(c))


def pair(relation, c, d):
    """beats(c, d) or succ(c, d); the serial counts the first card fastest."""
    return ("plain", RELATIONS[relation], CARDS.index(c) + len(CARDS) * CARDS.index(d))


def bet(player, c, move):
    return fluent("true", f"bet({player},{c},{move})")


def opponent(player):
    return "rick" if player == "jane" else "jane"


def add_opening(game):
    for seat in SEATS.values():
        game.clause(("role", seat))
    for c in CARDS:
        game.clause(card(c))
    for c, d in SUCCESSIONS:
        game.clause(pair("succ", c, d))
    game.clause(fluent("init", "dealingRound"))


def add_legality(game):
    dealing, betting = fluent("true", "dealingRound"), fluent("true", "bettingRound")
    for c, d in DEALS:
        game.clause(act("legal", "random", f"deal({c},{d})"), dealing, card(c), card(d))
    game.clause(act("legal", "random", "noop"), betting)
    for player in PLAYERS:
        role = ("role", SEATS[player])
        game.clause(act("legal", player, "noop"), dealing, role)
        game.clause(act("legal", player, "allIn"), betting, role)
        game.clause(act("legal", player, "fold"), betting, role)


def add_percepts(game):
    for c, d in DEALS:
        dealt = act("does", "random", f"deal({c},{d})")
        game.clause(sees("jane", f"yourCard({c})"), dealt)
        game.clause(sees("rick", f"yourCard({d})"), dealt)
    for player in PLAYERS:
        other = opponent(player)
        for move in ("noop", *BETS):
            game.clause(sees(player, f"{other}sBid({move})"), act("does", other, move),
                        fluent("true", "bettingRound"))
        for c in CARDS:
            game.clause(sees(player, f"{other}sCard({c})"), act("does", "jane", "allIn"),
                        act("does", "rick", "allIn"),
                        fluent("true", f"hasCard({other},{c})"))


def add_update(game):
    for c, d in DEALS:
        dealt = act("does", "random", f"deal({c},{d})")
        game.clause(fluent("next", f"hasCard(jane,{c})"), dealt)
        game.clause(fluent("next", f"hasCard(rick,{d})"), dealt)
    for player, c, move in product(PLAYERS, CARDS, BETS):
        game.clause(fluent("next", f"bet({player},{c},{move})"),
                    act("does", player, move), fluent("true", f"hasCard({player},{c})"))
    game.clause(fluent("next", "bettingRound"), fluent("true", "dealingRound"))


def add_end(game):
    game.clause(("terminal",), ("not", fluent("true", "dealingRound")),
                ("not", fluent("true", "bettingRound")))
    for r, s, c, d in product(PLAYERS, PLAYERS, CARDS, CARDS):
        seat = SEATS[r]
        if c != d:
            both_in = bet(r, c, "allIn"), bet(s, d, "allIn")
            game.clause(("goal", seat, 100), *both_in, pair("beats", c, d))
            game.clause(("goal", seat, 0), *both_in, pair("beats", d, c))
        game.clause(("goal", seat, 75), bet(r, c, "allIn"), bet(s, d, "fold"))
        game.clause(("goal", seat, 25), bet(r, c, "fold"), bet(s, d, "allIn"))
        if r != s:
            game.clause(("goal", seat, 50), bet(r, c, "fold"), bet(s, d, "fold"))


def add_beats(game):
    for d, c in SUCCESSIONS:
        game.clause(pair("beats", c, d), pair("succ", d, c))
    for (x, c), d in product(SUCCESSIONS, CARDS):
        if x != d:
            game.clause(pair("beats", c, d), pair("succ", x, c), pair("beats", x, d))


def table():
    game = TableBuilder(seats=len(SEATS), chance=RANDOM, fluents=len(FLUENTS),
                        moves=len(MOVES), percepts=len(PERCEPTS))
    add_opening(game)
    add_legality(game)
    add_percepts(game)
    add_update(game)
    add_end(game)
    add_beats(game)
    return game


if __name__ == "__main__":
    run_as_script(table())
