"""A sealed tender: three bidders hand in bids, and the clerk alone reads them.

Round 0: each bidder bids. Round 1: the clerk, who has seen all bids, awards the
work to one bidder or to nobody. Then the game is over, whatever was bid.

No bid reaches another bidder. A bidder's goal hangs on the clerk's award, which
is a free move, and never on a bid; only the clerk's own goal looks at the bids,
since he is paid for choosing a lowest one.
"""

from itertools import product

from builder import TableBuilder, numbering, run_as_script

BIDDERS = ("ann", "bob", "cem")
PRICES = (10, 20, 30)

SEATS = numbering([*BIDDERS, "clerk"])
FLUENTS = numbering(
    ["bidding", "awarding"]
    + [f"bid({bidder},{price})" for bidder in BIDDERS for price in PRICES]
    + [f"awarded({bidder})" for bidder in BIDDERS])
MOVES = numbering([f"bid({price})" for price in PRICES]
                  + [f"award({bidder})" for bidder in BIDDERS]
                  + ["award nobody", "wait"])
PERCEPTS = numbering(
    [f"your bid {price} is taken" for price in PRICES]
    + [f"{bidder} bids {price}" for bidder in BIDDERS for price in PRICES]
    + [f"the work goes to {bidder}" for bidder in BIDDERS])
RELATIONS = {"undercut": 0}

CLERK = SEATS["clerk"]


def fluent(kind, name):
    return (kind, FLUENTS[name])


def act(kind, seat_name, move):
    return (kind, SEATS[seat_name], MOVES[move])


def sees(seat_name, percept):
    return ("sees", SEATS[seat_name], PERCEPTS[percept])


def undercut(bidder):
    """Somebody bid less than this bidder."""
    return ("plain", RELATIONS["undercut"], SEATS[bidder])


def add_opening(game):
    for seat in SEATS.values():
        game.clause(("role", seat))
    game.clause(fluent("init", "bidding"))


def add_bidding(game):
    bidding = fluent("true", "bidding")
    game.clause(act("legal", "clerk", "wait"), bidding)
    for bidder, price in product(BIDDERS, PRICES):
        does_bid = act("does", bidder, f"bid({price})")
        game.clause(act("legal", bidder, f"bid({price})"), bidding)
        game.clause(sees(bidder, f"your bid {price} is taken"), does_bid)
        game.clause(sees("clerk", f"{bidder} bids {price}"), does_bid)
        game.clause(fluent("next", f"bid({bidder},{price})"), does_bid)
        # The clerk's goal is paid after the award, so the bid must last till then.
        game.clause(fluent("next", f"bid({bidder},{price})"),
                    fluent("true", f"bid({bidder},{price})"))
    game.clause(fluent("next", "awarding"), bidding)


def add_award(game):
    awarding = fluent("true", "awarding")
    game.clause(act("legal", "clerk", "award nobody"), awarding)
    for bidder in BIDDERS:
        does_award = act("does", "clerk", f"award({bidder})")
        game.clause(act("legal", bidder, "wait"), awarding)
        game.clause(act("legal", "clerk", f"award({bidder})"), awarding)
        game.clause(fluent("next", f"awarded({bidder})"), does_award)
        for seat_name in SEATS:
            game.clause(sees(seat_name, f"the work goes to {bidder}"), does_award)


def add_end(game):
    game.clause(("terminal",), ("not", fluent("true", "bidding")),
                ("not", fluent("true", "awarding")))
    for bidder in BIDDERS:
        awarded = fluent("true", f"awarded({bidder})")
        game.clause(("goal", SEATS[bidder], 100), awarded)
        game.clause(("goal", SEATS[bidder], 0), ("not", awarded))
        game.clause(("goal", CLERK, 100), awarded, ("not", undercut(bidder)))
        game.clause(("goal", CLERK, 0), awarded, undercut(bidder))
    game.clause(("goal", CLERK, 20),
                *(("not", fluent("true", f"awarded({bidder})")) for bidder in BIDDERS))
    for high, low in product(BIDDERS, BIDDERS):
        for more, less in product(PRICES, PRICES):
            if high != low and less < more:
                game.clause(undercut(high), fluent("true", f"bid({high},{more})"),
                            fluent("true", f"bid({low},{less})"))


def table():
    game = TableBuilder(seats=len(SEATS), fluents=len(FLUENTS), moves=len(MOVES),
                        percepts=len(PERCEPTS))
    add_opening(game)
    add_bidding(game)
    add_award(game)
    add_end(game)
    return game


if __name__ == "__main__":
    run_as_script(table())
