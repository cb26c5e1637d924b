"""A sealed-bid auction: the highest bid wins, and everybody hears the result.

Round 0: each bidder bids. Round 1: all wait for the hammer, and the play of this
round tells everyone who wins at what price. Of equal bids the lowest seat's wins.

No message shows a bid before the end. Yet the result and the goals hang on the
bids, and reach takes all rounds together: so no bid counts as hidden.
"""

from itertools import product

from builder import TableBuilder, numbering, run_as_script

BIDDERS = ("ann", "bob", "cem")
PRICES = (0, 10, 20, 30)

SEATS = numbering(BIDDERS)
FLUENTS = numbering(
    ["bidding", "hammer"]
    + [f"bid({bidder},{price})" for bidder in BIDDERS for price in PRICES])
MOVES = numbering([f"bid({price})" for price in PRICES] + ["wait"])
PERCEPTS = numbering([f"{bidder} wins at {price}"
                      for bidder in BIDDERS for price in PRICES])
RELATIONS = {"outbid": 0}


def fluent(kind, name):
    return (kind, FLUENTS[name])


def act(kind, bidder, move):
    return (kind, SEATS[bidder], MOVES[move])


def has_bid(bidder, price):
    return fluent("true", f"bid({bidder},{price})")


def outbid(bidder):
    return ("plain", RELATIONS["outbid"], SEATS[bidder])


def add_opening(game):
    for seat in SEATS.values():
        game.clause(("role", seat))
    game.clause(fluent("init", "bidding"))


def add_rounds(game):
    bidding, hammer = fluent("true", "bidding"), fluent("true", "hammer")
    for bidder in BIDDERS:
        game.clause(act("legal", bidder, "wait"), hammer)
        for price in PRICES:
            game.clause(act("legal", bidder, f"bid({price})"), bidding)
            game.clause(fluent("next", f"bid({bidder},{price})"),
                        act("does", bidder, f"bid({price})"))
            game.clause(fluent("next", f"bid({bidder},{price})"), has_bid(bidder, price))
    game.clause(fluent("next", "hammer"), bidding)


def add_outbid(game):
    for loser, winner in product(BIDDERS, BIDDERS):
        first_of_equals = SEATS[winner] < SEATS[loser]
        for less, more in product(PRICES, PRICES):
            if winner != loser and (less < more or less == more and first_of_equals):
                game.clause(outbid(loser), has_bid(loser, less), has_bid(winner, more))


def add_result(game):
    hammer = fluent("true", "hammer")
    for listener, bidder, price in product(BIDDERS, BIDDERS, PRICES):
        percept = PERCEPTS[f"{bidder} wins at {price}"]
        game.clause(("sees", SEATS[listener], percept), hammer, has_bid(bidder, price),
                    ("not", outbid(bidder)))
    game.clause(("terminal",), ("not", fluent("true", "bidding")), ("not", hammer))
    for bidder, seat in SEATS.items():
        game.clause(("goal", seat, 0), outbid(bidder))
        for price in PRICES:
            # The thing is worth 100 to everyone; the winner keeps the difference.
            game.clause(("goal", seat, 100 - price), has_bid(bidder, price),
                        ("not", outbid(bidder)))


def table():
    game = TableBuilder(seats=len(SEATS), fluents=len(FLUENTS), moves=len(MOVES),
                        percepts=len(PERCEPTS))
    add_opening(game)
    add_rounds(game)
    add_outbid(game)
    add_result(game)
    return game


if __name__ == "__main__":
    run_as_script(table())
