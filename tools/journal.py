#!/usr/bin/env python3
"""Writes the costs of an image as a journal of the program `ledger` (https://ledger-cli.org), so that the two can be held side by side.

    tools/journal.py IMAGE > JOURNAL  the valid costs of an image of version 3, each one transaction
    tools/journal.py --full > IMAGE   an image full of valid costs: 512 of them, in sixteen crews

Of each cost its payer's account gets the amount, and each sharer's account gives its share, in whole cents: so `ledger -f JOURNAL balance`
has each user's raw in each crew, under accounts like Crew0:User3. Which costs are valid is worked out by ledger.py beside this file."""
import datetime, sys

sys.dont_write_bytecode = True  # no folder of its own in the repository
from ledger import COSTS, CREWS, NONE, UNDATED, USERS, check, cost, image, is_valid, parts

def date(day):
    """A cost without a day stands on the day before day 0, which no cost can have."""
    return datetime.date(2000, 1, 1) + datetime.timedelta(-1 if day == UNDATED else day)

def transaction(c, e):
    lines = [f"{date(e['day']):%Y/%m/%d} Cost {c}", posting(e, e["payer"], sum(e["shares"]))]
    lines += [posting(e, u, -e["shares"][u]) for u in USERS if e["shares"][u]]
    return "".join(line + "\n" for line in lines)

def posting(e, user, cents):
    return f"    Crew{e['crew']}:User{user}  {cents}"

def journal(b):
    _, _, rules, costs = parts(b)
    valid = {c: e for c, e in costs.items() if e["crew"] != NONE and is_valid(e, e["crew"], rules[e["crew"]])}
    return "\n".join(transaction(c, e) for c, e in valid.items())

def full():
    """Cost c is in crew c mod 16. Users 0 to 6 are members of each crew, user 7 has left it and only pays; of each three members two have
    a share, as in the full image of the benchmark, and everybody has acknowledged."""
    costs = {}
    for c in COSTS:
        held = {u: 100 + 10 * u + c % 7 for u in range(7) if (c + u) % 3 != 2}
        costs[c] = cost(c // 64, c % len(CREWS), [held.get(u, 0) for u in USERS], set(held), 1, day=(71 * c) % 36525)
    return image(0, crews={g: [1] * 7 + [2] for g in CREWS}, costs=costs)

def main():
    arguments = sys.argv[1:]
    if arguments == ["--full"]:
        sys.stdout.buffer.write(full())
    elif len(arguments) == 1 and not arguments[0].startswith("-"):
        with open(arguments[0], "rb") as held:
            b = held.read()
        if check(b):
            sys.exit(f"refused {check(b)}")
        sys.stdout.write(journal(b))
    else:
        sys.exit(__doc__)

main()
