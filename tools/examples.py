#!/usr/bin/env python3
"""Makes the example inputs of the program `statement` and what it must print for each.

    tools/examples.py              write stdin and stdout of the program statement, one example, and of edges_text, which has them all
    tools/examples.py --check      write nothing; exit status 1 where a file differs
    tools/examples.py --write DIR  write DIR/NAME.in and DIR/NAME.out for every example: an input and its text
    tools/examples.py --text       print the text of the input on standard input, as worked out here

What each input must give is worked out by ledger.py beside this file, from documents 01 and 02 alone. Run it at the top of the
repository."""
import os, re, struct, sys

sys.dont_write_bytecode = True  # no folder of its own in the repository
from ledger import COST, COSTS, CREW, CREWS, LAST_DAY, NONE, SIZE, UNDATED, USERS, VERSION, cost, costs_at, image, parts, size, text

def by_use(rule):
    """Eight crews under one rule. In crew g user 7, who has left, paid 100 or so for user 6, who has left too and so has a weight that
    counts for nobody; users 0 to 5 bought for themselves, one cost for each unit of a weight."""
    weights = [[1, 1, 1], [3, 2, 1], [0, 0, 0], [2, 1, 1], [1, 2], [4, 0, 1], [2], [2, 2, 1, 1, 1, 1]]
    gifts = [100, 100, 100, 102, 100, 99, 100, 101]
    crews, costs, free = {}, {}, {u: 64 * u for u in USERS}
    def add(payer, crew, shares, bits, deleted=0):
        costs[free[payer]] = cost(payer, crew, shares, bits, 1, deleted)
        free[payer] += 1
    for g, row in enumerate(weights):
        crews[g] = [1] * len(row) + [0] * (6 - len(row)) + [2, 2]
        add(7, g, [0] * 6 + [gifts[g]], {6})
        for u, weight in enumerate(row):
            for _ in range(weight):
                add(u, g, [0] * u + [u + 1], {u})
    # What counts for nobody: deleted, not acknowledged by all (501 must be, under either rule), in no crew. What counts once for each who
    # has a share, whoever paid.
    add(0, 0, [5], {0}, 1)
    add(0, 0, [5, 501], {0})
    add(0, NONE, [5], {0})
    add(1, 5, [10 ** 9 - 1, 0, 1], {0, 2})
    return image(0, crews=crews, costs=costs, rules={g: rule for g in CREWS})

def small():
    """The same four costs in crew 0 of rule 1 and in crew 1 of rule 2; user 3 has left both. The 501, 200, 500 and 401 are not
    acknowledged."""
    crews, costs = {}, {}
    for g in (0, 1):
        crews[g] = [1, 1, 1, 2]
        costs[g] = cost(0, g, [0, 501], set(), 1)
        costs[64 + g] = cost(1, g, [0, 300, 200], {1}, 1)
        costs[192 + g] = cost(3, g, [500, 401], set(), 1)
        costs[194 + g] = cost(3, g, [0, 0, 600], {2}, 1)
    return image(0, crews=crews, costs=costs, rules={1: 2})

def dated(day, version=1, shares=(300, 600), bits=(0, 1), van=0):
    """A crew of two with cost 0 of this day and one of day 31, as this van has it."""
    return image(van, crews={0: [1, 1]}, costs={0: cost(0, 0, shares, set(bits), version, day=day), 1: cost(0, 0, [0, 7], {1}, 1, day=31)})

def c1_in(version, day=0):
    """C1 as van 0 has it at the end, in an image of a version."""
    return image(0, crews={0: [2, 1]}, costs={0: cost(0, 0, [300, 600], {0, 1}, 1, day=day)}, version=version)

# C1 on 29 February 2000, and its two vans' images before van 0 joins van 1's.
C1 = c1_in(VERSION, 59)
OWN = image(0, crews={0: [1, 1]}, costs={0: cost(0, 0, [300, 600], {0}, 1, day=59)})
OTHER = image(1, crews={0: [1, 1]}, costs={0: cost(0, 0, [300, 600], {0, 1}, 1, day=59)})
assert text(C1) == """van 0
crew 0 members 1 costs 1 gifts 600
user 0 counter 2 raw 600 gift 600 part 0 balance 0
user 1 counter 1 raw -600 gift 0 part 600 balance 0
"""

def examples():
    """Name, input, and what there is to see."""
    yield from statements()
    yield from rules()
    yield from days()
    yield from lengths()

def statements():
    yield "one_image", C1, "C1 as van 0 has it at the end, its cost of 29 February 2000"
    yield "two_images", OWN + OTHER, "C1 before van 0 joins van 1's image"
    yield "join_refused", OWN + image(1, crews={0: [1, 1]}, costs={0: cost(0, 0, [300, 601], {0}, 1, day=59)}), "the other has version 1 of cost 0 with other shares"
    yield "no_crew", image(3), "an empty image"
    yield "several_crews", image(2, crews={0: [1, 3, 5, 2], 5: [0, 0, 1], 15: [9, 0, 0, 0, 0, 0, 0, 1]}, costs={
        0: cost(0, 0, [10, 20, 30], {0, 1, 2}, 4), 1: cost(0, 0, [0, 7], {1}, 2, 1), 2: cost(0, 0, [0, 7], set(), 1), 3: cost(0, NONE, [5], {0}),
        192: cost(3, 0, [50, 50], {0, 1}, 3), 128: cost(2, 5, [0, 0, 12], {2}, 1), 448: cost(7, 15, [1, 0, 0, 0, 0, 0, 0, 1], {0, 7}, 1), 511: cost(7, 15, [33], {0}, 1)}), (
        "crews 0, 5 and 15; costs that are valid, deleted, not acknowledged, in no crew; gifts of 100 for three members")
    yield "nobody_left", image(0, crews={1: [2, 4]}, costs={0: cost(0, 1, [250, 750], {0, 1}, 1)}), "all have left; what user 0 is owed is a gift that nobody gets"
    yield "negative", image(4, crews={3: [1, 1, 2, 0, 0, 0, 0, 1]}, costs={0: cost(0, 3, [0, 1], {1}, 1), 64: cost(1, 3, [999, 0, 5], {0, 2}, 2), 65: cost(1, 3, [0, 0, 0, 0, 0, 0, 0, 10], {7}, 1)}), (
        "raw balances below zero")
    yield "largest", image(7, crews={15: [65535] * 8}, costs={c: cost(c // 64, 15, [0] * 7 + [10 ** 9], {7}, 4294967295) for c in COSTS}), (
        "512 costs of 1,000,000,000, all held by user 7, and every counter and version at its last")

def rules():
    yield "by_use", by_use(2), "eight crews of rule 2, weights 1 1 1; 3 2 1; 0 0 0; 2 1 1; 1 2; 5 0 2; 2; 2 2 1 1 1 1"
    yield "equally", by_use(1), "the same crews under rule 1"
    left, gift = [1, 1, 0, 0, 0, 0, 2, 2], [0] * 6 + [100]
    yield "rules_joined", image(0, crews={0: [1, 1], 1: left}, rules={0: 2, 1: 2}, costs={0: cost(0, 1, [5], {0}, 1), 448: cost(7, 1, gift, {6}, 1)}) + image(
        1, crews={0: [1, 2], 2: left, 3: left}, rules={0: 2, 3: 2}, costs={
            1: cost(0, 2, [5], {0}, 1), 2: cost(0, 3, [5], {0}, 1), 449: cost(7, 2, gift, {6}, 1), 450: cost(7, 3, gift, {6}, 1)}), (
        "crew 0 on both sides under rule 2; on one side crews 1 and 3 under rule 2 and crew 2 under rule 1, each with gifts of 100")
    yield "rules_unlike", OWN + image(1, crews={0: [1, 1]}, rules={0: 2}), "crew 0 has rule 1 on one side and rule 2 on the other"
    yield "small", small(), "the same four costs in crew 0 of rule 1, where one is valid, and in crew 1 of rule 2, where all are but the one with 501"
    yield "small_joined", image(1, crews={0: [1, 1, 1]}, rules={0: 2}, costs={
        0: cost(0, 0, [0, 500, 501], {1}, 1), 1: cost(0, 0, [0, 500], {1}, 1), 2: cost(0, 0, [0, 0, 400], set(), 1)}) + image(
        0, crews={0: [1, 1, 1]}, rules={0: 2}, costs={
            0: cost(0, 0, [0, 500, 501], {2}, 1), 1: cost(0, 0, [0, 501], set(), 2), 2: cost(0, 0, [0, 0, 400], {2}, 1)}), (
        "a crew of rule 2: cost 0 is valid once the bit of its 501 has come; cost 1 comes in a higher version, with 501 and no bit; cost 2 is valid on both sides")
    yield "no_such_rule", image(0, crews={0: [1]}, rules={0: 3}), "crew 0 has rule 3"
    yield "no_rule", image(0, crews={15: [0] * 7 + [2]}, rules={15: 0}), "crew 15 is present and has rule 0"
    yield "rule_of_none", C1[:50] + b"\1" + C1[51:], "crew 1 is absent and has rule 1"

def days():
    yield "days", image(0, crews={0: [1, 1, 1]}, costs={
        0: cost(0, 0, [0, 10], {1}, 1), 1: cost(0, 0, [0, 20], {1}, 1, day=LAST_DAY), 63: cost(0, 0, [0, 40], {1}, 1, day=UNDATED),
        64: cost(1, 0, [0, 0, 80], {2}, 1, day=256), 127: cost(1, 0, [0, 0, 160], {2}, 1, day=255)}), (
        "a statement has costs of any day, undated ones too: days 0, 36,524, 65,535, 256 and 255")
    yield "raised", c1_in(VERSION, UNDATED), "C1 raised from an older version: its cost is undated"
    yield "days_joined", dated(UNDATED) + dated(UNDATED, bits=(1,), van=1), "cost 0 is undated on both sides, cost 1 has day 31"
    yield "day_of_higher", dated(0, bits=(0,)) + dated(LAST_DAY, 2, bits=(0,), van=1), "a higher version of cost 0 is taken over with its day"
    yield "day_of_lower", dated(59, 3) + dated(UNDATED, 2, (301, 600), (), 1), "a lower one isn't, whatever its day is"
    yield "days_unlike", dated(0) + dated(1, van=1), "cost 0 has the same version with day 0 and with day 1"
    yield "day_against_none", dated(UNDATED) + dated(LAST_DAY, van=1), "cost 0 has the same version undated and with day 36,524"
    yield "no_such_day", dated(LAST_DAY + 1), "cost 0 has day 36,525"
    yield "no_such_day_either", dated(UNDATED - 1), "cost 0 has day 65,534"
    yield "no_such_day_joined", dated(0) + dated(LAST_DAY + 1, 2, van=1), "the other's cost 0 has day 36,525"
    yield "day_of_none", image(0)[:-2] + b"\1\0", "cost 511 is absent and has day 1"
    yield "undated_none", image(0)[:344] + b"\377\377" + image(0)[346:], "cost 0 is absent and has 65,535 in the place of a day"

def lengths():
    """And the older versions, by number and by length."""
    yield "number_1", C1[:3] + b"\1" + C1[4:], "C1 with the number of version 1"
    yield "number_2", C1[:3] + b"\2" + C1[4:], "C1 with the number of version 2"
    yield "bytes_0", b"", "no input"
    yield "bytes_20752", c1_in(1), "C1 in version 1, which is to be raised first"
    yield "bytes_20784", c1_in(2), "C1 in version 2, which is to be raised first"
    yield "bytes_21807", C1[:-1], "C1 without its last byte"
    yield "bytes_21809", C1 + b"\0", "C1 and a byte"
    yield "bytes_41504", (OWN + OTHER)[:2 * size(1)], "as many bytes as two images of version 1 have"
    yield "bytes_41568", (OWN + OTHER)[:2 * size(2)], "as many bytes as two images of version 2 have"
    yield "bytes_42592", (OWN + OTHER)[:size(2) + SIZE], "as many bytes as an image of version 2 and one of version 3 have"
    yield "bytes_43615", (OWN + OTHER)[:-1], "two images without the last byte"
    yield "bytes_43616", C1 + C1, "C1 and a copy of itself"
    yield "bytes_43617", OWN + OTHER + b"\0", "two images and a byte"

class Script:
    """What edges_text reads and must write. Each line is played on a buffer here as edges_text plays it, so what it must write is the
    text, worked out here, of the bytes that the lines build; and these are held to the example's input."""
    HEAD = """\
# The example inputs, each built by steps, and the text of each. tools/examples.py makes this file. The steps:
# empty VAN, the image of this van with no crew and no cost, user u at home on van u, and the answer
# members of crew G: the eight counters of a crew, and its rule
# costs A to B: the fields of every cost from A to B; crew 255 is none; day 65535 is undated, and day 0 where none is named
# a capital letter means the second image, which stands behind the first; v1 and v2 mean an image of version 1 or 2, which has no days
# byte AT VALUE, wherever it stands
# text of N bytes: how long the text of the first N bytes is, and the text"""

    def __init__(self):
        self.buffer, self.stdin, self.stdout = bytearray(2 * SIZE + 1), "", ""
        for line in self.HEAD.split("\n"):
            self.line(line)
        for name, x, remark in examples():
            self.line(f"# {name}: {remark}")
            self.build(x)
            assert self.buffer[:len(x)] == x, name
            self.line(f"text of {len(x)} bytes")

    def line(self, line):
        version, words = (int(line[1]), line[3:]) if line.startswith("v") else (VERSION, line)
        n = [int(k) for k in re.findall("[0-9]+", words.split("#")[0])]
        base, seen, letter = (SIZE if words[:1].isupper() else 0), "", words[:1].lower()
        if letter == "e":
            self.buffer[base:base + size(version)] = image(n[0], version=version)
            seen = " -> 0" if version == VERSION else ""
        elif letter == "m":
            struct.pack_into(f"<{len(n) - 1}H", self.buffer, base + 16 + CREW[version] * n[0], *n[1:])
        elif letter == "c":
            for c in range(n[0], n[1] + 1):
                at = base + costs_at(version) + COST[version] * c
                struct.pack_into("<4BI8I", self.buffer, at, *n[2:15])
                if version > 2:
                    struct.pack_into("<H", self.buffer, at + 40, *(n[15:] or [0]))
        elif letter == "b":
            self.buffer[n[0]] = n[1]
        elif letter == "t":
            t = text(bytes(self.buffer[:n[0]]))
            seen = f" -> bytes {len(t)}\n{t}"
        self.stdin += line + "\n"
        self.stdout += line + seen + "\n"

    def build(self, x):
        older = {size(v): v for v in range(1, VERSION)}
        if len(x) in older:
            self.image(f"v{older[len(x)]} {{}}".format, x, older[len(x)])
        else:
            for base, cased in ((0, str.lower), (SIZE, str.capitalize)):
                if x[base:].startswith(b"VAL"):
                    self.image(cased, x[base:base + SIZE].ljust(SIZE, b"\0"), VERSION)
        for at, value in enumerate(x):
            if self.buffer[at] != value:
                self.line(f"byte {at} {value}")

    def image(self, cased, b, version):
        _, crews, rules, costs = parts(b, version)
        self.line(cased(f"empty {b[5]}"))
        for g, counters in crews.items():
            if any(counters):
                self.line(cased(f"members of crew {g}: {numbers(counters)}" + (f" rule {rules[g]}" if version > 1 else "")))
        a = 0
        while a < len(COSTS):
            last = a
            while a in costs and costs.get(last + 1) == costs[a]:
                last += 1
            if a in costs:
                e = costs[a]
                bits = sum(1 << u for u in e["bits"])
                day = f" day {e['day']}" if version > 2 and e["day"] else ""
                self.line(cased(f"costs {a} to {last}: payer {e['payer']} crew {e['crew']} deleted {e['deleted']} bits {bits} version {e['version']} shares {numbers(e['shares'])}{day}"))
            a = last + 1

def numbers(row):
    return " ".join(map(str, row))

def files():
    """Every file of the repository that is made here, and what it holds."""
    one = next(x for name, x, _ in examples() if name == "one_image")
    script = Script()
    for crate, stdin, stdout in (
        ("statement", one, text(one).encode()),
        ("edges_text", script.stdin.encode(), script.stdout.encode()),
    ):
        yield os.path.join("crates", crate, "stdin"), stdin
        yield os.path.join("crates", crate, "stdout"), stdout

def write(path, content):
    os.makedirs(os.path.dirname(path), exist_ok=True)
    with open(path, "wb") as out:
        out.write(content)

def differs(path, content):
    if not os.path.isfile(path):
        return True
    with open(path, "rb") as held:
        return held.read() != content

def main():
    arguments = sys.argv[1:]
    if arguments == []:
        for path, content in files():
            write(path, content)
    elif arguments == ["--check"]:
        bad = [path for path, content in files() if differs(path, content)]
        for path in bad:
            print("differs:", path)
        sys.exit(1 if bad else 0)
    elif len(arguments) == 2 and arguments[0] == "--write":
        for name, x, _ in examples():
            write(os.path.join(arguments[1], name + ".in"), x)
            write(os.path.join(arguments[1], name + ".out"), text(x).encode())
    elif arguments == ["--text"]:
        sys.stdout.write(text(sys.stdin.buffer.read()))
    else:
        sys.exit(__doc__)

main()
