"""The images and the statement, written from documents 01 and 02 alone: an encoder of images, a join and the figures of a statement, in
a page of Python that shares nothing with the proved code."""
import struct

USERS, CREWS, COSTS, NONE = range(8), range(16), range(512), 255

# Of each version, the bytes of a crew: eight counters, and from version 2 on a rule; and of a cost: forty, and from version 3 on a day.
CREW = {1: 16, 2: 18, 3: 18}
COST = {1: 40, 2: 40, 3: 42}

# The version in force; 31 December 2099, counted from 1 January 2000; and what a cost without a day has in its place.
VERSION, LAST_DAY, UNDATED = 3, 36524, 65535

def costs_at(version):
    return 16 + 16 * CREW[version]

def size(version):
    return costs_at(version) + 512 * COST[version]

SIZE = size(VERSION)

def cost(payer, crew, shares, bits, version=0, deleted=0, day=0):
    return dict(payer=payer, crew=crew, deleted=deleted, bits=bits, version=version, shares=(list(shares) + [0] * 8)[:8], day=day)

def image(van=0, homes=tuple(USERS), crews={}, costs={}, rules={}, version=VERSION):
    """A present crew has rule 1 where no other is named, and a cost day 0. A version without rules or days drops them."""
    out = b"VAL" + struct.pack("<HB8B2x", version, van, *homes)
    for g in CREWS:
        counters = (list(crews.get(g, [])) + [0] * 8)[:8]
        out += struct.pack("<8H", *counters)
        if version > 1:
            out += struct.pack("<H", rules.get(g, 1) if any(counters) else 0)
    for c in COSTS:
        if c in costs:
            e = costs[c]
            out += struct.pack("<4BI8I", e["payer"], e["crew"], e["deleted"], sum(1 << u for u in e["bits"]), e["version"], *e["shares"])
            if version > 2:
                out += struct.pack("<H", e["day"])
        else:
            out += bytes([NONE]) + bytes(COST[version] - 1)
    assert len(out) == size(version)
    return out

def parts(b, version=VERSION):
    crews, rules, costs = {}, {}, {}
    for g in CREWS:
        crews[g] = list(struct.unpack_from("<8H", b, 16 + CREW[version] * g))
        rules[g] = struct.unpack_from("<H", b, 32 + CREW[version] * g)[0] if version > 1 else 0
    for c in COSTS:
        at = costs_at(version) + COST[version] * c
        p, g, d, a, v, *s = struct.unpack_from("<4BI8I", b, at)
        day = struct.unpack_from("<H", b, at + 40)[0] if version > 2 else UNDATED
        if p != NONE:
            costs[c] = cost(p, g, s, {u for u in USERS if a >> u & 1}, v, d, day)
    return list(b[6:14]), crews, rules, costs

def check(b):
    if len(b) != SIZE:
        return 1
    if b[:3] != b"VAL":
        return 2
    if b[3:5] != b"\3\0":
        return 3
    homes, crews, rules, costs = parts(b)
    if max(b[5:14]) > 7 or any(b[14:16]) or any(rules[g] not in ((1, 2) if any(crews[g]) else (0,)) for g in CREWS):
        return 4
    for c in COSTS:
        at = costs_at(VERSION) + COST[VERSION] * c
        if c not in costs:
            if any(b[at + 1:at + COST[VERSION]]):
                return 5
            continue
        e = costs[c]
        held = {u for u in USERS if e["shares"][u]}
        sound = e["payer"] < 8 and (e["crew"] < 16 or e["crew"] == NONE) and e["deleted"] < 2 and homes[e["payer"]] == c // 64
        sound = sound and 1 <= sum(e["shares"]) <= 10 ** 9 and e["bits"] <= held and (e["day"] <= LAST_DAY or e["day"] == UNDATED)
        if sound and e["crew"] == NONE:
            sound = e["bits"] <= {e["payer"]}
        elif sound:
            sound = all(crews[e["crew"]][u] for u in held | {e["payer"]})
        if not sound:
            return 5
    return 0

def join(own, other):
    """The answer, and own with the other joined into it."""
    if check(own):
        return check(own), own
    if check(other):
        return 40 + check(other), own
    (homes, crews, rules, costs), (theirs, more, named, others) = parts(own), parts(other)
    if homes != theirs:
        return 30, own
    if any(any(crews[g]) and any(more[g]) and rules[g] != named[g] for g in CREWS):
        return 31, own
    for c in costs.keys() & others.keys():
        e, f = costs[c], others[c]
        if e["version"] == f["version"] and any(e[k] != f[k] for k in ("payer", "crew", "deleted", "shares", "day")):
            return 31, own
    for c, f in others.items():
        e = costs.get(c)
        if e is None or e["version"] < f["version"]:
            costs[c] = f
        elif e["version"] == f["version"]:
            e["bits"] |= f["bits"]
    return 0, image(own[5], homes, {g: list(map(max, crews[g], more[g])) for g in CREWS}, costs, {g: rules[g] or named[g] for g in CREWS})

def counts(rule, share, bit):
    """Whether a positive share counts as acknowledged: by its bit, and in crews of rule 2 without one where it is 500 or fewer."""
    return bit or (rule == 2 and share <= 500)

def is_valid(e, g, rule):
    return e["crew"] == g and not e["deleted"] and all(counts(rule, e["shares"][u], u in e["bits"]) for u in USERS if e["shares"][u])

def shared_out(rule, gifts, members, weights):
    """The parts of the eight users, by the crew's rule."""
    part, total = [0] * 8, sum(weights[u] for u in members)
    if rule == 1 or total == 0:
        for i, u in enumerate(members):
            part[u] = gifts // len(members) + (i < gifts % len(members))
        return part
    for u in members:
        part[u] = gifts * weights[u] // total
    for u in sorted(members, key=lambda u: (-(gifts * weights[u] % total), u))[:gifts - sum(part)]:
        part[u] += 1
    return part

def statement(b):
    _, crews, rules, costs = parts(b)
    lines = [f"van {b[5]}"]
    for g in CREWS:
        counters = crews[g]
        if not any(counters):
            continue
        valid = [e for e in costs.values() if is_valid(e, g, rules[g])]
        raw = [sum(sum(e["shares"]) for e in valid if e["payer"] == u) - sum(e["shares"][u] for e in valid) for u in USERS]
        member = [n % 2 == 1 for n in counters]
        gift = [raw[u] if not member[u] and raw[u] > 0 else 0 for u in USERS]
        weights = [sum(1 for e in valid if e["shares"][u]) for u in USERS]
        part = shared_out(rules[g], sum(gift), [u for u in USERS if member[u]], weights)
        lines.append(f"crew {g} members {sum(member)} costs {len(valid)} gifts {sum(gift)}")
        for u in USERS:
            if counters[u]:
                lines.append(f"user {u} counter {counters[u]} raw {raw[u]} gift {gift[u]} part {part[u]} balance {raw[u] - gift[u] + part[u]}")
    return "".join(line + "\n" for line in lines)

def text(x):
    if len(x) == SIZE:
        return f"refused {check(x)}\n" if check(x) else statement(x)
    if len(x) == 2 * SIZE:
        answer, own = join(x[:SIZE], x[SIZE:])
        return f"refused {answer}\n" if answer else statement(own)
    return "refused 1\n"
