#!/usr/bin/env python3
"""A plain model of zones, and random steps on it.

Prints a line for each step: VERB X Y LOW HIGH DIGEST, with - for what a verb does not use. X and Y
are places of names, from 0 to 31; LOW and HIGH are numbers or any. DIGEST is that of the zone after
the step. The same seed gives the same lines.

    python3 model.py STEPS SEED
"""
import random
import sys

NAMES = range(32)
LIMIT = 10**15
ANY = None  # no bound


def clip(number):
    """What a zone keeps of a number: always the weaker side."""
    if number is ANY or number > LIMIT:
        return ANY
    return max(number, -LIMIT)


def plus(*numbers):
    """A sum; any plus a number is any."""
    return ANY if ANY in numbers else sum(numbers)


def minus(number):
    return ANY if number is ANY else -number


def lesser(a, b):
    return min((x for x in (a, b) if x is not ANY), default=ANY)


def greater(a, b):
    return ANY if ANY in (a, b) else max(a, b)


def rose(old, new):
    """Whether the new bound is greater, any being greater than each number."""
    return old is not ANY and (new is ANY or new > old)


def any_zone():
    return {(x, y): 0 if x == y else ANY for x in NAMES for y in NAMES}


def guard(zone, x, y, c):
    return {
        (p, q): clip(lesser(zone[p, q], plus(zone[p, x], c, zone[y, q])))
        for p, q in zone
    }


def replace(zone, x, row, column, corner):
    """The zone with another row and column of x, and another bound of x with itself."""
    new = dict(zone)
    for other in NAMES:
        if other != x:
            new[x, other] = row(other)
            new[other, x] = column(other)
    new[x, x] = corner
    return new


def assign(zone, x, y, c):
    return replace(
        zone,
        x,
        lambda q: clip(plus(zone[y, q], c)),
        lambda p: clip(plus(zone[p, y], -c)),
        0,
    )


def shift(zone, x, low, high):
    return replace(
        zone,
        x,
        lambda q: clip(plus(zone[x, q], high)),
        lambda p: clip(plus(zone[p, x], minus(low))),
        zone[x, x],
    )


def forget(zone, x):
    return replace(zone, x, lambda q: ANY, lambda p: ANY, 0)


def join(a, b):
    return {pair: greater(a[pair], b[pair]) for pair in a}


def widen(old, new):
    def widened(pair):
        if not rose(old[pair], new[pair]):
            return old[pair]
        return greater(0, new[pair]) if pair[0] == pair[1] else ANY

    return {pair: widened(pair) for pair in old}


def put(zone, x, y, number):
    return {**zone, (x, y): clip(number)}


def covers(weak, strong):
    return not any(rose(weak[pair], strong[pair]) for pair in weak)


def digest(zone):
    value = 0
    for x in NAMES:
        for y in NAMES:
            bound = zone[x, y]
            code = 2 * LIMIT + 1 if bound is ANY else bound + LIMIT
            value = (value * 9973 + code) % 1_000_000_000_000_037
    return value


def random_number(rng):
    """A number: mostly small, often at the clip, sometimes at the ends of 64 bits."""
    kind = rng.random()
    if kind < 0.6:
        return rng.randint(-9, 9)
    if kind < 0.9:
        return rng.choice((-2, -1, 1, 2)) * LIMIT + rng.randint(-3, 3)
    if kind < 0.95:
        return rng.randint(-LIMIT, LIMIT)
    return rng.choice((2**63 - 1, -(2**63)))


def random_side(rng):
    return ANY if rng.random() < 0.2 else random_number(rng)


def word(number):
    return "any" if number is ANY else str(number)


def random_zone(rng):
    """Lines that put bounds into a zone, so that its diagonal and its cycles may be anything."""
    zone = any_zone()
    yield zone, ("any", "-", "-", "-", "-")
    few = rng.sample(NAMES, rng.randint(2, 6))
    for _ in range(rng.randint(1, 12)):
        x, y, number = rng.choice(few), rng.choice(few), random_side(rng)
        zone = put(zone, x, y, number)
        yield zone, ("put", x, y, "-", word(number))


def random_step(rng, zone, kept):
    x, y = rng.choice(NAMES), rng.choice(NAMES)
    known = [pair for pair, bound in zone.items() if bound is not ANY and pair[0] != pair[1]]
    if known and rng.random() < 0.8:
        x, y = rng.choice(known)
    verb = rng.choice(("guard", "guard", "set", "set", "shift", "shift", "forget", "join", "widen", "cover"))
    if verb == "guard":
        c = random_number(rng)
        return guard(zone, x, y, c), (verb, x, y, "-", c)
    if verb == "set":
        c = random_number(rng)
        return assign(zone, x, y, c), (verb, x, y, "-", c)
    if verb == "shift":
        low, high = random_side(rng), random_side(rng)
        return shift(zone, x, low, high), (verb, x, "-", word(low), word(high))
    if verb == "forget":
        return forget(zone, x), (verb, x, "-", "-", "-")
    if verb == "join":
        return join(zone, kept), (verb, "-", "-", "-", "-")
    if verb == "widen":
        return widen(zone, kept), (verb, "-", "-", "-", "-")
    return (zone if covers(zone, kept) else any_zone()), (verb, "-", "-", "-", "-")


def lines(rng):
    kept = any_zone()
    while True:
        for zone, words in random_zone(rng):
            yield zone, words
        for _ in range(rng.randint(2, 10)):
            zone, words = random_step(rng, zone, kept)
            yield zone, words
            if rng.random() < 0.3:
                kept = zone
                yield zone, ("keep", "-", "-", "-", "-")


def main(steps, seed):
    made = lines(random.Random(seed))
    for _ in range(steps):
        zone, words = next(made)
        print(*words, digest(zone))


if __name__ == "__main__":
    main(int(sys.argv[1]), int(sys.argv[2]))
