"""The definition of a match, written once more: all ways of a part of a pattern, in their order, and the match among them.

A pattern is a tree of tuples: ('sequence', items), ('set', negated, bytes), ('text start',), ('text end',),
('group', number, content), ('repeat', least, most, content) with None for no most, ('reference', number). Numbers of groups
count from 0. A way is where it ends, and the groups there: nine spans, or None where a group is not set.

Nothing here looks ahead, keeps what it found or stops early, so that it can be compared with the words of the definition.
Ways are counted, and TooSlow is raised where they are more than LIMIT.
"""

LIMIT = 20_000
NO_GROUPS = (None,) * 9


class TooSlow(Exception):
    pass


class Match:
    """The ways of the parts of a pattern in one text."""

    def __init__(self, text):
        self.text = text
        self.made = 0

    def counted(self, ways):
        self.made += len(ways)
        if self.made > LIMIT:
            raise TooSlow
        return ways

    def ways(self, part, place, groups):
        return self.counted(getattr(self, part[0].replace(' ', '_'))(part, place, groups))

    def sequence(self, part, place, groups):
        return self.items(part[1], place, groups)

    def items(self, items, place, groups):
        if not items:
            return [(place, groups)]
        firsts = by_end(self.ways(items[0], place, groups))
        return self.counted([way for first in firsts for way in self.items(items[1:], *first)])

    def set(self, part, place, groups):
        _, negated, members = part
        taken = place < len(self.text) and (self.text[place] in members) != negated
        return [(place + 1, groups)] if taken else []

    def text_start(self, part, place, groups):
        return [(place, groups)] if place == 0 else []

    def text_end(self, part, place, groups):
        return [(place, groups)] if place == len(self.text) else []

    def reference(self, part, place, groups):
        span = groups[part[1]]
        if span is None:
            return []
        word = self.text[span[0]:span[1]]
        return [(place + len(word), groups)] if self.text.startswith(word, place) else []

    def group(self, part, place, groups):
        _, number, content = part
        return [(end, with_group(inner, number, (place, end))) for end, inner in self.ways(content, place, groups)]

    def repeat(self, part, place, groups):
        return self.turns(part, 0, place, groups)

    def turns(self, part, done, place, groups):
        """The ways of a repeat with so many turns done: those with a next turn, and the one that stops here."""
        _, least, most, content = part
        found = []
        if most is None or done < most:
            for end, inner in by_end(self.ways(content, place, cleared(content, groups))):
                if end == place and done >= least:
                    # An idle turn counts only as the first, and ends the repeat.
                    if done == 0:
                        found.append((end, inner))
                else:
                    found += self.turns(part, done + 1, end, inner)
        if done >= least:
            found.append((place, groups))
        return by_end(self.counted(found))

    def find(self, tree, start):
        """Of the starts from there on the first that has a way, and of its ways the first of those that end last."""
        for place in range(start, len(self.text) + 1):
            ways = by_end(self.ways(tree, place, NO_GROUPS))
            if ways:
                return place, ways[0]
        return None


def by_end(ways):
    """By falling end, ties in their own order."""
    return sorted(ways, key=lambda way: -way[0])


def with_group(groups, number, span):
    return groups[:number] + (span,) + groups[number + 1:] if number < 9 else groups


def cleared(part, groups):
    """The groups, with those inside a part unset."""
    if part[0] == 'sequence':
        for item in part[1]:
            groups = cleared(item, groups)
    elif part[0] == 'group':
        groups = with_group(cleared(part[2], groups), part[1], None)
    elif part[0] == 'repeat':
        groups = cleared(part[3], groups)
    return groups


def refers(part):
    """A back-reference stands in the part."""
    if part[0] == 'sequence':
        return any(refers(item) for item in part[1])
    return part[0] == 'reference' or part[0] in ('group', 'repeat') and refers(part[-1])


def spelled(part):
    """The bytes that spell the part."""
    kind = part[0]
    if kind == 'sequence':
        return ''.join(spelled(item) for item in part[1])
    if kind == 'set':
        _, negated, members = part
        if not members:
            return '.'
        return members if len(members) == 1 and not negated else f"[{'^' * negated}{members}]"
    if kind == 'group':
        return rf'\({spelled(part[2])}\)'
    if kind == 'repeat':
        return spelled(part[3]) + interval(part[1], part[2])
    return {'text start': '^', 'text end': '$'}[kind] if kind != 'reference' else f'\\{part[1] + 1}'


def interval(least, most):
    if most is None:
        return '*' if least == 0 else rf'\{{{least},\}}'
    return rf'\{{{least}\}}' if least == most else rf'\{{{least},{most}\}}'
