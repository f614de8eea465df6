"""Substitution on one line, as the standard says it, over the matches of ../patterns/reference.py.

Parts of a replacement are a byte or text as it is, a newline for a split, or a group's number with 0 for the match.
"""
import os
import sys

sys.path.append(os.path.join(os.path.dirname(os.path.abspath(__file__)), '../patterns'))
import reference


def taken(tree, line):
    """The matches from the left, an empty one not directly after one that isn't."""
    found, place, full_end = [], 0, None
    while place <= len(line):
        match = reference.Match(line).find(tree, place)
        if match is None:
            break
        start, (end, groups) = match
        if end > start:
            found.append((start, end, groups))
            place = full_end = end
        else:
            if start != full_end:
                found.append((start, end, groups))
            place = start + 1
    return found


def stands_for(part, line, match):
    if isinstance(part, str):
        return part
    span = match[:2] if part == 0 else match[2][part - 1]
    return '' if span is None else line[span[0]:span[1]]


def replaced(tree, parts, which, line):
    """The lines that come of a line, or None where nothing is replaced."""
    matches = taken(tree, line)
    picked = matches if which == 'g' else matches[which - 1:which]
    if not picked:
        return None
    result, place = '', 0
    for match in picked:
        result += line[place:match[0]] + ''.join(stands_for(part, line, match) for part in parts)
        place = match[1]
    return (result + line[place:]).split('\n')
