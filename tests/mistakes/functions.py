"""The functions of a source file, by the layout that `rt fmt` gives it: one begins with a line that has its head, and ends with the first
line that has its closing brace, as far in as its head is."""
import re
import typing

HEAD = re.compile(r'( *)(?:pub(?:\(\w+\))? )?(?:const |final |unsafe )*fn (\w+)')
IMPL = re.compile(r'impl(?:<.*?>)? (?:.* for )?&?(?:\w+::)*(\w+)')
STRING = r"""b?"(?:[^"\\]|\\.)*"|b?'(?:[^'\\]|\\[^u]|\\u\{\w+\})'"""
COMMENTS = re.compile(rf'({STRING})|[ ]*//[^\n]*', re.DOTALL | re.ASCII)
# Literals and lifetimes, and clauses and ghost items with all that stands further in than their first line.
NO_CODE = re.compile(rf"{STRING}|'\w+|\b\d\w*", re.DOTALL | re.ASCII)
NO_LINES = re.compile(r'^( *)(?:requires|ensures|ghost)\b.*(?:\n\1[ })].*)*', re.MULTILINE)


class Function(typing.NamedTuple):
    """A function: the type that it is of, if any, its name, and where it begins, its body begins, and it ends."""
    kind: typing.Optional[str]
    name: str
    start: int
    body: int
    end: int


def functions_in(text):
    """The functions of a source text. One that stands in another is part of that."""
    found, kind, head, at = [], None, None, 0
    for line in text.splitlines(keepends=True):
        begun, at = at, at + len(line)
        kind = (IMPL.match(line) or [None, kind])[1]
        new = HEAD.match(line)
        if new and (not head or len(new[1]) <= len(head[1])):
            head, start, body = new, begun, None
        if not head:
            continue
        indent = head[1]
        if body is None and line.endswith('{\n') and (begun == start or line.startswith((f'{indent}{{', f'{indent})'))):
            body = at
        if line in (f'{indent}}}\n', f'{indent}{{}}\n'):
            found.append(Function(kind if indent else None, head[2], start, body or at, at))
            head = None
    return found


def around(functions, at):
    """The function that holds a place, or None."""
    return next((function for function in functions if function.start <= at < function.end), None)


def without_comments(text):
    """The text without comments and the lines that they leave empty."""
    lines = COMMENTS.sub(lambda found: found[1] or '', text).split('\n')
    return '\n'.join(line for line in lines if line.strip())


def code_of(text):
    """The code of a text: without comments, literals, lifetimes, clauses and ghost items."""
    return NO_LINES.sub('', NO_CODE.sub(' ', without_comments(text)))


def outside(text):
    """What stands outside of the functions of a text."""
    parts, done = [], 0
    for function in functions_in(text):
        parts.append(text[done:function.start])
        done = function.end
    return ''.join([*parts, text[done:]])
