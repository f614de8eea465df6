"""The names that the new text of an edit has, and whether its file knows them.

It goes by names alone. It doesn't see a type that doesn't fit, a method or a field of another type, an item that is private to its
module or stands in another one than the path says, a local of another block of the same function, a value that was moved, or a proof
that names what the edit takes away: the prover tells those. Nor does it look at edits of definitions.
"""
import functools
import re

from mistakes.functions import around, code_of, functions_in

# What code may name without an import: keywords, primitives, the prelude, and std.
PLAIN = frozenset('''
    _ as break const continue crate else false fn for if impl in let loop match move mut ref return self Self static super true where while
    bool char i8 i16 i32 i64 i128 str u8 u16 u32 u64 u128 usize
    Box Err None Ok Option Result Some Vec drop matches std vec
'''.split())

# Calls and constants of std that wrong bodies have, though no code of their crate or of one below does. More go here as they come.
CALLED = frozenset('''
    MAX MIN insert is_ascii_alphabetic is_none len map map_or min or pop saturating_add saturating_sub truncate unwrap_or
'''.split())

# A name, with what stands before it (a `.`, a `::` or nothing) and after it.
NAMES = re.compile(r'(?:((?<!\.)\.|::)\s*)?\b([A-Za-z_]\w*)\b(?=\s*(::|\(|!(?!=)|:)?)', re.ASCII)
IMPORTS = re.compile(r'^ *(?:pub )?use ([^;]*);', re.MULTILINE)
IMPORTED = re.compile(r'(\w+)\s*(?=[,}]|$|::\{self)', re.ASCII)
# The patterns that bind names: of `let`, of `for`, of a closure, and of an arm.
PATTERNS = re.compile(r'''\blet\b([^=]*)=|\bfor\b(.*?)\bin\b|\|([^|]*)\|
    |((?:[^{}(),;]|\([^()]*(?:\([^()]*\)[^()]*)*\)|\{[^{}]*\}(?=\s*=>))*)=>''', re.VERBOSE)


def plain_names_in(code):
    """The names that stand elsewhere than at the end of a path."""
    return {name for before, name, _ in NAMES.findall(code) if not before}


def bound_in(code):
    """The names that a text binds itself."""
    return set(re.findall(r'\b[a-z_]\w*', ' '.join(map(' '.join, PATTERNS.findall(code)))))


@functools.cache
def names_of_file(text):
    """The names that a whole file knows: what it imports, and what stands in its code elsewhere than at the end of a path."""
    code = code_of(text)
    return plain_names_in(code).union(*map(IMPORTED.findall, IMPORTS.findall(code)))


@functools.cache
def words_of(tree, crate):
    """All words of a crate's code."""
    sources = (path for path in tree.files(f'crates/{crate}/src') if path.endswith('.rt'))
    return {word for path in sources for word in re.findall(r'\b[A-Za-z_]\w*', code_of(tree.text(path)))}


def is_known(tree, crate, text, function, found):
    """Whether a name of a new text is known where it comes in: after a `.` or `::`, and before the `:` of a field, as a word of the
    crate or of one below it; a local in the function there, if there is one; all else in the file."""
    before, name, after = found
    libraries = tree.libraries(crate)
    if before or after == ':':
        return name in CALLED or any(name in words_of(tree, part) for part in (crate, *libraries))
    if name in PLAIN:
        return True
    if re.match('[a-z_]', name) and not after:
        return name in (plain_names_in(code_of(text[function.start:function.end])) if function else names_of_file(text))
    return name in names_of_file(text) or name in libraries


def unknown_in(tree, edit):
    """The names in the new texts of an edit that nothing there stands for."""
    bound = set().union(*(bound_in(code_of(new)) for _, _, new in edit.changes))
    unknown = []
    for file, old, new in edit.changes:
        if file.endswith('.rt'):
            text = tree.text(f'crates/{edit.crate}/{file}')
            there = bound | {name for _, name, _ in NAMES.findall(code_of(old))}
            function = around(functions_in(text), text.find(old))
            names = [found for found in NAMES.findall(code_of(new)) if found[1] not in there]
            unknown += [found[0] + found[1] for found in names if not is_known(tree, edit.crate, text, function, found)]
    return unknown
