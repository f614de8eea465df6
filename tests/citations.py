"""Which definitions of specs/ the clauses of a crate's public functions cite."""
import re
import sys
from pathlib import Path

# A file of definitions as a `use` names it, from its crate to its name, in folders or not; not what is declared in code.
FILE = r'(\w+)\.specs\.(?!declared\b)((?:[a-z]\w*\.)*[A-Z]\w*)'


def text_of(file):
    try:
        return Path(file).read_text(encoding='utf-8')
    except FileNotFoundError:
        return ''


def braced(text, at):
    """What stands between the brace at a place and the one that closes it."""
    depth = 0
    for brace in re.compile(r'[{}]').finditer(text, at):
        depth += 1 if brace[0] == '{' else -1
        if depth == 0:
            return text[at + 1:brace.start()]
    sys.exit("a brace isn't closed")


def clauses_at(text, at):
    """The clauses of the function whose name ends at a place, and whether its body is empty."""
    # An array's type has a semicolon.
    part = re.compile(r'\[[^\[\]]*\]|\b(?:requires|ensures)\b[^{]*|([{;])')
    clauses = ''
    while found := part.search(text, at):
        if found[1]:
            return clauses, found[1] == '{' and not braced(text, found.start()).strip()
        at = found.end()
        if not found[0].startswith('['):
            clause = braced(text, at)
            clauses += clause + '\n'
            at += 2 + len(clause)
    return clauses, False


def shows(crate):
    """What a library shows: the names that it exports, and its public modules. Of a program all `pub fn` count: None."""
    lib = without_comments(text_of(f'crates/{crate}/src/lib.rt'))
    if not lib:
        return None
    shown = {'lib', *re.findall(r'^pub mod (\w+);', lib, re.M)}
    for one, many in re.findall(r'^pub use [\w:]+?::(?:(\w+)|\{([^}]*)\});', lib, re.M):
        shown |= set(re.split(r'[\s,]+', one or many))
    return shown


def without_comments(text):
    return re.sub(r'^\s*//.*$', '', text, flags=re.M)


def public_functions(text, module, shown):
    """The public functions of a source file: (OWNER::NAME, its clauses, whether its body is empty)."""
    owner, is_trait, functions = '', False, []
    for found in re.finditer(r'^(?:pub )?(impl|trait)\b(.*)|^( *)(pub |)fn (\w+)', text, re.M):
        if found[1]:
            is_trait = found[1] == 'trait'
            name = re.search(r'(\w+)', found[2]) if is_trait else \
                re.match(r'(?:<.*?>)? (?:.* for )?&?(?:\w+::)*(\w+)', found[2])
            owner = name[1] if name else ''
            continue
        of = owner if found[3] else ''
        if not (found[4] or is_trait and of):
            continue
        if shown is None or module in shown or (of or found[5]) in shown:
            functions.append((f'{of}::{found[5]}' if of else found[5], *clauses_at(text, found.end())))
    return functions


def named_in(text):
    """The definitions that a source file names: (how a clause cites them, CRATE/FILE, the definition or '' for all)."""
    named = []
    for crate, name, names, alias in re.findall(r'ghost use Rattle\.' + FILE + r'(?:\.\{([^}]*)\}| as (\w+));', text):
        file = f'{crate}/{name.replace(".", "/")}'
        if alias:
            named.append((re.compile(rf'(?<![\w.-]){alias}\.'), file, ''))
            continue
        for definition in names.split(','):
            definition = re.sub(r'.* as |[\s◌]', '', definition)
            named.append((re.compile(rf'(?<![\w.-]){re.escape(definition)}(?![\w-])'), file, definition))
    return named


def citations_of(crate):
    """Which definitions the clauses of a crate's public functions cite: (source, function, is it a law, CRATE/FILE, definition)."""
    shown, citations = shows(crate), set()
    for source in sorted(Path(f'crates/{crate}/src').rglob('*.rt')):
        text = without_comments(text_of(source))
        named = named_in(text)
        module = source.relative_to(f'crates/{crate}/src').parts[0].removesuffix('.rt')
        for function, clauses, is_law in public_functions(text, module, shown):
            citations |= {(str(source), function, is_law, file, definition) for cites, file, definition in named if cites.search(clauses)}
    return sorted(citations)
