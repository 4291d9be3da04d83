"""The tables of docs/api/promises.md: what each call promises, by which definition."""
import re
import sys

from comments import Comment, named, plain
from sources import CRATES, ROOT, crate

# The faces in the order of the layers, each with what its table has: its own crate and those below it that no face
# before it has.
LAYERS = ['mysql_buf', 'mysql_wire', 'mysql_values', 'mysql_digests', 'mysql_convert', 'mysql_packets', 'mysql_session',
          'mysql_login', 'mysql_connection', 'mysql_c']
MANUAL = re.compile(r' ?\(?(Follows the |)(MySQL|MariaDB)(:| Reference| Client/| Source).*$')
DEFINITION = re.compile(
    r'^(?:(?:unfoldable|opaque|abbrev|data|record|pub|inductive|reducible) )+([^\s:({]+)', re.MULTILINE)


def needed():
    """Of each crate the crates of the repository that its line in crates.txt names."""
    lines = [line for line in (ROOT / 'crates.txt').read_text().split('\n') if line and not line.startswith('#')]
    names = {line.split(':')[0].split()[0]: line.split(':', 1)[1].split() for line in lines}
    return {name: [one for one in below if one in names] for name, below in names.items()}


NEEDED = needed()


def below(name):
    """The crates below a crate, and itself."""
    found, waiting = set(), [name]
    while waiting:
        one = waiting.pop()
        if one not in found:
            found.add(one)
            waiting += NEEDED[one]
    return found


def definitions():
    """The files of each name that is defined in specs."""
    found = {}
    for path in sorted(CRATES.glob('*/specs/**/*.antt')):
        for name in DEFINITION.findall(path.read_text()):
            found.setdefault(name, []).append(path)
    return found


DEFINITIONS = definitions()


def file_of(name, home):
    """The file that defines a name that a crate's promise names: its own, or of the highest of those below it."""
    order = list(NEEDED)
    found = {}
    for path in DEFINITIONS.get(name, []):
        found.setdefault(path.relative_to(CRATES).parts[0], []).append(path)
    chosen = [one for one in [home, *reversed(order)] if one in found and one in below(home)][:1]
    if not chosen or len(found[chosen[0]]) != 1:
        sys.exit(f'{home}: a promise names `{name}`, which {len(found[chosen[0]]) if chosen else 0} files define')
    return found[chosen[0]][0]


def link(name, path, home):
    """The link to a definition, with its file, and its crate where that is another one."""
    where = path.relative_to(CRATES)
    crate_of = '' if where.parts[0] == home else f' of {where.parts[0]}'
    return f'[`{name}`](../../crates/{where}) in {path.stem}{crate_of}'


def modules(module):
    yield module
    for _, (_, inner) in module.modules.items():
        yield from modules(inner)


def public_items(home):
    """Each public item of a crate, and each call, field and variant in it, with its name."""
    for module in modules(crate(home)):
        within = [(item.name, item.parts) for item in module.items.values()] + module.impls
        yield from module.items.items()
        for owner, parts in within:
            yield from ((f'{owner}::{part.name}', part) for part in parts)


def calls_of(home):
    """Each item and each call of a crate, by its name, that has a promise; and each theorem."""
    for module in modules(crate(home)):
        is_laws = module.path.stem.endswith('laws') or module.path.stem == 'fronts' or module.path.parent.name == 'laws'
        for item in module.items.values():
            yield item.name, item, is_laws and item.kind == 'fn'
            for part in item.parts:
                if part.kind == 'fn':
                    yield f'{item.name}::{part.name}', part, False
        for owner, parts in module.impls:
            for part in parts:
                if part.kind == 'fn':
                    yield f'{owner}::{part.name}', part, False


def statement(blocks):
    """A theorem's comment: its paragraphs, and the items of its lists with numbers."""
    number = 0
    for kind, text in blocks:
        number = number + 1 if kind == 'item' else 0
        if kind in ('item', 'text'):
            yield f'({number}) {text}' if number else text


def row(name, item, is_law, home):
    comment = Comment(item.doc)
    if comment.promise:
        said, names = named(comment.promise)
    elif is_law:
        said = MANUAL.sub('', ' '.join([comment.first, *statement(comment.blocks)])).rstrip('.')
        said = said[:1].lower() + said[1:] if not said[1:2].isupper() else said
        terms = ' '.join(item.terms('ensures'))
        names = [one for one in dict.fromkeys(re.findall(r'[A-Z]\w+', terms)) if one in DEFINITIONS]
        names = [one for one in names if len([path for path in DEFINITIONS[one] if home in path.parts]) == 1]
    else:
        return None
    files = ', '.join(link(one, file_of(one, home), home) for one in names)
    shown = f'law `{name}`' if is_law else f'`{name}`'
    files = files or f'[its contract](../../{item.path.relative_to(ROOT)})'
    return f'| {shown} | {plain(said).replace("|", chr(92) + "|")} | {files} |'


def tables():
    """A table for each layer: its calls with their promises, and its theorems."""
    lines, seen = [], set()
    for face in LAYERS:
        rows = []
        for home in NEEDED:
            if home in seen or home not in below(face) or crate(home) is None:
                continue
            seen.add(home)
            found = [row(*call, home) for call in calls_of(home)]
            found = [one for one in found if one]
            rows += [f'| **{home}** | | |', *found] if found else []
        if rows:
            lines += [f'## {face}', '', '| call | what it promises | definition |', '|---|---|---|', *rows, '']
    return lines
