"""The public items of the crates, read from their sources: what `tools/api` and `tools/faces` go by."""
import pathlib
import re
import sys

ROOT = pathlib.Path(__file__).resolve().parent.parent
CRATES = ROOT / 'crates'
FACES = ['mysql_session', 'mysql_convert', 'mysql_values', 'mysql_packets', 'mysql_wire', 'mysql_buf', 'mysql_login',
         'mysql_connection', 'mysql_digests']


class Item:
    """A public item: its kind, its name, its comment, its signature, its contract, its file, and
    what is in it."""

    def __init__(self, kind, name, doc, signature, contract=(), path=None):
        self.kind, self.name, self.doc = kind, name, doc
        self.signature, self.contract, self.path = signature, contract, path
        self.parts = []

    def terms(self, word):
        """The terms of its clauses that begin with `requires` or `ensures`."""
        return [term for clause, term in self.contract if clause == word]


ITEM = re.compile(r'pub (?:const |extern "C" )?(fn|struct|enum|trait|const|type) (\w+)')
METHOD = re.compile(r'(?:pub |final )?(?:const )?(fn) (\w+)')
ASSOCIATED = re.compile(r'(?:pub )?(const|type) (\w+)')


def indent_of(line):
    return len(line) - len(line.lstrip(' '))


CLAUSE = re.compile(r'(requires|ensures|ghost)\b')


def signature_at(lines, at):
    """The signature that begins there, in one line, and the clauses behind it, each a word and its term."""
    parts, clauses = [], []
    for line in lines[at:]:
        text = line.strip()
        if CLAUSE.match(text):
            clauses.append([])
        if text in ('{', '{}') or text.startswith('//'):
            if text.startswith('//'):
                continue
            break
        (clauses[-1] if clauses else parts).append(text)
        if text.endswith('};' if clauses else ('{', '{}', ';')):
            break
    text = ' '.join(re.sub(r'\s*(\{\}?|;)$', '', part) for part in parts)
    text = re.sub(r',? where\b.*$', '', text)
    text = re.sub(r'([(<]) ', r'\1', text)
    text = re.sub(r',? ([)>])(?!=)', r'\1', re.sub(r' -> ', ' \0-> ', text)).replace('\0', '')
    return re.sub(r'^(pub|final) ', '', text), [clause_of(' '.join(clause)) for clause in clauses]


def clause_of(text):
    """A clause as its word and its term, without a name."""
    found = re.match(r'(\w+)[^{]*\{\s*(.*?)\s*\};?$', text)
    return (found.group(1), found.group(2)) if found else (text.split(' ', 1)[0], text)


def body_end(lines, at):
    """The line that closes what begins at a line."""
    start = indent_of(lines[at])
    while at < len(lines):
        text = lines[at]
        if indent_of(text) == start and re.match(r'\s*(\}|.*(;|\{\}|\{ .* \})\s*$)', text):
            return at
        at += 1
    return at - 1


def documented(lines, first, last, wanted):
    """The lines of so many that begin what is wanted, each with the comment above it."""
    doc = []
    for at in range(first, last):
        text = lines[at].strip()
        if text.startswith('///'):
            doc.append(text[3:].removeprefix(' ').rstrip())
        elif text.startswith('#['):
            pass
        else:
            found = wanted(lines[at])
            if found:
                yield at, found, doc
            doc = []


def fields_and_variants(lines, item, first):
    last = body_end(lines, first)
    if last == first:
        return
    pattern = r'    (\w+)(.*)$' if item.kind == 'enum' else r'    pub (\w+)(: .*)$'
    def wanted(line):
        return re.match(pattern, line) if not line.strip().startswith('ghost') else None
    for at, found, doc in documented(lines, first + 1, last, wanted):
        rest = re.sub(r'( = .*)?,$', '', found.group(2)).strip()
        if rest == '{':
            names = []
            for line in lines[at + 1:last]:
                if indent_of(line) == 4:
                    break
                field = re.match(r'\s+(\w+: .*?),?$', line)
                if field and not line.strip().startswith('//'):
                    names.append(field.group(1))
            rest = ' { ' + ', '.join(names) + ' }'
        item.parts.append(Item('part', found.group(1), doc, found.group(1) + rest))


def methods(lines, first, public, path):
    last = body_end(lines, first)
    def wanted(line):
        if indent_of(line) != 4 or (public and not line.startswith('    pub ')):
            return None
        return METHOD.match(line.strip()) or ASSOCIATED.match(line.strip())
    for at, found, doc in documented(lines, first + 1, last, wanted):
        yield Item(found.group(1), found.group(2), doc, *signature_at(lines, at), path)


def implemented(line):
    """The trait and the type of an impl's first line."""
    text, depth = line.removeprefix('impl'), 0
    if text.startswith('<'):
        for at, letter in enumerate(text):
            depth += (letter == '<') - (letter == '>')
            if not depth:
                text = text[at + 1:]
                break
    trait, _, owner = re.sub(r'( where .*)? \{$', '', text).strip().partition(' for ')
    return trait, owner


class Module:
    """A file: its public items, the names that it passes on, and its modules."""

    def __init__(self, path):
        self.items, self.uses, self.modules = {}, [], {}
        self.impls, self.trait_impls, self.path = [], [], path
        lines = path.read_text().split('\n')
        said = [line[4:].rstrip() for line in lines if line.startswith('//!')]
        ends = said.index('') if '' in said else len(said)
        self.doc, self.more = said[:ends], said[ends + 1:]
        folder = path.parent if path.name == 'lib.rt' else path.with_suffix('')
        for at, found, doc in documented(lines, 0, len(lines), lambda line: re.match(r'[a-z]\w*.*', line)):
            self.take(lines, at, lines[at], doc, folder)

    def take(self, lines, at, line, doc, folder):
        found = re.match(r'(pub )?mod (\w+);', line)
        if found and (folder / (found.group(2) + '.rt')).exists():
            self.modules[found.group(2)] = (bool(found.group(1)), Module(folder / (found.group(2) + '.rt')))
            return
        if line.startswith('pub use '):
            text = line
            while not text.endswith(';'):
                at += 1
                text += ' ' + lines[at].strip()
            self.uses += used_names(text[len('pub use '):-1])
            return
        found = ITEM.match(line)
        if found:
            item = Item(found.group(1), found.group(2), doc, *signature_at(lines, at), self.path)
            self.items[item.name] = item
            if item.kind in ('struct', 'enum'):
                fields_and_variants(lines, item, at)
            elif item.kind == 'trait':
                item.parts += methods(lines, at, False, self.path)
            return
        if line.startswith('pub '):
            sys.exit(f'{folder}: tools/sources.py doesn\'t read: {line}')
        found = re.match(r'impl(?:<.*?>)? (\w+)(?:<.*>)?(?: where .*)? \{$', line)
        if found and ' for ' not in line:
            self.impls.append((found.group(1), list(methods(lines, at, True, self.path))))
        elif line.startswith('impl') and line.endswith('{'):
            trait, owner = implemented(line)
            parts = [item for item in methods(lines, at, False, self.path) if item.kind != 'fn']
            self.trait_impls += [(trait, owner, parts)] if parts else []
        elif line.startswith('bitflag_items!'):
            end = body_end(lines, at)
            name = re.match(r'\s+impl (\w+)', lines[at + 1]).group(1)
            names = [re.match(r'\s+const (\w+)', text) for text in lines[at + 2:end]]
            flags = [Item('part', name.group(1), [], name.group(1)) for name in names if name]
            self.impls.append((name, flags))

    def all_impls(self):
        yield from self.impls
        for _, module in self.modules.values():
            yield from module.all_impls()

    def all_trait_impls(self):
        yield from self.trait_impls
        for _, module in self.modules.values():
            yield from module.all_trait_impls()

    def find(self, name):
        """The item of this name in the file or below it."""
        if name in self.items:
            return self.items[name]
        for _, module in self.modules.values():
            item = module.find(name)
            if item:
                return item
        return None


def used_names(text):
    """The pairs of a path and a name that a `use` brings in."""
    text = re.sub(r'\s+', ' ', text.strip())
    found = re.match(r'(.*)::\{(.*)\}$', text)
    if found:
        names = [name.strip() for name in found.group(2).split(',') if name.strip()]
        return [(found.group(1), *name_as(name)) for name in names]
    if '::' in text:
        path, name = text.rsplit('::', 1)
        return [(path, *name_as(name))]
    return [('', *name_as(text))]


def name_as(name):
    found = re.match(r'(\w+) as (\w+)$', name)
    return (found.group(1), found.group(2)) if found else (name, name)


LOADED = {}


def crate(name):
    if name not in LOADED:
        path = CRATES / name / 'src' / 'lib.rt'
        LOADED[name] = Module(path) if path.exists() else None
    return LOADED[name]


def resolve(owner, module, path, name):
    """The crate and the item that a name refers to, which a module of a crate passes on."""
    parts = [part for part in path.split('::') if part]
    if not parts:
        return name, None
    if parts[0] == 'crate':
        module, parts = crate(owner), parts[1:]
    elif parts[0] == 'self':
        parts = parts[1:]
    elif parts[0] not in module.modules:
        owner, module, parts = parts[0], crate(parts[0]), parts[1:]
        if not module:
            return owner, None
    for part in parts:
        if part in module.modules:
            module = module.modules[part][1]
    return look_in(owner, module, name)


def look_in(owner, module, name):
    if name in module.items:
        return owner, module.items[name]
    for path, used, shown in module.uses:
        if shown == name:
            return resolve(owner, module, path, used)
    if name in module.modules:
        return owner, module.modules[name][1]
    return owner, module.find(name)


def items_of(owner, module, path):
    """Each item that a module shows, by its path, and the modules that it passes on."""
    seen = []
    for name, item in module.items.items():
        seen.append((path + name, owner, item))
    for used_path, used, shown in module.uses:
        home, item = resolve(owner, module, used_path, used)
        if isinstance(item, Item):
            seen.append((path + shown, home, item))
        elif isinstance(item, Module):
            seen.append((path + shown, home, item))
        else:
            seen.append((path + shown, home, None))
    for name, (public, below) in module.modules.items():
        if public:
            seen.append((path + name, owner, below))
    return seen
