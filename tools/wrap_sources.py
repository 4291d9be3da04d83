"""Breaks long lines of sources, definitions and proofs: the half of `tools/wrap` that reads `.rt` and `.antt`."""
import re
import textwrap

MOST = 120   # a longer line is broken
WIDTH = 100  # at which its parts end
LEAST = 24   # so much of a line stays before its break
OPEN, CLOSE = '([{', ')]}'
CONNECTS = ('→', '×', '⊎', '++', '∷', '≡', '=', '∙', '&&', '||', 'in')
# Behind these words a line doesn't end, and these don't begin one.
HOLDS = ('λ', 'let', 'if', 'of', 'ensures', 'requires', 'elim', 'as', '↦', '|')
LEANS = CONNECTS + ('{', '|', '↦')


def indent_of(line):
    return len(line) - len(line.lstrip(' '))


def blanks(line):
    """The blanks outside of quotes, each with the number of brackets that are open there."""
    depth, at, found = 0, 0, []
    for piece in re.findall(r'"(?:\\.|[^"\\])*"?|[^"]', line):
        if piece == ' ':
            found.append((at, depth))
        depth += (piece in OPEN) - (piece in CLOSE)
        at += len(piece)
    return found


def weight(line, at, depth):
    """How bad a break at a blank is: outside of brackets, behind a comma and far to the right is best."""
    before, after = line[:at].rsplit(' ', 1)[-1], line[at + 1:].split(' ', 1)[0]
    bad = depth * 12 - at / 9
    if before in CONNECTS or before.endswith(','):
        bad -= 14
    if before in HOLDS:
        bad += 40
    if before in ('{', '(', ':'):
        bad += 30
    if after in LEANS:
        bad += 15
    return bad


def cut(line):
    """A clause or a definition, cut at blanks; what goes on is four columns further in."""
    indent, out = indent_of(line) + 4, []
    while len(line) > WIDTH:
        places = [(at, depth) for at, depth in blanks(line) if at > indent_of(line)]
        places = [place for place in places if indent_of(line) + LEAST < place[0] <= WIDTH] or places[:1]
        if not places:
            break
        at = min(places, key=lambda place: weight(line, *place))[0]
        out.append(line[:at].rstrip())
        line = ' ' * indent + line[at + 1:].lstrip(' ')
    return out + [line]


def cut_literal(line):
    """A text or a byte string: a backslash at a line's end skips the blanks of the next."""
    indent, out = indent_of(line), []
    start = line.find('"') + 1
    while len(line) > MOST:
        at, good = start, None
        for piece in re.findall(r'\\x..|\\.|[^\\]', line[start:]):
            at += len(piece)
            if at >= WIDTH:
                break
            if line[at:at + 1] not in (' ', '"'):
                good = at
        if good is None:
            break
        out.append(line[:good] + '\\')
        start, line = indent, ' ' * indent + line[good:]
    return out + [line]


def cut_use(line):
    """An import, as several of the same module; one that is long by one name has it in its own
    line."""
    found = re.match(r'( *[^{]*)\{(.*)\}(;?)$', line)
    if not found:
        return [line]
    head, names, end = found.groups()
    parts = []
    for name in re.findall(r'(?:[^,{}]|\{[^{}]*\})+', names):
        longer = f'{parts[-1]}, {name.strip()}' if parts else ''
        if longer and len(f'{head}{{{longer}}}{end}') <= MOST:
            parts[-1] = longer
        else:
            parts.append(name.strip())
    margin = ' ' * indent_of(line)
    out = []
    for part in parts:
        whole = f'{head}{{{part}}}{end}'
        out += [whole] if len(whole) <= MOST else [head + '{', f'{margin}  {part},', margin + '}' + end]
    return out


def cut_code(line, rust):
    if re.match(r' *(pub |ghost |unfoldable )*use ', line):
        return cut_use(line)
    if rust and re.search(r'"[^"]{60,}', line):
        return cut_literal(line)
    return cut(line)


def mark_of(line, rust):
    """What a comment begins with, with its indent, or none: a comment at a line's end has none."""
    found = re.match(r' *(///|//!|//) ?' if rust else r' *-- ?', line)
    return found.group(0) if found else None


ITEM = re.compile(r'[-*] |\d+\. ')


def is_text(text):
    """Whether a line of a comment is one of a paragraph: not empty, no item, no heading, no table, no code."""
    return not re.match(r'$| {3}|[-*] |\d+\. |[#|>/!]|```', text)


def paragraph(lines, mark):
    """How many lines a paragraph or an item of a comment has: what is neither is a line by itself."""
    texts = [line[len(mark):] if line.startswith(mark) else '' for line in lines]
    item = ITEM.match(texts[0])
    hang = ' ' * len(item.group(0)) if item else ''
    last = 1
    if item or is_text(texts[0]):
        while last < len(lines) and texts[last].startswith(hang) and is_text(texts[last][len(hang):]):
            last += 1
    return last


def filled(lines, mark):
    """A paragraph or an item of a comment, filled anew."""
    texts = [line[len(mark):].strip() for line in lines]
    item = ITEM.match(texts[0])
    if not item and not is_text(lines[0][len(mark):]):
        return lines
    hang = ' ' * len(item.group(0)) if item else ''
    return textwrap.wrap(' '.join(texts), WIDTH, initial_indent=mark, subsequent_indent=mark + hang,
                         break_long_words=False, break_on_hyphens=False)


# An import of one name has no place to break, and `rt fmt` keeps an attribute in one line.
WHOLE = re.compile(r' *(?:pub |ghost )?use [^\s{}]+(?: as \w+)?;?$| *#\[tactic\(.*\)\]$')


def too_long(text):
    """The numbers of the lines that are too long and can be broken."""
    lines = enumerate(text.split('\n'), 1)
    return [number for number, line in lines if len(line) > MOST and not WHOLE.match(line)]


def wrapped_source(text, rust):
    """A file without long lines: `rt fmt` lays out what was broken."""
    lines, out = text.split('\n'), []
    while lines:
        mark = mark_of(lines[0], rust)
        if mark is None:
            line = lines.pop(0)
            out += cut_code(line, rust) if len(line) > MOST and not WHOLE.match(line) else [line]
            continue
        count = paragraph(lines, mark)
        block, lines = lines[:count], lines[count:]
        out += filled(block, mark) if too_long('\n'.join(block)) else block
    return '\n'.join(out)
