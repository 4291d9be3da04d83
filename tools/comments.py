"""What a `///` comment says: its first sentence, what follows, its errors and its promise."""
import re
import textwrap

WIDTH = 100
WORDS = 20  # of a comment's first sentence, code counting as one
PROMISE = 'Promise: '
NEXT_SENTENCE = re.compile(r'(?<=\.)\s+(?=[A-Z`(*\[\d])')


def plain(text):
    """A text without the targets of its links."""
    return re.sub(r'\[(`[^`]*`)\](\([^)]*\))?', r'\1', text)


class Comment:
    """The blocks of a comment: paragraphs, items of lists, headings, and code as it is."""

    def __init__(self, doc):
        self.blocks, self.promise = [], None
        self.first = self.rest = ''
        for kind, text in blocks_of(doc):
            if kind == 'text' and text.startswith(PROMISE):
                self.promise = text.removeprefix(PROMISE)
            elif not re.match(r'\[`[^`]*`\]: ', text):
                self.blocks.append((kind, plain(text) if kind != 'code' else text))
        if self.blocks and self.blocks[0][0] == 'text':
            self.first, *rest = NEXT_SENTENCE.split(self.blocks[0][1], maxsplit=1)
            self.blocks[:1] = [('text', text) for text in rest]

    def is_long(self):
        words = re.sub(r'`[^`]*`', 'code', self.first).split()
        return len([word for word in words if re.search(r'\w', word)]) > WORDS

    def lines(self, margin=''):
        """All but the first sentence and the promise, as lines of a document."""
        lines, before = [], ''
        for kind, text in self.blocks:
            if not (kind == before == 'item'):
                lines.append('')
            if kind == 'code':
                lines += [(margin + line).rstrip() for line in text.split('\n')]
            elif kind == 'heading':
                lines.append(f'{margin}{text}:')
            else:
                lines += filled(text, margin, '- ' if kind == 'item' else '').split('\n')
            before = kind
        return lines


def blocks_of(doc):
    """The blocks of a comment's lines, each with its kind."""
    kind, part, fenced = '', [], False
    for line in [*doc, '']:
        if fenced or line.startswith(('```', '    ')):
            fenced ^= line.startswith('```')
            if kind != 'code' and part:
                yield kind, ' '.join(part)
                part = []
            kind = 'code'
            part.append(line)
            continue
        starts = line.startswith('# ') or re.match(r'[-*] ', line)
        if part and (not line or starts or kind in ('code', 'heading')):
            yield kind, ('\n' if kind == 'code' else ' ').join(part)
            part = []
        if not line:
            continue
        if not part:
            kind = 'heading' if line.startswith('# ') else 'item' if starts else 'text'
        part.append(re.sub(r'^([-*#] )', '', line) if starts else line.strip())


def kept_together(code):
    """Code whose spaces that may not be broken are marked."""
    code = code.group(0)
    is_long = max(map(len, code.split(', '))) > WIDTH - 10
    return code if is_long else re.sub(r'(?<!,) ', '\0', code)


def filled(text, margin='', mark=''):
    """A paragraph or an item of a list, filled. Code is broken behind its commas alone, or anywhere if it's too long."""
    text = re.sub(r'`[^`]*`', kept_together, text)
    return textwrap.fill(text, WIDTH, initial_indent=margin + mark, subsequent_indent=margin + ' ' * len(mark),
                         break_long_words=False, break_on_hyphens=False).replace('\0', ' ')


def named(promise):
    """A promise without the definitions in parentheses at its end, and these."""
    found = re.match(r'(.*?) \(((?:`[^`]*`(?:, )?)+)\)\.?$', promise)
    if not found:
        return promise.rstrip('.'), []
    return found.group(1), re.findall(r'`([^`]*)`', found.group(2))
