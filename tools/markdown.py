"""Makes HTML of the Markdown that the documents of this repository are written in.

It knows headings, paragraphs, lists, tables, and code that is indented or between fences. Within a line it knows
code, emphasis, links and images; a document may name the targets of links in lines of their own. Comments are dropped.
"""

import html
import re

ITEM = re.compile(r"( *)([-*]|\d+\.) +")
FENCE = re.compile(r" *(`{3,})\s*(\w*)")
HEADING = re.compile(r"(#{1,6}) +(.*)")
DEFINED = re.compile(r"^\[([^\]]+)\]: (\S+)$", re.M)
COMMENT = re.compile(r"^<!--.*?-->[ \t]*$", re.M | re.S)
CODE = re.compile(r"(`+)(.+?)(?<!`)\1(?!`)", re.S)
LINK = re.compile(r"(!?)\[((?:[^\[\]]|\[[^\[\]]*\])*)\](?:\(([^()\s]+)\s*\)|\[([^\[\]]*)\])?")
STRONG = re.compile(r"\*\*(?=\S)(.+?)(?<=\S)\*\*", re.S)
EMPHASIS = re.compile(r"(?<![\w*])\*(?=[^\s*])(.+?)(?<=[^\s*])\*(?![\w*])", re.S)


def anchor_of(words):
    """Returns the anchor of a heading, without the number of one that is there before."""
    plain = LINK.sub(r"\2", words).lower()
    return re.sub(r"[^\w\- ]", "", plain).replace(" ", "-")


def begins_block(line):
    """Whether a line ends the paragraph before it."""
    item = ITEM.match(line)
    return bool(FENCE.match(line) or HEADING.match(line) or line.startswith("|")
                or item and (item[2] in "-*" or item[2] == "1."))


class Page:
    """A document: its HTML, its headings, and the text of each of its sections."""

    def __init__(self, text, address):
        self.address = address
        self.names = dict(DEFINED.findall(text))
        self.headings, self.used, self.title = [], {}, ""
        self.sections = []
        self.html = self.blocks(COMMENT.sub("", DEFINED.sub("", text)).split("\n"))

    # ---- Blocks ---------------------------------------------------------------------------------

    def blocks(self, lines):
        """Returns the HTML of some lines."""
        found, at = [], 0
        while at < len(lines):
            line = lines[at]
            if not line.strip():
                at += 1
                continue
            take = (self.fenced if FENCE.match(line) else self.heading if HEADING.match(line) else
                    self.table if line.startswith("|") else self.items if ITEM.match(line) else
                    self.indented if line.startswith("    ") else self.paragraph)
            part, at = take(lines, at)
            found.append(part)
        return "\n".join(found)

    def heading(self, lines, at):
        """Takes a heading, which begins a section."""
        level, words = len(HEADING.match(lines[at])[1]), HEADING.match(lines[at])[2]
        anchor = anchor_of(words)
        count = self.used.get(anchor, -1) + 1
        self.used[anchor] = count
        anchor += f"-{count}" if count else ""
        shown = self.line(words)
        plain = html.unescape(re.sub(r"<[^>]*>", "", shown))
        self.title = self.title or plain
        self.headings.append((level, anchor, plain))
        self.sections.append([plain, anchor, ""])
        return f'<h{level} id="{anchor}"><a href="#{anchor}">{re.sub("</?a[^>]*>", "", shown)}</a></h{level}>', at + 1

    def keep(self, text):
        """Keeps a text for the search, in the section that it is in."""
        if self.sections:
            self.sections[-1][2] += " " + " ".join(text.split())

    def code(self, lines, kind=""):
        """Returns code, as it is."""
        self.keep(" ".join(lines))
        marked = f' class="{kind}"' if kind else ""
        return f"<pre><code{marked}>{html.escape(chr(10).join(lines), quote=False)}\n</code></pre>"

    def fenced(self, lines, at):
        """Takes code between fences."""
        fence, kind = FENCE.match(lines[at]).groups()
        indent, taken, at = len(lines[at]) - len(lines[at].lstrip()), [], at + 1
        while at < len(lines) and not lines[at].strip().startswith(fence):
            taken.append(lines[at][indent:] if not lines[at][:indent].strip() else lines[at])
            at += 1
        return self.code(taken, kind), at + 1

    def indented(self, lines, at):
        """Takes indented code."""
        taken = []
        while at < len(lines) and (lines[at].startswith("    ") or not lines[at].strip()):
            taken.append(lines[at][4:])
            at += 1
        while not taken[-1].strip():
            taken.pop()
        return self.code(taken), at

    def items(self, lines, at):
        """Takes a list, each item of which is blocks by itself."""
        mark, found, is_loose = ITEM.match(lines[at]), [], False
        while at < len(lines):
            item = ITEM.match(lines[at])
            if not item or item[1] != mark[1] or item[2].isalnum() != mark[2].isalnum():
                break
            margin, taken, at = item.end(), [lines[at][item.end():]], at + 1
            while at < len(lines) and (not lines[at].strip() or lines[at].startswith(" " * margin)):
                taken.append(lines[at][margin:])
                at += 1
            while not taken[-1].strip():
                is_loose = is_loose or at < len(lines) and bool(ITEM.match(lines[at]))
                taken.pop()
            found.append(taken)
        shown = [self.blocks(it) for it in found]
        if not is_loose:
            shown = [re.sub(r"\A<p>(.*?)</p>", r"\1", it, count=1, flags=re.S) for it in shown]
        kind = "ul" if mark[2] in "-*" else "ol"
        rows = "\n".join(f"<li>{it}</li>" for it in shown)
        return f"<{kind}>\n{rows}\n</{kind}>", at

    def table(self, lines, at):
        """Takes a table, whose second line says nothing but that it is one."""
        rows = []
        while at < len(lines) and lines[at].startswith("|"):
            rows.append(self.cells(lines[at]))
            at += 1
        head, *rows = [row for number, row in enumerate(rows) if number != 1]
        shown = "".join(f"<th>{self.line(it)}</th>" for it in head)
        body = "\n".join("<tr>" + "".join(f"<td>{self.line(it)}</td>" for it in row) + "</tr>" for row in rows)
        for row in [head, *rows]:
            self.keep(" ".join(row))
        return f"<table>\n<thead><tr>{shown}</tr></thead>\n<tbody>\n{body}\n</tbody>\n</table>", at

    @staticmethod
    def cells(line):
        """Returns the cells of a table's line. A bar within code or behind a backslash ends none."""
        kept = []

        def keep(found):
            kept.append(found[0].replace("\\|", "|"))
            return f"\0{len(kept) - 1}\0"

        plain = re.sub(r"\\\|", "\1", CODE.sub(keep, line.strip()))
        parts = plain.strip("|").split("|")
        return [re.sub("\0(\\d+)\0", lambda it: kept[int(it[1])], it).replace("\1", "|").strip() for it in parts]

    def paragraph(self, lines, at):
        """Takes a paragraph."""
        taken = [lines[at].strip()]
        at += 1
        while at < len(lines) and lines[at].strip() and not begins_block(lines[at]):
            taken.append(lines[at].strip())
            at += 1
        self.keep(" ".join(taken))
        return f"<p>{self.line(chr(10).join(taken))}</p>", at

    # ---- Within a line --------------------------------------------------------------------------

    def line(self, text):
        """Returns the HTML of a text, whose code and links are put aside while the rest is made."""
        kept = []

        def keep(shown):
            kept.append(shown)
            return f"\0{len(kept) - 1}\0"

        def code(found):
            words = found[2].replace("\n", " ")
            is_padded = words[:1] == words[-1:] == " " and words.strip()
            return keep(f"<code>{html.escape(words[1:-1] if is_padded else words, quote=False)}</code>")

        def link(found):
            is_image, words, target, name = found.groups()
            target = target or self.names.get(" ".join((name or words).split()))
            if not target:
                return keep("[") + words + keep("]")
            place = html.escape(self.address(target, bool(is_image)))
            if is_image:
                return keep(f'<img src="{place}" alt="{html.escape(words)}">')
            return keep(f'<a href="{place}">') + words + keep("</a>")

        plain = re.sub(r"\\([!-/:-@\[-`{-~])", lambda it: keep(html.escape(it[1])), CODE.sub(code, text))
        plain = html.escape(LINK.sub(link, plain), quote=False)
        plain = EMPHASIS.sub(r"<em>\1</em>", STRONG.sub(r"<strong>\1</strong>", plain))
        while "\0" in plain:
            plain = re.sub("\0(\\d+)\0", lambda it: kept[int(it[1])], plain)
        return plain
