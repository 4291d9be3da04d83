"""Statements without the passwords in them, as logs may have them.

    masked(b"SET PASSWORD = 'secret'")    # (b"SET PASSWORD = '*****'", True)

The head of bindings/testing/rows/masks.txt has the rule, and its rows are the tests. The same rule
is that of bindings/audit/src/masking.rs.
"""

from __future__ import annotations

import re
from typing import List, NamedTuple, Optional, Tuple

MASK = b"'*****'"

# No statement without one of these has a password that is masked.
SUSPECTS = re.compile(rb"password|identified|challenge_response", re.I)

BLANKS = re.compile(rb"[\t-\r ]+|#[^\n]*|--(?=[\x00-\x20]|\Z)[^\n]*")
VERSION = re.compile(rb"/\*M?!\d{0,6}")
WORD = re.compile(rb"[0-9A-Za-z_$\x80-\xff]+")
BITS = re.compile(rb"0x[0-9a-f]+|0b[01]+", re.I)

# The words behind IDENTIFIED that a secret follows.
BEFORE_SECRETS = (b"BY", b"AS", b"USING", b"REPLACE")
FUNCTIONS = (b"PASSWORD", b"OLD_PASSWORD")
OF_REPLICAS = (b"MASTER_PASSWORD", b"SOURCE_PASSWORD")
# In statements that begin so, or have such a word before, SET is of a row.
OF_ROWS = (b"INSERT", b"UPDATE", b"REPLACE", b"LOAD")

# Kinds of tokens: a literal is a string, or digits of bytes; a statement and the text have an end.
SIGN, WORDS, NAME, LITERAL, NUMBER, PLACE, END = range(7)


class Token(NamedTuple):
    """A token: its kind, its bounds, and a word or a sign in upper case."""

    kind: int
    start: int
    end: int
    word: bytes


def end_of_quoted(text: bytes, at: int, escapes: bool) -> Optional[int]:
    """Where what begins with this quote ends; None where it doesn't."""
    quote = text[at:at + 1]
    stops = re.compile(quote + rb"|\\" * (escapes and quote != b"`"))
    at += 1
    while True:
        found = stops.search(text, at)
        if found is None:
            return None
        at = found.end()
        if found.group() == b"\\" or text[at:at + 1] == quote:
            at += 1
        else:
            return at


def kind_of_word(word: bytes) -> int:
    """The kind of a token that begins as a word does."""
    if BITS.fullmatch(word):
        return LITERAL
    return NUMBER if word[:1].isdigit() else WORDS


class Tokens:
    """The tokens of a text without comments, one at a time."""

    def __init__(self, text: bytes, escapes: bool) -> None:
        self.text, self.escapes = text, escapes
        self.at, self.in_version = 0, False
        self.is_open = False  # whether the text ends within a quote or a comment

    def skip(self) -> None:
        """Goes over blanks and comments, and what begins and ends a comment of a version."""
        while self.at < len(self.text):
            blanks, version = BLANKS.match(self.text, self.at), VERSION.match(self.text, self.at)
            if blanks:
                self.at = blanks.end()
            elif version:
                self.at, self.in_version = version.end(), True
            elif self.in_version and self.text.startswith(b"*/", self.at):
                self.at, self.in_version = self.at + 2, False
            elif self.text.startswith(b"/*", self.at):
                end = self.text.find(b"*/", self.at + 2)
                self.is_open = end < 0
                self.at = len(self.text) if self.is_open else end + 2
            else:
                return

    def next(self) -> Token:
        """The next token; at the end of the text one of no bytes."""
        self.skip()
        start, text = self.at, self.text
        if start == len(text):
            return Token(END, start, start, b"")
        found = WORD.match(text, start)
        word = found.group() if found else b""
        behind = start + len(word)
        is_prefix = len(word) == 1 and word in b"xXbBnN" and text[behind:behind + 1] == b"'"
        if word and not is_prefix:
            self.at = behind
            return Token(kind_of_word(word), start, behind, word.upper())
        if is_prefix or text[start:start + 1] in (b"'", b'"', b"`"):
            end = end_of_quoted(text, behind, self.escapes)
            self.is_open = end is None
            self.at = len(text) if end is None else end
            kind = NAME if text[start:start + 1] == b"`" else LITERAL
            return Token(kind, start, self.at, b"")
        self.at += 1
        sign = text[start:self.at]
        return Token({b"?": PLACE, b";": END}.get(sign, SIGN), start, self.at, sign)


class Masker:
    """Writes a text without its secrets."""

    def __init__(self, text: bytes, escapes: bool) -> None:
        self.text, self.tokens = text, Tokens(text, escapes)
        self.ahead: List[Token] = []
        self.parts: List[bytes] = []
        self.written = 0                 # how much of the text the parts have
        self.rest: Optional[int] = None  # from where on all is masked
        self.is_secret = False
        self.first = self.peek().word
        self.last = b""                  # the token that was taken last, where it is a word
        self.begin()

    def begin(self) -> None:
        """Begins a statement."""
        word = self.peek().word
        self.is_table = word in (b"CREATE", b"ALTER")
        self.is_account = word in (b"GRANT", b"CLONE")
        self.is_server, self.is_identified = False, False
        self.sets, self.is_of_rows = False, False

    def peek(self, count: int = 0) -> Token:
        """The token behind so many others, none of which ends the statement."""
        for number in range(count + 1):
            if number == len(self.ahead):
                self.ahead.append(self.tokens.next())
            if self.ahead[number].kind == END:
                return self.ahead[number]
        return self.ahead[count]

    def take(self) -> Token:
        """Takes the next token."""
        token = self.peek()
        del self.ahead[0]
        self.last = token.word
        return token

    def run(self) -> None:
        """Masks all statements."""
        while self.rest is None:
            if self.peek().kind != END:
                self.step()
            elif self.take().word == b";":
                self.begin()
            else:
                return

    def step(self) -> None:
        """Takes a token, and masks the secret behind it."""
        before, word = self.last, self.take().word
        if before in (b"CREATE", b"ALTER", b"REPLACE"):
            self.is_account |= word == b"USER"
            self.is_server |= word == b"SERVER"
        self.is_of_rows |= word in OF_ROWS
        self.sets |= word in (b"SET", b"START") and not self.is_of_rows
        self.is_identified |= word == b"CHALLENGE_RESPONSE"
        if before in (b".", b"@"):
            return
        if word in FUNCTIONS and self.peek().word == b"(":
            self.within()
        elif word == b"PASSWORD":
            self.password(before)
        elif word == b"IDENTIFIED":
            self.identified()
        elif word in OF_REPLICAS:
            self.skip(b"=")
            self.secret(self.first == b"CHANGE")
        elif word in BEFORE_SECRETS and self.is_identified:
            self.secret(self.is_account)

    def skip(self, word: bytes) -> bool:
        """Takes the next token where it is this one."""
        is_next = self.peek().word == word
        if is_next:
            self.take()
        return is_next

    def hide(self, token: Token) -> None:
        """Masks a token."""
        self.parts += [self.text[self.written:token.start], MASK]
        self.written = token.end
        self.is_secret = True

    def hide_rest(self, token: Token) -> None:
        """Masks all from a token on, of what isn't as servers read it."""
        if token.kind != END:
            self.rest, self.is_secret = token.start, True

    def within(self) -> None:
        """Masks all between brackets, of which the first is next."""
        depth = 0
        while self.peek().kind != END:
            token = self.take()
            depth += (token.word == b"(") - (token.word == b")")
            if depth == 0:
                return
            if token.kind == LITERAL or token.kind == NUMBER and not self.is_table:
                self.hide(token)
            self.is_secret |= token.kind == PLACE

    def secret(self, is_strict: bool) -> None:
        """Masks the secret that is next."""
        while self.peek().word == b"(" or (self.peek().word[:1] == b"_"
                                           and self.peek(1).kind == LITERAL):
            self.take()
        token, behind = self.peek(), self.peek(1)
        if token.kind == LITERAL:
            while self.peek().kind == LITERAL:
                self.hide(self.take())
        elif token.kind == PLACE or token.word in (b"RANDOM", b"@"):
            self.is_secret = True
            self.take()
        elif token.word in FUNCTIONS and behind.word == b"(":
            self.take()
            self.within()
        elif token.word in FUNCTIONS and (behind.kind in (LITERAL, PLACE)
                                          or behind.word[:1] == b"_"):
            self.take()
            self.secret(is_strict)
        elif is_strict:
            self.hide_rest(token)

    def identified(self) -> None:
        """Behind IDENTIFIED."""
        if self.skip(b"BY"):
            self.is_identified = True
            self.secret(self.is_account)
        elif self.skip(b"WITH") or self.skip(b"VIA"):
            self.is_identified = True
            if self.peek().kind != END:
                self.take()  # the plugin, a word or in quotes
            if self.peek().kind in (LITERAL, PLACE):
                self.secret(False)
        elif self.is_account:
            self.hide_rest(self.peek())

    def password(self, before: bytes) -> None:
        """Behind PASSWORD: the option of a server, or what is set."""
        start = self.peek()
        if self.is_server:
            self.skip(b"=")
            self.secret(True)
        elif self.sets and start.word == b"FOR":
            while self.peek().kind != END and self.peek().word not in (b"=", b"TO"):
                self.take()
            self.set_or_random(before, start)
        elif self.sets:
            self.set_or_random(before, start)

    def set_or_random(self, before: bytes, start: Token) -> None:
        """Behind what is set, of which this is the first token."""
        if self.peek().word == b":" and self.peek(1).word == b"=":
            self.take()
        if self.skip(b"="):
            self.assigned()
        elif self.skip(b"TO"):
            self.is_secret = True
        elif before == b"SET":
            self.hide_rest(start)

    def assigned(self) -> None:
        """Masks a value that is set, up to its comma."""
        self.is_secret = True
        token = self.peek()
        is_bare = (token.kind in (WORDS, NUMBER) and self.peek(1).word != b"("
                   and token.word[:1] != b"_")
        if is_bare and self.first in (b"SET", b"START"):
            self.hide_rest(token)
            return
        depth = 0
        while self.peek().kind != END:
            token = self.peek()
            depth = max(0, depth + (token.word == b"(") - (token.word == b")"))
            if depth == 0 and token.word == b",":
                return
            self.take()
            if token.kind in (LITERAL, NUMBER):
                self.hide(token)


def masked(text: bytes, escapes: bool = True) -> Tuple[bytes, bool]:
    """A statement without its secrets, and whether it has some.

    The values of a prepared statement that has some are secrets, too. A backslash escapes in a
    string, but not in the mode NO_BACKSLASH_ESCAPES.
    """
    suspect = SUSPECTS.search(text)
    if suspect is None:
        return text, False
    try:
        text.decode()
    except UnicodeDecodeError:
        # In another character set other bytes may be blanks, as a0 is in latin1.
        return text[:suspect.end()] + MASK, True
    masker = Masker(text, escapes)
    masker.run()
    if masker.rest is not None:
        return b"".join(masker.parts) + text[masker.written:masker.rest] + MASK, True
    if masker.tokens.is_open and masker.written < len(text):
        # Where its strings end isn't known.
        return text[:suspect.end()] + MASK, True
    return b"".join(masker.parts) + text[masker.written:], masker.is_secret
