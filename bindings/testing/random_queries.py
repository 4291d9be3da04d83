"""Random queries and values for them; `differential.py` sends them to a server.

A query is parts: bytes and placeholders. There are two kinds.

- Texts of all kinds of tokens, of which a server refuses about half (`random_text`). Servers
  needn't agree where a string or a comment in them ends. A hostile value tries to end its literal.
- Queries whose placeholders want numbers, texts, dates or JSON (`Maker`), which a server answers.

Of the second kind some are left out, since a text and an execution differ there:

- times and dates where a number is wanted;
- the least number of 64 bits;
- bytes that aren't UTF-8 where neither bytes nor their number is wanted.

A placeholder with a token directly beside it, as in `-?`, is left out too: the library refuses it.
"""

import datetime
import re
from typing import NamedTuple

TABLE = "people"
KEPT = "kept"
COLUMNS = ("id INT PRIMARY KEY, n INT, m DECIMAL(20,4), f DOUBLE, y YEAR, s VARCHAR(99), "
           "b VARBINARY(300), d DATE, t DATETIME(6), e ENUM('', 'one', 'it''s', '1'), j JSON")
ODD_NAMES = (b"a?b", b"it's", b'x"y', b"back\\", b"/*", b"*/", b"-- a", b":n", b"tick`s", b"#")

JUNK = (b"'", b'"', b"`", b"\\", b"''", b'""', b"\\'", b"?", b":a", b"-- ", b"#", b"/*", b"*/",
        b"*", b"/", b"-", b";", b"!", b"+", b"a", b"7", b" ", b"\0", b"\x1a", b"%", b"_", b"(",
        b")", b",", b"=", "\u00e9".encode(), "\u20ac".encode(), "\N{HERB}".encode(),
        "\N{SLICE OF PIZZA}".encode(), b" OR 1=1 ", b"*/ OR 1=1 /*", b"' OR 1=1 -- ",
        b"\\' OR 1=1 -- ")
LONGEST = 8  # pieces of a value or a string

# ---- Texts of all kinds of tokens ---------------------------------------------------------------

# Behind `/*!` and `/*M!`: versions that all servers run, that some do, and that none does; numbers
# of four, five, six and seven digits.
VERSIONS = (b"", b"00000", b"40001", b"50000", b"50699", b"50700", b"80000", b"90704", b"90705",
            b"99999", b"050000", b"080000", b"100000", b"100100", b"101118", b"101200", b"110000",
            b"110809", b"120000", b"999999", b"4000", b"9999999")
BEHIND_VERSIONS = (b" ", b" ", b" ", b"", b"\n", b"a", b"\t")
BLANKS = (b" ", b" ", b" ", b" ", b" ", b"\n", b"\t", b"  ", b"\r\n", b"\x0b", b"\x0c", b"")
# What is behind two dashes that may begin a comment, or not.
BEHIND_DASHES = (b" ", b" ", b"\t", b"\n", b"\x01", b"\x1f", b"\x7f", b"\0", b"\xa0", b"\xc2\xa0",
                 b"!", b"")
OPENERS = (b"/*", b"/*!", b"/*+", b"/*M!", b"/*m!", b"/*!50000", b"/*!99999", b"/*!999999 ",
           b"/*M!100000 ", b"/* !", b"/**")
WORDS = (b"SQL_NO_CACHE", b"STRAIGHT_JOIN", b"MAX_EXECUTION_TIME(1000)", b"QB_NAME(`a`)", b"user's",
         b"a", b"7", b"-- a", b"# a", b"x */* y", b":a", b"it`s", b"\\", b"$$", b"$a$", b"[", b"]")
IN_STRINGS = (b"?", b"?", b"\\", b"\\", b"'", b'"', b"\\'", b'\\"', b"', ? , '", b'", ? , "', b"$$",
              b"--", b"a")
# What is put anywhere, where another token may begin or end by it.
ODD_TOKENS = (*JUNK, b"/*!", b"/*+", b"/*M!", b"/*!99999", b"/*/", b"*//*", b"--", b"--\x01",
              b"$$", b"$a$", b"a$$b", b"@$$", b"t.$$", b"$", b"[", b"]", b"{", b"}", b"@", b"@@",
              b":=", b"->", b"->>", b"0x", b"x'", b"b'", b"N'", b"_utf8mb4", b"\x80", b"\xa0",
              b"\xbf", b"\xff", b"\xe2\x82", b"\xf0\x9f", b"\x7f", b"\x01", b"\n", b"\r", b"\\\\",
              b"\\\n", b"1e", b".5", b"1.", b"?", b"?", b" ? ", b", ? ", b" , '?' ", b" AS ")
OPERANDS = (b"1", b"42", b"1.5", b".5", b"1.", b"0x41", b"x'41'", b"X'4142'", b"b'1000001'",
            b"N'n'", b"n'n'", b"_utf8mb4'u'", b"_utf8mb4 0x41", b"_binary '\\\\'", b"NULL", b"TRUE",
            b"@a", b"@`?`", b"@'?'", b'@"?"', b"@$$a$$", b"@@autocommit", b"'a' 'b'", b"'a'\n'b'",
            b"''", b"1a", b"@a$$b")
ALIASES = (b"x1", b"`a?b`", b"`it's`", b"`/*`", b"`*/`", b"`tick``s`", b"'x?'", b'"y?"', b"a$$b",
           b"$a", b"$$a$$", b"1a", b"`$$$$`", b"`-- `", b"x", b'"a""b"', b"'a''b'", b"`back\\`",
           b'"back\\"', b'"a\\""b"')
COMPARED = (b"=", b"<=>", b"LIKE", b"<", b"<>", b"IN (", b"AND", b"OR")

# Values that try to end a literal, or what a server takes for one: a column or a statement more
# shows that they did.
ATTACK = b" , 77 , "
ENDS = (b"'", b'"', b"`", b"\\", b"\\'", b"''", b"\\\\'", b"\\''", b"*/", b"'*/", b"*/'", b"\n",
        b"'\n", b"$$", b"$a$", b"]", b"\xe2\x82\xac'", b"\xbf'", b"\x81'", b"\0", b"'\0", b"/*",
        b"/*!", b"'/*", b"'; SELECT 78; -- ", b"' -- ", b"*/ -- ", b"\n-- ", b"'#\n", b"--\n")
# What isn't UTF-8 is written as digits, and a name holds no character of four bytes.
HARMLESS, HARMLESS_OF_FOUR, HARMLESS_BYTES = b"zzz", "\N{HERB}".encode(), b"\xff"


def random_text(source, mode):
    """The parts of a random text: mostly a query for some values, in which any token may be."""
    parts = list(_Text(source, mode).statement())
    while source.randrange(5) < 2:
        parts.insert(source.randrange(1, len(parts) + 1), source.choice(ODD_TOKENS))
    if source.randrange(16) == 0:
        parts.insert(source.randrange(1, len(parts) + 1), source.choice(OPENERS))
    if source.randrange(16) == 0:
        return tuple(b":a" if it == b"?" else it for it in parts)
    return tuple(parts)


def hostile_value(source):
    """A value that tries to become code. It isn't empty: by `Hexadecimal` that one is in quotes."""
    if source.randrange(3):
        end = source.choice(ENDS)
        return end + ATTACK + source.choice((end, b"'", b"/*", b"-- ", b"", end[::-1]))
    if source.randrange(4) == 0:
        return bytes(source.randrange(256) for _ in range(source.randrange(1, 12)))
    return random_bytes(source) or b"'"


def harmless_value(value):
    """A value that ends nothing. Servers take it for a text, or a name, where they take this one
    for that."""
    if not is_utf8(value):
        return HARMLESS_BYTES
    return HARMLESS_OF_FOUR if any(it >= 0xF0 for it in value) else HARMLESS


class _Text:
    """Makes a text for a mode, from a source of random numbers."""

    def __init__(self, source, mode):
        self.source, self.mode = source, mode

    def pick(self, among):
        """One of these."""
        return self.source.choice(among)

    def statement(self):
        """A statement's parts: a query, or MySQL's one kind of statement that is prepared with a
        body in dollar quotes."""
        if self.source.randrange(48):
            yield from self.query()
            return
        quote = self.pick((b"$$", b"$a$"))
        yield from (b"CREATE LIBRARY IF NOT EXISTS made LANGUAGE JAVASCRIPT AS", *self.gap(b" "))
        yield from (quote, b" ", *self.operand(1), *self.gap(), *self.operand(1), b" ", quote)

    def query(self):
        """A query's parts."""
        yield b"SELECT"
        yield from self.gap(b" ")
        for number in range(self.source.randrange(1, 5)):
            if number:
                yield b","
                yield from self.gap()
            yield from self.operand(2)
            yield from self.gap()
            if self.source.randrange(6) == 0:
                yield self.pick((b"AS ", b"", b"as\n"))
                yield self.pick(ALIASES)
                yield from self.gap()
        yield from self.end()

    def end(self):
        """What is behind the values."""
        which = self.source.randrange(12)
        if which == 0:
            yield from (b"FROM", b" (", b"SELECT", b" ", *self.operand(1), b" AS x", b")", b" t")
        elif which < 3:
            yield from (b"FROM", b" ", TABLE.encode(), *self.gap(), b"WHERE", *self.gap(b" "))
            yield from (b"s", b" = ", *self.operand(1))
        elif which == 3:
            yield from (b"UNION", b" ", b"SELECT", *self.gap(b" "), *self.operand(1))
        elif which == 4:
            yield self.pick((b";", b"; ", b"-- ", b"#", b"--", b" LIMIT 1", b";SELECT 1"))

    def operand(self, depth):
        """A value, or an expression."""
        which = self.source.randrange(20)
        if which < 9:
            yield b"?"
        elif which < 12:
            yield from self.string()
        elif which < 15 or depth == 0:
            yield self.pick(OPERANDS)
        elif which == 15:
            yield from (b"CONCAT(", *self.gap(), *self.operand(depth - 1), *self.gap(), b",",
                        *self.gap(), *self.operand(depth - 1), b")")
        elif which == 16:
            yield from (b"HEX(", *self.gap(), *self.operand(depth - 1), *self.gap(), b")")
        elif which == 17:
            yield from (b"(", *self.gap(), *self.operand(depth - 1), *self.gap(), b")")
        else:
            compared = self.pick(COMPARED)
            yield from (b"(", *self.operand(depth - 1), *self.gap(b" "), compared,
                        *self.gap(b" "), *self.operand(depth - 1), b")")
            if compared == b"IN (":
                yield b")"

    def string(self):
        """A string: its quotes and what is between them. In this mode it mostly ends where it
        should, in another mode elsewhere."""
        quote = self.pick((b"'", b"'", b'"'))
        escapes = not self.mode.no_backslash_escapes
        yield quote
        for _ in range(self.source.randrange(5)):
            piece = self.pick((*JUNK, *OPENERS, *IN_STRINGS))
            if self.source.randrange(12):
                piece = piece.replace(b"\\", b"\\\\") if escapes else piece
                quotes = self.pick((quote * 2, b"\\" + quote)) if escapes else quote * 2
                piece = piece.replace(quote, quotes)
            yield piece
        yield quote

    def gap(self, least=b""):
        """What is between two tokens: blanks, or a comment among them."""
        if self.source.randrange(6):
            return [self.pick(BLANKS) or least]
        return [self.pick(BLANKS), *self.comment(), self.pick(BLANKS)]

    def comment(self):
        """A comment's parts; some are no comment at some servers, and some aren't closed."""
        which = self.source.randrange(8)
        if which == 0:
            dashes = b"--" + self.pick(BEHIND_DASHES)
            return [self.pick((b"#", b"-- ", dashes)), *self.junk(), b"\n"]
        closer = [b"*/"] if self.source.randrange(12) else []
        if which == 1:
            return [b"/*", *self.junk(), *closer]
        if which == 2:
            return [b"/*+", b" ", *self.inside(), *closer]
        opener = b"/*M!" if which == 3 else b"/*!"
        version = self.pick(VERSIONS)
        begins = [opener + version, self.pick(BEHIND_VERSIONS) if version else b" "]
        if which < 6:
            return [*begins, self.pick(WORDS[:2]), b" ", *closer]
        return [*begins, *self.inside(), *closer]

    def junk(self):
        """Bytes for a comment that is plain."""
        return [self.pick((*JUNK, *WORDS)) for _ in range(self.source.randrange(3))]

    def inside(self):
        """What is in a version comment or a hint: tokens, among them placeholders."""
        for _ in range(self.source.randrange(3)):
            which = self.source.randrange(8)
            if which < 2:
                yield self.pick((b", ? ", b" ? ", b", ?", b"?, ", b"? "))
            elif which == 2:
                yield from (b", ", *self.string())
            elif which == 3:
                yield from (self.pick(OPENERS), b" ", self.pick(WORDS), b" ", b"*/")
            elif which == 4:
                yield self.pick(JUNK)
            else:
                yield self.pick(WORDS) + b" "


# ---- Values of all bytes -----------------------------------------------------------------------

# What ends a string or seems to, what seems to be a placeholder or a comment, and other characters.
PIECES = (b"'", b'"', b"`", b"\\", b"''", b'""', b"\\'", b'\\"', b"\\\\", b"\\\\'", b"?", b":a",
          b"-- ", b"#", b"/*", b"*/", b"/*!", b";", b"\0", b"\n", b"\r", b"\x1a", b"%", b"\\%",
          b"0x27", b"' OR 1=1 -- ", b"\\' OR 1=1 -- ", "\u00e9".encode(), "\u20ac".encode(),
          "\N{HERB}".encode(), b" ", b"a", b"7")
LONGEST_VALUE = 40


def any_bytes(source):
    """A value: any bytes, or what looks like SQL, which may end within a character."""
    length, value = source.randrange(LONGEST_VALUE + 1), b""
    if source.randrange(4) == 0:
        return bytes(source.randrange(256) for _ in range(length))
    while len(value) < length:
        value += source.choice((*PIECES, bytes([source.randrange(128)])))
    return value[:length]


# ---- Queries whose placeholders want types ------------------------------------------------------

# A version that each server runs, or none.
RUN = (b"", b"40000", b"50699", b"00000")
NUMBERS = (b"1", b"49", b"42", b"1.5", b"-3", b" 7 ", b"1e1", b"0x31", b"abc", b"", b"31a", b"0",
           b"2024", b"1*/", b"2/*", 1, 49, -3, 0, 2**63, 1 - 2**63, None)
TEXTS = (b"anna", b"ANNA", b"Anna ", "\u00e9".encode(), "\u00c9".encode(), b"", b"one", b"1",
         b"it's", b"%", b"a_", b"\\", b"\\\\", b"\\%", b"*/", b"/*", b"anna*/", b"ANNA/*", 1, 49,
         None)
DATES = (b"2024-02-29", b"2024-02-30", b"2024-2-9", b"20240229", b"", b"0000-00-00",
         b"2024-02-29 13:14:15.5", datetime.date(2024, 2, 29), datetime.date(1999, 12, 31),
         datetime.datetime(2024, 2, 29, 13, 14, 15), datetime.datetime(2024, 2, 29, 13, 14, 15, 60),
         None)
JSONS = (b'{"a": "it\'s", "b": [1, 2]}', b'[1, "x\\\\y", "\\""]', b"null", b"1", b'"a"', b"{",
         b'{"\\u0027": 1}', "{\"\u00e9\": \"\N{HERB}\"}".encode(), b"", None)
PATHS = (b"$.a", b"$[0]", b"$", b'$."it\'s"', b"$.b[1]", b"a", b"")

# Templates: `@x` is a place where what is wanted goes by its letter, or another token. Blanks are
# gaps, in which comments may be. Each is put where a text is wanted.
TOKENS = ("@x", "CONCAT(@x , @s )", "CONCAT(@s , @x , @c )", "IFNULL(@x , @s )", "( @x )", "@s",
          "HEX(@z ) = HEX(@c )", "HEX(@z ) = HEX(@s )", "CONCAT(@c , @x )", "LENGTH(@z )",
          "HEX(@z )", "CONCAT(@x , @x )", "IF(HEX(@z ) IN ( HEX(@z ), @s ), 1 , 2 )",
          "( SELECT @x )", "@z IS NULL")
CONDITIONS = tuple(it for it in TOKENS if it.startswith(("HEX(@z ) =", "IF", "LENGTH", "@z IS")))
NUMERIC = ("@n + 1", "@n * 2", "@n = 49", "id = @n", "id < @n", "m = @n", "@n | 1", "@n DIV 2",
           "SUBSTRING('abcdefgh', @n )", "REPEAT('ab', @n % 5 )", "IF(@n , 'y', 'n')", "ROUND(@n )",
           "- @n", "'2024-01-31' + INTERVAL @n DAY", "ELT(@n , 'a', 'b')", "CAST(@n AS SIGNED)",
           "CAST(@n AS DECIMAL(20,4))", "@n BETWEEN 1 AND 50", "f = @n", "@n IN ( 1 , 49 )",
           "n + @n", "y = @n", "MOD(@n , 7 )", "LEFT('abcdefgh', @n )", "@n AND 1", "NOT @n",
           "n IN ( @n , @n )", "n BETWEEN @n AND @n", "FORMAT(@n , 1 )", "LPAD('a', @n % 9 , 'b')",
           "@n XOR 1", "~ @n", "id <=> @n", "COALESCE(n , @n ) + 1")
TEXTUAL = ("@t = 'ANNA'", "s = @t", "s LIKE @t", "@t LIKE 'a%'", "UPPER(@t )", "CHAR_LENGTH(@t )",
           "@t IN ( 'a', s )", "CASE @t WHEN 'Anna' THEN 1 ELSE 2 END", "REPLACE(@t , 'a', 'b')",
           "FIND_IN_SET(@t , 'anna,one')", "STRCMP(@t , s )", "LOCATE(@t , s )", "REVERSE(@t )",
           "LEFT(@t , 1 )", "e = @t", "NULLIF(@t , s )", "@t < s", "MD5(@t )", "INSTR(s , @t )",
           "b = @t", "s BETWEEN @t AND @t", "CONCAT_WS(@t , 'a', s )", "@t COLLATE utf8mb4_bin = s",
           "LOWER(@t )", "SUBSTRING(@t , 2 , 1 )", "s IN ( @t , @t )", "CAST(@t AS CHAR(3))",
           "QUOTE(@t )", "LPAD(@t , 9 , 'xy')", "TRIM(@t )", "ORD(@t )", "TO_BASE64(@t )",
           "s <=> @t", "INSERT('abc', 2 , 1 , @t )", "@t REGEXP 'a'", "HEX(@t )", "CHARSET(@t )")
OF_DATES = ("d = @d", "CAST(@d AS DATE)", "YEAR(@d )", "DATE_ADD(@d , INTERVAL 1 DAY )", "t < @d",
            "DATEDIFF(@d , d )", "d BETWEEN @d AND @d", "DATE_FORMAT(@d , '%d.%m.%Y')",
            "CAST(@d AS DATETIME(6))", "LAST_DAY(@d )", "t = @d")
OF_JSON = ("JSON_VALID(@j )", "JSON_EXTRACT(j , @p )", "JSON_QUOTE(@t )", "JSON_UNQUOTE(@j )",
           "JSON_CONTAINS(j , @j )", "JSON_SET(j , '$.a', @t )", "JSON_TYPE(@j )",
           "JSON_VALUE(j , @p )", "JSON_COMPACT(@j )", "JSON_ARRAY(@t )")
# The columns into which rows go, and what their values are.
INTO = {"n": "n", "m": "n", "f": "n", "y": "n", "s": "t", "b": "z", "d": "d", "t": "d", "e": "t",
        "j": "j"}
WANTED = {"x": "text", "z": "byte string", "t": "text", "n": "number", "d": "date", "j": "JSON",
          "p": "path"}


class Place(NamedTuple):
    """A placeholder: its value, and what is wanted there."""

    value: object
    wanted: str


def written(parts, named=False):
    """A query as it is: its text, and the values of its placeholders, in order."""
    text, values = b"", []
    for part in parts:
        if isinstance(part, Place):
            text += b":v%d" % len(values) if named else b"?"
            values.append(part.value)
        else:
            text += part
    return text, values


def random_bytes(source, longest=LONGEST):
    """Bytes in UTF-8 that look like SQL."""
    return b"".join(source.choice(JUNK) for _ in range(source.randrange(longest + 1)))


def left_out(data, without):
    """Bytes without these, also where taking one out makes another."""
    while any(it in data for it in without):
        for it in without:
            data = data.replace(it, b"")
    return data


def is_utf8(value):
    """Whether a value is bytes in UTF-8, or no bytes."""
    try:
        return not isinstance(value, bytes) or value.decode() is not None
    except UnicodeDecodeError:
        return False


def random_value(source, letter):
    """A value for a placeholder, by the letter of what is wanted."""
    lists = {"n": NUMBERS, "t": TEXTS, "x": TEXTS, "z": TEXTS, "d": DATES, "j": JSONS, "p": PATHS}
    if letter == "z" and source.randrange(8) == 0:
        return bytes(source.randrange(256) for _ in range(source.randrange(12)))
    if letter in "txz" and source.randrange(4) or letter in "ndjp" and source.randrange(12) == 0:
        return random_bytes(source)
    return source.choice(lists[letter])


class Maker:
    """Makes queries for a mode, from a source of random numbers."""

    def __init__(self, source, mode):
        self.source, self.mode = source, mode

    # Tokens.

    def pick(self, among):
        """One of these."""
        return self.source.choice(among)

    def junk(self, *without):
        """Bytes for a comment, without these."""
        found = left_out(random_bytes(self.source), without)
        return b" " + found if found[:1] in b"!+M" else found

    def string(self, without=(), longest=LONGEST):
        """A string in quotes of one of both kinds."""
        quote = b"'" if self.mode.ansi_quotes else self.pick((b"'", b'"'))
        content = left_out(random_bytes(self.source, longest), without)
        return quote + b"".join(self.escaped(bytes([it]), quote) for it in content) + quote

    def escaped(self, byte, quote):
        """A byte as it is in a string."""
        escapes = not self.mode.no_backslash_escapes
        if byte == b"\\":
            return b"\\\\" if escapes else byte
        if byte == quote:
            return b"\\" + quote if escapes and self.source.randrange(2) else quote * 2
        escaped = escapes and byte in b"%_n" and self.source.randrange(4) == 0
        return b"\\" + byte if escaped else byte

    def identifier(self, name):
        """A quoted identifier."""
        quote = self.pick((b"`", b'"')) if self.mode.ansi_quotes else b"`"
        return quote + name.replace(quote, quote * 2) + quote

    def alias(self):
        """What a name may have: neither a zero byte nor a character of four bytes, nor a blank
        at its end. Often a backslash is its end, which escapes no quote."""
        found = re.sub(b"[\xf0-\xf4]...", b"", random_bytes(self.source, 3)).replace(b"\0", b"")
        return found + self.pick((b"\\", b"\\", b"'", b".") if found[-1:] == b" " else
                                 (b"\\", b"", b"", b""))

    def column(self):
        """A column of the table, plain or with an odd name."""
        return self.pick((b"s", self.identifier(b"s"), self.identifier(self.pick(ODD_NAMES)),
                          self.identifier(b"back\\")))

    def gap(self):
        """What is between two tokens: mostly a blank."""
        if self.source.randrange(4):
            return [self.pick((b" ", b" ", b" ", b"\n", b"\t", b"  "))]
        kinds = (self.plain_comment, self.line_comment, self.version_comment, self.hint)
        return [b" ", self.pick(kinds)(), b" "]

    def plain_comment(self):
        """A comment."""
        return b"/*" + self.junk(b"*/") + self.pick((b"*/", b" */", b"**/"))

    def line_comment(self):
        """A comment up to the end of its line. A zero byte in it is an error of syntax."""
        without = (b"\n",) if self.source.randrange(32) == 0 else (b"\n", b"\0")
        return self.pick((b"#", b"-- ", b"--\t")) + self.junk(*without) + b"\n"

    def version_comment(self):
        """A version comment of blanks: nothing in it is run, and it is as simple as they come."""
        return b"/*!" + self.pick(RUN) + self.pick((b" */", b"\n*/", b"  */"))

    def hint(self):
        """A hint in which nothing looks like another token."""
        return b"/*+ " + self.pick((b"a", b"MAX_EXECUTION_TIME(1000)", b"")) + b" */"

    # Queries.

    def filled(self, template):
        """A template with tokens, values and gaps in it."""
        parts = []
        for token in re.findall(r"@.| |[^@ ]+", template):
            if token == " ":
                parts += self.gap()
            elif token == "@s":
                parts.append(self.string())
            elif token == "@c":
                parts.append(self.column())
            elif token[0] == "@" and token[1] in WANTED:
                parts.append(Place(random_value(self.source, token[1]), WANTED[token[1]]))
            else:
                parts.append(token.encode())
        return parts

    def select(self, templates, conditions):
        """A query for rows."""
        parts = [b"SELECT", *self.gap(), b"id"]
        for number in range(self.source.randrange(1, 4)):
            parts += [b",", *self.gap(), b"HEX(CONCAT("]
            parts += self.filled(self.pick(templates)) + [b"))", *self.gap(), b"AS", b" "]
            parts.append(self.identifier(b"%d" % number + self.alias()))
        parts += [*self.gap(), b"FROM", *self.gap(), TABLE.encode()]
        if self.source.randrange(3):
            parts += [*self.gap(), b"WHERE", *self.gap(), *self.filled(self.pick(conditions))]
        return tuple(parts + [*self.gap(), b"ORDER BY id", *self.gap()])

    def insert(self):
        """A query that keeps a row."""
        columns = [it for it in INTO if self.source.randrange(2)] or ["s"]
        parts = [b"INSERT INTO", *self.gap(), KEPT.encode(), b" (id"]
        for it in columns:
            parts += [b",", *self.gap(), self.identifier(it.encode())]
        parts += [b")", *self.gap(), b"VALUES", *self.gap(), b"(1"]
        for it in columns:
            parts += [b",", *self.gap()]
            parts += self.filled("@" + INTO[it])
        return tuple(parts + [*self.gap(), b")", *self.gap()])
