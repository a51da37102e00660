"""Reads a TOML 1.1 text, and keeps the line of each key and value.

For tools/lint and tools/day. Python's own tomllib has no lines, is not in each Python that this is to run on, and
reads TOML 1.0, where the program reads 1.1: a text must be refused here exactly where the program
refuses it. The limits are those of the program's reader: 80 parts of a key, 80 lists and tables in one
another, integers of 64 bits."""
import re

LIMIT = 80
# (of more digits Python makes no number, and 64 bits hold none)
LONGEST_INTEGER = 19
BARE = frozenset("ABCDEFGHIJKLMNOPQRSTUVWXYZabcdefghijklmnopqrstuvwxyz0123456789-_")
WORD = BARE | frozenset("+.:")
DIGITS = frozenset("0123456789")
ESCAPES = {"b": "\b", "e": "\x1b", "f": "\f", "n": "\n", "r": "\r", "t": "\t", '"': '"', "\\": "\\"}
HEX_LENGTHS = {"x": 2, "u": 4, "U": 8}
RADIXES = {"0x": 16, "0o": 8, "0b": 2}
RADIX_DIGITS = {16: "0123456789abcdefABCDEF", 10: "0123456789", 8: "01234567", 2: "01"}
DECIMAL = re.compile(r"(0|[1-9][0-9]*)(\.[0-9]+)?([eE][+-]?[0-9]+)?")
TIME = r"(\d\d):(\d\d)(?::(\d\d)(?:\.\d+)?)?"
DATE_TIME = re.compile(rf"(\d{{4}})-(\d\d)-(\d\d)(?:[Tt ]{TIME}(?:[Zz]|[+-](\d\d):(\d\d))?)?", re.ASCII)
LOCAL_TIME = re.compile(TIME, re.ASCII)


class NotToml(Exception):
    """A text is refused: why, and at which of its lines."""

    def __init__(self, line, why):
        super().__init__(why)
        self.line = line


class Value:
    """A value, its kind in words, and the line where it begins. A list has values, a table names with
    values."""

    def __init__(self, kind, value, line):
        self.kind, self.value, self.line = kind, value, line


class Table:
    """A table that may still grow: by what it was made, and what it holds."""

    def __init__(self, origin, line):
        self.origin, self.line, self.inner = origin, line, {}

    def close(self):
        """The table as a value, once nothing more can come to it."""
        return Value("table", close(self.inner), self.line)


class Tables:
    """An array of tables, of which the last may still grow."""

    def __init__(self, line):
        self.line, self.tables = line, [Table("header", line)]

    def close(self):
        """The list of these tables as a value."""
        return Value("list", [table.close() for table in self.tables], self.line)


def close(nodes):
    """What these names stand for, each table in them and below being closed."""
    return {key: node if isinstance(node, Value) else node.close() for key, node in nodes.items()}


def parse(data):
    """The values of a text of bytes by their keys, in the order of the text."""
    try:
        text = data.decode("utf-8")
    except UnicodeDecodeError as fault:
        raise NotToml(data[: fault.start].count(b"\n") + 1, "a byte that is no UTF-8") from None
    return Reader(text[1:] if text.startswith("\ufeff") else text).document()


class Reader:
    """A text and the place in it that is read next."""

    def __init__(self, text):
        self.text, self.at = text, 0

    def line(self):
        """The number of the line that is read, from 1."""
        return self.text.count("\n", 0, self.at) + 1

    def fail(self, why):
        """Refuses the text at this line."""
        raise NotToml(self.line(), why)

    def peek(self, ahead=0):
        """The next character, or one that comes later; nothing at the end."""
        return self.text[self.at + ahead : self.at + ahead + 1]

    def is_at(self, front):
        """Whether the text goes on so."""
        return self.text.startswith(front, self.at)

    def skip_white(self):
        """Passes blanks and tabs."""
        while self.peek() in (" ", "\t"):
            self.at += 1

    def skip_newline(self):
        """Passes the end of a line, and says whether there was one."""
        length = 1 if self.is_at("\n") else 2 if self.is_at("\r\n") else 0
        self.at += length
        return length > 0

    def skip_blank(self):
        """Passes white space, newlines and comments."""
        while True:
            self.skip_white()
            if self.peek() == "#":
                while is_text(self.peek()):
                    self.at += 1
                if self.peek() and not self.is_at("\n") and not self.is_at("\r\n"):
                    self.fail("a control character in a comment")
            if not self.skip_newline():
                return

    # keys and tables

    def document(self):
        """The values of the whole text."""
        root, header = {}, []
        while True:
            self.skip_blank()
            if not self.peek():
                return close(root)
            line = self.line()
            if self.is_at("["):
                tables = self.is_at("[[")
                header = self.header("]]" if tables else "]")
                define_table(self, along_header(self, root, header[:-1], line), header[-1], tables, line)
            else:
                key, value = self.pair()
                put(self, along_header(self, root, header, line), key, value, line)
            self.skip_white()
            if self.peek() not in ("", "#", "\n", "\r"):
                self.fail("more on the line than a key and its value")

    def header(self, closing):
        """The names in brackets, for a table or a list of tables."""
        self.at += len(closing)
        self.skip_white()
        key = self.key()
        if not self.is_at(closing):
            self.fail(f"a header without its `{closing}`")
        self.at += len(closing)
        return key

    def key(self):
        """The parts of a name, which points separate."""
        parts = [self.key_part()]
        self.skip_white()
        while self.peek() == ".":
            self.at += 1
            self.skip_white()
            parts.append(self.key_part())
            self.skip_white()
            if len(parts) > LIMIT:
                self.fail(f"a key of more than {LIMIT} parts")
        return parts

    def key_part(self):
        """One part: bare, or a text in quotes."""
        if self.peek() in ('"', "'"):
            return self.string(self.peek(), False)
        start = self.at
        while self.peek() in BARE:
            self.at += 1
        if self.at == start:
            self.fail("a key was expected: a key is a name, `=` and a value")
        return self.text[start : self.at]

    def pair(self, depth=LIMIT):
        """A name and its value, where so many more lists and tables may open."""
        key = self.key()
        if self.peek() != "=":
            self.fail(f"no `=` after `{key[-1]}`")
        self.at += 1
        self.skip_white()
        return key, self.value(depth)

    # values

    def value(self, depth=LIMIT):
        """A value of any kind, with the line on which it begins."""
        line, first = self.line(), self.peek()
        if first in ("[", "{") and depth == 0:
            self.fail(f"more than {LIMIT} lists and tables in one another")
        if first == "[":
            return Value("list", self.items(depth - 1), line)
        if first == "{":
            return Value("table", self.members(depth - 1), line)
        if first in ('"', "'"):
            multi = self.is_at(first * 3)
            return Value("text", self.string(first, multi), line)
        return self.scalar(line)

    def items(self, depth):
        """The values between square brackets."""
        found = []
        self.at += 1
        while True:
            self.skip_blank()
            if self.peek() == "]":
                self.at += 1
                return found
            found.append(self.value(depth))
            self.after_element("]", "list")

    def members(self, depth):
        """The names and values between braces."""
        found = {}
        self.at += 1
        while True:
            self.skip_blank()
            if self.peek() == "}":
                self.at += 1
                return close(found)
            line = self.line()
            key, value = self.pair(depth)
            put(self, found, key, value, line)
            self.after_element("}", "table")

    def after_element(self, closing, what):
        """Passes the comma behind a value of a list or table, or stands before the closing bracket."""
        self.skip_blank()
        if self.peek() == ",":
            self.at += 1
        elif self.peek() != closing:
            self.fail(f"no `,` and no `{closing}` after a value of a {what}")

    def string(self, delimiter, multi):
        """A text up to its closing quote, or its three quotes."""
        self.at += 3 if multi else 1
        if multi:
            self.skip_newline()
        pieces = []
        while True:
            char = self.peek()
            if char == delimiter:
                if not multi:
                    self.at += 1
                    return "".join(pieces)
                count = len(self.text) - self.at - len(self.text[self.at :].lstrip(delimiter))
                if count == 3:
                    self.at += 3
                    return "".join(pieces)
                if count > 5:
                    self.fail("too many quotes at the end of a text")
            elif char == "\\" and delimiter == '"':
                self.at += 1
                pieces.append(self.escape(multi))
                continue
            elif not (is_text(char) or multi and (char == "\n" or self.is_at("\r\n"))):
                self.fail("a text without its closing quote" if char in ("", "\n", "\r") else "a control character in a text")
            pieces.append(char)
            self.at += 1

    def escape(self, multi):
        """What stands behind a backslash; nothing where that joins two lines."""
        start = self.at
        self.skip_white()
        if multi and (self.is_at("\n") or self.is_at("\r\n")):
            while self.skip_newline():
                self.skip_white()
            return ""
        self.at = start
        char = self.peek()
        length = HEX_LENGTHS.get(char, 0)
        if length:
            digits = self.text[self.at + 1 : self.at + 1 + length]
            number = int(digits, 16) if len(digits) == length and all(it in RADIX_DIGITS[16] for it in digits) else 0xD800
            if number > 0x10FFFF or 0xD800 <= number < 0xE000:
                self.fail(f"`\\{char}` without {length} digits of a character")
            self.at += 1 + length
            return chr(number)
        if char not in ESCAPES or not char:
            self.fail(f"`\\{char}` stands for nothing in a text")
        self.at += 1
        return ESCAPES[char]

    def scalar(self, line):
        """A boolean, a moment or a number."""
        word = self.word()
        if not word:
            self.fail("a value was expected")
        self.at += len(word)
        if word in ("true", "false"):
            return Value("boolean", word == "true", line)
        digits = len(word) - len(word.lstrip("0123456789"))
        if digits and word[digits : digits + 1] in ("-", ":"):
            if is_moment(word):
                return Value("date", word, line)
        else:
            number = number_of(word)
            if number is not None:
                return Value("integer" if isinstance(number, int) else "float", number, line)
        why = "no number as TOML writes them, or too large for 64 bits" if word[0] in "+-0123456789" else "no value: a text needs quotes"
        raise NotToml(line, f"`{word}` is {why}")

    def word(self):
        """What stands together here, with the blank between a date and a time."""
        end = self.word_end(self.at)
        # a space before a digit joins a date and a time
        if self.text[end : end + 1] == " " and self.text[end + 1 : end + 2] in DIGITS:
            end = self.word_end(end + 1)
        return self.text[self.at : end]

    def word_end(self, at):
        """Where the characters of a word end."""
        while self.text[at : at + 1] in WORD:
            at += 1
        return at


def is_text(char):
    """Whether a character may stand in a text or comment: it controls nothing."""
    return char == "\t" or char >= " " and char != "\x7f" and char != ""


def along_header(reader, nodes, path, line):
    """The names of the table that a header leads to; what is missing is made."""
    for key in path:
        node = nodes.setdefault(key, Table("implicit", line))
        if isinstance(node, Value):
            reader.fail(f"`{key}` is no table")
        nodes = node.tables[-1].inner if isinstance(node, Tables) else node.inner
    return nodes


def put(reader, nodes, path, value, line):
    """Defines a key once, which may lead through tables that no header made."""
    for key in path[:-1]:
        node = nodes.setdefault(key, Table("dotted", line))
        if not isinstance(node, Table) or node.origin == "header":
            reader.fail(f"`{key}` cannot be added to here")
        node.origin = "dotted"
        nodes = node.inner
    if path[-1] in nodes:
        raise NotToml(line, f"`{path[-1]}` stands there twice, first on line {nodes[path[-1]].line}")
    value.line = line
    nodes[path[-1]] = value


def define_table(reader, nodes, key, tables, line):
    """Makes the table that a header names, or goes on with one that no header has named yet."""
    node = nodes.get(key)
    if node is None:
        nodes[key] = Tables(line) if tables else Table("header", line)
    elif tables and isinstance(node, Tables):
        node.tables.append(Table("header", line))
    elif not tables and isinstance(node, Table) and node.origin == "implicit":
        node.origin = "header"
    else:
        raise NotToml(line, f"`{key}` stands there twice, first on line {node.line}")


def number_of(word):
    """The integer or float that a word writes, None where it writes none."""
    radix = RADIXES.get(word[:2], 10)
    between = RADIX_DIGITS[16 if radix == 16 else 10]
    for at, char in enumerate(word):
        if char == "_" and not (0 < at < len(word) - 1 and word[at - 1] in between and word[at + 1] in between):
            return None
    plain = word.replace("_", "")
    if radix != 10:
        digits = plain[2:]
        if not digits or any(char not in RADIX_DIGITS[radix] for char in digits):
            return None
        return int(digits, radix) if int(digits, radix) < 2**63 else None
    negative = plain[:1] == "-"
    digits = plain[1:] if plain[:1] in ("+", "-") else plain
    if digits in ("inf", "nan"):
        return float(plain)
    found = DECIMAL.fullmatch(digits)
    if not found:
        return None
    if found[2] or found[3]:
        number = float(plain)
        return number if abs(number) != float("inf") else None
    if len(digits) > LONGEST_INTEGER:
        return None
    number = -int(digits) if negative else int(digits)
    return number if -(2**63) <= number < 2**63 else None


def is_moment(word):
    """Whether a word is a date, a time of day, or both."""
    found = LOCAL_TIME.fullmatch(word)
    if found:
        return is_time(*found.groups())
    found = DATE_TIME.fullmatch(word)
    if not found:
        return False
    year, month, day, hour, minute, second, more_hours, more_minutes = found.groups()
    leap = int(year) % 4 == 0 and (int(year) % 100 != 0 or int(year) % 400 == 0)
    days = (31, 29 if leap else 28, 31, 30, 31, 30, 31, 31, 30, 31, 30, 31)
    if not (1 <= int(month) <= 12 and 1 <= int(day) <= days[int(month) - 1]):
        return False
    return (hour is None or is_time(hour, minute, second)) and int(more_hours or 0) < 24 and int(more_minutes or 0) < 60


def is_time(hour, minute, second):
    """Whether there is such a time of day; the second 60 is a leap second."""
    return int(hour) < 24 and int(minute) < 60 and int(second or 0) <= 60
