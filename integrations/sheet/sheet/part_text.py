"""Reads the instances of a part's text (ISO 10303-21), as far as it is well formed."""
import re
from dataclasses import dataclass

TOKEN = re.compile(
    r"""(?:[ \t\r\n\f]|/\*.*?\*/)*
    (?:(?P<string>'(?:[^']|'')*')
      |(?P<reference>\#[0-9]+)
      |(?P<number>[+-]?[0-9]+(?:\.[0-9]*(?:E[+-]?[0-9]+)?)?)
      |(?P<enumeration>\.[A-Z_][A-Z0-9_]*\.)
      |(?P<binary>"[0-9A-F]*")
      |(?P<word>(?:END-)?ISO-10303-21|!?[A-Z_][A-Z0-9_]*)
      |(?P<mark>[(),;=$*]))""",
    re.S | re.X,
)
DIRECTIVE = re.compile(r"\\X2\\((?:[0-9A-F]{4})+)\\X0\\|\\X4\\((?:[0-9A-F]{8})+)\\X0\\|\\X\\([0-9A-F]{2})|\\S\\(.)|\\\\|\\P[A-I]\\", re.S)


class Reference(int):
    """The number of an instance that a parameter names."""


class Enumeration(str):
    """A name between two points."""


@dataclass
class Typed:
    """A parameter with a keyword around it."""

    keyword: str
    value: object


@dataclass
class Instance:
    """An instance: its keyword ('' where it is complex), its parameters, and where it stands in the text."""

    keyword: str
    parameters: list
    begin: int
    end: int


class Unreadable(Exception):
    """The text is not well formed here."""


def plain_text(spelling):
    """The text of a string as it is spelled between its apostrophes, the directives of ISO 10303-21 resolved."""

    def resolved(match):
        two, four, byte, shifted = match.groups()
        if two:
            return bytes.fromhex(two).decode("utf-16-be", "replace")
        if four:
            return bytes.fromhex(four).decode("utf-32-be", "replace")
        if byte:
            return chr(int(byte, 16))
        if shifted:
            return chr(ord(shifted) + 128)
        return "\\" if match[0] == "\\\\" else ""

    text = spelling.replace("''", "'")
    try:
        text = text.encode("latin-1").decode("utf-8")
    except UnicodeDecodeError:
        pass
    return DIRECTIVE.sub(resolved, text)


class PartText:
    """The header entities and the instances of a part's text, up to the first place that is not well formed."""

    def __init__(self, content):
        self.text = content.decode("latin-1")
        self.header = {}
        self.instances = {}
        self._place = 0
        self._begin = 0
        try:
            self._read()
        except Unreadable:
            pass

    def _next(self):
        match = TOKEN.match(self.text, self._place)
        if not match:
            raise Unreadable
        self._place = match.end()
        self._begin = match.start(match.lastgroup)
        return match.lastgroup, match[match.lastgroup]

    def _want(self, mark):
        if self._next()[1] != mark:
            raise Unreadable

    def _read(self):
        kind, word = self._next()
        while word != "END-ISO-10303-21":
            begin = self._begin
            if kind == "reference":
                self._read_instance(int(word[1:]), begin)
            elif kind == "word" and word.startswith("FILE_"):
                self._want("(")
                self.header[word] = self._list()
            kind, word = self._next()

    def _read_instance(self, number, begin):
        self._want("=")
        kind, keyword = self._next()
        parameters = []
        if kind == "word":
            self._want("(")
            parameters = self._list()
            self._want(";")
        else:
            keyword = ""
            while self._next()[1] != ";":
                pass
        self.instances.setdefault(number, Instance(keyword, parameters, begin, self._place))

    def _list(self):
        """The parameters after an open parenthesis, and past the one that closes it."""
        whole, open_lists = [], []
        current = whole
        while True:
            kind, word = self._next()
            if word == "(" and kind == "mark":
                open_lists.append(current)
                current = []
            elif word == ")" and kind == "mark":
                if not open_lists:
                    return whole
                outer = open_lists.pop()
                if outer and isinstance(outer[-1], Typed) and outer[-1].value is Typed:
                    outer[-1].value = current[0] if current else None
                else:
                    outer.append(current)
                current = outer
            elif kind == "mark":
                if word in "$*":
                    current.append(None)
                elif word != ",":
                    raise Unreadable
            elif kind == "word":
                current.append(Typed(word, Typed))
            else:
                current.append(self._value(kind, word))

    @staticmethod
    def _value(kind, word):
        if kind == "string":
            return plain_text(word[1:-1])
        if kind == "reference":
            return Reference(word[1:])
        if kind == "number":
            return float(word)
        return Enumeration(word.strip('."'))
