"""What of a cell's text can be read, for play.py, from docs/LANGUAGE.md alone: the line of the first
character, number, text, bracket or indentation that can't be, the top-level pieces, and how deep brackets nest."""
import re

NAME = re.compile(r"[A-Za-z_][A-Za-z0-9_]*")
NUMBER = re.compile(r"0[xX](?:_?[0-9a-fA-F])+|0[oO](?:_?[0-7])+|0[bB](?:_?[01])+|[1-9](?:_?[0-9])*|0(?:_?0)*")
MARKS = "**= //= ** // == != <= >= += -= *= %= + - * % < > = ( ) [ ] { } , : . ;".split()
MARK = re.compile("|".join(map(re.escape, MARKS)))
HEX = "[0-9a-fA-F]"
# What may stand behind a backslash: no surrogates, and no codes above 10FFFF.
ESCAPE = re.compile(
    rf"(?![NxuU])|x{HEX}{{2}}|u(?![dD][89a-fA-F]){HEX}{{4}}|U000(?!0[dD][89a-fA-F]){HEX}{{5}}|U0010{HEX}{{4}}"
)
OPEN, CLOSE = {"(": ")", "[": "]", "{": "}"}, ")]}"
CONTINUED = ("elif", "else", "except", "finally")


class Fault(Exception):
    """What can't be read, with its line."""

    def __init__(self, line):
        super().__init__(line)
        self.line = line


class Reading:
    """The text of a cell, cut: `pieces` are (line, text) of the top-level lines and compound statements, and
    `brackets` are the places of brackets with the depth behind each."""

    def __init__(self, text):
        self.text = text.replace("\r\n", "\n").replace("\r", "\n")
        self.place, self.line = 0, 1
        self.open = []
        self.brackets = []
        self.starts = []
        self.semicolons = set()
        self.indents = [""]
        self.scan()
        self.pieces = self.cut()

    def scan(self):
        """Read all tokens; a Fault tells the first one that can't be read."""
        begun = False
        while self.place < len(self.text):
            if not begun and not self.open:
                begun = self.indentation()
                continue
            begun = self.token()
        if self.open:
            raise Fault(self.open[-1][1])

    def indentation(self):
        """The blanks at the beginning of a logical line; whether a token follows in it."""
        blanks = re.compile(r"[ \t]*").match(self.text, self.place).group()
        line = self.line
        self.place += len(blanks)
        while self.text.startswith("\\\n", self.place):
            self.place += 2
            self.line += 1
            self.place = re.compile(r"[ \t]*").match(self.text, self.place).end()
        if self.place >= len(self.text):
            return False
        char = self.text[self.place]
        if char == "#":
            self.place = re.compile(r"[^\n\0]*").match(self.text, self.place).end()
            if self.text.startswith("\0", self.place):
                raise Fault(self.line)
            char = self.text[self.place : self.place + 1]
        if char == "\n":
            self.place += 1
            self.line += 1
            return False
        if not char:
            return False
        if blanks != self.indents[-1]:
            if blanks.startswith(self.indents[-1]):
                self.indents.append(blanks)
            elif blanks in self.indents:
                del self.indents[self.indents.index(blanks) + 1 :]
            else:
                raise Fault(line)
        self.starts.append((self.line, self.place, blanks))
        return True

    def token(self):
        """Read one token or the blanks before it; whether the logical line goes on."""
        char = self.text[self.place]
        if char in " \t":
            self.place += 1
        elif char == "\n":
            self.place += 1
            self.line += 1
            return bool(self.open)
        elif char == "#":
            self.place = re.compile(r"[^\n\0]*").match(self.text, self.place).end()
        elif self.text.startswith("\\\n", self.place):
            self.place += 2
            self.line += 1
        elif match := NAME.match(self.text, self.place):
            self.name(match)
        elif char.isascii() and char.isdigit():
            self.number()
        elif char in "'\"":
            self.quoted("")
        elif match := MARK.match(self.text, self.place):
            self.mark(match)
        else:
            raise Fault(self.line)
        return True

    def name(self, match):
        word = match.group()
        if word.lower() in ("r", "u") and self.text[match.end() : match.end() + 1] in ("'", '"'):
            self.place = match.end()
            self.quoted(word.lower())
            return
        if len(word) > 255:
            raise Fault(self.line)
        self.place = match.end()

    def number(self):
        match = NUMBER.match(self.text, self.place)
        follows = self.text[match.end() : match.end() + 1]
        if re.match(r"[A-Za-z0-9_.]", follows) or int(match.group().replace("_", ""), 0) > 2**127 - 1:
            raise Fault(self.line)
        self.place = match.end()

    def quoted(self, prefix):
        line = self.line
        quote = self.text[self.place]
        ends = quote * 3 if self.text.startswith(quote * 3, self.place) else quote
        self.place += len(ends)
        while not self.text.startswith(ends, self.place):
            char = self.text[self.place : self.place + 1]
            if not char or char == "\0" or (char == "\n" and len(ends) == 1):
                raise Fault(self.line if char == "\0" else line)
            if char == "\\":
                char = self.text[self.place + 1 : self.place + 2]
                if prefix != "r" and not ESCAPE.match(self.text, self.place + 1):
                    raise Fault(line)
                self.place += 1
            self.line += char == "\n"
            self.place += 1
        self.place += len(ends)

    def mark(self, match):
        mark = match.group()
        if mark in OPEN:
            self.open.append((OPEN[mark], self.line))
            self.brackets.append((self.place, len(self.open)))
        elif mark in CLOSE:
            if not self.open or self.open[-1][0] != mark:
                raise Fault(self.line)
            self.open.pop()
            self.brackets.append((match.end() - 1, len(self.open)))
        elif mark == ";":
            self.semicolons.add(self.place)
        self.place = match.end()

    def cut(self):
        """The top-level pieces: a compound statement goes on over deeper lines and its further clauses."""
        begins = []
        for line, place, blanks in self.starts:
            word = NAME.match(self.text, place)
            goes_on = blanks or (word and word.group() in CONTINUED)
            if not goes_on or not begins:
                begins.append((line, place - len(blanks) if blanks else place))
        ends = [place for _, place in begins[1:]] + [len(self.text)]
        return [(line, re.sub(r"([ \t]*\\\n)+[ \t]*\Z", "\n", self.text[place:end])) for (line, place), end in zip(begins, ends)]
