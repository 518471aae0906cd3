"""The tokens of a rule text, and the lines and columns at which they stand."""
import bisect
import re

RESERVED = ('SLOT', 'WHEN', 'IF', 'THEN', 'AND', 'NOT', 'TRUE', 'NONE')
MARKS = ('{', '}', ',', ';', '*=', '|=', ':=')

# A run of name bytes, a mark, or one byte that is neither and not white.
TOKEN = re.compile(rb'[0-9A-Za-z][0-9A-Za-z-]*|[*|:]=|[^\t\n\r ]')

# What ends a line, in any manner of ending lines.
ENDING = re.compile(rb'\r\n|\n|\r')


class Token:
    """A token: its bytes, where they begin and where they end."""

    def __init__(self, part, start, end):
        """Keeps all three."""
        self.part, self.start, self.end = part, start, end

    def shown(self):
        """The token as a person sees it."""
        return self.part.decode('ascii', 'replace')

    def is_name(self):
        """Whether it is a name, of whatever length."""
        return self.part[:1].isalnum() and self.part.isascii() and self.shown() not in RESERVED


def tokens(text):
    """The tokens of a text."""
    return [Token(found.group(), found.start(), found.end()) for found in TOKEN.finditer(text)]


class Lines:
    """The lines of a text."""

    def __init__(self, text):
        """Finds where each line begins."""
        self.text = text
        self.endings = [(found.start(), found.end()) for found in ENDING.finditer(text)]
        self.starts = [0] + [end for _, end in self.endings]

    def place(self, offset):
        """The line and the column of an offset, both from 1."""
        line = bisect.bisect_right(self.starts, offset)
        return line, offset - self.starts[line - 1] + 1

    def line(self, number):
        """The bytes of a line without its ending."""
        end = self.endings[number - 1][0] if number <= len(self.endings) else len(self.text)
        return self.text[self.starts[number - 1]:end]
