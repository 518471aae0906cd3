"""Where a rule text is refused and what may stand there, found by the proved reading alone.

The first faulty token decides a refusal of 11 to 17, and nothing that stands behind it matters (`refusal_stands`, `one_place` and `found_by_cutting` in crates/grammar/proofs/Refusals.antt). So a text that is cut after some of its tokens, with a byte behind the cut that is faulty anywhere, is refused with 11 exactly where the faulty token was cut off; and the place is found by halving.
"""
import re

from .library import TEXT_BYTES
from .rules import RuleFile
from .tokens import MARKS, RESERVED, Lines, Token, tokens

# A byte that can begin no token, and a name that is too long, which is refused with 13 exactly where a name may stand.
FAULTY, LONG = b'(', b'n' * 25

END = 'the end of the file'
NEW_NAME = 'a new name'


class Place:
    """The place of a refusal: its token, the one before it, and where they stand."""

    def __init__(self, library, text, number):
        """Finds the place of a refusal of 11 to 17 in a text."""
        self.library, self.text, self.number = library, text, number
        self.lines, self.tokens = Lines(text), tokens(text)
        self.at = self.first_faulty()
        self.is_end = self.at == len(self.tokens)
        self.token = Token(b'', len(text), len(text)) if self.is_end else self.tokens[self.at]
        self.before = self.tokens[self.at - 1] if self.at else None
        self.line, self.column = self.lines.place(self.token.start)

    def cut(self, count):
        """The text up to the end of its first tokens."""
        return self.text[:self.tokens[count - 1].end] if count else b''

    def stands(self, count):
        """Whether the faulty token is among the first tokens; the end of a text is refused with 12 alone."""
        if self.number == 11:
            return self.read(self.cut(count)) == 11
        if self.number != 12 and count == len(self.tokens):
            return True
        return self.read(self.cut(count) + FAULTY) != 11

    def first_faulty(self):
        """The number of the faulty token, from 0; that of the end is the number of tokens."""
        low, high = 0, len(self.tokens)
        while low < high:
            middle = (low + high) // 2
            low, high = (low, middle) if self.stands(middle + 1) else (middle + 1, high)
        return low

    def read(self, text):
        """The number with which a text is refused, without test 18."""
        return self.library.read(text if len(text) <= TEXT_BYTES else shortened(text), by_marks=True).number

    def may_stand(self):
        """What may stand in the place of the faulty token: words and marks, a new name or those that are declared, the end."""
        before = self.cut(self.at)
        used = {token.part for token in self.tokens}
        new = next(name for name in (f'n{number}' for number in range(len(used) + 1)) if name.encode() not in used)
        found = [part for part in (*RESERVED, *MARKS, new) if self.may_follow(before, part)]
        if new not in found and self.read(before + b' ' + LONG) == 13:
            found += [name for name in self.declared_names() if self.may_follow(before, name)]
        ends = [END] if self.read(before) == 0 else []
        return [NEW_NAME if part == new else part for part in found] + ends

    def may_follow(self, before, part):
        """Whether a token may stand behind a text without a fault."""
        return self.read(before + b' ' + part.encode() + FAULTY) == 11

    def declared(self):
        """The rule file of the statements that are complete before the faulty token."""
        count = max((at for at in range(self.at + 1) if at == 0 or self.tokens[at - 1].part == b';'))
        text = self.cut(count)
        return RuleFile(self.library, text, self.library.read(text, by_marks=True).table, True)

    def declared_names(self):
        """The names of slots and values that are declared before the faulty token, each once."""
        file = self.declared()
        names = file.slots + [value for values in file.values for value in values[1:]]
        return list(dict.fromkeys(names))

    def statement(self):
        """The first token of the statement in which the place is, SLOT or WHEN; None where none is begun."""
        for at in range(self.at - 1, -1, -1):
            part = self.tokens[at].part
            if part == b';':
                return None
            if part in (b'SLOT', b'WHEN'):
                return self.tokens[at]
        return None


def shortened(text):
    """A text that is over the limit by what was put behind it, without what no later token depends on: white, and of each complete rule all but its trigger and its first assignment. Every such text is within the limit."""
    parts, statement = [], []
    for token in tokens(text):
        statement.append(token.part)
        if token.part == b';':
            parts += least(statement)
            statement = []
    return re.sub(rb' ?([{},;]|[*|:]=) ?', rb'\1', b' '.join(parts + statement))


def least(statement):
    """The shortest rule with the trigger and the first assignment of a rule; another statement as it is."""
    if statement[0] != b'WHEN' or b'THEN' not in statement:
        return statement
    assigned = [part for part in statement[statement.index(b'THEN') + 1:] if part != b'{'][:3]
    return [*statement[:4], b'IF', b'TRUE', b'THEN', *assigned, b';']
