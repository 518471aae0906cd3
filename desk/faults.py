"""What can stop a command: something that cannot be used, or a refusal of the library in words."""


class Unusable(Exception):
    """Arguments or files that a command cannot use; exit status 2."""


class Refused(Exception):
    """A refusal: its two numbers, in words, with what else is told of it for people and for programs; exit status 1."""

    def __init__(self, file, number, second, detail=(), told=None, words=None, at=''):
        """Keeps what is refused, the numbers, the lines that explain it, the same for programs, words for this case alone, and the place in the file."""
        self.file, self.number, self.second, self.words = file, number, second, words or WORDS[number]
        super().__init__(f'{file}{at}: refused {number} {second}: {self.words}')
        self.detail, self.told = list(detail), dict(told or {})


# Each refusal in words.
WORDS = {
    10: 'the text has more than 262,144 bytes',
    11: 'a character that has no place in rule text',
    12: 'a word or mark stands where it cannot, or the file ends inside a statement',
    13: 'a name has more than 24 bytes',
    14: 'a name is declared twice',
    15: 'one too many',
    16: 'a slot that is not declared, or a value that its slot does not have',
    17: 'a rule assigns the same slot twice',
    18: 'rules wait for each other in a circle that passes through a NOT',
    20: 'the card is empty, or not as long as its own count asks',
    21: 'the card counts another number of slots than the rules declare',
    22: 'the card has a value above the last that its slot declares',
    23: 'the bits after the last slot of the card are not zero',
    24: 'the slip is empty, or not as long as its own count asks',
    25: 'a change names a slot that the rules do not declare',
    26: 'the slots of the changes do not rise',
    27: 'a change gives a value above the last that its slot declares',
    28: 'the bits after the last change of the slip are not zero',
    30: 'an output is too short',
    31: 'the table of rules is not in order',
    32: "the editor's record is full",
    33: 'the output is shorter than the print',
    34: 'the print would have more than 262,144 bytes',
    40: 'a slot would receive two values',
    41: 'a value would be both positive and negative',
    42: 'a value stays unknown',
    44: 'the editor number is not from 1 to 40',
}
