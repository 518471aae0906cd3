"""What to do about a refused rule text, in words of its own for the mistakes that are made most."""
import difflib
import re
import unicodedata

from .places import END, NEW_NAME
from .tokens import MARKS, RESERVED

# What the bytes at a character without a place look like, and what to say of it.
CHARACTERS = [
    (rb'\xef\xbb\xbf', 'this is a byte-order mark: save the file as plain text, UTF-8 without BOM or ASCII'),
    (rb'\x00', 'the file has zero bytes and is no plain text'),
    (rb'!=|<>', 'there is no such sign: write NOT before the test, as in NOT slot |= value'),
    (rb'->|=>', 'write THEN before what is assigned'),
    (rb'#|//|/\*|--|%|<!--|!', 'rule files have no comments: keep such words in another file'),
    (rb'[<>]', 'values have no order: test for each value, in a rule of its own'),
    (rb'\xe2\x80[\x98-\x9f]|[\x91-\x94]', 'this is a curly quote: names stand without quotes, as letters, digits and hyphens'),
    (rb'["\'`]', 'names stand without quotes, as letters, digits and hyphens'),
    (rb'\xc2\xa0|\xe2\x80[\x80-\x8b\xaf]|\xa0', 'this is a space of another kind: write a plain space'),
    (rb'\xe2\x80[\x90-\x95]|\xe2\x88\x92|[\x96\x97]', 'this is a dash: the hyphen of a name is the plain -'),
    (rb'[()\[\]]', 'there are no parentheses: a condition is its tests with AND between, each plain or under NOT'),
    (rb'_', 'a name has letters, digits and hyphens: write - for _'),
    (rb'-', 'a name begins with a letter or a digit'),
    (rb'\|\|', 'there is no OR: write a rule for each case'),
    (rb'&', 'write AND between tests'),
    (rb'==?', 'write *= for what changes now, |= for what the card has, := in an assignment'),
    (rb'[*|:]', 'write *=, |= and := with the = directly behind it'),
    (rb'\.', 'a statement ends in ;'),
    (rb'[\x80-\xff]', 'names have plain letters a to z and A to Z, digits and hyphens'),
]

BRACES = 'the values of a slot stand in braces, with commas between: SLOT name { value, value };'
COMMAS = 'a list has commas between, and ends in }'
BEGINS = 'every statement begins with SLOT or WHEN, in capitals, and a rule has no label'
ONE_WORD = 'a name is one word: write - for a space'

UTF_16 = 'the file is in UTF-16: save it as plain text, UTF-8 without BOM or ASCII'

# Words that other languages have and RL has not.
ABSENT = {
    'OR': 'there is no OR: write a rule for each case',
    'ELSE': 'there is no ELSE: write a rule of its own, with NOT before the test',
    'FALSE': 'there is no FALSE: TRUE is the condition that always holds',
    'NULL': 'the word for no value is NONE',
}


def is_inside_name(place):
    """Whether letters or digits stand directly before and behind the token."""
    around = place.text[place.token.start - 1:place.token.start], place.text[place.token.end:place.token.end + 1]
    return all(byte.isalnum() and byte.isascii() for byte in around)


def is_list(may_stand):
    """Whether a list in braces goes on or ends here."""
    return set(may_stand) == {',', '}'}


def of_character(place, may_stand):
    """What is said of a character that has no place in rule text."""
    rest = place.text[place.token.start:place.token.start + 8]
    plain = unicodedata.normalize('NFKC', rest.decode('utf-8', 'ignore')[:1])
    if rest[0] > 127 and plain.isascii() and plain.isprintable() and plain.strip() and not plain.isalnum():
        return f'this only looks like {plain}: write the plain {plain}'
    if re.match(rb'[.:/]', rest) and is_inside_name(place):
        return f'a name has letters, digits and hyphens: write - for {rest[:1].decode()}'
    if re.match(rb'-[^-]|<[^!]|>', rest) and 'WHEN' in may_stand:
        return BEGINS
    if re.match(rb'[:=|(\[<./+]', rest) and (may_stand == ['{'] or is_list(may_stand)):
        return BRACES if may_stand == ['{'] else COMMAS
    return next((said for pattern, said in CHARACTERS if re.match(pattern, rest)), 'take it out')


def suggestions(place, may_stand):
    """The names and words that may stand there and are like the token found, the most alike first."""
    if place.is_end or not place.token.is_name():
        return []
    found = place.token.shown()
    known = [part for part in may_stand if part not in (*MARKS, END, NEW_NAME)]
    words = [part for part in known if part in RESERVED and part == found.upper()]
    names = [part for part in known if part.lower() == found.lower()]
    folded = {part.lower(): part for part in known}
    close = [folded[part] for part in difflib.get_close_matches(found.lower(), folded, 3, 0.7)]
    return list(dict.fromkeys(words + names + close))


# What is said of a token out of place, by the first line that fits: the token found, the one before it, what may stand in its place, and whether it is a name.
MISPLACED = [
    (lambda found, before, may, named: found == 'SLOT' and 'WHEN' in may, 'all SLOT lines stand before all rules'),
    (lambda found, before, may, named: found in ('|=', ':=') and may == ['*='], 'WHEN takes *=: a rule is woken by a change'),
    (lambda found, before, may, named: found == ':=' and '*=' in may, ':= assigns, behind THEN; a test is *= or |='),
    (lambda found, before, may, named: may == [':='], 'behind THEN a slot is assigned by :='),
    (lambda found, before, may, named: found in RESERVED and NEW_NAME in may, 'this is a reserved word and no name'),
    (lambda found, before, may, named: found == 'TRUE', 'TRUE opens a condition or is the whole of it, and stands nowhere else'),
    (lambda found, before, may, named: found == 'THEN' and may == ['IF'], 'IF is missing: a rule without a condition has IF TRUE'),
    (lambda found, before, may, named: found == '}' and before == ',', 'take the comma before } away'),
    (lambda found, before, may, named: found == '}' and before == '{', 'a list has one name at least'),
    (lambda found, before, may, named: found in (',', 'AND') and may == [';'], 'two or more assignments stand in braces: THEN { a := b, c := d };'),
    (lambda found, before, may, named: found in ('WHEN', 'SLOT') and ';' in may, 'the statement before it has no ; at its end'),
    (lambda found, before, may, named: found == 'NOT' and before == 'WHEN', 'WHEN takes no NOT: put the test into the condition, behind IF'),
    (lambda found, before, may, named: found == ';' and 'WHEN' in may, 'one ; ends a statement: take this one away'),
    (lambda found, before, may, named: found == 'IF' and 'WHEN' in may, 'a rule begins with the change that wakes it: WHEN slot *= value IF ..'),
    (lambda found, before, may, named: 'WHEN' in may, BEGINS),
    (lambda found, before, may, named: may == ['{'], BRACES),
    (lambda found, before, may, named: is_list(may), COMMAS),
    (lambda found, before, may, named: found == ',' and 'AND' in may, 'write AND between tests'),
    (lambda found, before, may, named: found == 'AND' and may == ['IF'], 'WHEN takes one change: put the other tests into the condition, behind IF'),
    (lambda found, before, may, named: found == 'THEN' and before == 'IF', 'a rule without a condition has IF TRUE'),
    (lambda found, before, may, named: named and '|=' in may, 'a test is slot *= value, where it changes to that now, or slot |= value, where the card has it'),
]


def of_token(place, may_stand):
    """What is said of a token out of place, or '' where nothing of its own is."""
    if place.is_end:
        begun = place.statement()
        return f'the file ends inside the statement that begins in line {place.lines.place(begun.start)[0]}'
    found, before, named = place.token.shown(), place.before.shown() if place.before else '', place.token.is_name()
    if named and found.upper() in ABSENT:
        return ABSENT[found.upper()]
    if named and found.upper() in RESERVED and found.upper() in may_stand:
        return f'reserved words are written in capitals: {found.upper()}'
    said = next((words for fits, words in MISPLACED if fits(found, before, may_stand, named)), '')
    return f'{ONE_WORD}; {said}' if named and said in (BRACES, COMMAS) else said


def is_value(place):
    """Whether the place is that of a value in a rule."""
    return place.before is not None and place.before.part in (b'*=', b'|=', b':=')


def stated(place):
    """What is refused at a place, in words for this case alone; None where the number's own words say it."""
    name = place.token.shown()
    if place.number == 12:
        return 'the file ends inside a statement' if place.is_end else 'a word or mark stands where it cannot'
    if place.number == 14:
        return f"the {'slot' if place.before.part == b'SLOT' else 'value'} {name} is declared twice"
    if place.number == 16:
        return f'{place.tokens[place.at - 2].shown()} has no value {name}' if is_value(place) else f'there is no slot {name}'
    if place.number == 17:
        return f'the rule assigns {name} twice'
    return None


def of_name(place, file):
    """What is said of a name that is not declared: of what else it is the name."""
    name = place.token.shown()
    behind = is_value(place)
    owners = [file.slots[slot] for slot, values in enumerate(file.values) if name in values[1:]]
    if behind and name in file.slots:
        return f'{name} is a slot, not a value'
    if name.upper() in ABSENT:
        return ABSENT[name.upper()]
    if owners:
        slot = place.tokens[place.at - 2].shown() if behind else ''
        return f"{name} is a value of {' and of '.join(owners)}, not {'of ' + slot if behind else 'a slot'}"
    return 'declare it in a SLOT line, or correct its spelling; capitals count'


def of_surplus(place):
    """What is said of one too many."""
    found, before = place.token.part, place.before.part if place.before else b''
    if found == b'SLOT':
        return 'a file has 32 slots at most'
    if found == b'WHEN':
        return 'a file has 2,000 rules at most'
    if before == b'AND':
        return 'a condition has 8 tests at most: split the rule'
    begun = place.statement()
    if begun and begun.part == b'SLOT':
        return 'a slot has 15 values at most'
    return 'a rule assigns 4 slots at most: split the rule'


def declared_first(place):
    """The token at which a name that is declared twice is declared first: behind SLOT, or among the values of the same slot."""
    if place.before.part == b'SLOT':
        return next(token for before, token in zip(place.tokens, place.tokens[1:]) if before.part == b'SLOT' and token.part == place.token.part)
    values = place.tokens[place.tokens.index(place.statement()) + 2:]
    return next(token for token in values if token.part == place.token.part)


def is_utf_16(text):
    """Whether a text looks like UTF-16: it has the mark of it, or a zero byte in every other place at its beginning."""
    return text[:2] in (b'\xff\xfe', b'\xfe\xff') or (len(text) > 3 and not any(text[:64][1::2])) or (len(text) > 3 and not any(text[:64][::2]))


def advise(place, may_stand):
    """What to do about a refusal at a place, as one line or ''."""
    if is_utf_16(place.text):
        return UTF_16
    if place.number == 11:
        return of_character(place, may_stand)
    if place.number == 12:
        return of_token(place, may_stand)
    if place.number == 13:
        return f'it has {len(place.token.part)}: shorten it everywhere'
    if place.number == 14:
        return f'it is declared in line {place.lines.place(declared_first(place).start)[0]} before: take one of the two away, or rename it'
    if place.number == 15:
        return of_surplus(place)
    if place.number == 16:
        return of_name(place, place.declared())
    return 'keep one of the two assignments'
