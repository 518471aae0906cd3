"""A rule file read for people: the file, or its refusal in words with the place, what may stand there and what to do."""
import contextlib

from .advice import advise, stated, suggestions
from .circles import circle
from .faults import Refused
from .places import END, NEW_NAME, Place
from .rules import RuleFile
from .tokens import MARKS, RESERVED

# How many declared names are shown to a person, and how many bytes of a line.
SHOWN, WIDTH = 12, 100


def load(library, subject, text, by_marks=False):
    """The rule file of a text, without test 18 for the response by marks; or its refusal."""
    reading = library.read(text, by_marks)
    if reading.number == 0:
        return RuleFile(library, text, reading.table, by_marks)
    if reading.number == 18:
        raise circled(library, subject, text, reading.second)
    if 11 <= reading.number <= 17:
        raise placed(library, subject, text, reading.number, reading.second)
    raise Refused(subject, reading.number, reading.second, ['split the file, or use shorter names'])


def placed(library, subject, text, number, second):
    """A refusal of 11 to 17 with its place."""
    place = Place(library, text, number)
    may_stand = place.may_stand()
    like = suggestions(place, may_stand)
    advice = advise(place, may_stand)
    detail = [*marked(place), f'found {found(place)}']
    if may_stand:
        detail.append(f'here may stand: {listed(may_stand)}')
    if like:
        detail.append(f"did you mean {' or '.join(like)}?")
    detail += [advice] if advice else []
    told = {
        'place': {'offset': place.token.start, 'line': place.line, 'column': place.column,
                  'token': None if place.is_end else place.token.shown() if place.token.part.isascii() else character(place)},
        'may_stand': may_stand, 'did_you_mean': like, 'advice': advice,
    }
    return Refused(subject, number, second, detail, told, stated(place), f':{place.line}:{place.column}')


def found(place):
    """The token found, as a person sees it."""
    if place.is_end:
        return END
    if place.token.part.isascii() and place.token.shown().isprintable():
        return place.token.shown()[:WIDTH] + ('..' if len(place.token.part) > WIDTH else '')
    shown, code = character(place), f'byte {place.token.part[0]:02X}'
    return f'{shown} ({code})' if shown.isprintable() and shown else code


def character(place):
    """The character of UTF-8 that begins at the place, or '' where none does."""
    for size in range(1, 5):
        with contextlib.suppress(UnicodeDecodeError):
            return place.text[place.token.start:place.token.start + size].decode()
    return ''


def listed(parts):
    """What may stand somewhere, in words: declared names at the end, not all where they are many."""
    others = [part for part in parts if part in (*RESERVED, *MARKS, END, NEW_NAME)]
    names = [part for part in parts if part not in others]
    more = [f'and {len(names) - SHOWN} names more'] if len(names) > SHOWN else []
    return '  '.join(others + names[:SHOWN] + more)


def marked(place):
    """The line of the place with carets under the token, of a long line the part around it; of the end the line of the last token."""
    at = place.before.end if place.is_end and place.before else place.token.start
    number, column = place.lines.place(at)
    line = place.lines.line(number)
    begin = max(0, column - 1 - WIDTH // 2) if len(line) > WIDTH else 0
    carets = max(1, min(len(place.token.part), begin + WIDTH - column + 1))
    white = ''.join('\t' if byte == 9 else ' ' for byte in line[begin:column - 1])
    left, right = '..' if begin else '', '..' if begin + WIDTH < len(line) else ''
    return [f'    {left}{displayed(line[begin:begin + WIDTH])}{right}', f"    {' ' * len(left)}{white}{'^' * carets}"]


def displayed(line):
    """A line as a terminal can show it: what cannot be shown is a ?."""
    return ''.join(one if one == '\t' or one.isprintable() else '?' for one in line.decode('utf-8', 'replace'))


def circled(library, subject, text, lowest):
    """A refusal with 18, with the whole circle."""
    file = RuleFile(library, text, library.read(text, by_marks=True).table, True)
    steps = circle(file, lowest)
    detail, told = [], []
    for step in steps:
        line = file.rules[step.rule - 1].line
        detail.append(f'rule {step.rule} (line {line}) tests {file.test(step.test)}, which rule {step.leads_to} assigns')
        detail.append(f'    {file.rule(step.rule)}')
        slot, value = file.named(*step.test.pair())
        told.append({'rule': step.rule, 'line': line, 'pair': f'{slot} *= {value}', 'negated': step.test.negated, 'leads_to': step.leads_to})
    detail.append('ask the card under one NOT (|= waits for nothing), or let one of the rules assign something else, or leave the NOT out')
    return Refused(subject, 18, lowest, detail, {'place': None, 'circle': told})
