"""Cards and slips by name, over the proved packing and unpacking."""
import difflib

from .faults import Refused, Unusable
from .files import read
from .rules import NONE

# More bytes than any card or slip of its own count's length has.
ROOM = 128


def split(word):
    """The slot and the value of a word `slot=value`."""
    slot, sign, value = word.partition('=')
    if not sign or not slot:
        raise Unusable(f'{word}: not of the form slot=value')
    return slot, value


def pair_of(file, word):
    """The pair that a word `slot=value` names; no value, or NONE, is value 0."""
    slot, value = split(word)
    if slot not in file.slots:
        raise Unusable(f'{word}: the rules have no slot {slot}{like(slot, file.slots)}')
    at = file.slots.index(slot)
    if value and value not in file.values[at]:
        raise Unusable(f'{word}: {slot} has no value {value}{like(value, file.values[at])}')
    return at, file.values[at].index(value) if value else 0


def like(name, names):
    """A question for the names that are like one, or what there is."""
    close = difflib.get_close_matches(name.lower(), [other.lower() for other in names], 3, 0.6)
    meant = [other for other in names if other.lower() in close]
    return f"; did you mean {' or '.join(meant)}?" if meant else f": it is one of {', '.join(names)}"


def pairs_of(file, words):
    """The pairs that words name, each slot once, by slot."""
    pairs = {}
    for word in words:
        slot, value = pair_of(file, word)
        if slot in pairs:
            raise Unusable(f'{word}: {file.slots[slot]} is named twice')
        pairs[slot] = value
    return sorted(pairs.items())


def word_of(file, pair):
    """A pair as a word `slot=value`."""
    return '{}={}'.format(*file.named(*pair))


def make_card(file, words, before=None):
    """The packed card with these values, and of the others those of the card before it, or none."""
    values = list(before or [0] * len(file.slots))
    for slot, value in pairs_of(file, words):
        values[slot] = value
    return unrefused('the card', file, *file.library.pack_card(file.bare, values))


def make_slip(file, words):
    """The packed slip with these changes."""
    return unrefused('the slip', file, *file.library.pack_slip(file.bare, pairs_of(file, words)))


def load_card(file, path):
    """The values of the card in a file."""
    return unrefused(path, file, *file.library.unpack_card(file.bare, read(path, ROOM)))


def load_slip(file, path):
    """The changes of the slip in a file."""
    return unrefused(path, file, *file.library.unpack_slip(file.bare, read(path, ROOM)))


def unrefused(subject, file, number, second, given):
    """What is given, or its refusal."""
    if number:
        raise Refused(subject, number, second, detail(file, number, second))
    return given


def detail(file, number, second):
    """What a refusal of 21, 22 or 25 to 27 says here, in words."""
    if number == 22:
        return [f'slot {second} is {file.slots[second]}, which has {len(file.values[second]) - 1} values']
    if number == 21:
        return [f'the rules declare {len(file.slots)}: the card belongs to another rule file, or the rules gained or lost a slot']
    if 25 <= number <= 27:
        return [f'it is change {second}, counted from 0']
    return []
