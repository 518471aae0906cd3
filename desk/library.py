"""The functions of the shared library librl, as include/rl.h declares them, over bytes."""
import ctypes
import os
from ctypes import POINTER, Structure, byref, c_bool, c_char_p, c_size_t, c_uint8, c_uint16, c_uint32

from .faults import Unusable

# The limits of a rule file, and the smaller ones of the program rl.
SLOTS, VALUES, RULES, LITERALS, ASSIGNMENTS = 32, 15, 2000, 8, 4
TEXT_BYTES, PROGRAM_TEXT_BYTES, PROGRAM_RULES = 262144, 65535, 255

# Bytes that any card, any slip of 32 changes and any fired record fit in, and the editors.
CARD_BYTES, SLIP_BYTES, FIRED_BYTES, EDITORS = 17, 37, 250, 40

# The shared library by the name that programs ask for, and the variable that names another file.
NAME, VARIABLE = 'librl.so.1', 'DESK_LIBRARY'


class Stretch(Structure):
    """Where a name stands in the rule text."""
    _fields_ = [('start', c_uint32), ('size', c_uint32)]


class TableSlot(Structure):
    """A slot: its name and its values' names with the number used."""
    _fields_ = [('name', Stretch), ('values', Stretch * VALUES), ('count', c_uint16)]


class Literal(Structure):
    """A test of a condition."""
    _fields_ = [('becomes', c_bool), ('negated', c_bool), ('slot', c_uint8), ('value', c_uint8)]


class Pair(Structure):
    """A slot and a value: an assignment, or a change of a slip."""
    _fields_ = [('slot', c_uint8), ('value', c_uint8)]


class TableRule(Structure):
    """A rule: its trigger, its literals and assignments with the numbers used, its stratum."""
    _fields_ = [('slot', c_uint8), ('value', c_uint8), ('literals', Literal * LITERALS), ('tested', c_uint8),
                ('assignments', Pair * ASSIGNMENTS), ('assigned', c_uint8), ('stratum', c_uint16)]


class Table(Structure):
    """The table: slots and rules with the numbers used."""
    _fields_ = [('slots', TableSlot * SLOTS), ('width', c_uint16), ('rules', TableRule * RULES), ('count', c_uint16)]


class CardForm(Structure):
    """An unpacked card."""
    _fields_ = [('values', c_uint8 * SLOTS), ('count', c_size_t)]


class SlipForm(Structure):
    """An unpacked slip."""
    _fields_ = [('changes', Pair * SLOTS), ('count', c_size_t)]


class Tally(Structure):
    """An editor's record."""
    _fields_ = [('answered', c_uint16), ('refused', c_uint16)]


# The lent table of forty records.
Records = Tally * EDITORS


def result(*fields):
    """The struct of a result: a refusal's number, its second number and what else is given."""
    return type('Result', (Structure,), {'_fields_': [('number', c_uint8), ('second', c_size_t), *fields]})


Read = result(('table', Table))
Printed = Packed = result(('length', c_size_t))
Card = result(('card', CardForm))
Slip = result(('slip', SlipForm))
Response = result(('length', c_size_t), ('fired', c_size_t))


class Named(Structure):
    """Where a name stands, or 31."""
    _fields_ = [('number', c_uint8), ('start', c_size_t), ('size', c_size_t)]


GIVEN = [c_char_p, c_size_t]
OUTPUT = [POINTER(c_uint8), c_size_t]
RESPONDS = [Table, POINTER(Tally), c_size_t, c_size_t, *GIVEN, *GIVEN, *OUTPUT, *OUTPUT, *OUTPUT]

FUNCTIONS = {
    'rl_read': (Read, GIVEN),
    'rl_read_unlayered': (Read, GIVEN),
    'rl_print': (Printed, [*GIVEN, *OUTPUT]),
    'rl_slot_name': (Named, [*GIVEN, Table, c_size_t]),
    'rl_value_name': (Named, [*GIVEN, Table, c_size_t, c_size_t]),
    'rl_unpack_card': (Card, [Table, *GIVEN]),
    'rl_unpack_slip': (Slip, [Table, *GIVEN]),
    'rl_pack_card': (Packed, [Table, CardForm, *OUTPUT]),
    'rl_pack_slip': (Packed, [Table, SlipForm, *OUTPUT]),
    'rl_respond': (Response, RESPONDS),
    'rl_respond_by_marks': (Response, RESPONDS),
}


def candidates():
    """The files that may be the library: the one that is named, then beside the package, of the clone, of the installation, of the system."""
    package = os.path.dirname(os.path.abspath(__file__))
    if VARIABLE in os.environ:
        return [os.environ[VARIABLE]]
    places = [[package, 'librl.so'], [package, '../target/lib', NAME], [package, '../../../lib', NAME]]
    return [path for path in (os.path.join(*place) for place in places) if os.path.exists(path)] + [NAME]


class Library:
    """The proved library."""

    def __init__(self):
        """Loads the first file that can be loaded."""
        failed = None
        for path in candidates():
            try:
                loaded = ctypes.CDLL(path)
                for name, (gives, takes) in FUNCTIONS.items():
                    function = getattr(loaded, name)
                    function.restype, function.argtypes = gives, takes
                    setattr(self, name, function)
                return
            except (OSError, AttributeError) as error:
                failed = error
        raise Unusable(f'the library cannot be loaded: {failed}; in a clone ./build makes it, and {VARIABLE} may name another file')

    def read(self, text, by_marks=False):
        """The reading of a rule text, without test 18 for the response by marks."""
        return (self.rl_read_unlayered if by_marks else self.rl_read)(text, len(text))

    def print(self, text):
        """The print of a rule text in the house style with its numbers."""
        out = (c_uint8 * TEXT_BYTES)()
        printed = self.rl_print(text, len(text), out, TEXT_BYTES)
        return printed.number, printed.second, bytes(out[:printed.length])

    def slot_name(self, text, table, slot):
        """The name of a slot of a table that was read from the text."""
        named = self.rl_slot_name(text, len(text), table, slot)
        return text[named.start:named.start + named.size].decode('ascii')

    def value_name(self, text, table, slot, value):
        """The name of a slot's value, values counted from 1."""
        named = self.rl_value_name(text, len(text), table, slot, value)
        return text[named.start:named.start + named.size].decode('ascii')

    def unpack_card(self, table, data):
        """The refusal's two numbers, and the values of a packed card."""
        card = self.rl_unpack_card(table, data, len(data))
        return card.number, card.second, card.card.values[:card.card.count]

    def unpack_slip(self, table, data):
        """The refusal's two numbers, and the changes of a packed slip as pairs."""
        slip = self.rl_unpack_slip(table, data, len(data))
        return slip.number, slip.second, [(change.slot, change.value) for change in slip.slip.changes[:slip.slip.count]]

    def pack_card(self, table, values):
        """The refusal's two numbers, and the card of these values packed."""
        out = (c_uint8 * CARD_BYTES)()
        form = CardForm((c_uint8 * SLOTS)(*values), len(values))
        packed = self.rl_pack_card(table, form, out, CARD_BYTES)
        return packed.number, packed.second, bytes(out[:packed.length])

    def pack_slip(self, table, changes):
        """The refusal's two numbers, and the slip of these pairs packed."""
        out = (c_uint8 * SLIP_BYTES)()
        form = SlipForm((Pair * SLOTS)(*changes), len(changes))
        packed = self.rl_pack_slip(table, form, out, SLIP_BYTES)
        return packed.number, packed.second, bytes(out[:packed.length])


class Answer:
    """What a response gives: its refusal's two numbers, or the new card, the changes and the fired record."""

    def __init__(self, number, second, card, changes, fired):
        """Keeps what is given."""
        self.number, self.second = number, second
        self.card, self.changes, self.fired = card, changes, fired

    def rules(self):
        """The numbers of the rules that fired: a bit for each rule, rule 1 at the most significant bit of the first byte."""
        return [8 * at + bit + 1 for at, byte in enumerate(self.fired) for bit in range(8) if byte << bit & 0x80]


class Responder:
    """The responses by one table, with outputs that are lent to every call."""

    def __init__(self, library, table, by_marks=False):
        """Makes the outputs."""
        self.function = library.rl_respond_by_marks if by_marks else library.rl_respond
        self.table, self.size = table, (table.count + 7) // 8
        self.card, self.changes, self.fired = (c_uint8 * CARD_BYTES)(), (c_uint8 * SLIP_BYTES)(), (c_uint8 * FIRED_BYTES)()

    def respond(self, records, editor, card, slip):
        """The answer to an editor's packed card and packed slip, counted in the records; a number that is no editor's goes as 0, since C would cut a large one to 64 bits."""
        number = editor if 0 <= editor <= EDITORS else 0
        given = self.function(self.table, records, len(records), number, card, len(card), slip, len(slip), self.card, CARD_BYTES,
                              self.changes, SLIP_BYTES, self.fired, FIRED_BYTES)
        if given.number:
            return Answer(given.number, given.second, b'', b'', b'')
        return Answer(0, 0, bytes(self.card)[:len(card)], bytes(self.changes)[:given.length], bytes(self.fired)[:self.size])


def without_rules(table):
    """The same slots without rules, by which cards and slips are packed and unpacked whatever the strata are."""
    slots = Table()
    ctypes.memmove(byref(slots), byref(table), ctypes.sizeof(Table))
    slots.count = 0
    return slots
