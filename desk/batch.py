"""A day's slips, one after the other: each answered or refused and counted once, its card written."""
import csv
import json
import os
import re
import signal
import sys
import time

from .counts import Counts
from .entries import ROOM
from .faults import WORDS, Unusable
from .files import read, read_file
from .library import Responder

# A slip's file: its place in the day, the entry whose card it changes, its editor's number.
SLIP = re.compile(r'(?P<order>[0-9]+)\.(?P<entry>.+)\.(?P<editor>[0-9]+)\.slip')
CARD = '.card'

# The list of the slips that are done, in their folder.
LIST = 'done.jsonl'

# How many slips are carried out at once, and how often the bar is drawn, in seconds.
TOGETHER, DRAWN = 2000, 0.1

COLUMNS = ('slip', 'entry', 'editor', 'outcome', 'number', 'second', 'words', 'changes', 'fired', 'packed_card', 'answered', 'refused')

# Refusals of a damaged card.
DAMAGED = range(20, 24)


class Day:
    """The slips of a folder, the cards of another, and the rules by which they are answered."""

    def __init__(self, file, cards, slips, counts):
        """Finds the slips, and those that are done."""
        self.file, self.cards, self.slips, self.counts = file, os.path.realpath(cards), os.path.realpath(slips), counts
        self.done_path = os.path.join(self.slips, LIST)
        self.earlier = earlier(self.done_path)
        done = {outcome['slip'] for outcome in self.earlier}
        self.misnamed, found = [], []
        for name in names_in(self.slips):
            match = SLIP.fullmatch(name)
            if match:
                found.append((int(match['order']), name, match['entry'], int(match['editor'])))
            elif name.endswith('.slip'):
                self.misnamed.append(name)
        self.left = [one for one in sorted(found) if one[1] not in done]
        self.responder = Responder(file.library, file.table, file.by_marks)
        self.damaged = set()
        for outcome in self.earlier:
            self.note(outcome)
        self.unread = set()
        self.paths, self.shown = {}, {}

    def note(self, outcome):
        """Keeps the entries whose card was found damaged."""
        if outcome.get('number') in DAMAGED:
            self.damaged.add(outcome['entry'])

    def path_of(self, entry):
        """The path of an entry's card, which two entries may share by a link."""
        if entry not in self.paths:
            self.paths[entry] = os.path.realpath(f'{self.cards}/{entry}{CARD}')
        return self.paths[entry]

    def named(self, changes):
        """Packed changes by name; those of changes seen before are kept."""
        if changes not in self.shown:
            pairs = self.file.library.unpack_slip(self.file.bare, changes)[2]
            self.shown[changes] = [dict(zip(('slot', 'value'), self.file.named(*pair))) for pair in pairs]
        return self.shown[changes]

    def run(self, stop, bar):
        """The outcomes in the order of the slips, some at once; what is done is on the disk before it is given."""
        for begin in range(0, len(self.left), TOGETHER):
            cards, outcomes = {}, []
            for _, name, entry, editor in self.left[begin:begin + TOGETHER]:
                if stop():
                    break
                outcomes.append(self.answer(name, entry, editor, cards))
                bar.draw(begin + len(outcomes))
            written = {path: states for path, states in cards.items() if states[0] != states[1]}
            lines = [json.dumps(outcome) for outcome in outcomes if is_done(outcome)]
            if lines:
                self.counts.commit(written, self.done_path, lines)
            yield outcomes
            if stop():
                return

    def answer(self, name, entry, editor, cards):
        """What one slip comes to; a card that is changed is kept until it is written. An entry whose card is damaged, or of which something could not be read, is stopped: its later slips are held until that is mended."""
        outcome = {'slip': name, 'entry': entry, 'editor': editor}
        path = self.path_of(entry)
        if entry in self.unread:
            return {**outcome, 'outcome': 'held', 'words': 'something of this entry could not be read'}
        try:
            slip = read_file(f'{self.slips}/{name}', ROOM)
            if path not in cards:
                before = read_file(path, ROOM).hex()
                cards[path] = [before, before]
        except Unusable as error:
            self.unread.add(entry)
            return {**outcome, 'outcome': 'unread', 'words': str(error)}
        card = bytes.fromhex(cards[path][1])
        if entry in self.damaged and self.file.library.unpack_card(self.file.bare, card)[0]:
            return {**outcome, 'outcome': 'held', 'words': 'an earlier slip found the card of this entry damaged'}
        answer = self.responder.respond(self.counts.records, editor, card, slip)
        if answer.number == 0:
            card = answer.card
            cards[path][1] = card.hex()
            outcome.update(outcome='answered', number=0, second=0, changes=self.named(answer.changes), fired=answer.rules())
        else:
            outcome.update(outcome='refused', number=answer.number, second=answer.second, words=self.reason(answer))
        outcome['packed_card'] = card.hex(' ').upper()
        if 1 <= editor <= len(self.counts.records):
            record = self.counts.records[editor - 1]
            outcome['record'] = {'answered': record.answered, 'refused': record.refused}
        self.note(outcome)
        return outcome

    def reason(self, answer):
        """A refusal in words, a conflict with its slot's name."""
        slot = f': {self.file.slots[answer.second]}' if answer.number in (22, 40) else ''
        return WORDS[answer.number] + slot


def names_in(folder):
    """The names of what is in a folder."""
    try:
        return os.listdir(folder)
    except OSError as error:
        raise Unusable(f'{folder}: {error.strerror}') from error


def earlier(path):
    """The outcomes that a list of slips done has."""
    if not os.path.exists(path):
        return []
    try:
        outcomes = [json.loads(line) for line in read(path).splitlines()]
        if all(isinstance(outcome, dict) and {'slip', 'entry', 'outcome', 'number'} <= outcome.keys() for outcome in outcomes):
            return outcomes
        raise ValueError
    except ValueError as error:
        raise Unusable(f'{path}: damaged') from error


def is_done(outcome):
    """Whether a slip has its outcome for good: it was answered or refused, and not held or unread."""
    return outcome['outcome'] in ('answered', 'refused')


def is_answered(outcome):
    """Whether a slip was answered."""
    return outcome['outcome'] == 'answered'


class Bar:
    """A progress bar on a terminal."""

    def __init__(self, stream, whole):
        """Draws nothing where the stream is no terminal."""
        self.stream, self.whole = stream, whole
        self.is_shown = stream.isatty() and whole > 0
        self.begun = self.drawn = time.monotonic()

    def draw(self, done):
        """Draws the bar where it is time to, and at the end."""
        now = time.monotonic()
        if not self.is_shown or (now - self.drawn < DRAWN and done < self.whole):
            return
        self.drawn = now
        speed = done / max(now - self.begun, 1e-6)
        filled = 30 * done // self.whole
        left = (self.whole - done) / speed if speed else 0
        self.stream.write(f"\r[{'#' * filled}{'.' * (30 - filled)}] {done:,} of {self.whole:,}, {speed:,.0f} slips/s, {left:,.0f} s left\x1b[K")
        self.stream.flush()

    def close(self):
        """Ends the line of the bar."""
        if self.is_shown:
            self.stream.write('\n')


class Stop:
    """The signal that asked a run to stop, or 0."""

    def __init__(self):
        """Waits for the two signals that ask for it."""
        self.signal = 0
        for number in (signal.SIGINT, signal.SIGTERM):
            signal.signal(number, self.ask)

    def ask(self, number, _):
        """Notes the signal."""
        self.signal = number

    def __call__(self):
        """Whether a signal came."""
        return self.signal != 0


def work(file, arguments):
    """Answers a day's slips and prints each outcome; the exit status, 0 where all were answered, 1 where one was not."""
    stop, outcomes = Stop(), []
    with Counts(arguments.editors, arguments.cards, arguments.slips) as counts:
        day = Day(file, arguments.cards, arguments.slips, counts)
        if not os.path.exists(arguments.editors):
            print(f'{arguments.editors}: not there; begun with forty records of 0 and 0', file=sys.stderr)
        for name in day.misnamed:
            print(f'{name}: not the name of a slip, ORDER.ENTRY.EDITOR.slip; left alone', file=sys.stderr)
        if day.earlier:
            print(f'{len(day.earlier):,} slips were done before and are not counted again', file=sys.stderr)
        printer, bar = Printer(arguments.json), Bar(sys.stderr, len(day.left))
        earlier_shown = day.earlier if arguments.all else []
        printer.print(earlier_shown)
        for some in day.run(stop, bar):
            printer.print(some)
            outcomes += map(is_answered, some)
        bar.close()
    left, answered = len(day.left) - len(outcomes), sum(outcomes)
    rest = f'; stopped, {left:,} left' if left else ''
    print(f'{len(outcomes):,} slips, {answered:,} answered, {len(outcomes) - answered:,} not{rest}', file=sys.stderr)
    if left:
        return 128 + stop.signal
    return 0 if all(outcomes) and all(map(is_answered, earlier_shown)) and not day.misnamed else 1


class Printer:
    """Outcomes on standard output, a line each, as JSON or as CSV below the names of its columns."""

    def __init__(self, is_json):
        """Prints the names of the columns of CSV."""
        self.rows = None if is_json else csv.DictWriter(sys.stdout, COLUMNS, lineterminator='\n', extrasaction='ignore')
        if self.rows:
            self.rows.writeheader()

    def print(self, outcomes):
        """Prints some outcomes."""
        for outcome in outcomes:
            if self.rows:
                self.rows.writerow(row(outcome))
            else:
                print(json.dumps(outcome))
        sys.stdout.flush()


def row(outcome):
    """An outcome as a row of CSV: changes and rules as words with spaces between."""
    changes = ' '.join(f"{change['slot']}={change['value']}" for change in outcome.get('changes', ()))
    return {**outcome, **outcome.get('record', {}), 'changes': changes, 'fired': ' '.join(map(str, outcome.get('fired', ())))}
