"""The commands of the desk: what each prints and writes."""
import difflib
import json
import os
import sys

from . import batch, entries, graph
from .causes import behind, explain
from .counts import Counts, load_records
from .diagnosis import load
from .faults import Refused, Unusable
from .files import STANDARD, read, replace
from .library import PROGRAM_RULES, PROGRAM_TEXT_BYTES, TEXT_BYTES, Records, Responder

DONE, REFUSED, UNUSABLE = 0, 1, 2


def rule_file(library, path, by_marks=False):
    """The rule file at a path."""
    return load(library, path, read(path, TEXT_BYTES + 1), by_marks)


def unlayered(library, path):
    """The rule file at a path for cards and slips, which do not depend on strata."""
    return rule_file(library, path, by_marks=True)


def say(arguments, told, lines):
    """Prints a result, for programs as one line of JSON or for people as lines."""
    text = json.dumps(told) if arguments.json else '\n'.join(lines)
    print(text, end='\n' if text else '')


def complain(arguments, refused):
    """Tells a refusal, for programs as a line of JSON on standard output, for people on standard error; the exit status."""
    if arguments.json:
        print(json.dumps({'file': refused.file, 'accepted': False, 'number': refused.number, 'second': refused.second, 'words': refused.words, 'place': None, **refused.told}))
    else:
        print('\n'.join([str(refused), *(f'  {line}' for line in refused.detail)]), file=sys.stderr)
    return REFUSED


def give_up(arguments, error):
    """Tells what cannot be used on standard error, and for programs as a line of JSON too; the exit status."""
    if arguments.json:
        print(json.dumps({'error': str(error)}))
    print(f'desk: {error}', file=sys.stderr)
    return UNUSABLE


def counted(number, one, several):
    """A number with the word for it."""
    return f'{number:,} {one if number == 1 else several}'


def check(library, arguments):
    """Says what each rule file has, or its refusal with the place."""
    status = DONE
    for path in arguments.rules:
        try:
            say_what_is_there(arguments, path, rule_file(library, path, arguments.marks))
        except Refused as refused:
            status = max(status, complain(arguments, refused))
        except Unusable as error:
            status = give_up(arguments, error)
    return status


def say_what_is_there(arguments, path, file):
    """Says what a rule file has, and whether it is for the program too."""
    is_small = len(file.text) <= PROGRAM_TEXT_BYTES and len(file.rules) <= PROGRAM_RULES
    told = {'file': path, 'accepted': True, 'bytes': len(file.text), 'slots': len(file.slots), 'rules': len(file.rules), 'strata': file.strata(), 'for_rl': is_small}
    parts = [counted(len(file.slots), 'slot', 'slots'), counted(len(file.rules), 'rule', 'rules')]
    parts += [] if arguments.marks else [counted(file.strata(), 'stratum', 'strata')]
    say(arguments, told, [f"{path}: {', '.join(parts)}"])
    if not is_small and not arguments.json:
        print(f'{path}: the program rl takes {PROGRAM_RULES} rules and {PROGRAM_TEXT_BYTES:,} bytes at most; this file is for programs over the library', file=sys.stderr)


def format_file(library, arguments):
    """Prints a rule file in the house style, or says in what it differs from it, or writes it."""
    path = arguments.rules
    if arguments.write and path == STANDARD:
        raise Unusable('standard input cannot be written')
    text = rule_file(library, path).text
    number, second, printed = library.print(text)
    if number:
        raise Refused(path, number, second, ['use shorter names or fewer rules'])
    told = {'file': path, 'in_house_style': printed == text}
    if arguments.check:
        say(arguments, told, [f"{path}: {'in' if printed == text else 'not in'} the house style"])
        return DONE if printed == text else REFUSED
    if arguments.write:
        if printed != text:
            replace(path, printed)
        say(arguments, told, [])
    elif arguments.diff:
        sides = [side.decode('ascii').splitlines() for side in (text, printed)]
        lines = list(difflib.unified_diff(*sides, path, 'house style', lineterm=''))
        say(arguments, {**told, 'diff': lines}, lines)
    elif arguments.json:
        say(arguments, {**told, 'print': printed.decode('ascii')}, [])
    else:
        sys.stdout.buffer.write(printed)
    return DONE


def deliver(arguments, file, data, pairs):
    """Writes packed bytes to a file, or prints them: as they are to standard output where a file - is asked for, else in hexadecimal."""
    if arguments.output == STANDARD:
        sys.stdout.buffer.write(data)
        return DONE
    if arguments.output:
        replace(arguments.output, data)
    packed = data.hex(' ').upper()
    say(arguments, {'packed': packed, 'pairs': dict(file.named(*pair) for pair in pairs)}, [] if arguments.output else [packed])
    return DONE


def card(library, arguments):
    """Packs a card from slot=value."""
    file = unlayered(library, arguments.rules)
    before = entries.load_card(file, arguments.change) if arguments.change else None
    data = entries.make_card(file, arguments.words, before)
    return deliver(arguments, file, data, enumerate(library.unpack_card(file.bare, data)[2]))


def slip(library, arguments):
    """Packs a slip from slot=value."""
    file = unlayered(library, arguments.rules)
    data = entries.make_slip(file, arguments.words)
    return deliver(arguments, file, data, library.unpack_slip(file.bare, data)[2])


def show(library, arguments):
    """Says what a card, a slip and the editors' records have, by name; of several each below its name."""
    if not (arguments.card or arguments.slip or arguments.editors):
        raise Unusable('nothing to show: name a file by --card, --slip or --editors')
    if (arguments.card or arguments.slip) and not arguments.rules:
        raise Unusable('a card and a slip are shown by a rule file: name it')
    told, parts = {}, {}
    file = unlayered(library, arguments.rules) if arguments.rules else None
    if arguments.card:
        pairs = list(enumerate(entries.load_card(file, arguments.card)))
        told['card'], parts['card'] = dict(file.named(*pair) for pair in pairs), [entries.word_of(file, pair) for pair in pairs]
    if arguments.slip:
        pairs = entries.load_slip(file, arguments.slip)
        told['slip'], parts['slip'] = dict(file.named(*pair) for pair in pairs), [entries.word_of(file, pair) for pair in pairs]
    if arguments.editors:
        told['editors'] = used_records(arguments.editors)
        parts['editors'] = ['editor {editor}: {answered} answered, {refused} refused'.format(**record) for record in told['editors']]
    headed = len(parts) > 1
    say(arguments, told, [line for name, lines in parts.items() for line in ([f'{name}:'] if headed else []) + [f"{'    ' if headed else ''}{line}" for line in lines]])
    return DONE


def used_records(path):
    """The records of a file in which something is counted, with their editors."""
    if not os.path.exists(path):
        raise Unusable(f'{path}: no such file')
    records = enumerate(load_records(path), 1)
    return [{'editor': editor, 'answered': record.answered, 'refused': record.refused} for editor, record in records if record.answered or record.refused]


def respond(library, arguments):
    """Responds to a slip on a card, by name."""
    if arguments.output == STANDARD:
        raise Unusable('standard output has the answer: name a file for the new card')
    if [arguments.rules, arguments.card, arguments.slip].count(STANDARD) > 1:
        raise Unusable('standard input can be one of the files alone')
    file = rule_file(library, arguments.rules, arguments.marks)
    data, slip_data = read(arguments.card, entries.ROOM), read(arguments.slip, entries.ROOM)
    responder = Responder(library, file.table, arguments.marks)
    if arguments.editors:
        with Counts(arguments.editors) as counts:
            records = counts.records
            answer = responder.respond(records, arguments.editor, data, slip_data)
            counts.commit(written(arguments.output, answer))
    else:
        records = Records()
        answer = responder.respond(records, arguments.editor, data, slip_data)
        if answer.number == 0 and arguments.output:
            replace(arguments.output, answer.card)
    if answer.number:
        raise unanswered(file, arguments, answer, data, slip_data)
    say_answer(file, arguments, answer, slip_data, records[arguments.editor - 1])
    return DONE


def written(output, answer):
    """The card that an answer writes, by its path with what it was and is to be; none where none is asked for."""
    if answer.number or not output:
        return {}
    path = os.path.realpath(output)
    return {path: [read(path, entries.ROOM).hex() if os.path.exists(path) else '', answer.card.hex()]}


def unanswered(file, arguments, answer, data, slip_data):
    """The refusal of a response in words."""
    if answer.number in (32, 44):
        return Refused(f'editor {arguments.editor}', answer.number, answer.second)
    subject = arguments.card if 20 <= answer.number <= 23 else arguments.slip
    if answer.number < 40:
        return Refused(subject, answer.number, answer.second, entries.detail(file, answer.number, answer.second))
    values = file.library.unpack_card(file.bare, data)[2]
    changes = file.library.unpack_slip(file.bare, slip_data)[2]
    return Refused(subject, answer.number, answer.second, *explain(file, answer.number, answer.second, values, changes))


def say_answer(file, arguments, answer, slip_data, record):
    """Prints the changes with what brings each, the new card and the fired rules."""
    library, fired, packed = file.library, answer.rules(), answer.card.hex(' ').upper()
    given = library.unpack_slip(file.bare, slip_data)[2]
    changes = [(pair, behind(file, pair, given, fired)) for pair in library.unpack_slip(file.bare, answer.changes)[2]]
    pairs = list(enumerate(library.unpack_card(file.bare, answer.card)[2]))
    told = {
        'accepted': True,
        'changes': [dict(zip(('slot', 'value'), file.named(*pair)), by=[cause or 'slip' for cause in causes]) for pair, causes in changes],
        'card': dict(file.named(*pair) for pair in pairs), 'packed_card': packed,
        'fired': [{'rule': rule, 'line': file.rules[rule - 1].line, 'text': file.rule(rule)} for rule in fired],
        'record': {'editor': arguments.editor, 'answered': record.answered, 'refused': record.refused},
    }
    lines = ['changes:']
    lines += [f"    {entries.word_of(file, pair)}, by {' and '.join(f'rule {cause}' if cause else 'the slip' for cause in causes)}" for pair, causes in changes]
    lines += [f'new card: {packed}', *(f'    {entries.word_of(file, pair)}' for pair in pairs), 'fired rules:']
    lines += [f'    {rule} (line {file.rules[rule - 1].line}): {file.rule(rule)}' for rule in fired]
    lines.append(f'editor {arguments.editor}: {record.answered} answered, {record.refused} refused')
    say(arguments, told, lines)


def day(library, arguments):
    """Answers a day's slips."""
    return batch.work(rule_file(library, arguments.rules, arguments.marks), arguments)


def graph_file(library, arguments):
    """Draws which rule wakes which; for programs it says so by rules and arrows."""
    file = rule_file(library, arguments.rules, arguments.marks)
    if arguments.json:
        data = (json.dumps(graph.told(file)) + '\n').encode()
    else:
        data, reason = graph.drawn(file, arguments.dot)
        if reason:
            print(f"Graphviz did not draw it, since {reason}: this is DOT text, which the command dot of Debian's package graphviz draws", file=sys.stderr)
    if arguments.output and arguments.output != STANDARD:
        replace(arguments.output, data)
    else:
        sys.stdout.buffer.write(data)
    return DONE
