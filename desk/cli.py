"""The words of the command desk, and how a run ends.

Exit status: 0 done, 1 refused, 2 usage or files. Results go to standard output, messages to standard error.
"""
import argparse
import contextlib
import os
import signal
import sys

from . import VERSION, commands
from .faults import Refused, Unusable
from .library import Library


def parser():
    """The words of the command line."""
    whole = argparse.ArgumentParser(prog='desk', description='Rule files, cards and slips of a dialect dictionary, over the proved library.',
                                    epilog='Exit status: 0 done, 1 refused, 2 usage or files. - names standard input or output.')
    whole.add_argument('--version', action='version', version=f'desk {VERSION}')
    words = whole.add_subparsers(dest='command', required=True, metavar='COMMAND')

    def command(name, function, told, *, marks=False):
        """A command with its options that several have."""
        added = words.add_parser(name, help=told, description=told[0].upper() + told[1:] + '.')
        added.set_defaults(function=function)
        added.add_argument('--json', action='store_true', help='print lines of JSON, for programs')
        if marks:
            added.add_argument('--marks', action='store_true', help='read without test 18, and respond by marks')
        return added

    added = command('check', commands.check, 'say what a rule file has, or where and why it is refused', marks=True)
    added.add_argument('rules', nargs='+', help='a rule file')
    added = command('format', commands.format_file, 'print a rule file in the house style')
    added.add_argument('rules', help='the rule file')
    way = added.add_mutually_exclusive_group()
    way.add_argument('--write', action='store_true', help='write it to the file itself, by rename')
    way.add_argument('--check', action='store_true', help='say whether the file is in the house style; exit status 1 where it is not')
    way.add_argument('--diff', action='store_true', help='show the difference')
    for name, function, told in (('card', commands.card, 'pack a card from slot=value; a slot that is not named has no value'),
                                 ('slip', commands.slip, 'pack a slip from slot=value; slot=NONE withdraws what the slot has')):
        added = command(name, function, told)
        added.add_argument('rules', help='the rule file')
        added.add_argument('words', nargs='*', metavar='slot=value', help='a slot and its value, or NONE')
        added.add_argument('-o', '--output', metavar='FILE', help='write the bytes to a file, by rename; without it they are printed in hexadecimal')
        if name == 'card':
            added.add_argument('--change', metavar='CARD', help='begin with the values of a card')
    added = command('show', commands.show, 'show a card, a slip or the records of editors by name')
    added.add_argument('rules', nargs='?', help='the rule file; for records alone there is none')
    added.add_argument('--card', metavar='FILE', help='a packed card')
    added.add_argument('--slip', metavar='FILE', help='a packed slip')
    added.add_argument('--editors', metavar='FILE', help='the forty records')
    added = command('respond', commands.respond, 'respond to a slip on a card: changes, new card and fired rules', marks=True)
    added.add_argument('rules', help='the rule file')
    added.add_argument('card', help='the packed card')
    added.add_argument('slip', help='the packed slip')
    added.add_argument('--editor', type=int, default=1, metavar='N', help="the editor's number, 1 to 40; 1 where none is named")
    added.add_argument('--editors', metavar='FILE', help='count the slip in the forty records of a file, written by rename')
    added.add_argument('-o', '--output', metavar='FILE', help='write the new card to a file, by rename')
    added = command('batch', commands.day, "answer a day's slips, one after the other, each counted once", marks=True)
    added.add_argument('rules', help='the rule file')
    added.add_argument('--cards', required=True, metavar='DIR', help='the folder of the cards, ENTRY.card')
    added.add_argument('--slips', required=True, metavar='DIR', help='the folder of the slips, ORDER.ENTRY.EDITOR.slip')
    added.add_argument('--editors', required=True, metavar='FILE', help='the forty records, carried on and written by rename')
    added.add_argument('--all', action='store_true', help='print the outcomes of earlier runs of this day too')
    added = command('graph', commands.graph_file, 'draw which rule wakes which, by strata, as SVG, or as DOT text where Graphviz is not installed', marks=True)
    added.add_argument('rules', help='the rule file')
    added.add_argument('--dot', action='store_true', help='print DOT text')
    added.add_argument('-o', '--output', metavar='FILE', help='write it to a file, by rename')
    return whole


def parsed(words):
    """The arguments; words slot=value may stand before and behind options."""
    whole = parser()
    arguments, left = whole.parse_known_args(words)
    if left and not (hasattr(arguments, 'words') and all('=' in word and not word.startswith('-') for word in left)):
        whole.error(f"unrecognized arguments: {' '.join(left)}")
    if left:
        arguments.words += left
    if getattr(arguments, 'output', None) == '':
        whole.error('-o names no file')
    return arguments


def main(words=None):
    """Runs the command; its exit status."""
    open_streams()
    try:
        arguments = parsed(words)
    except SystemExit as ended:
        return ended.code
    try:
        status = run(arguments)
        sys.stdout.flush()
        return status
    except BrokenPipeError:
        drop_output()
        return 128 + signal.SIGPIPE
    except OSError as error:
        print(f'desk: {error.filename or "standard output"}: {error.strerror}', file=sys.stderr)
        drop_output()
        return commands.UNUSABLE
    except KeyboardInterrupt:
        print('desk: stopped', file=sys.stderr)
        drop_output()
        return 128 + signal.SIGINT


def run(arguments):
    """Runs a command of the words; its exit status."""
    try:
        return arguments.function(Library(), arguments)
    except Refused as refused:
        return commands.complain(arguments, refused)
    except Unusable as error:
        return commands.give_up(arguments, error)


def open_streams():
    """Puts the null device in the place of standard streams that are closed, and lets a name that standard output cannot show stand in escapes."""
    for name in ('stdout', 'stderr'):
        if getattr(sys, name) is None:
            setattr(sys, name, open(os.devnull, 'w', encoding='utf-8'))
    if hasattr(sys.stdout, 'reconfigure'):
        sys.stdout.reconfigure(errors='backslashreplace')


def drop_output():
    """Lets what standard output did not take go, so that it is not tried again at the end."""
    with contextlib.suppress(OSError, ValueError):
        os.dup2(os.open(os.devnull, os.O_WRONLY), sys.stdout.fileno())
