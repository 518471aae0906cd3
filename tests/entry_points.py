#!/usr/bin/env python3
"""Every entry point has an `ensures` and no `requires`, and those of the library are the functions of include/rl.h and of docs/REFERENCE.md; exit status 1 where it is not so."""
import os
import re
import sys

TOP = os.path.dirname(os.path.dirname(os.path.abspath(__file__)))

# The functions that a caller may hand anything, by crate: the entry points, and `read_into` below one of them.
ENTRY_POINTS = {
    'text': ['token_at'],
    'cursor': ['new', 'peek', 'advance', 'first', 'after'],
    'names': ['slot_name', 'value_name'],
    'soundness': ['is_well_formed', 'is_sound'],
    'rule_file': ['read', 'read_into'],
    'printing': ['print'],
    'unpacking': ['unpack_card', 'unpack_slip'],
    'packing': ['pack_card', 'pack_slip'],
    'response': ['respond', 'respond_by_marks'],
    'listing': ['list'],
    'library': ['rl_read', 'rl_read_unlayered', 'rl_print', 'rl_is_sound', 'rl_slot_name', 'rl_value_name', 'rl_unpack_card', 'rl_unpack_slip', 'rl_pack_card', 'rl_pack_slip', 'rl_respond', 'rl_respond_by_marks'],
}


def named(path, pattern):
    """The functions that a file names by a pattern, in its order."""
    with open(os.path.join(TOP, path), encoding='utf-8') as file:
        return re.findall(pattern, file.read(), re.M)


def contract_of(source, name):
    """The clauses of a public function or method, or nothing where it has none: they stand between its signature and its body, each on lines of its own."""
    found = re.search(rf'^( *)pub (?:extern "C" )?fn {name}\b(.*?)^\1[{{}}]', re.sub(r'^\s*//.*\n', '', source, flags=re.M), re.M | re.S)
    clauses = re.search(r'^ +(?:requires|ensures)\b.*', found[2], re.M | re.S) if found and found[0][-1] == '{' else None
    return clauses[0] if clauses else ''


def main():
    wrong = 0
    for path, pattern in (('include/rl.h', r'^\w+ (rl_\w+)\('), ('docs/REFERENCE.md', r'\*\*`(rl_\w+)\(')):
        if named(path, pattern) != ENTRY_POINTS['library']:
            print(f'{path} has {named(path, pattern)}')
            wrong = 1
    for crate, names in ENTRY_POINTS.items():
        with open(os.path.join(TOP, 'crates', crate, 'src/lib.rt'), encoding='utf-8') as file:
            source = file.read()
        for name in names:
            contract = contract_of(source, name)
            if not re.search(r'\bensures\b', contract) or re.search(r'\brequires\b', contract):
                print(f'{crate}::{name} has no promise for every argument')
                wrong = 1
    return wrong


if __name__ == '__main__':
    sys.exit(main())
