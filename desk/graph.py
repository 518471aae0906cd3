"""Which rule wakes which, by strata, as a graph for Graphviz."""
import shutil
import subprocess

CAPTION = 'an arrow leads from a rule to one that waits for what it assigns; dashed, to one that asks for it under NOT'

# How long Graphviz may take, in seconds, and how many arrows it draws with all its care; with more it is told to take less.
PATIENCE, CAREFUL = 60, 500
HASTE = '    splines=line; nslimit=0.5; nslimit1=0.5; mclimit=0.05; searchsize=5;'


def dot(file):
    """The graph in the language DOT: an arrow from each rule to the rules that test by *= what it assigns, dashed where the test stands under NOT."""
    lines = ['digraph rules {', f'    rankdir=BT; label="{CAPTION}"; fontname="sans-serif"; fontsize=10;', '    node [shape=box, fontname="sans-serif", fontsize=10];', '    edge [fontname="sans-serif", fontsize=8];']
    drawn, strata = arrows(file), {}
    lines += [HASTE] if len(drawn) > CAREFUL else []
    for rule in file.rules:
        strata.setdefault(rule.stratum, []).append(rule)
    for stratum in sorted(strata):
        lines += [f'    subgraph cluster_{stratum} {{', f'        label="{f"stratum {stratum}" if stratum else "without strata"}"; fontname="sans-serif"; color=gray;']
        lines += [f'        r{rule.number} [label="{label(file, rule)}", tooltip="{file.rule(rule.number)}"];' for rule in strata[stratum]]
        lines.append('    }')
    for (giver, taker, under_not), pairs in sorted(drawn.items()):
        shown = '\\n'.join('{} := {}'.format(*file.named(*pair)) for pair in sorted(pairs))
        lines.append(f'    r{giver} -> r{taker} [label="{shown}"{", style=dashed" if under_not else ""}];')
    return '\n'.join([*lines, '}', ''])


def label(file, rule):
    """A rule on several lines."""
    trigger, *literals = map(file.test, rule.tests)
    assigns = ['{} := {}'.format(*file.named(*pair)) for pair in rule.assigns]
    tests = [f"{'AND' if at else 'IF'} {test}" for at, test in enumerate(literals)]
    return '\\l'.join([f'rule {rule.number}, line {rule.line}', f'WHEN {trigger}', *tests, *(f'THEN {one}' for one in assigns), ''])


def arrows(file):
    """The pairs by which a rule wakes another or, under NOT, stops it."""
    testing = {}
    for rule in file.rules:
        for test in rule.tests:
            if test.becomes:
                testing.setdefault(test.pair(), set()).add((rule.number, test.negated))
    found = {}
    for rule in file.rules:
        for pair in rule.assigns:
            for taker, under_not in testing.get(pair, ()):
                found.setdefault((rule.number, taker, under_not), set()).add(pair)
    return found


def told(file):
    """The same for programs: the rules, and the arrows with the pairs behind each."""
    pairs = {arrow: [dict(zip(('slot', 'value'), file.named(*pair))) for pair in sorted(found)] for arrow, found in arrows(file).items()}
    return {
        'rules': [{'rule': rule.number, 'line': rule.line, 'stratum': rule.stratum, 'text': file.rule(rule.number)} for rule in file.rules],
        'arrows': [{'from': giver, 'to': taker, 'under_not': under_not, 'pairs': found} for (giver, taker, under_not), found in sorted(pairs.items())],
    }


def drawn(file, as_dot):
    """The graph as SVG, or as DOT text where that is asked for or Graphviz does not draw it, and then why."""
    text = dot(file)
    if as_dot:
        return text.encode(), ''
    if shutil.which('dot') is None:
        return text.encode(), 'it is not installed'
    try:
        return subprocess.run(['dot', '-Tsvg'], input=text.encode(), capture_output=True, check=True, timeout=PATIENCE).stdout, ''
    except subprocess.TimeoutExpired:
        return text.encode(), f'it took more than {PATIENCE} seconds'
    except (OSError, subprocess.SubprocessError) as error:
        return text.encode(), str(error)
