#!/usr/bin/env python3
"""The house of the crates, drawn from crates.txt.

  docs/house.py          writes docs/house.svg
  docs/house.py --check  says whether the drawing is what it would write, whether no crate uses one of a storey above its own, and whether README.md has each crate once, in the table of its storey and below what it uses; exit status 1 where it is not so
"""
import os
import re
import sys

TOP = os.path.dirname(os.path.dirname(os.path.abspath(__file__)))

# The storeys of the house, from the ground up.
STOREYS = ('ground', 'reading', 'strata', 'cards', 'response', 'use')

# The light and the dark colour of each storey's wall, and of its names and lines.
WALLS = {
    'ground': ('#ece7df', '#2b2823', '#6b5a3e', '#cbb896'),
    'reading': ('#e3edf7', '#1d2935', '#1f5c99', '#8dbbe8'),
    'strata': ('#e9e6f5', '#262338', '#5a4aa0', '#b5a8ee'),
    'cards': ('#f7e9dc', '#372617', '#a1540f', '#eeb27d'),
    'response': ('#e1f0e6', '#1b2f23', '#226b3f', '#8cd0a5'),
    'use': ('#f7e4e8', '#37202a', '#a02c4d', '#ee9db4'),
}

# The drawing's measures: its width, the sides of the house, the room for the storeys' names, a box, the heights of a row, of a storey's edges and of the roof, and what lies between two boxes and beside a line.
WIDTH, SIDE, NAMES = 900, 24, 104
BOX, TALL = 118, 27
ROW, EDGE, ROOF = 48, 16, 104
GAP, LINE = 18, 13


def crates():
    """Each crate of crates.txt, in its order, with what it uses, libraries of the kit too, and its storey."""
    return {name: (uses, storey) for name, _, uses, storey in lines()}


def static_libraries():
    """The crates that crates.txt has as static libraries."""
    return {name for name, kind, _, _ in lines() if kind == ['staticlib']}


def lines():
    """The lines of crates.txt: a crate, the words that say what it is, what it uses, and its storey."""
    with open(os.path.join(TOP, 'crates.txt'), encoding='utf-8') as file:
        for line in file:
            listed, _, storey = line.partition('#')
            head, colon, uses = listed.partition(':')
            if colon:
                name, *kind = head.split()
                yield name, kind, uses.split(), storey.strip()


def reached(names, listed):
    """The crates of the repository among some names, and all that they use."""
    found, left = set(), list(names)
    while left:
        name = left.pop()
        if name in listed and name not in found:
            found.add(name)
            left += listed[name][0]
    return found


def drawn_uses(listed):
    """What each crate uses, without what it reaches through another that it uses."""
    uses = {name: [used for used in uses if used in listed] for name, (uses, _) in listed.items()}
    return {name: [used for used in those if not any(used in reached(uses[other], listed) for other in those)] for name, those in uses.items()}


def rows_of(listed, uses):
    """The row of each crate, from the ground up, and the first row of each storey: above all that it uses; a crate that uses none of its storey stands right below the first of its storey that uses it."""
    row, first, base = {}, {}, 0
    for storey in STOREYS:
        here = [name for name in listed if listed[name][1] == storey]
        level = {}

        def height(name):
            """The level of a crate in its storey."""
            if name not in level:
                level[name] = max((1 + height(used) for used in uses[name] if used in here), default=0)
            return level[name]

        for name in here:
            height(name)
        for name in here:
            users = [level[user] for user in here if name in uses[user]]
            if users and not any(used in here for used in uses[name]):
                level[name] = min(users) - 1
        first[storey] = base
        row.update((name, base + level[name]) for name in here)
        base += 1 + max(level.values())
    return row, first


def trunks(listed, uses, row):
    """The nodes of each row, (crate, row), and the steps of lines between neighbouring rows, lower end first: the lines to one crate are one trunk as far as they can be, which passes the rows between at a node of its own."""
    rows = [[] for _ in range(1 + max(row.values()))]
    for name in listed:
        rows[row[name]].append((name, row[name]))
    steps = []
    for name in listed:
        users = sorted((row[user], user) for user in listed if name in uses[user])
        if users:
            for at in range(row[name] + 1, users[-1][0]):
                rows[at].append((name, at))
                steps.append(((name, at - 1), (name, at)))
            steps += [((name, at - 1), (user, at)) for at, user in users]
    return rows, steps


def crossings(rows, steps):
    """How often lines cross."""
    place = {node: at for nodes in rows for at, node in enumerate(nodes)}
    between = {}
    for low, high in steps:
        between.setdefault(low[1], []).append((place[low], place[high]))
    return sum((a - c) * (b - d) < 0 for ends in between.values() for at, (a, b) in enumerate(ends) for c, d in ends[:at])


def ordered(rows, steps):
    """The rows with few crossings: each row sorted by the mean place of its neighbours below or above, sweep by sweep, then neighbours exchanged where that leaves fewer."""
    below, above = {}, {}
    for low, high in steps:
        below.setdefault(high, []).append(low)
        above.setdefault(low, []).append(high)
    rows = [list(nodes) for nodes in rows]
    best, fewest = [list(nodes) for nodes in rows], crossings(rows, steps)
    for sweep in range(12):
        ends, order = ((below, range(len(rows))), (above, range(len(rows) - 1, -1, -1)))[sweep % 2]
        for at in order:
            place = {node: (k + 0.5) / len(nodes) for nodes in rows for k, node in enumerate(nodes)}
            mean = {node: sum(place[end] for end in ends[node]) / len(ends[node]) if node in ends else place[node] for node in rows[at]}
            rows[at].sort(key=lambda node: mean[node])
        moved = True
        while moved:
            moved = False
            for nodes in rows:
                for k in range(len(nodes) - 1):
                    before = crossings(rows, steps)
                    nodes[k], nodes[k + 1] = nodes[k + 1], nodes[k]
                    if crossings(rows, steps) < before:
                        moved = True
                    else:
                        nodes[k], nodes[k + 1] = nodes[k + 1], nodes[k]
        now = crossings(rows, steps)
        if now < fewest:
            best, fewest = [list(nodes) for nodes in rows], now
    return best


def pieces(rows, row, floors):
    """Each node's piece, a box or a part of a trunk that is one straight line, and the pieces right of each piece: a trunk goes on straight within a storey unless that would put it on both sides of another."""
    piece, right_of, trunk = {}, {}, {}

    def leads(start, end):
        """Whether a piece stands left of another, through others too."""
        return start == end or any(leads(other, end) for other in right_of.get(start, ()))

    for nodes in rows:
        before = []
        for name, at in nodes:
            straight = trunk.get(name)
            if row[name] == at or at in floors or straight is None or any(leads(straight, other) for other in before):
                straight = name, at
            if row[name] < at:
                trunk[name] = straight
            piece[name, at] = straight
            if before:
                right_of.setdefault(before[-1], set()).add(straight)
            before.append(straight)
    return piece, right_of


def places(rows, steps, row, floors):
    """Where each node stands from the left: each piece near those that its lines lead to, nothing over anything else, by passes that push to the right and to the left and take the mean of both."""
    piece, right_of = pieces(rows, row, floors)

    def half(node):
        return BOX / 2 + GAP / 2 if row[node[0]] == node[1] else LINE

    ends = {}
    for low, high in steps:
        low, high = piece[low], piece[high]
        if low != high:
            times = 4 if low[0] == high[0] else 1
            ends.setdefault(low, []).extend([high] * times)
            ends.setdefault(high, []).extend([low] * times)
    left_of = {}
    for one, others in right_of.items():
        for other in others:
            left_of.setdefault(other, set()).add(one)
    order = []
    while len(order) < len(set(piece.values())):
        order += [each for each in dict.fromkeys(piece.values()) if each not in order and left_of.get(each, set()) <= set(order)]

    def pushed(wanted, beside, sign):
        """The wanted places, each pushed away from those on one side."""
        found = {}
        for each in order if sign > 0 else order[::-1]:
            edge = [sign * found[other] + half(other) + half(each) for other in beside.get(each, ())]
            found[each] = sign * max([sign * wanted[each], *edge])
        return found

    left, right = SIDE + NAMES, WIDTH - SIDE
    lowest = pushed({each: left + half(each) for each in order}, left_of, 1)
    highest = pushed({each: right - half(each) for each in order}, right_of, -1)
    x = {each: (lowest[each] + highest[each]) / 2 for each in order}
    for _ in range(400):
        wanted = {each: (x[each] + sum(x[end] for end in ends.get(each, ()))) / (1 + len(ends.get(each, ()))) for each in order}
        from_left, from_right = pushed(wanted, left_of, 1), pushed(wanted, right_of, -1)
        x = {each: min(max((from_left[each] + from_right[each]) / 2, lowest[each]), highest[each]) for each in order}
    return {node: round(x[piece[node]]) for node in piece}


def style():
    """The colours, for a light and for a dark page."""
    def rules(shade):
        page, ink, box, pale = (('#ffffff', '#24292f', '#ffffff', '#8a8f98'), ('#0d1117', '#e6edf3', '#161b22', '#767d86'))[shade]
        lines = [f'.page {{ fill: {page} }}', f'.box {{ fill: {box} }}', f'.name {{ fill: {ink} }}', f'.roof {{ fill: none; stroke: {pale} }}', f'.told {{ fill: {ink} }}']
        for storey in STOREYS:
            wall, deep = WALLS[storey][shade], WALLS[storey][2 + shade]
            lines += [f'.wall.{storey} {{ fill: {wall} }}', f'.box.{storey} {{ stroke: {deep} }}', f'.line.{storey} {{ stroke: {deep} }}', f'.storey.{storey} {{ fill: {deep} }}']
        return lines

    fixed = ['text { font-family: Helvetica, Arial, sans-serif; font-size: 15px }', '.name, .told { text-anchor: middle }', '.storey { font-size: 18px; font-weight: bold }', '.title { font-size: 20px; font-weight: bold }', '.box { stroke-width: 1.5 }', '.line { fill: none; stroke-width: 1.5; stroke-opacity: 0.75 }', '.roof { stroke-width: 3; stroke-linejoin: round }']
    return ['<style>', *fixed, *rules(0), '@media (prefers-color-scheme: dark) {', *rules(1), '}', '</style>']


def drawing():
    """The drawing as SVG."""
    listed = crates()
    uses = drawn_uses(listed)
    row, first = rows_of(listed, uses)
    rows, steps = trunks(listed, uses, row)
    rows = ordered(rows, steps)
    x = places(rows, steps, row, first.values())
    ends = [first[storey] for storey in STOREYS[1:]] + [len(rows)]
    height = ROOF + len(rows) * ROW + len(STOREYS) * EDGE + SIDE

    def floor(at):
        """The lower side of the row's boxes."""
        storeys = sum(first[storey] <= at for storey in STOREYS)
        return height - SIDE - at * ROW - storeys * EDGE - (ROW - EDGE - TALL) / 2

    out = [f'<svg xmlns="http://www.w3.org/2000/svg" viewBox="0 0 {WIDTH} {height}" width="{WIDTH}" height="{height}" role="img" aria-labelledby="title desc">', '<title id="title">The house of the crates</title>']
    out.append(f'<desc id="desc">{len(listed)} crates in {len(STOREYS)} storeys, from the ground up: ' + '; '.join(f'{storey}: ' + ', '.join(name for name in listed if listed[name][1] == storey) for storey in STOREYS) + '. A line leads from a crate down to one that it uses, unless another way leads there.</desc>')
    out += style()
    out.append(f'<rect class="page" width="{WIDTH}" height="{height}"/>')
    for at, storey in enumerate(STOREYS):
        low = height - SIDE - first[storey] * ROW - at * EDGE
        tall = (ends[at] - first[storey]) * ROW + EDGE
        out.append(f'<rect class="wall {storey}" x="{SIDE}" y="{low - tall:g}" width="{WIDTH - 2 * SIDE}" height="{tall - 2:g}"/>')
        out.append(f'<text class="storey {storey}" x="{SIDE + 14}" y="{low - tall + 28:g}">{storey}</text>')
    out.append(f'<path class="roof" d="M {SIDE / 2:g} {ROOF - 2} L {WIDTH / 2:g} 12 L {WIDTH - SIDE / 2:g} {ROOF - 2} Z"/>')
    out.append(f'<text class="told title" x="{WIDTH / 2:g}" y="{ROOF - 42}">The house of the crates</text>')
    out.append(f'<text class="told" x="{WIDTH / 2:g}" y="{ROOF - 18}">a line leads down to what a crate uses, unless another way leads there</text>')
    for name in listed:
        path = []
        for low, high in steps:
            if low[0] == name:
                y0, y1 = floor(low[1]) - TALL, floor(high[1])
                mid = (y0 + y1) / 2
                path.append(f'M {x[low]:g} {y0:g} C {x[low]:g} {mid:g} {x[high]:g} {mid:g} {x[high]:g} {y1:g}')
                if high[0] == name:
                    path.append(f'V {y1 - TALL:g}')
        if path:
            out.append(f'<path class="line {listed[name][1]}" d="{" ".join(path)}"/>')
    for name in listed:
        at, low = x[name, row[name]], floor(row[name])
        out.append(f'<rect class="box {listed[name][1]}" x="{at - BOX / 2:g}" y="{low - TALL:g}" width="{BOX}" height="{TALL}" rx="4"/>')
        out.append(f'<text class="name" x="{at:g}" y="{low - 9:g}">{name}</text>')
    return '\n'.join(out + ['</svg>']) + '\n'


def misplaced(listed):
    """What is wrong with the storeys in crates.txt, and with the tables of README.md against them."""
    for name, (uses, storey) in listed.items():
        if storey not in STOREYS:
            yield f"crates.txt has no storey of the house behind '#' for {name}"
            continue
        for used in uses:
            if used in listed and listed[used][1] in STOREYS[STOREYS.index(storey) + 1:]:
                yield f'crates.txt: {name} ({storey}) uses {used} of a storey above ({listed[used][1]})'
    with open(os.path.join(TOP, 'README.md'), encoding='utf-8') as file:
        section = re.search(r'^## The crates\n(.*?)^## ', file.read(), re.M | re.S)[1]
    shown, storeys = {}, []
    for heading, name in re.findall(r'^### (\w+)|^\| `(\w+)` \|', section, re.M):
        if heading:
            storeys.append(heading.lower())
        elif name in shown:
            yield f'README.md has {name} twice'
        else:
            shown[name] = storeys[-1]
            yield from (f'README.md has {name} above {used}, which it uses' for used in listed.get(name, [()])[0] if used in listed and used not in shown)
    if storeys != list(STOREYS):
        yield f'README.md has the storeys {" ".join(storeys)}'
    if shown != {name: storey for name, (_, storey) in listed.items()}:
        yield 'README.md has other crates in its storeys than crates.txt: ' + ' '.join(sorted(name for name in {*shown, *listed} if name not in shown or name not in listed or shown[name] != listed[name][1]))


def main():
    path = os.path.join(TOP, 'docs/house.svg')
    wrong = list(misplaced(crates()))
    if '--check' not in sys.argv:
        with open(path, 'w', encoding='utf-8') as file:
            file.write(drawing())
    elif not wrong:
        with open(path, encoding='utf-8') as file:
            if file.read() != drawing():
                wrong.append('docs/house.svg is not what docs/house.py writes')
    for line in wrong:
        print(line)
    return 1 if wrong else 0


if __name__ == '__main__':
    sys.exit(main())
