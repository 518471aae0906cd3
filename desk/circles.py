"""The circle of rules behind a refusal with 18."""
from collections import deque


class Step:
    """A step of a circle: a rule, the test that ties it to the next, and the next, which assigns what is tested."""

    def __init__(self, rule, test, leads_to):
        """Keeps all three."""
        self.rule, self.test, self.leads_to = rule, test, leads_to


def circle(file, lowest):
    """A shortest walk of dependences from a rule back to it that passes through a NOT; it may meet a rule more than once."""
    assigning = {}
    for rule in file.rules:
        for pair in rule.assigns:
            assigning.setdefault(pair, []).append(rule.number)
    start, reached = (lowest, False), {(lowest, False): None}
    waiting = deque([start])
    while waiting:
        number, passed = state = waiting.popleft()
        if state == (lowest, True):
            break
        for test in file.rules[number - 1].tests:
            for next_number in assigning.get(test.pair(), []) if test.becomes else []:
                after = next_number, passed or test.negated
                if after not in reached:
                    reached[after] = state, Step(number, test, next_number)
                    waiting.append(after)
    steps, state = [], (lowest, True)
    while reached.get(state):
        state, step = reached[state]
        steps.append(step)
    return steps[::-1]
