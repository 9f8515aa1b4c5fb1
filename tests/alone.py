#!/usr/bin/env python3
"""alone.py PROGRAM [PLANS [SEED]]: random plans of one port, each of which `PROGRAM run` and `PROGRAM replay`
must answer alike, call for call. What is run makes its steps in straight lines, and what is replayed is the
machine, so equal stamps and numbers of collects show that both made the same claims and loads. The last line is
'N passed, M failed', where one plan counts once. A plan that is answered in two ways is printed.
"""
import random
import re
import subprocess
import sys

SECONDS = 60
# What the outcome of a replay says of a call after its answer.
BEHIND = re.compile(r' (place|prefix) \d+| steps \d+ span .*')


def call_text(source, components, stamps, value):
    """A random call. A conditional update expects one of the stamps that a small memory hands out."""
    component = source.randrange(components)
    kind = source.choice(('update', 'update', 'update', 'scan', 'scan', 'read', 'updateif'))
    if kind == 'update':
        return f'update {component} {value}'
    if kind == 'updateif':
        return f'updateif {component} {source.choice(stamps)} {value}'
    if kind == 'read':
        return f'read {source.randrange(components + 1)}'
    positions = [source.randrange(components) for _ in range(source.randint(0, components))]
    return ' '.join(['scan', *map(str, positions)])


def plan_text(source):
    """A random plan of one port, sometimes with too few slots or words."""
    components = source.randint(1, 6)
    slots = source.choice((1, 2, 8, 64))
    lists = source.choice((0, 1, 4, 64))
    pool = source.choice((3 * components, 3 * components + 30, 512, 4096))
    first = components + 4 + slots + lists
    stamps = range(first, first + 3 * components + 12)
    calls = [call_text(source, components, stamps, value) for value in range(source.randint(1, 40))]
    return '\n'.join([
        f'sizes {components} {slots} {lists} {pool}',
        ' '.join(['initial', *(str(source.randrange(100)) for _ in range(components))]),
        'port ' + '; '.join(calls),
        'steps rest',
        '',
    ])


def given(program, verb, text):
    """What the program writes for the plan."""
    ran = subprocess.run([program, verb], input=text.encode(), capture_output=True, timeout=SECONDS, check=True)
    return ran.stdout.decode('ascii').splitlines()


def answers_of(outcome):
    """The answers and the values of a replay, as a report gives them."""
    return [BEHIND.sub('', line) for line in outcome if not line.startswith(('applied ', 'total '))]


def main(words):
    program = words[0]
    plans = int(words[1]) if len(words) > 1 else 300
    seed = int(words[2]) if len(words) > 2 else 1
    passed, refused = 0, 0
    for number in range(plans):
        text = plan_text(random.Random(f'{seed} {number}'))
        ran = given(program, 'run', text)
        if ran == answers_of(given(program, 'replay', text)) and len(ran) > 1:
            passed += 1
            refused += any(' refused ' in line for line in ran)
        else:
            print(f'failed: {text}')
    print(f'{refused} plans with a refused call')
    print(f'{passed} passed, {plans - passed} failed')
    return 0 if passed == plans and refused > 0 else 1


if __name__ == '__main__':
    sys.exit(main(sys.argv[1:]))
