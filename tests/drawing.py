#!/usr/bin/env python3
"""Compares a drawing with what its plan and the plan's outcome say: drawing.py DRAWING PLAN OUTCOME.

It reads the drawing as XML, and leaves out its legend. There has to be one mark for each step, in order, and of each
port as many as its calls have steps; one pin for each applied update, in order, with the words of the outcome; one
bar for each call, with the words of the plan and of the outcome; a label of each bar and pin that are these words,
from their first on; and an arrow for each lost update and each borrowed view, and for no call but these and updates
that were changed. What is wrong is printed, and the status is then 1.
"""
import re
import sys
import xml.etree.ElementTree as ElementTree
from collections import Counter
from pathlib import Path

CUT = '…'
STEP = re.compile(r'step (\d+) of port (\d+): ')


def shapes(element):
    """Each element of the drawing that isn't part of its legend, in order."""
    for child in element:
        if 'legend' in child.get('class', '').split():
            continue
        yield child
        yield from shapes(child)


def of_class(drawing, name):
    """The titles of the shapes of this class, or the texts of its labels."""
    return [''.join(it.itertext()) for it in shapes(drawing) if name in it.get('class', '').split()]


def calls_of(plan):
    """The calls of each port of a plan."""
    ports = [line[5:] for line in plan.splitlines() if line.startswith('port ')]
    return [[' '.join(call.split()) for call in port.split(';') if call.strip()] for port in ports]


def told_calls(outcome):
    """Of each call of an outcome: its port, its number, and its answer without what it spans."""
    for line in outcome.splitlines():
        if line.startswith('call '):
            _, port, number, answer = line.split(' ', 3)
            yield int(port), int(number), re.sub(r' span \d+ (\d+|-)$', '', answer)


def steps_of(outcome):
    """How many steps the calls of each port make."""
    steps = Counter()
    for port, _, answer in told_calls(outcome):
        steps[port] += int(re.search(r'\bsteps (\d+)', answer)[1])
    return +steps


def arrows_of(told):
    """The titles of the arrows that the calls need, and of those that they may have."""
    needed, allowed = set(), set()
    for port, number, answer in told:
        if borrowed := re.search(r' borrowed (\d+)', answer):
            needed.add(f'stamp {borrowed[1]} lent its view to call {port} {number}')
        if overtaken := re.match(r'(lost|changed) (\d+)', answer):
            (needed if overtaken[1] == 'lost' else allowed).add(f'stamp {overtaken[2]} overtook call {port} {number}')
    return needed, allowed


def is_cut(label, words):
    """Whether a label is these words, or their first ones."""
    return label == words or (label.endswith(CUT) and words.startswith(label[:-1].rstrip()))


def faults(drawing, plan, outcome):
    """What of the drawing isn't what the plan and its outcome say."""
    calls, told = calls_of(plan), list(told_calls(outcome))
    total = int(re.search(r'^total (\d+)$', outcome, re.M)[1])
    marks = [STEP.match(it) for it in of_class(drawing, 'mark')]
    if [it and int(it[1]) for it in marks] != list(range(total)):
        yield f'its marks are not those of {total} steps in order'
    elif Counter(int(it[2]) for it in marks) != steps_of(outcome):
        yield 'its marks are not at the ports whose calls make the steps'
    entries = [line for line in outcome.splitlines() if line.startswith('applied ')]
    if of_class(drawing, 'entry') != entries:
        yield 'its pins are not the applied updates'
    bars = [f'call {port} {number}: {calls[port][number]}: {answer}' for port, number, answer in told]
    if sorted(of_class(drawing, 'bar')) != sorted(bars):
        yield 'its bars are not the calls'
    pinned = [re.sub(r'^applied \d+ port \d+ | stamp \d+$', '', it) for it in entries]
    words = [calls[port][number] for port, number, _ in told] + pinned
    labels = of_class(drawing, 'call')
    if not all(any(is_cut(label, it) for it in words) for label in labels):
        yield 'a label of a call or of a pin is not its words'
    if of_class(drawing, 'touched') and len(of_class(drawing, 'touched')) != total:
        yield 'it does not touch one word in each step'
    needed, allowed = arrows_of(told)
    arrows = of_class(drawing, 'arrow')
    if len(set(arrows)) != len(arrows) or not needed <= set(arrows) <= needed | allowed:
        yield 'its arrows are not those of the lost updates and of the borrowed views'


def main(drawn, plan, outcome):
    texts = [Path(it).read_text(encoding='utf-8') for it in (drawn, plan, outcome)]
    wrong = list(faults(ElementTree.fromstring(texts[0]), *texts[1:]))
    for fault in wrong:
        print(f'{Path(plan).name}: {fault}')
    return 1 if wrong else 0


if __name__ == '__main__':
    sys.exit(main(*sys.argv[1:]))
