#!/usr/bin/env python3
"""Tests the judge of reports: reports worked out by hand, the outcomes in plans/ without their places,
random lawful reports and mutated ones, and random tiny ones against a judge that tries every history and
every place. The last line is 'N passed, M failed'. A number as its one word seeds the random tests.
"""
import itertools
import random
import re
import subprocess
import sys
import tempfile
import time
from pathlib import Path

sys.dont_write_bytecode = True
import judge
from judge import Answer, Call, Entry, Plan, Report

TOP = Path(__file__).resolve().parent.parent


# ---- Reports worked out by hand: the ports of a plan with sizes 2 4 8 64 and values 10 20, whose initial
# stamps are 18 and 21, the lines of the report, and whether it is lawful

BY_HAND = [
    ('a write and a read', 'update 0 7; read 0', '0 applied 24|0 read 7 24', '7 20', True),
    ('the write is read from the outset', 'read 0; update 0 7', '0 read 7 24|0 applied 24', '7 20', False),
    ('a read of the opening', 'read 1', '0 read 20 21', '10 20', True),
    ('a read of another stamp', 'read 1', '0 read 20 18', '10 20', False),
    ('a read of another value', 'read 1', '0 read 10 21', '10 20', False),
    ('other values at the end', 'update 0 7', '0 applied 24', '10 20', False),
    ('values at the end by the first update', 'update 0 7; update 0 8', '0 applied 24|0 applied 27', '7 20', False),
    ('too few values at the end', 'read 1', '0 read 20 21', '10', False),
    ('stamps need not rise', 'update 0 7; update 0 8', '0 applied 27|0 applied 24', '8 20', True),
    ('one stamp twice', 'update 0 7; update 1 8', '0 applied 24|0 applied 24', '7 8', False),
    ('the stamp of an opening', 'update 0 7', '0 applied 21', '7 20', False),
    ('a stamp after those of the openings', 'update 0 7', '0 applied 22', '7 20', True),
    ('an update too few', 'update 0 7; update 0 8', '0 applied 24', '7 20', False),
    ('an answer too many', 'update 0 7', '0 applied 24|0 applied 27', '7 20', False),
    ('a port too many', 'read 0', '0 read 10 18|1 read 10 18', '10 20', False),
    ('lost to another port', 'update 0 7/update 0 9', '0 lost 27|1 applied 27', '9 20', True),
    ('lost to no one', 'update 0 7/update 0 9', '0 lost 24|1 applied 27', '9 20', False),
    ('lost to the opening', 'update 0 7', '0 lost 18', '10 20', False),
    ('lost to another component', 'update 0 7/update 1 9', '0 lost 27|1 applied 27', '10 9', False),
    ('lost to what the port had seen', 'read 0; update 0 7/update 0 9', '0 read 9 27|0 lost 27|1 applied 27', '9 20', False),
    ('lost, and seen then', 'update 0 7; read 0/update 0 9', '0 lost 27|0 read 9 27|1 applied 27', '9 20', True),
    ('lost, and not seen then', 'update 0 7; read 0/update 0 9', '0 lost 27|0 read 10 18|1 applied 27', '9 20', False),
    ('lost twice to one', 'update 0 7; update 0 8/update 0 9', '0 lost 27|0 lost 27|1 applied 27', '9 20', False),
    ('two lost to one', 'update 0 7/update 0 8/update 0 9', '0 lost 27|1 lost 27|2 applied 27', '9 20', True),
    ('each lost to the other', 'update 0 7; update 0 1/update 0 9; update 0 2',
     '0 lost 27|0 applied 30|1 lost 30|1 applied 27', '9 20', False),
    ('a condition that holds', 'updateif 0 18 7', '0 applied 24', '7 20', True),
    ('a condition that does not hold', 'updateif 0 21 7', '0 applied 24', '7 20', False),
    ('two conditions on one stamp', 'updateif 0 18 7/updateif 0 18 8', '0 applied 24|1 applied 27', '7 20', False),
    ('a condition on an update', 'updateif 0 27 7/update 0 9', '0 applied 24|1 applied 27', '7 20', True),
    ('changed', 'updateif 0 18 7/update 0 9', '0 changed 27|1 applied 27', '9 20', True),
    ('changed to what was expected', 'updateif 0 18 7', '0 changed 18', '10 20', False),
    ('changed before', 'update 0 9; updateif 0 27 7', '0 applied 24|0 changed 18', '9 20', False),
    ('a conditional update is never lost', 'updateif 0 18 7/update 0 9', '0 lost 27|1 applied 27', '9 20', False),
    ('an update is never changed', 'update 0 7/update 0 9', '0 changed 27|1 applied 27', '9 20', False),
    ('a scan', 'scan 0 1/update 0 7', '0 scanned 10 20 collects 2 borrowed -|1 applied 24', '7 20', True),
    ('a scan of what never stood together', 'scan 0 1/update 0 7; update 1 8',
     '0 scanned 10 8 collects 2 borrowed -|1 applied 24|1 applied 27', '7 8', False),
    ('two scans that see two updates in two orders', 'scan 0 1/scan 0 1/update 0 7/update 1 8',
     '0 scanned 7 20 collects 2 borrowed -|1 scanned 10 8 collects 2 borrowed -|2 applied 24|3 applied 27', '7 8', False),
    ('two scans that see them in one order', 'scan 0 1/scan 0 1/update 0 7/update 1 8',
     '0 scanned 7 20 collects 2 borrowed -|1 scanned 7 8 collects 2 borrowed -|2 applied 24|3 applied 27', '7 8', True),
    ('the scans of a port go back', 'scan 0; scan 0/update 0 7',
     '0 scanned 7 collects 2 borrowed -|0 scanned 10 collects 2 borrowed -|1 applied 24', '7 20', False),
    ('they go back to a value that returns', 'scan 0; scan 0/update 0 7; update 0 10',
     '0 scanned 7 collects 2 borrowed -|0 scanned 10 collects 2 borrowed -|1 applied 24|1 applied 27', '10 20', True),
    ('a position twice', 'scan 0 0', '0 scanned 10 10 collects 4 borrowed -', '10 20', True),
    ('a position with two values', 'scan 0 0/update 0 7', '0 scanned 10 7 collects 2 borrowed -|1 applied 24', '7 20', False),
    ('one collect', 'scan 0', '0 scanned 10 collects 1 borrowed -', '10 20', False),
    ('too many collects', 'scan 0', '0 scanned 10 collects 4 borrowed -', '10 20', False),
    ('a borrowed view', 'scan 0/update 0 7', '0 scanned 10 collects 3 borrowed 24|1 applied 24', '7 20', True),
    ('borrowed after two collects', 'scan 0/update 0 7', '0 scanned 10 collects 2 borrowed 24|1 applied 24', '7 20', False),
    ('borrowed from an update that was seen', 'scan 0/update 0 7',
     '0 scanned 7 collects 3 borrowed 24|1 applied 24', '7 20', False),
    ('borrowed from the opening', 'scan 0', '0 scanned 10 collects 3 borrowed 18', '10 20', False),
    ('borrowed from another component', 'scan 0/update 1 7', '0 scanned 10 collects 3 borrowed 24|1 applied 24', '10 7', False),
    ('an empty scan', 'scan', '0 scanned collects 0 borrowed -', '10 20', True),
    ('collects of an empty scan', 'scan', '0 scanned collects 2 borrowed -', '10 20', False),
    ('an index that is not there', 'update 2 7; scan 0 2', '0 refused 7|0 refused 7', '10 20', True),
    ('an index that is there', 'update 1 7', '0 refused 7', '10 20', False),
    ('an index that is not there, and the pool', 'update 2 7', '0 refused 9', '10 20', False),
    ('an index that is not there, and an answer', 'update 2 7', '0 applied 24', '10 20', False),
    ('the slots', 'scan 0; update 0 7', '0 refused 8|0 applied 24', '7 20', True),
    ('the slots, of an update', 'update 0 7', '0 refused 8', '10 20', False),
    ('the slots, of an empty scan', 'scan', '0 refused 8', '10 20', False),
    ('the pool', 'scan 0; update 0 7; updateif 0 18 7', '0 refused 9|0 refused 9|0 refused 9', '10 20', True),
    ('the pool, of a read', 'read 0', '0 refused 9', '10 20', False),
    ('a read that is not seen by the next', 'read 0; read 0/update 0 7', '0 read 7 24|0 read 10 18|1 applied 24', '7 20', False),
    ('two ports read two updates in two orders', 'read 0; read 1/read 1; read 0/update 0 7/update 1 8',
     '0 read 7 24|0 read 20 21|1 read 8 27|1 read 10 18|2 applied 24|3 applied 27', '7 8', False),
    ('no calls', '', '', '10 20', True),
]

UNREADABLE = [
    ('port read 0', 'call 0 0 read 10 18\nvalues 10 20'),
    ('port read 0', 'call 0 1 read 10 18\nvalues 10 20\n'),
    ('port read 0', 'call 0 0 read 10 18\n'),
    ('port read 0', 'call 0 0 read 010 18\nvalues 10 20\n'),
    ('port read 0', 'call 0 0 read 10\nvalues 10 20\n'),
    ('port read 0', 'call 0 0 refused 6\nvalues 10 20\n'),
    ('port read 0', 'call 0 0 unfinished\nvalues 10 20\n'),
    ('port read 0', 'call 1 0 read 10 18\ncall 0 0 read 10 18\nvalues 10 20\n'),
    ('port read 0;', 'call 0 0 read 10 18\nvalues 10 20\n'),
    ('port swap 0', 'call 0 0 read 10 18\nvalues 10 20\n'),
    ('port ', 'values 10 20\n'),
]


def verdict(plan, report):
    """Whether the judge calls the report lawful, by its own definition too."""
    try:
        history, places = judge.find(plan, report)
    except judge.Unlawful:
        return False
    if not judge.is_lawful(plan, report, history, places):
        raise AssertionError('the history that was found is none')
    return True


def plan_text(ports):
    return 'sizes 2 4 8 64\ninitial 10 20\n' + ''.join(f'port {calls}'.rstrip() + '\n' for calls in ports) + 'steps rest\n'


def report_text(lines, values):
    counts, text = {}, ''
    for line in lines.split('|') if lines else []:
        port, answer = line.split(' ', 1)
        text += f'call {port} {counts.setdefault(port, 0)} {answer}\n'
        counts[port] += 1
    return text + f'values {values}\n'


def by_hand():
    for name, ports, lines, values, lawful in BY_HAND:
        plan = judge.read_plan(plan_text(ports.split('/')))
        report = judge.read_report(report_text(lines, values))
        yield name, verdict(plan, report) == lawful
        if len(report.answers) == len(plan.ports) and max(map(len, report.answers.values())) < 5:
            yield f'{name}, every history tried', has_history(plan, report) == lawful


def statuses():
    """The status of the judge as a program."""
    rows = [('port update 0 7', 'call 0 0 applied 24\nvalues 7 20\n', 0)]
    rows += [('port update 0 7', 'call 0 0 applied 21\nvalues 7 20\n', 1)]
    rows += [(port, text, 2) for port, text in UNREADABLE]
    with tempfile.NamedTemporaryFile('w', suffix='.plan') as file:
        for port, text, status in rows:
            file.seek(0)
            file.truncate()
            file.write(f'sizes 2 4 8 64\ninitial 10 20\n{port}\nsteps\n')
            file.flush()
            given = subprocess.run([sys.executable, judge.__file__, file.name], input=text, text=True, capture_output=True)
            yield f'{port}: {text!r} {given}', given.returncode == status and bool(given.stdout) == (status == 1)


def outcomes():
    """The outcomes beside the plans, without their places: an outcome whose calls are all finished is a lawful report."""
    for path in sorted((TOP / 'plans').glob('*.plan')):
        plan = judge.read_plan(path.read_text())
        lines = path.with_suffix('.expected').read_text().split('\n')
        lines = [line for line in lines if line.startswith(('call', 'values'))]
        text = ''.join(re.sub(r' steps .*$| (place|prefix) \d+', '', line) + '\n' for line in lines)
        if 'unfinished' not in text and len(lines) == 1 + sum(map(len, plan.ports)):
            yield path.name, verdict(plan, judge.read_report(text))


# ---- A judge that tries every history and every place


def seen_behind(plan, history, states, port, call, answer, place):
    """How many entries the call at this place shows, or None where it isn't right there."""
    i = call.components[0] if call.components else None
    if answer.kind == 'applied' and call.kind in ('update', 'updateif'):
        if place == len(history) or history[place] != Entry(port, i, call.value, answer.stamp):
            return None
        return place + 1 if call.kind == 'update' or states[place][i][1] == call.expected else None
    if answer.kind == 'lost' and call.kind == 'update':
        right = place < len(history) and history[place].component == i and history[place].stamp == answer.stamp
        return place + 1 if right else None
    if answer.kind == 'changed' and call.kind == 'updateif':
        return place if answer.stamp == states[place][i][1] != call.expected else None
    if answer.kind == 'read' and call.kind == 'read':
        return place if states[place][i] == (answer.values[0], answer.stamp) else None
    if answer.kind != 'scanned' or call.kind != 'scan':
        return None
    if [states[place][j][0] for j in call.components] != list(answer.values):
        return None
    r, borrowed = len(call.components), answer.stamp
    if r == 0:
        return place if (answer.collects, borrowed) == (0, None) else None
    lent = any(e.stamp == borrowed and e.component in call.components for e in history[place:]) and answer.collects >= 3
    return place if 2 <= answer.collects <= r + 2 and (borrowed is None or lent) else None


def may_refuse(m, call, cause):
    if max(call.components, default=0) >= m:
        return cause == 7
    if cause == 8:
        return call.kind == 'scan' and call.components != ()
    return cause == 9 and call.kind != 'read' and call.components != ()


def are_places(plan, history, states, port, calls, answers, places):
    """Whether the answers of a port are right at these places, each after all that the port had seen."""
    seen = 0
    for call, answer, place in zip(calls, answers, places):
        if place is None:
            seen = seen if answer.kind == 'refused' and may_refuse(len(plan.initial), call, answer.cause) else None
        elif max(call.components, default=0) >= len(plan.initial) or place < seen:
            seen = None
        else:
            seen = seen_behind(plan, history, states, port, call, answer, place)
        if seen is None:
            return False
    return True


def port_has_places(plan, history, states, port, calls, answers):
    rows = [[None] if answer.kind == 'refused' else range(len(history) + 1) for answer in answers]
    return any(are_places(plan, history, states, port, calls, answers, places) for places in itertools.product(*rows))


def states_of(plan, history):
    """The value and the stamp of each component after each number of entries."""
    states = [[(value, plan.first + 3 * j) for j, value in enumerate(plan.initial)]]
    for entry in history:
        state = list(states[-1])
        state[entry.component] = (entry.value, entry.stamp)
        states.append(state)
    return states


def explains(plan, report, history):
    states = states_of(plan, history)
    if tuple(value for value, _ in states[-1]) != report.values:
        return False
    return all(port_has_places(plan, history, states, port, calls, report.answers.get(port, []))
               for port, calls in enumerate(plan.ports))


def has_history(plan, report):
    entries = []
    for port, calls in enumerate(plan.ports):
        answers = report.answers.get(port, [])
        if len(answers) != len(calls):
            return False
        entries += [Entry(port, call.components[0], call.value, answer.stamp)
                    for call, answer in zip(calls, answers) if answer.kind == 'applied' and call.components]
    stamps = [entry.stamp for entry in entries] + [plan.first + 3 * j for j in range(len(plan.initial))]
    if len(set(stamps)) < len(stamps) or any(entry.component >= len(plan.initial) for entry in entries):
        return False
    return any(explains(plan, report, history) for history in itertools.permutations(entries))


# ---- Random reports, by calls that are each made in one moment


class Run:
    """Ports that make random calls, one call at a moment. A lost update waits for the update that wins."""

    def __init__(self, rng, m, ports, calls, values):
        self.rng, self.m, self.values = rng, m, values
        self.plan = Plan(tuple(rng.randrange(values) for _ in range(m)), 50, tuple([] for _ in range(ports)))
        self.state = [(value, 50 + 3 * j) for j, value in enumerate(self.plan.initial)]
        self.stamps = rng.sample(range(50 + 3 * m, 70 + 3 * m + 4 * ports * calls), ports * calls)
        self.answers = {port: [] for port in range(ports)}
        self.history, self.losing, self.scans = [], {}, []
        for port in rng.sample([port for port in range(ports) for _ in range(calls)], ports * calls):
            if port not in self.losing:
                self.make(port)
        while self.losing:
            port, call = self.losing.popitem()
            self.apply(port, call)
        self.borrow()
        self.report = Report(self.answers, tuple(value for value, _ in self.state))

    def make(self, port):
        kind = self.rng.choices(['update', 'updateif', 'scan', 'read', 'beyond'], [8, 4, 5, 4, 1])[0]
        j, value, mood = self.rng.randrange(self.m), self.rng.randrange(self.values), self.rng.random()
        if kind == 'beyond':
            self.answer(port, Call('read', (self.m,)), Answer('refused', cause=7))
        elif kind == 'read':
            self.answer(port, Call('read', (j,)), Answer('read', self.state[j][1], (self.state[j][0],)))
        elif kind == 'scan':
            self.scan(port, mood)
        elif mood < 0.05:
            self.answer(port, Call('update', (j,), value), Answer('refused', cause=9))
        elif kind == 'update' and mood < 0.3:
            self.losing[port] = Call('update', (j,), value)
        elif kind == 'updateif' and mood < 0.3:
            known = [50 + 3 * j, 7] + [entry.stamp for entry in self.history if entry.component == j]
            expected = self.rng.choice([stamp for stamp in known if stamp != self.state[j][1]])
            self.answer(port, Call('updateif', (j,), value, expected), Answer('changed', self.state[j][1]))
        else:
            expected = self.state[j][1] if kind == 'updateif' else 0
            self.apply(port, Call(kind, (j,), value, expected))

    def answer(self, port, call, answer):
        self.plan.ports[port].append(call)
        self.answers[port].append(answer)

    def apply(self, port, call):
        j, stamp = call.components[0], self.stamps.pop()
        self.history.append(Entry(port, j, call.value, stamp))
        self.state[j] = (call.value, stamp)
        self.answer(port, call, Answer('applied', stamp))
        for loser, lost in list(self.losing.items()):
            if lost.components == call.components:
                self.answer(loser, self.losing.pop(loser), Answer('lost', stamp))

    def scan(self, port, mood):
        call = Call('scan', tuple(self.rng.randrange(self.m) for _ in range(self.rng.randrange(self.m + 1))))
        values = tuple(self.state[j][0] for j in call.components)
        r = len(values)
        if r > 0 and mood < 0.05:
            self.answer(port, call, Answer('refused', cause=self.rng.choice([8, 9])))
            return
        if mood > 0.7:
            self.scans.append((port, len(self.answers[port]), len(self.history)))
        self.answer(port, call, Answer('scanned', None, values, self.rng.randint(2, r + 2) if r else 0))

    def borrow(self):
        """Some scans have borrowed a view, of an update that came later."""
        for port, count, place in self.scans:
            call, answer = self.plan.ports[port][count], self.answers[port][count]
            lenders = [entry.stamp for entry in self.history[place:] if entry.component in call.components]
            if lenders:
                lent = answer._replace(stamp=self.rng.choice(lenders), collects=max(3, answer.collects))
                self.answers[port][count] = lent


def mutated(rng, report, kind):
    """The report with one thing changed, or None where there is no such thing."""
    answers = {port: list(given) for port, given in report.answers.items()}
    at = [(port, n) for port, given in answers.items() for n in range(len(given))]
    stamps = [answer.stamp for given in answers.values() for answer in given if answer.stamp is not None]
    valued = [(p, n) for p, n in at if answers[p][n].values]
    stamped = [(p, n) for p, n in at if answers[p][n].stamp is not None]
    applied = [(p, n) for p, n in stamped if answers[p][n].kind == 'applied']
    if kind in ('a value', 'a new value') and valued:
        port, n = rng.choice(valued)
        values = list(answers[port][n].values)
        values[rng.randrange(len(values))] = 10**6 if kind == 'a new value' else rng.randrange(3)
        answers[port][n] = answers[port][n]._replace(values=tuple(values))
    elif kind == 'a stamp' and stamped:
        port, n = rng.choice(stamped)
        answers[port][n] = answers[port][n]._replace(stamp=rng.choice(stamps))
    elif kind == 'two answers' and len(at) > 1:
        (p, n), (q, k) = rng.sample(at, 2)
        answers[p][n], answers[q][k] = answers[q][k], answers[p][n]
    elif kind == 'one stamp twice' and len(applied) > 1:
        (p, n), (q, k) = rng.sample(applied, 2)
        answers[p][n] = answers[p][n]._replace(stamp=answers[q][k].stamp)
    elif kind == 'an answer less' and at:
        port, n = rng.choice(at)
        del answers[port][n]
    elif kind == 'an end':
        values = list(report.values)
        values[rng.randrange(len(values))] += 1
        return report._replace(values=tuple(values))
    return report._replace(answers=answers) if answers != report.answers else None


MUTATIONS = ['a value', 'a new value', 'a stamp', 'two answers', 'one stamp twice', 'an answer less', 'an end']


def tiny(rng, runs):
    """Tiny reports, lawful and mutated: the judge and the one that tries everything agree."""
    agree = {True: 0, False: 0}
    while sum(agree.values()) < runs:
        run = Run(rng, rng.randint(1, 2), rng.randint(1, 3), rng.randint(1, 3), rng.choice([2, 3, 1000]))
        if len(run.history) > 4:
            continue
        reports = [run.report] + [mutated(rng, run.report, kind) for kind in MUTATIONS]
        for report in reports:
            if report is not None:
                lawful = has_history(run.plan, report)
                if verdict(run.plan, report) != lawful or (report is run.report and not lawful):
                    yield f'{run.plan} {report} is lawful: {lawful}', False
                agree[lawful] += 1
    yield f'{agree}', agree[True] > runs // 10 and agree[False] > runs // 10


def definition(rng, runs):
    """With one place or two entries changed, `is_lawful` is what the rules say of those places."""
    agree = {True: 0, False: 0}
    for _ in range(runs):
        run = Run(rng, rng.randint(1, 2), rng.randint(1, 3), rng.randint(1, 4), rng.choice([2, 1000]))
        history, places = judge.find(run.plan, run.report)
        at = [(port, n) for port, row in enumerate(places) for n in range(len(row))]
        if len(history) > 1 and rng.random() < 0.3:
            k = rng.randrange(len(history) - 1)
            history[k:k + 2] = history[k + 1], history[k]
        else:
            port, n = rng.choice(at)
            places[port][n] = rng.choice([None] + list(range(len(history) + 1)))
        states, right = states_of(run.plan, history), True
        for port, calls in enumerate(run.plan.ports):
            right &= are_places(run.plan, history, states, port, calls, run.answers[port], places[port])
        right &= tuple(value for value, _ in states[-1]) == run.report.values
        if judge.is_lawful(run.plan, run.report, history, places) != right:
            yield f'{run.plan} {run.report} {history} {places} is lawful: {right}', False
        agree[right] += 1
    yield f'{agree}', min(agree.values()) > runs // 10


def least_wanted(rng, runs):
    """The search takes any update in place of the one that is wanted most, so that it often has to go back:
    the same as `tiny`, and middling reports that are lawful."""
    best = judge.Row.best
    judge.Row.best = lambda row, updates: rng.choice(updates)
    yield from tiny(rng, runs)
    right = 0
    for _ in range(runs // 50):
        run = Run(rng, 4, rng.randint(8, 24), 4, rng.choice([2, 2, 10**9]))
        right += verdict(run.plan, run.report)
    yield f'{right} of {runs // 50} are lawful', right == runs // 50
    judge.Row.best = best


def large(rng, shapes):
    """Large lawful reports are lawful, and few mutated ones; each is judged in seconds."""
    refused, longest = dict.fromkeys(MUTATIONS, 0), 0
    made = dict(refused)
    for m, ports, calls, values in shapes:
        run = Run(rng, m, ports, calls, values)
        rows = [(None, run.report)] + [(kind, mutated(rng, run.report, kind)) for kind in MUTATIONS]
        for kind, report in rows:
            if report is None:
                continue
            began = time.monotonic()
            lawful = verdict(run.plan, report)
            longest = max(longest, time.monotonic() - began)
            if kind is None:
                yield f'{m} components, {ports} ports, {calls} calls, {values} values', lawful
            else:
                made[kind] += 1
                refused[kind] += not lawful
    print(f'refused {refused} of {made}, the longest after {longest:.2f} s')
    for kind in ('a new value', 'one stamp twice', 'an answer less'):
        yield kind, refused[kind] == made[kind]
    yield 'mutated ones are mostly refused', sum(refused.values()) * 4 > 3 * sum(made.values())
    yield 'each in seconds', longest < 60


def main():
    rng = random.Random(int(sys.argv[1]) if len(sys.argv) > 1 else 1)
    shapes = [(m, ports, calls, 10**9 if ports == 64 else values) for m in (1, 2, 4, 16) for values in (2, 5, 10**9)
              for ports, calls in [(1, 40), (2, 30), (4, 20), (8, 10), (16, 8), (64, 3), (64, 6)]]
    passed = failed = 0
    rows = by_hand(), statuses(), outcomes(), definition(rng, 5000), tiny(rng, 10000), least_wanted(rng, 10000), large(rng, shapes)
    for name, right in itertools.chain(*rows):
        passed, failed = passed + right, failed + (not right)
        if not right:
            print(f'failed: {name}')
    print(f'{passed} passed, {failed} failed')
    return min(failed, 1)


if __name__ == '__main__':
    sys.exit(main())
