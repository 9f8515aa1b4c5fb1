#!/usr/bin/env python3
"""judge.py PLAN < REPORT: judges what the ports of a plan say that their calls were answered.

A report is lawful where there is one history of applied updates that explains each answer in it. This
file has three parts: how a plan and a report are read, what lawful means (`is_lawful`, which is given a
history and the places of the calls in it), and the search for such a history. What the search finds is
judged by `is_lawful` before anything is called lawful.

The status is 0 for a lawful report, 1 for an unlawful one, with a line saying why, and 2 where the plan
or the report can't be read. Hundreds of calls take a second or so where each update of a component has
a value of its own. Where they don't, large scans by many ports may take very long: then it is the search through
the orders of the updates that decides.
"""
import itertools
import random
import re
import sys
from typing import NamedTuple, Optional

KINDS = {'update': ('applied', 'lost'), 'updateif': ('applied', 'changed'), 'scan': ('scanned',), 'read': ('read',)}
COMPONENT, SLOTS_SPENT, POOL_SPENT = 7, 8, 9


class Unreadable(Exception):
    """The text isn't that of a plan or of a report."""


class Unlawful(Exception):
    """No history explains the report."""


class Call(NamedTuple):
    kind: str
    components: tuple
    value: int = 0
    expected: int = 0


class Plan(NamedTuple):
    initial: tuple
    # the stamp of component 0 before any update; each further component's is 3 more
    first: int
    ports: tuple

    def initial_stamp(self, component):
        return self.first + 3 * component


class Answer(NamedTuple):
    kind: str
    # of the record that was applied, won, seen or borrowed from
    stamp: Optional[int] = None
    values: tuple = ()
    collects: int = 0
    cause: int = 0


class Report(NamedTuple):
    # the answers of each port, by its number; a port without an answer isn't there
    answers: dict
    values: tuple


class Entry(NamedTuple):
    port: int
    component: int
    value: int
    stamp: int


# ---- How the texts are read


def number(field):
    if not re.fullmatch('0|[1-9][0-9]*', field, re.ASCII) or int(field) >= 2**64:
        raise Unreadable(f'{field!r} is no number')
    return int(field)


def numbers(fields):
    return tuple(number(field) for field in fields)


def lines_of(text):
    if not text.endswith('\n'):
        raise Unreadable('the last line has no end')
    return text[:-1].split('\n')


def fields_of(line, word):
    fields = line.split(' ')
    if fields[0] != word:
        raise Unreadable(f'{line!r} is no line {word!r}')
    return fields[1:]


def call_of(text, m):
    kind, *fields = text.split(' ')
    fields = numbers(fields)
    counts = {'update': 2, 'updateif': 3, 'read': 1}
    if kind == 'scan' and len(fields) <= m:
        return Call(kind, fields)
    if kind == 'scan' or counts.get(kind) != len(fields):
        raise Unreadable(f'{text!r} is no call')
    if kind == 'updateif':
        return Call(kind, fields[:1], fields[2], fields[1])
    return Call(kind, fields[:1], *fields[1:])


def read_plan(text):
    lines = lines_of(text)
    if not 4 <= len(lines) <= 67:
        raise Unreadable('a plan has 1 to 64 ports')
    sizes = numbers(fields_of(lines[0], 'sizes'))
    initial = numbers(fields_of(lines[1], 'initial'))
    fields_of(lines[-1], 'steps')
    if len(sizes) != 4 or len(initial) != sizes[0]:
        raise Unreadable('a plan has four sizes, and a value for each component')
    ports = []
    for line in lines[2:-1]:
        calls = ' '.join(fields_of(line, 'port'))
        if line == 'port ':
            raise Unreadable('a call is empty')
        ports.append(tuple(call_of(text, sizes[0]) for text in calls.split('; ') if line != 'port'))
    m, slots, lists, _ = sizes
    return Plan(initial, m + 4 + slots + lists, tuple(ports))


def answer_of(kind, *fields):
    if kind in ('applied', 'lost', 'changed') and len(fields) == 1:
        return Answer(kind, stamp=number(fields[0]))
    if kind == 'read' and len(fields) == 2:
        return Answer(kind, stamp=number(fields[1]), values=(number(fields[0]),))
    if kind == 'refused' and fields in (('7',), ('8',), ('9',)):
        return Answer(kind, cause=number(fields[0]))
    if kind == 'scanned' and len(fields) >= 4 and fields[-4::2] == ('collects', 'borrowed'):
        borrowed = None if fields[-1] == '-' else number(fields[-1])
        return Answer(kind, borrowed, numbers(fields[:-4]), number(fields[-3]))
    raise Unreadable(f'{" ".join((kind,) + fields)!r} is no answer')


def read_report(text):
    *lines, last = lines_of(text)
    answers, highest = {}, -1
    for line in lines:
        fields = fields_of(line, 'call')
        if len(fields) < 3:
            raise Unreadable(f'{line!r} is no call')
        port, count = numbers(fields[:2])
        if port < highest or count != len(answers.setdefault(port, [])):
            raise Unreadable(f'{line!r} is out of order')
        answers[port].append(answer_of(*fields[2:]))
        highest = port
    return Report(answers, numbers(fields_of(last, 'values')))


# ---- What lawful means


def state_after(plan, history, count, component):
    """The value and the stamp of a component after the first so many entries."""
    for entry in reversed(history[:count]):
        if entry.component == component:
            return entry.value, entry.stamp
    return plan.initial[component], plan.initial_stamp(component)


def may_be_refused(plan, call, cause):
    """Whether a call may be refused so: for a component that isn't there before anything else."""
    if any(component >= len(plan.initial) for component in call.components):
        return cause == COMPONENT
    scans_some = call.kind == 'scan' and len(call.components) > 0
    if cause == SLOTS_SPENT:
        return scans_some
    return cause == POOL_SPENT and (scans_some or call.kind in ('update', 'updateif'))


def fits(plan, call, answer):
    """Whether the call may be answered so in some history: what is no matter of order."""
    if answer.kind == 'refused':
        return may_be_refused(plan, call, answer.cause)
    if answer.kind not in KINDS[call.kind] or may_be_refused(plan, call, COMPONENT):
        return False
    if answer.kind == 'changed':
        return answer.stamp != call.expected
    if answer.kind != 'scanned':
        return True
    positions = len(call.components)
    if len(answer.values) != positions:
        return False
    if positions == 0:
        return answer.collects == 0 and answer.stamp is None
    return (2 if answer.stamp is None else 3) <= answer.collects <= positions + 2


def is_true(plan, history, port, call, answer, place):
    """Whether the history shows what the call was answered: at that entry where it was applied or
    lost, and after so many entries where it saw something."""
    if answer.kind in ('applied', 'lost'):
        if place >= len(history):
            return False
        component, entry = call.components[0], history[place]
        if answer.kind == 'lost':
            return (entry.component, entry.stamp) == (component, answer.stamp)
        _, before = state_after(plan, history, place, component)
        expected = call.kind == 'update' or before == call.expected
        return expected and entry == Entry(port, component, call.value, answer.stamp)
    if place > len(history):
        return False
    saw = [state_after(plan, history, place, component) for component in call.components]
    if answer.kind == 'changed':
        return saw[0][1] == answer.stamp
    if answer.kind == 'read':
        return saw[0] == (answer.values[0], answer.stamp)
    lent = [entry.stamp for entry in history[place:] if entry.component in call.components]
    return tuple(value for value, _ in saw) == answer.values and answer.stamp in [None] + lent


def port_is_lawful(plan, history, port, calls, answers, places):
    """Whether the answers of a port are right at these places, none before what the port had seen.
    A refused call has no place."""
    seen = 0
    for call, answer, place in zip(calls, answers, places):
        if not fits(plan, call, answer) or (place is None) != (answer.kind == 'refused'):
            return False
        if place is None:
            continue
        if place < seen or not is_true(plan, history, port, call, answer, place):
            return False
        seen = place + 1 if answer.kind in ('applied', 'lost') else place
    return len(calls) == len(answers) == len(places)


def is_lawful(plan, report, history, places):
    """Whether the history, with the places of each port's calls in it, explains the report."""
    components = range(len(plan.initial))
    stamps = [entry.stamp for entry in history] + [plan.initial_stamp(component) for component in components]
    if len(set(stamps)) < len(stamps) or any(port >= len(plan.ports) for port in report.answers):
        return False
    for port, calls in enumerate(plan.ports):
        answers = report.answers.get(port, [])
        if not port_is_lawful(plan, history, port, calls, answers, places[port]):
            return False
        wrote = [place for place, answer in zip(places[port], answers) if answer.kind == 'applied']
        if wrote != [place for place, entry in enumerate(history) if entry.port == port]:
            return False
    if any(entry.port >= len(plan.ports) for entry in history):
        return False
    end = {entry.component: entry.value for entry in history}
    return report.values == tuple(end.get(component, plan.initial[component]) for component in components)


# ---- The search for a history
#
# Each applied update is a node, and so is each call that saw something; node 0 is the opening, which
# writes all components, and the last node is the end, which sees them all. A call that was lost shows
# one entry, so in its port's order that entry's node is taken for it. Some nodes must be before others:
# those of a port, in its order; a scan before the entry whose view it borrowed. A node that sees a
# component has a source, the node that last wrote it: each other writer is before the source or after
# the node that sees. Whatever row of the nodes keeps all this is a history with places for the calls.


class Clash(Exception):
    """Two nodes had to be each before the other, or a node has no source."""


def bits(nodes):
    """The nodes of a set that is kept as the bits of a number."""
    while nodes:
        low = nodes & -nodes
        yield low.bit_length() - 1
        nodes ^= low


def bit_of(nodes):
    """The node of a set of one node."""
    return nodes.bit_length() - 1


class State:
    """What is settled: which nodes are before and after each, and the sources left for each sight."""

    def __init__(self, before, behind, sources):
        self.before, self.behind, self.sources = before, behind, sources

    def copy(self):
        return State(self.before[:], self.behind[:], self.sources[:])

    def put(self, first, second):
        """Puts a node before another, with all that follows, and says whether that is news."""
        if first == second or self.before[first] >> second & 1:
            raise Clash
        if self.behind[first] >> second & 1:
            return False
        early, late = self.before[first] | 1 << first, self.behind[second] | 1 << second
        for node in bits(early):
            self.behind[node] |= late
        for node in bits(late):
            self.before[node] |= early
        return True


class Nodes:
    """The nodes of a report, what each writes and sees, and what is before what from the outset."""

    def __init__(self, plan, report):
        self.plan = plan
        self.calls = [(port, count) for port, calls in enumerate(plan.ports) for count in range(len(calls))]
        self.answer = {(p, n): report.answers[p][n] for p, n in self.calls}
        placed = [at for at in self.calls if self.answer[at].kind not in ('lost', 'refused')]
        self.node = {at: node for node, at in enumerate(placed, 1)}
        self.end = len(placed) + 1
        self.entry, self.at_stamp, self.writers = {}, {}, {}
        for at in placed:
            if self.answer[at].kind == 'applied':
                self.add_entry(at)
        # pairs of a node and a component that it sees, and for each the nodes that may be its source
        self.sights, self.sources = [], []
        self.pairs = [(0, self.end)]
        for port, calls in enumerate(plan.ports):
            self.add_port(port, calls)
        for component, value in enumerate(report.values):
            self.see_value(self.end, component, value, 'the values at the end')

    def add_entry(self, at):
        """An applied update, whose stamp no other record may have."""
        call, stamp = self.plan.ports[at[0]][at[1]], self.answer[at].stamp
        initial = stamp - self.plan.first
        if stamp in self.at_stamp or (initial % 3 == 0 and 0 <= initial // 3 < len(self.plan.initial)):
            raise Unlawful(f'two records have stamp {stamp}')
        component = call.components[0]
        self.entry[self.node[at]] = Entry(at[0], component, call.value, stamp)
        self.at_stamp[stamp] = self.node[at]
        self.writers[component] = self.writers.get(component, 1) | 1 << self.node[at]

    def update(self, components, stamp, name):
        """The node of the update of one of the components that has this stamp."""
        node = self.at_stamp.get(stamp)
        if node is None or self.entry[node].component not in components:
            raise Unlawful(f'{name}: no such component was updated with stamp {stamp}')
        return node

    def source(self, component, stamp, name):
        """The node that gave the component this stamp."""
        if stamp == self.plan.initial_stamp(component):
            return 0
        return self.update([component], stamp, name)

    def value(self, node, component):
        return self.entry[node].value if node else self.plan.initial[component]

    def see_value(self, node, component, value, name):
        """The node sees this value of the component, which any node that wrote it may be the source of."""
        sources = [w for w in bits(self.writers.get(component, 1)) if self.value(w, component) == value]
        if not sources:
            raise Unlawful(f'{name}: component {component} never had value {value}')
        if component in self.writers:
            self.sights.append((node, component))
            self.sources.append(sum(1 << w for w in sources))

    def see_stamp(self, node, component, stamp, name):
        self.sights.append((node, component))
        self.sources.append(1 << self.source(component, stamp, name))

    def add_port(self, port, calls):
        last = 0
        for count, call in enumerate(calls):
            at, answer, name = (port, count), self.answer[port, count], f'call {port} {count}'
            if answer.kind == 'refused':
                continue
            if answer.kind == 'lost':
                node = self.update(call.components, answer.stamp, name)
            else:
                node = self.node[at]
                self.add_sights(node, call, answer, name)
            self.pairs += [(last, node), (node, self.end)]
            last = node

    def add_sights(self, node, call, answer, name):
        """What the node of a call saw, and the entry that it must be before."""
        if answer.kind in ('read', 'changed'):
            self.see_stamp(node, call.components[0], answer.stamp, name)
        if answer.kind == 'read' and answer.values[0] != self.value(bit_of(self.sources[-1]), call.components[0]):
            raise Unlawful(f'{name}: value and stamp are not of one record')
        if call.kind == 'updateif' and answer.kind == 'applied':
            self.see_stamp(node, call.components[0], call.expected, name)
        if answer.kind == 'scanned':
            values = dict(zip(call.components, answer.values))
            if tuple(values[component] for component in call.components) != answer.values:
                raise Unlawful(f'{name}: one component has two values')
            for component, value in values.items():
                self.see_value(node, component, value, name)
            if answer.stamp is not None:
                self.pairs.append((node, self.update(call.components, answer.stamp, name)))

    def opening_state(self):
        state = State([0] * (self.end + 1), [0] * (self.end + 1), list(self.sources))
        for first, second in self.pairs:
            state.put(first, second)
        return state

    def narrow(self, state, sight):
        """Draws what follows from one sight, and says whether that is news."""
        node, component = self.sights[sight]
        others = self.writers.get(component, 1) & ~(1 << node)
        left = 0
        for w in bits(state.sources[sight] & ~(1 << node) & ~state.behind[node]):
            if not state.behind[w] & state.before[node] & others:
                left |= 1 << w
        if not left:
            raise Clash
        news, state.sources[sight] = left != state.sources[sight], left
        early = late = -1
        for w in bits(left):
            early &= state.before[w] | 1 << w
            late &= state.behind[w]
        for w in bits(early & ~state.before[node]):
            news |= state.put(w, node)
        for w in bits(late & others & ~state.behind[node]):
            news |= state.put(node, w)
        if left & (left - 1) == 0:
            for w in bits(others & state.before[node] & ~state.before[bit_of(left)] & ~left):
                news |= state.put(w, bit_of(left))
        return news

    def settle(self, state):
        """Draws all that follows from the sights."""
        news = True
        while news:
            news = False
            for sight in range(len(self.sights)):
                news |= self.narrow(state, sight)


class Row:
    """A row of the nodes, each taken as soon as it may come, without ever taking one back."""

    def __init__(self, nodes, state, chance):
        self.nodes, self.state, self.chance = nodes, state, chance
        self.order, self.done = [], 0
        self.last = dict.fromkeys(nodes.writers, 0)
        self.sights_of, self.sights_on = {}, {}
        for sight, (node, component) in enumerate(nodes.sights):
            self.sights_of.setdefault(node, []).append(sight)
            self.sights_on.setdefault(component, []).append(sight)
        self.fill()

    def is_seen(self, sight):
        """Whether the last node that wrote the component may be the source."""
        return self.state.sources[sight] >> self.last.get(self.nodes.sights[sight][1], 0) & 1

    def blocking(self, node):
        """A sight that the node would spoil as the next one: one of its own that sees another source
        than the last one, or one whose last source it would overwrite. None where there is none."""
        for sight in self.sights_of.get(node, []):
            if not self.is_seen(sight):
                return sight
        if node not in self.nodes.entry:
            return None
        for sight in self.sights_on.get(self.nodes.entry[node].component, []):
            seer = self.nodes.sights[sight][0]
            if seer != node and not self.done >> seer & 1 and not self.state.sources[sight] & ~self.done:
                return sight
        return None

    def take(self, node):
        self.order.append(node)
        self.done |= 1 << node
        if node in self.nodes.entry:
            self.last[self.nodes.entry[node].component] = node

    def fill(self):
        """Takes nodes while one may come."""
        self.take(0)
        waiting = sorted(range(1, self.nodes.end + 1), key=lambda node: node in self.nodes.entry)
        while waiting:
            node = self.choose(waiting)
            if node is None:
                return
            self.take(node)
            waiting.remove(node)

    def choose(self, waiting):
        """The node that comes next: one that only sees where one may come, else the update that is wanted
        most, and None where no node may come. `waiting` has the updates last."""
        self.blocked, free = [], []
        for node in waiting:
            if self.state.before[node] & ~self.done:
                continue
            sight = self.blocking(node)
            if sight is not None:
                self.blocked.append((node, sight))
            elif node not in self.nodes.entry:
                return node
            else:
                free.append(node)
        return self.best(free) if free else None

    def best(self, updates):
        """The update that the calls which wait for something to see want most, where one that lacks little
        counts for more. An update that would spoil what such a call may see is wanted less."""
        wanted = {update: self.chance.random() / 100 for update in updates}
        for seer, _ in self.blocked:
            if seer in self.nodes.entry:
                continue
            sights = self.sights_of[seer]
            lacking = [sight for sight in sights if not self.is_seen(sight)]
            for sight in sights:
                component, share = self.nodes.sights[sight][1], 1 / len(lacking) ** 2
                for update in updates:
                    if self.nodes.entry[update].component == component:
                        hit = self.state.sources[sight] >> update & 1
                        wanted[update] += share * (hit if sight in lacking else hit - 1)
        return max(updates, key=wanted.get)

    def is_whole(self):
        return len(self.order) == self.nodes.end + 1

    def branches(self):
        """The states, one of which must be right, at the first node that couldn't be taken."""
        node, sight = self.blocked[0]
        seer, component = self.nodes.sights[sight]
        sources = self.state.sources[sight]
        if sources & (sources - 1):
            for source in bits(sources):
                branch = self.state.copy()
                branch.sources[sight] = 1 << source
                yield branch
            return
        writer = node if node != seer else self.last[component]
        for first, second in (writer, bit_of(sources)), (seer, writer):
            branch = self.state.copy()
            if not branch.before[first] >> second & 1:
                branch.put(first, second)
                yield branch


def find(plan, report):
    """A history that explains the report, and the places of each port's calls in it."""
    for port, answers in report.answers.items():
        if port >= len(plan.ports):
            raise Unlawful(f'there is no port {port}')
    if len(report.values) != len(plan.initial):
        raise Unlawful('there is not one value for each component')
    for port, calls in enumerate(plan.ports):
        answers = report.answers.setdefault(port, [])
        if len(answers) != len(calls):
            raise Unlawful(f'port {port} has {len(calls)} calls and {len(answers)} answers')
        for count, (call, answer) in enumerate(zip(calls, answers)):
            if not fits(plan, call, answer):
                raise Unlawful(f'call {port} {count} has no such answer')
    nodes = Nodes(plan, report)
    return placed(nodes, search(nodes))


def search(nodes):
    """The order of the nodes in a row that keeps everything. It is searched over and over, each time by
    other chances and twice as long, until one is found or the search has reached its end."""
    for turn in itertools.count():
        order = search_for(nodes, 8 << turn, random.Random(turn))
        if order is not None:
            return order


def search_for(nodes, tries, chance):
    """Such an order, and None where so many tries weren't enough."""
    try:
        states = [nodes.opening_state()]
    except Clash:
        raise Unlawful('the calls of the ports can stand in no order') from None
    while states and tries > 0:
        state = states.pop()
        tries -= 1
        try:
            nodes.settle(state)
        except Clash:
            continue
        row = Row(nodes, state, chance)
        if row.is_whole():
            return row.order
        branches = list(row.branches())
        chance.shuffle(branches)
        states += branches
    if states:
        return None
    raise Unlawful('no history explains all answers')


def placed(nodes, order):
    """The history of a row, and the places of the calls in it."""
    history, place = [], {}
    for node in order:
        place[node] = len(history)
        if node in nodes.entry:
            history.append(nodes.entry[node])
    places = [[None] * len(calls) for calls in nodes.plan.ports]
    for (port, count), answer in nodes.answer.items():
        if answer.kind == 'lost':
            places[port][count] = place[nodes.at_stamp[answer.stamp]]
        elif answer.kind != 'refused':
            places[port][count] = place[nodes.node[port, count]]
    return history, places


def main(words, given):
    try:
        if len(words) != 1:
            raise Unreadable('judge.py PLAN < REPORT')
        with open(words[0], encoding='ascii', newline='') as file:
            plan = read_plan(file.read())
        report = read_report(given.decode('ascii'))
        history, places = find(plan, report)
    except (Unreadable, OSError, UnicodeDecodeError) as fault:
        print(f'unreadable: {fault}', file=sys.stderr)
        return 2
    except Unlawful as fault:
        print(f'unlawful: {fault}')
        return 1
    assert is_lawful(plan, report, history, places)
    return 0


if __name__ == '__main__':
    sys.exit(main(sys.argv[1:], sys.stdin.buffer.read()))
