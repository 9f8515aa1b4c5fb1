#!/usr/bin/env python3
"""judge_times.py < HISTORY: judges calls of threads by the times at which they began and ended.

A line is `call THREAD BEGAN ENDED`, and then `update COMPONENT VALUE`, `read COMPONENT VALUE`, or `scan` with pairs
`COMPONENT:VALUE`. Each component has one writer, which sets it to 1, 2, 3 and so on, from 0. Then the order of the
updates of a component is known, and so is the update that each value was seen of. The history is linearizable exactly
where the calls can stand in a row: each call that ended before another began before that other, each call that saw a
value after the update that set it and before the next one. That is so where these orders have no circle.

The status is 0 and the last line has the counts where there is such a row, 1 with a line saying why where there is
none, and 2 where a line can't be read, or where no call began while another was under way: such a history shows
nothing of threads at work side by side.
"""
import sys
from typing import NamedTuple


class Unreadable(Exception):
    """A line isn't one of a history."""


class Unlawful(Exception):
    """No row of the calls explains what they saw."""


class Call(NamedTuple):
    name: str
    thread: int
    began: int
    ended: int
    wrote: tuple
    saw: tuple


def call_of(line, count):
    """The call of a line."""
    try:
        word, thread, began, ended, kind, *fields = line.split(' ')
        pairs = [field.split(':') for field in fields] if kind == 'scan' else [fields]
        saw = tuple((int(component), int(value)) for component, value in pairs)
        call = Call(f'line {count}', int(thread), int(began), int(ended), (), saw)
    except ValueError as fault:
        raise Unreadable(f'line {count}: {fault}') from None
    if word != 'call' or kind not in ('update', 'read', 'scan') or call.began > call.ended:
        raise Unreadable(f'line {count} is no call')
    return call._replace(wrote=saw[0], saw=()) if kind == 'update' else call


def writers_of(calls):
    """The update that set each component to each value."""
    writers = {}
    for number, call in enumerate(calls):
        if call.wrote:
            if call.wrote in writers:
                raise Unlawful(f'{call.name}: component {call.wrote[0]} is set to {call.wrote[1]} twice')
            writers[call.wrote] = number
    for component, value in writers:
        if value != 1 and (component, value - 1) not in writers:
            raise Unlawful(f'component {component} is set to {value}, and never to {value - 1}')
    return writers


def orders_of(calls, writers):
    """Which nodes are before which: those of the calls, and one for each time, in the order of the times."""
    times = sorted({time for call in calls for time in (call.began, call.ended)})
    node = {time: len(calls) + place for place, time in enumerate(times)}
    behind = [[] for _ in range(len(calls) + len(times))]
    for place in range(len(times) - 1):
        behind[len(calls) + place].append(len(calls) + place + 1)
    for number, call in enumerate(calls):
        # A call begins after all that ended before it, and not after one that ends at the same time.
        behind[node[call.began]].append(number)
        if node[call.ended] + 1 < len(behind):
            behind[number].append(node[call.ended] + 1)
        if call.wrote and call.wrote[1] > 1:
            behind[writers[call.wrote[0], call.wrote[1] - 1]].append(number)
        for component, value in call.saw:
            if value > 0:
                if (component, value) not in writers:
                    raise Unlawful(f'{call.name}: component {component} was never set to {value}')
                behind[writers[component, value]].append(number)
            if (component, value + 1) in writers:
                behind[number].append(writers[component, value + 1])
    return behind


def judge(calls):
    """Finds a row of the calls."""
    last = {}
    for call in calls:
        if last.setdefault(call.thread, call.began) > call.began:
            raise Unlawful(f'{call.name}: the thread began it before its last call ended')
        last[call.thread] = call.ended
    behind = orders_of(calls, writers_of(calls))
    waits = [0] * len(behind)
    for nodes in behind:
        for node in nodes:
            waits[node] += 1
    ready = [node for node, count in enumerate(waits) if count == 0]
    taken = 0
    while ready:
        node = ready.pop()
        taken += 1
        for later in behind[node]:
            waits[later] -= 1
            if waits[later] == 0:
                ready.append(later)
    if taken < len(behind):
        left = next(call.name for number, call in enumerate(calls) if waits[number] > 0)
        raise Unlawful(f'no row of the calls explains what they saw; {left} is among those that can stand nowhere')


def overlapping(calls):
    """How many calls began while another was under way."""
    count, latest = 0, -1
    for call in sorted(calls, key=lambda call: call.began):
        count += call.began <= latest
        latest = max(latest, call.ended)
    return count


def main(text):
    try:
        calls = [call_of(line, count) for count, line in enumerate(text.splitlines(), 1)]
        judge(calls)
        beside = overlapping(calls)
        if not beside:
            raise Unreadable(f'none of {len(calls)} calls began beside another one')
    except Unreadable as fault:
        print(f'unreadable: {fault}', file=sys.stderr)
        return 2
    except Unlawful as fault:
        print(f'unlawful: {fault}')
        return 1
    print(f'{len(calls)} calls, {beside} of them beside others, are linearizable')
    return 0


if __name__ == '__main__':
    sys.exit(main(sys.stdin.read()))
