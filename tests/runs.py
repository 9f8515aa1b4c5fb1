#!/usr/bin/env python3
"""runs.py PROGRAM [PLANS [SEED]]: runs random small plans of 2 to 64 ports by `PROGRAM run` on all cores,
ten times each, and judges every report by judge.py. The last line is 'N passed, M failed', where one run
counts once. A report that isn't lawful is printed with its plan.
"""
import multiprocessing
import random
import signal
import subprocess
import sys

import judge

RUNS = 10
SECONDS = 60


def call_text(source, components, base, value):
    """A random call. Each update has a value of its own, so that a value names its update; a
    conditional one expects its component's initial stamp, the first of which is `base`."""
    component = source.randrange(components)
    kind = source.choice(('update', 'update', 'scan', 'scan', 'read', 'updateif'))
    if kind == 'update':
        return f'update {component} {value}'
    if kind == 'updateif':
        return f'updateif {component} {base + 3 * component} {value}'
    if kind == 'read':
        return f'read {component}'
    positions = [source.randrange(components) for _ in range(source.randint(0, components))]
    return ' '.join(['scan', *map(str, positions)])


def plan_text(source):
    """A random plan: few components, so that its ports meet there, and sometimes too few words or slots."""
    ports = source.choice((2, 2, 2, 3, 3, 4, 8, 16, 64))
    calls = source.randint(1, 12 if ports == 2 else 6 if ports < 8 else 3)
    components = source.randint(1, 4)
    slots = source.choice((1, 4, 64, 256))
    lists = source.choice((0, 8, 256))
    pool = source.choice((3 * components + 12, 256, 4096))
    value = 0
    lines = [f'sizes {components} {slots} {lists} {pool}']
    lines.append(' '.join(['initial', *('0' for _ in range(components))]))
    base = components + 4 + slots + lists
    for _ in range(ports):
        texts = []
        for _ in range(source.randint(0, calls)):
            value += 1
            texts.append(call_text(source, components, base, value))
        lines.append('port ' + '; '.join(texts) if texts else 'port')
    return '\n'.join(lines + ['steps', ''])


def fault_of(program, text):
    """Runs a plan once: what is wrong with its report, or None."""
    ran = subprocess.run([program, 'run'], input=text.encode(), capture_output=True, timeout=SECONDS, check=False)
    if ran.returncode != 0 or ran.stderr:
        return f'status {ran.returncode}: {ran.stderr.decode()}'
    report = ran.stdout.decode('ascii')
    plan = judge.read_plan(text)
    signal.alarm(SECONDS)
    try:
        history, places = judge.find(plan, judge.read_report(report))
        if judge.is_lawful(plan, judge.read_report(report), history, places):
            return None
        return f'the judge found what it refuses\n{report}'
    except (judge.Unreadable, judge.Unlawful) as fault:
        return f'{fault}\n{report}'
    finally:
        signal.alarm(0)


def judged(job):
    """Runs the plan of that seed: how many of its runs were lawful, and what was wrong with the others."""
    program, seed = job
    text = plan_text(random.Random(seed))
    faults = []
    for _ in range(RUNS):
        try:
            fault = fault_of(program, text)
        except (subprocess.TimeoutExpired, TimeoutError) as late:
            fault = f'no end: {late}'
        if fault is not None:
            faults.append(f'{text}{fault}')
    return faults


def late(_signal, _frame):
    raise TimeoutError('the judge found no verdict')


def main(words):
    program = words[0]
    plans = int(words[1]) if len(words) > 1 else 300
    seed = int(words[2]) if len(words) > 2 else 1
    signal.signal(signal.SIGALRM, late)
    passed, failed = 0, 0
    with multiprocessing.Pool() as pool:
        for faults in pool.imap_unordered(judged, [(program, f'{seed} {k}') for k in range(plans)]):
            passed += RUNS - len(faults)
            failed += len(faults)
            for fault in faults[:1]:
                print(f'failed: {fault}')
    print(f'{passed} passed, {failed} failed')
    return 0 if failed == 0 else 1


if __name__ == '__main__':
    sys.exit(main(sys.argv[1:]))
