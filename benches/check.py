#!/usr/bin/env python3
"""check.py plan unwritten|written|ports: writes a plan of nearly 4 MiB. In the first two, 174,000 updates of component
0 come before 1,040 scans of one component 1,000 times: of component 1, which is never written, or of component 0. In
`ports`, one port makes 345,000 updates, and 63 more read once each.

check.py compare ROUNDS PROGRAM PLAN..: lets the program replay and check each plan in turns, and prints a table of the
processor time that both take, user and system together: the least of so many rounds in milliseconds, and the check's
over the replay's. The status is 1 where a program fails or a check doesn't say `lawful`."""
import os
import pathlib
import sys
import tempfile


def plan(kind):
    """The text of the plan."""
    if kind == "ports":
        ports = ["; ".join(["update 0 7"] * 345_000)] + ["read 0"] * 63
    else:
        scan = "scan" + (" 1" if kind == "unwritten" else " 0") * 1000
        ports = ["; ".join(["update 0 7"] * 174_000 + [scan] * 1040)]
    lines = "\n".join(f"port {calls}" for calls in ports)
    return f"sizes 1000 2048 8 4194304\ninitial{' 0' * 1000}\n{lines}\nsteps rest\n"


def taken(program, verb, path):
    """The seconds of processor time that the verb takes."""
    with tempfile.TemporaryFile() as out:
        actions = [(os.POSIX_SPAWN_DUP2, out.fileno(), 1)]
        child = os.posix_spawn(program, [program, verb, path], os.environ, file_actions=actions)
        _, status, usage = os.wait4(child, 0)
        out.seek(0)
        written = out.read()
    if status != 0 or (verb == "check" and written != b"lawful\n"):
        sys.exit(f"{program} {verb} failed on {path}")
    return usage.ru_utime + usage.ru_stime


def compare(rounds, program, *paths):
    print("| Plan | replay | check | ratio |")
    print("|---|---|---|---|")
    for path in paths:
        times = [[taken(program, verb, path) for verb in ("replay", "check")] for _ in range(int(rounds))]
        replay, check = (min(column) for column in zip(*times))
        name = pathlib.Path(path).stem
        print(f"| {name} | {1000 * replay:.0f} | {1000 * check:.0f} | {check / replay:.2f} |", flush=True)


if __name__ == "__main__":
    if sys.argv[1] == "plan":
        sys.stdout.write(plan(sys.argv[2]))
    else:
        compare(*sys.argv[2:])
