#!/usr/bin/env python3
"""replay.py ROUNDS PROVED PLAIN PLAN..: replays each plan with both programs, compares the bytes that they write, then
replays it in turns, and prints a table of the processor time that they take, user and system together: the least of so
many rounds in milliseconds, and the proved one's over the plain one's. The status is 1 where bytes differ or a program
fails."""
import os
import pathlib
import sys
import tempfile


def replayed(program, plan, out):
    """Writes the outcome of the plan to a file. The seconds of processor time that it takes."""
    actions = [(os.POSIX_SPAWN_DUP2, out.fileno(), 1)]
    child = os.posix_spawn(program, [program, "replay", plan], os.environ, file_actions=actions)
    _, status, usage = os.wait4(child, 0)
    if status != 0:
        sys.exit(f"{program} failed on {plan}")
    return usage.ru_utime + usage.ru_stime


def text(program, plan):
    with tempfile.TemporaryFile() as out:
        replayed(program, plan, out)
        out.seek(0)
        return out.read()


def least(rounds, programs, plan):
    """The least time of each program."""
    with open(os.devnull, "wb") as out:
        times = [[replayed(program, plan, out) for program in programs] for _ in range(rounds)]
    return [min(taken) for taken in zip(*times)]


def main(rounds, proved, plain, *plans):
    print("| Plan | proved | plain | ratio |")
    print("|---|---|---|---|")
    for plan in plans:
        if text(proved, plan) != text(plain, plan):
            sys.exit(f"the outcomes of {plan} differ")
        one, other = least(int(rounds), [proved, plain], plan)
        ratio = f"{one / other:.2f}" if other > 0 else "-"
        print(f"| {pathlib.Path(plan).stem} | {1000 * one:.0f} | {1000 * other:.0f} | {ratio} |", flush=True)


if __name__ == "__main__":
    main(*sys.argv[1:])
